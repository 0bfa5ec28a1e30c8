"""All that a mount shows: each folder and file, byte for byte."""
import errno
import os
import stat

import fuse

NODE, SIZE, MODE, LINKS = 0, 1, 9, 10  # where fuse_attr has them
FOLDER = 4  # the type of a folder in a list
PAGES = "trace_pipe_raw"


def attributes_told(server, folder, name, number):
    """The attributes of a file or folder that a list has by this name and number: looked up, and asked for by the number."""
    got = server.ask(fuse.LOOKUP, folder, name.encode() + b"\0")
    node, looked_up, told = fuse.ENTRY.unpack_from(got)[0], list(fuse.ATTR.unpack_from(got, fuse.ENTRY.size)), server.attributes(number)
    if name == PAGES:
        assert node >= fuse.OWN and looked_up[SIZE] == fuse.PAGES_SIZE and server.attributes(node) == told, "%s is looked up as %d, %s" % (name, node, looked_up)
        node, looked_up[SIZE] = node % fuse.OWN, 0
    assert node == told[NODE] == number, "%s has another number when it is looked up" % name
    assert tuple(looked_up) == told, "%s has other attributes when it is looked up" % name
    return told


def heading(told, path, *more):
    return " ".join([str(told[NODE]), stat.filemode(told[MODE]), "links=%d" % told[LINKS], "size=%d" % told[SIZE], path, *more]).encode()


def opened(server, node, flags):
    """The flags that a file gets as it is opened so, or why it can't be."""
    try:
        handle, told = server.open_told(node, flags | os.O_NONBLOCK)
    except fuse.Refused as refused:
        return errno.errorcode[refused.number]
    server.close(node, handle)
    return str(told)


def text_of(server, path):
    """The lines of a file, each after a bar. The last one may not end."""
    text = server.cat(path)
    lines = [b"| " + line for line in text.split(b"\n")]
    return lines[:-1] if lines[-1] == b"| " else lines + [b"\\ the last line has no end"]


def lines_of_file(server, path, told):
    reads, writes = (opened(server, told[NODE], flags) for flags in (os.O_RDONLY, os.O_WRONLY | os.O_APPEND))
    yield heading(told, path, "read=%s" % reads, "write=%s" % writes)
    if not (reads.startswith("E") or path.endswith(("trace_pipe", PAGES))):
        yield from text_of(server, path)


def lines_of_folder(server, path, told, parent):
    """Its own line, and those of all that is in it, in the order of its list."""
    yield heading(told, path or ".")
    own, above, *entries = server.names(told[NODE])
    assert (own, above) == ((".", told[NODE], FOLDER), ("..", parent, FOLDER)), "the list of %s begins with %s and %s" % (path, own, above)
    for name, number, kind in entries:
        where = path + "/" * bool(path) + name
        found = attributes_told(server, told[NODE], name, number)
        assert stat.S_ISDIR(found[MODE]) == (kind == FOLDER), "%s is a folder or is none" % where
        yield from lines_of_folder(server, where, found, told[NODE]) if kind == FOLDER else lines_of_file(server, where, found)


def tree_of(server):
    """A line for each folder and file, in the order of the lists: its number, how it may be used, its links, its size and its path; of a file also
    what an open for reading and one for appending get, and, if it can be read and isn't a pipe, what it shows."""
    return b"".join(line + b"\n" for line in lines_of_folder(server, "", server.attributes(fuse.ROOT), fuse.ROOT))
