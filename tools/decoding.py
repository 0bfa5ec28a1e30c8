"""Requests of FUSE and their replies as lines for people, by linux/fuse.h (7.31). What is not understood is shown by its size."""
import errno
import os
import struct

OPCODES = {
    **{1: "LOOKUP", 2: "FORGET", 3: "GETATTR", 4: "SETATTR", 5: "READLINK", 6: "SYMLINK", 8: "MKNOD", 9: "MKDIR", 10: "UNLINK", 11: "RMDIR", 12: "RENAME"},
    **{13: "LINK", 14: "OPEN", 15: "READ", 16: "WRITE", 17: "STATFS", 18: "RELEASE", 20: "FSYNC", 21: "SETXATTR", 22: "GETXATTR", 23: "LISTXATTR"},
    **{24: "REMOVEXATTR", 25: "FLUSH", 26: "INIT", 27: "OPENDIR", 28: "READDIR", 29: "RELEASEDIR", 30: "FSYNCDIR", 31: "GETLK", 32: "SETLK", 33: "SETLKW"},
    **{34: "ACCESS", 35: "CREATE", 36: "INTERRUPT", 37: "BMAP", 38: "DESTROY", 39: "IOCTL", 40: "POLL", 41: "NOTIFY_REPLY", 42: "BATCH_FORGET"},
    **{43: "FALLOCATE", 44: "READDIRPLUS", 45: "RENAME2", 46: "LSEEK", 47: "COPY_FILE_RANGE", 48: "SETUPMAPPING", 49: "REMOVEMAPPING", 50: "SYNCFS"},
    **{51: "TMPFILE", 52: "STATX"},
}
LOOKUP, GETATTR, SETATTR, MKDIR, RMDIR, OPEN, READ, WRITE = 1, 3, 4, 9, 11, 14, 15, 16
INIT, OPENDIR, READDIR, INTERRUPT, POLL, FORGET, BATCH_FORGET = 26, 27, 28, 36, 40, 2, 42
UNANSWERED = (FORGET, BATCH_FORGET, INTERRUPT)

IN_HEADER = struct.Struct("<IIQQIIII")  # fuse_in_header: len, opcode, unique, nodeid, uid, gid, pid, padding
OUT_HEADER = struct.Struct("<IiQ")  # fuse_out_header: len, error, unique
READ_IN = struct.Struct("<QQIIQII")  # fuse_read_in, fuse_write_in: fh, offset, size, flags, lock_owner, flags, padding
DIRENT = struct.Struct("<QQII")  # fuse_dirent but for its name
ROOT, TOLD = 1, 0  # a node, and the unique of a message that answers nothing
ENTRY_ATTR, ATTR_OUT = 40, 16  # where a fuse_attr begins
FATTR_SIZE = 8
MOST_TEXT = 60
ACCESSES = {os.O_RDONLY: "O_RDONLY", os.O_WRONLY: "O_WRONLY", os.O_RDWR: "O_RDWR"}
FLAGS = {os.O_APPEND: "O_APPEND", os.O_TRUNC: "O_TRUNC", os.O_NONBLOCK: "O_NONBLOCK"}


def quoted(data):
    """Bytes in quotes, of which long ones are cut."""
    text = "".join('\\"' if byte == 34 else repr(bytes([byte]))[2:-1].replace("\\'", "'") for byte in data[:MOST_TEXT])
    return '"%s"%s' % (text, ".." if len(data) > MOST_TEXT else "")


def word(data):
    """A name as it is, if that can be one word."""
    text = data.decode("latin-1")
    return text if text.isascii() and text.isprintable() and text and " " not in text else quoted(data)


def flags_in(number):
    return "|".join([ACCESSES.get(number & os.O_ACCMODE, "O_ACCMODE"), *(name for flag, name in FLAGS.items() if number & flag)])


def names_in(data):
    """The names in what READDIR answered."""
    at = 0
    while at + DIRENT.size <= len(data):
        length = DIRENT.unpack_from(data, at)[2]
        yield word(data[at + DIRENT.size : at + DIRENT.size + length])
        at += (DIRENT.size + length + 7) // 8 * 8


def cut(text):
    return text if len(text) <= 2 * MOST_TEXT else text[: 2 * MOST_TEXT] + ".."


class Request:
    """A request, and its number in a recording."""

    def __init__(self, number, data):
        self.number = number
        _, self.opcode, self.unique, self.node, _, _, self.process, _ = IN_HEADER.unpack_from(data)
        self.body = data[IN_HEADER.size :]

    def interrupted(self):
        """The unique of the request that this one interrupts, if it does so."""
        return struct.unpack_from("<Q", self.body)[0] if self.opcode == INTERRUPT and len(self.body) >= 8 else None


class Lines:
    """Makes lines, and learns from replies what nodes are called."""

    def __init__(self):
        self.paths = {ROOT: ""}
        self.reads = {}  # the numbers of those, which may wait and be interrupted

    def number(self, request):
        """Lets a later line tell the request by its number."""
        if request.opcode == READ:
            self.reads[request.unique] = request.number

    def path(self, node):
        path = self.paths.get(node)
        return "node %d" % node if path is None else path or "."

    def below(self, node, name):
        path = self.path(node)
        return word(name) if path == "." else "%s/%s" % (path, word(name))

    def asked(self, request):
        """A request without its answer."""
        try:
            told = self.told(request.opcode, request.node, request.body)
        except struct.error:
            told = "%s, %d bytes" % (self.path(request.node), len(request.body))
        name = OPCODES.get(request.opcode, "opcode %d" % request.opcode)
        return "%d (%d) %s %s" % (request.number, request.process, name, told)

    def told(self, opcode, node, body):
        if opcode in (LOOKUP, RMDIR):
            return self.below(node, body.rstrip(b"\0"))
        if opcode == MKDIR:
            return self.below(node, body[8:].rstrip(b"\0"))
        if opcode == INIT:
            return "%d.%d" % struct.unpack_from("<II", body)
        if opcode == OPEN:
            return "%s %s" % (self.path(node), flags_in(struct.unpack_from("<I", body)[0]))
        if opcode in (READ, READDIR):
            handle, offset, size, _, _, flags, _ = READ_IN.unpack_from(body)
            return "%s, file %d, %d bytes at %d%s" % (self.path(node), handle, size, offset, " O_NONBLOCK" if flags & os.O_NONBLOCK else "")
        if opcode == WRITE:
            handle, offset, size = READ_IN.unpack_from(body)[:3]
            return "%s, file %d, %d bytes at %d %s" % (self.path(node), handle, size, offset, quoted(body[READ_IN.size :]))
        if opcode == SETATTR:
            valid, _, _, size = struct.unpack_from("<IIQQ", body)
            return "%s%s" % (self.path(node), ", size %d" % size if valid & FATTR_SIZE else "")
        if opcode == INTERRUPT:
            unique = struct.unpack_from("<Q", body)[0]
            return "%d" % self.reads[unique] if unique in self.reads else "unique %d" % unique
        if opcode == POLL:
            handle, number, flags, events = struct.unpack_from("<QQII", body)
            return "%s, file %d, events %#x%s" % (self.path(node), handle, events, ", to be told as %d" % number if flags & 1 else "")
        return self.path(node)

    def answered(self, request, error, body):
        """An answer."""
        if error:
            return errno.errorcode.get(-error, str(error))
        try:
            return cut(self.answer(request, body))
        except struct.error:
            return "%d bytes" % len(body)

    def answer(self, request, body):
        opcode = request.opcode
        if opcode in (LOOKUP, MKDIR):
            name = request.body[8 * (opcode == MKDIR) :].rstrip(b"\0")
            node = struct.unpack_from("<Q", body)[0]
            if request.node in self.paths:
                path = self.below(request.node, name)
                self.paths[node] = path
            return "node %d, size %d" % (node, struct.unpack_from("<Q", body, ENTRY_ATTR + 8)[0])
        if opcode in (GETATTR, SETATTR):
            return "size %d" % struct.unpack_from("<Q", body, ATTR_OUT + 8)
        if opcode in (OPEN, OPENDIR):
            return "file %d" % struct.unpack_from("<Q", body)
        if opcode == READ:
            return "%d %s" % (len(body), quoted(body))
        if opcode == READDIR:
            return " ".join(["%d" % len(body), *names_in(body)])
        if opcode == WRITE:
            return "%d" % struct.unpack_from("<I", body)
        if opcode == POLL:
            return "%#x" % struct.unpack_from("<I", body)
        if opcode == INIT:
            return "%d.%d" % struct.unpack_from("<II", body)
        return "%d bytes" % len(body) if body else "0"
