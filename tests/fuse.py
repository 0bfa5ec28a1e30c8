"""A client of a FUSE server that reads requests from its standard input: what a kernel sends by linux/fuse.h (7.31), and what it makes of the replies."""
import errno
import os
import select
import struct
import subprocess

LOOKUP, FORGET, GETATTR, SETATTR = 1, 2, 3, 4
MKDIR, UNLINK, RMDIR, RENAME, LINK, OPEN, READ, WRITE, STATFS, RELEASE, FSYNC = 9, 10, 11, 12, 13, 14, 15, 16, 17, 18, 20
SETXATTR, GETXATTR, LISTXATTR, REMOVEXATTR, FLUSH, INIT, OPENDIR, READDIR, RELEASEDIR = 21, 22, 23, 24, 25, 26, 27, 28, 29
ACCESS, CREATE, INTERRUPT, DESTROY, IOCTL, POLL, BATCH_FORGET, READDIRPLUS = 34, 35, 36, 38, 39, 40, 42, 44

IN_HEADER = struct.Struct("<IIQQIIII")  # fuse_in_header: len, opcode, unique, nodeid, uid, gid, pid, padding
OUT_HEADER = struct.Struct("<IiQ")  # fuse_out_header: len, error, unique
ATTR = struct.Struct("<QQQQQQIIIIIIIIII")  # fuse_attr
ENTRY = struct.Struct("<QQQQII")  # fuse_entry_out but for its fuse_attr
DIRENT = struct.Struct("<QQII")  # fuse_dirent but for its name
ROOT = 1
# Each LOOKUP of a CPU's binary pages gives a number of its own, a multiple of OWN more than the listed one, and this size, of which GETATTR tells nothing.
OWN, PAGES_SIZE = 1 << 47, 1 << 40
SECONDS = 20

FOPEN_DIRECT_IO, FOPEN_NONSEEKABLE, FOPEN_STREAM, FOPEN_NOFLUSH = 1, 4, 16, 32
READ_LOCKOWNER, WRITE_LOCKOWNER = 2, 2  # what a call of a process sets, and a page that sendfile wants does not
POLL_SCHEDULE_NOTIFY = 1
POLL_MESSAGE = 1  # in the place of the error: FUSE_NOTIFY_POLL


def request(opcode, unique, node, body=b"", pid=7, uid=0, gid=0):
    """The bytes of a request."""
    return IN_HEADER.pack(IN_HEADER.size + len(body), opcode, unique, node, uid, gid, pid, 0) + body


def replies(data):
    """The replies in what a server wrote, each as its number, its error and its body."""
    found = []
    while data:
        length, error, unique = OUT_HEADER.unpack_from(data)
        found.append((unique, error, data[OUT_HEADER.size : length]))
        data = data[length:]
    return found


class Refused(Exception):
    """A reply with an errno."""

    def __init__(self, number):
        super().__init__(errno.errorcode.get(number, number))
        self.number = number


class Server:
    """A server that was started, and the next request's `unique`."""

    def __init__(self, command):
        self.process = subprocess.Popen(command, stdin=subprocess.PIPE, stdout=subprocess.PIPE)
        self.requests = []
        self.unique = 2
        self.pid = 7
        self.init()

    def send(self, data):
        self.requests.append(data)
        self.process.stdin.write(data)
        self.process.stdin.flush()

    def take(self, count):
        """So many bytes of its output."""
        data = b""
        while len(data) < count:
            if not select.select([self.process.stdout], [], [], SECONDS)[0]:
                raise TimeoutError("no reply in %d seconds" % SECONDS)
            more = os.read(self.process.stdout.fileno(), count - len(data))
            if not more:
                raise EOFError("the server ended")
            data += more
        return data

    def reply(self):
        """`unique`, the error and the body of the next reply."""
        length, error, unique = OUT_HEADER.unpack(self.take(OUT_HEADER.size))
        return unique, error, self.take(length - OUT_HEADER.size)

    def ask(self, opcode, node, body=b"", pid=None):
        """The body of the reply to a request."""
        self.unique += 2
        self.send(request(opcode, self.unique, node, body, self.pid if pid is None else pid))
        unique, error, got = self.reply()
        assert unique == self.unique, "the reply has another request's unique"
        if error:
            assert not got, "an error has a body"
            raise Refused(-error)
        return got

    def init(self):
        got = self.ask(INIT, 0, struct.pack("<IIII", 7, 31, 65536, 0xFFFFFFFF))
        self.max_write = struct.unpack_from("<I", got, 20)[0]
        return got

    def end(self):
        """Its exit status, once its input has ended."""
        self.process.stdin.close()
        rest = self.process.stdout.read()
        assert not rest, "it wrote more than replies"
        return self.process.wait(SECONDS)

    # ---- what a kernel asks for a call

    def lookup(self, path):
        """The node of a path."""
        node = ROOT
        for name in filter(None, path.split("/")):
            got = self.ask(LOOKUP, node, name.encode() + b"\0")
            node = ENTRY.unpack_from(got)[0]
        return node

    def attributes(self, node):
        got = self.ask(GETATTR, node, bytes(16))
        return ATTR.unpack_from(got, 16)

    def size_told(self, path):
        """The size that LOOKUP tells of a path."""
        folder, _, name = path.rpartition("/")
        got = self.ask(LOOKUP, self.lookup(folder), name.encode() + b"\0")
        return ATTR.unpack_from(got, ENTRY.size)[1]

    def open_told(self, node, flags):
        """The number of an open file, and the flags that the server gives it."""
        return struct.unpack_from("<QI", self.ask(OPEN, node, struct.pack("<II", flags, 0)))

    def open(self, node, flags):
        return self.open_told(node, flags)[0]

    def read_at(self, node, handle, offset, size, flags=0):
        return self.ask(READ, node, struct.pack("<QQIIQII", handle, offset, size, READ_LOCKOWNER, 0, flags, 0))

    def read_page(self, node, handle, offset, size=4096):
        """A read of a page, as `sendfile` and `splice` make them."""
        return self.ask(READ, node, struct.pack("<QQIIQII", handle, offset, size, 0, 0, 0, 0))

    def write_at(self, node, handle, offset, data, pid=None, owner=0):
        body = struct.pack("<QQIIQII", handle, offset, len(data), WRITE_LOCKOWNER, owner, 0, 0) + data
        return struct.unpack_from("<I", self.ask(WRITE, node, body, pid))[0]

    def flush(self, node, handle, owner=0, pid=None):
        """What each close of a descriptor asks, perhaps one of another process."""
        self.ask(FLUSH, node, struct.pack("<QIIQ", handle, 0, 0, owner), pid)

    def release(self, node, handle):
        """What the last close asks."""
        self.ask(RELEASE, node, struct.pack("<QIIQ", handle, 0, 0, 0))

    def close(self, node, handle):
        self.flush(node, handle)
        self.release(node, handle)

    def cat(self, path, size=65536):
        """The text of a file, read in pieces of this size to its end, or of a pipe until nothing waits."""
        node = self.lookup(path)
        handle = self.open(node, os.O_RDONLY | os.O_NONBLOCK)
        parts, offset = [], 0
        try:
            while more := self.read_at(node, handle, offset, size, os.O_NONBLOCK):
                parts.append(more)
                offset += len(more)
        except Refused as refused:
            if refused.number != errno.EAGAIN:
                raise
        finally:
            self.close(node, handle)
        return b"".join(parts)

    def park(self, node, handle, size=65536):
        """The number of a read that is to wait: its reply comes after that of a later request."""
        self.unique += 2
        self.send(request(READ, self.unique, node, struct.pack("<QQIIQII", handle, 0, size, READ_LOCKOWNER, 0, 0, 0)))
        return self.unique

    def interrupt(self, unique):
        """What a kernel sends of a call that was given up; it has no reply of its own."""
        self.send(request(INTERRUPT, unique + 1, 0, struct.pack("<Q", unique)))

    def poll(self, node, handle, number=1, flags=1):
        """The events that a POLL tells. By flags of 1 a message is wanted, with this number, once there are some."""
        return struct.unpack_from("<I", self.ask(POLL, node, struct.pack("<QQII", handle, number, flags, 0x41)))[0]

    def message(self):
        """The number of a poll that is told that it is ready, in a message, which must be next."""
        unique, kind, body = self.reply()
        assert (unique, kind) == (0, POLL_MESSAGE), "a reply to %d, and no message" % unique
        return struct.unpack("<Q", body)[0]

    def echo(self, text, path, append=False, pid=None):
        """`echo TEXT > PATH`, or with `>>`. As in a shell, what a write left is written again."""
        node = self.lookup(path)
        handle = self.open(node, os.O_WRONLY | (os.O_APPEND if append else os.O_TRUNC))
        try:
            data, done = text + b"\n", 0
            while done < len(data):
                count = self.write_at(node, handle, done, data[done:], pid)
                assert 0 < count <= len(data) - done
                done += count
        finally:
            self.close(node, handle)

    def mkdir(self, folder, name):
        return self.ask(MKDIR, self.lookup(folder), struct.pack("<II", 0o755, 0o22) + name.encode() + b"\0")

    def rmdir(self, folder, name):
        self.ask(RMDIR, self.lookup(folder), name.encode() + b"\0")

    def names(self, node, size=4096):
        """The names in a folder, with their nodes and types, read in pieces of this size."""
        handle = struct.unpack_from("<Q", self.ask(OPENDIR, node, struct.pack("<II", 0, 0)))[0]
        found, offset = [], 0
        while True:
            data = self.ask(READDIR, node, struct.pack("<QQIIQII", handle, offset, size, 0, 0, 0, 0))
            if not data:
                break
            at = 0
            while at < len(data):
                number, offset, length, kind = DIRENT.unpack_from(data, at)
                name = data[at + DIRENT.size : at + DIRENT.size + length]
                found.append((name.decode(), number, kind))
                at += (DIRENT.size + length + 7) // 8 * 8
        self.ask(RELEASEDIR, node, struct.pack("<QIIQ", handle, 0, 0, 0))
        return found
