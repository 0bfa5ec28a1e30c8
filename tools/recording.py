"""A recording of a mount, as a file: tools/recorder.py writes it, and tools/replay.py reads it.

It begins with lines: FORMAT, the version of who recorded, the kernel, each option of the program, and a checksum of these lines.

    tracectl recording 1
    tracectl-mount 0.4.2, proved, commit 5a43174a1b2c
    Linux 6.18.44
    --cpus=2
    checksum 8c736521

Records follow, each written at once: a kind (a byte), the size of its content (three bytes), a checksum, the content, and a checksum. Numbers are
little-endian, and a checksum is the CRC-32 of all that is before it in the file but other checksums. So a file that was cut anywhere has the whole
records before the cut, and a byte that was changed in them is found.

- REQUEST: a request as it came, before the program has it.
- REPLY: of a reply of the program its length, the CRC-32 of all replies so far, and a FATE: whether the kernel took it.
- END: the exit status, which is that of the program, or 128 and the number of a signal.
"""
import errno
import os
import struct
import zlib

FORMAT = "tracectl recording 1"
REQUEST, REPLY, END = b"Q", b"R", b"E"
REPLY_CONTENT = struct.Struct("<IIB")
TAKEN, DROPPED = 0, 1  # DROPPED: by ENOENT, as what had asked was given up
NUMBER = struct.Struct("<I")
LEAST_REQUEST, MOST_BYTES = 40, 135_168  # of a request; as fuse_serve has them
LEAST_REPLY = 16
MOST_HEAD = 1 << 16


class NoRecording(Exception):
    """A file that is no whole recording, and why."""


class Unframed(Exception):
    """What can't be the length of a message, and the whole messages before it."""


def framed(data, least):
    """The whole messages that these bytes begin with, each with its length in its first four bytes, and the rest."""
    found, at = [], 0
    while len(data) - at >= NUMBER.size:
        size = NUMBER.unpack_from(data, at)[0]
        if not least <= size <= MOST_BYTES:
            raise Unframed(found)
        if len(data) - at < size:
            break
        found.append(data[at : at + size])
        at += size
    return found, data[at:]


class Writer:
    """Appends to a file. Once that fails it tells so, by `tell`, and writes no more."""

    def __init__(self, file, version, system, options, tell):
        lines = "".join(line + "\n" for line in (FORMAT, version, system, *options)).encode()
        self.file, self.tell, self.sum = file, tell, zlib.crc32(lines)
        self.write(lines + b"checksum %08x\n" % self.sum)

    def write(self, data):
        try:
            while data:
                data = data[os.write(self.file, data) :]
        except OSError as error:
            self.file = None
            self.tell(error.strerror)

    def add(self, kind, content):
        if self.file is None:
            return
        begin = kind + len(content).to_bytes(3, "little")
        before = zlib.crc32(begin, self.sum)
        self.sum = zlib.crc32(content, before)
        self.write(begin + NUMBER.pack(before) + content + NUMBER.pack(self.sum))


class Reader:
    """The head of a recording, and its records, each a kind and a content. `is_cut` tells whether the file ends within one."""

    def __init__(self, file):
        self.file, self.at, self.is_cut = file, 0, False
        lines = [self.line()]
        if lines != [FORMAT]:
            raise NoRecording("it does not begin with %s" % FORMAT)
        text = b""
        while not lines[-1].startswith("checksum "):
            text += lines[-1].encode() + b"\n"
            lines.append(self.line())
        self.sum = zlib.crc32(text)
        if lines[-1] != "checksum %08x" % self.sum or len(lines) < 4:
            raise NoRecording("its first lines were changed")
        self.version, self.system, *self.options = lines[1:-1]

    def line(self):
        line = self.file.readline(MOST_HEAD)
        self.at += len(line)
        if self.at > MOST_HEAD or not line.isascii():
            raise NoRecording("its first lines are none of a recording")
        if not line.endswith(b"\n"):
            raise NoRecording("it is cut in its first lines")
        return line[:-1].decode()

    def take(self, count):
        """So many bytes, or None if the file ends before."""
        data = self.file.read(count)
        self.is_cut = len(data) < count
        self.at += len(data)
        return None if self.is_cut else data

    def check(self, stored, sum_now, begin):
        if NUMBER.unpack(stored)[0] != sum_now:
            raise NoRecording("it was changed after its byte %d" % begin)
        self.sum = sum_now

    def __iter__(self):
        while True:
            begin = self.at
            data = self.take(8)
            if data is None:
                self.is_cut = self.at > begin
                return
            self.check(data[4:], zlib.crc32(data[:4], self.sum), begin)
            size = int.from_bytes(data[1:4], "little")
            content = self.take(size + NUMBER.size)
            if content is None:
                return
            self.check(content[size:], zlib.crc32(content[:size], self.sum), begin)
            yield data[:1], content[:size]


def is_gone(error):
    """Whether an error of a device means that the file system was unmounted."""
    return error.errno in (errno.ENODEV, errno.ECONNABORTED)
