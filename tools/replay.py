#!/usr/bin/env python3
"""tools/replay.py PROGRAM VERSION [--until N] [--any-version] FILE [PATH ..]: asks a program again what a recording of a mount has, without a kernel.

Prints a line for each request, with its answer, and tells where the replies are others than those that were recorded. With PATHs it prints these files
instead, as they are after all requests, or after the first N. VERSION is what this program is; a recording of another is refused, but by --any-version.

The exit status is 0, 1 if replies are others than recorded, 4 if FILE is no recording or was changed, or 5.
"""
import argparse
import errno
import os
import queue
import re
import signal
import subprocess
import sys
import threading
import zlib
from collections import deque, namedtuple

sys.dont_write_bytecode = True

from decoding import IN_HEADER, INIT, LOOKUP, OPEN, OUT_HEADER, READ, READ_IN, ROOT, TOLD, UNANSWERED, Lines, Request
from recording import DROPPED, END, LEAST_REPLY, MOST_BYTES, NUMBER, REPLY, REPLY_CONTENT, REQUEST, NoRecording, Reader, Unframed, framed

OTHERS, NOT_REPLAYED, FAILED = 1, 4, 5  # exit statuses
OWN = 1 << 62  # the first unique of a request of this program's own
SIZE = 65_536

Note = namedtuple("Note", "length sum fate asked")  # of a reply; `asked` is how many requests were recorded before it


class Failed(Exception):
    """What is told, and the exit status."""


def say(text):
    print("tracectl-mount: %s" % text, file=sys.stderr)


class Server:
    """The program. Its replies are taken as they come, so that it never waits for room."""

    def __init__(self, words):
        self.process = subprocess.Popen(words, stdin=subprocess.PIPE, stdout=subprocess.PIPE)
        self.replies = queue.SimpleQueue()
        threading.Thread(target=self.take, daemon=True).start()

    def take(self):
        rest = b""
        try:
            while data := os.read(self.process.stdout.fileno(), 2 * MOST_BYTES):
                whole, rest = framed(rest + data, LEAST_REPLY)
                for reply in whole:
                    self.replies.put(reply)
        except Unframed:
            pass
        self.replies.put(None)

    def ask(self, request):
        try:
            self.process.stdin.write(request)
            self.process.stdin.flush()
        except BrokenPipeError:  # it has ended, and its last replies tell
            pass

    def end(self):
        try:
            self.process.stdin.close()
        except BrokenPipeError:
            pass


class Replay:
    """What was asked and answered so far. `out` is where lines go, or None."""

    def __init__(self, reader, server, out):
        self.reader, self.records, self.server, self.out = reader, iter(reader), server, out
        self.lines = Lines()
        self.unshown, self.waiting = deque(), {}  # requests without a line, and those with one that have no answer
        self.notes = deque()
        self.sum = self.count = self.recorded = self.matched = self.unnoted = 0
        self.status = self.parted = self.damage = None

    # ---- asking

    def ask(self, most=None):
        """Asks what was recorded, or the first so many requests."""
        while (most is None or self.count < most) and (record := self.next()):
            if record[0] == REQUEST:
                self.count += 1
                self.unshown.append(Request(self.count, record[1]))
                self.lines.number(self.unshown[-1])
                self.server.ask(record[1])
            while self.notes and not self.server.replies.empty():
                self.settle(self.server.replies.get())

    def next(self):
        """The next record. A note is kept."""
        try:
            kind, content = next(self.records)
        except StopIteration:
            return None
        except NoRecording as fault:
            self.damage = self.damage or str(fault)
            return None
        if kind == REQUEST:
            self.recorded += 1
        elif kind == REPLY:
            self.notes.append(Note(*REPLY_CONTENT.unpack(content), self.recorded))
        elif kind == END:
            self.status = NUMBER.unpack(content)[0]
        return kind, content

    def finish(self):
        """Takes the last replies."""
        self.server.end()
        while (reply := self.server.replies.get()) is not None:
            self.settle(reply)

    # ---- comparing

    def settle(self, reply):
        """Compares a reply with what was noted of it, if that was, and shows it."""
        while not self.notes and self.next():
            pass
        note = self.notes.popleft() if self.notes else None
        self.sum = zlib.crc32(reply, self.sum)
        is_other = note and self.parted is None and (len(reply), self.sum) != (note.length, note.sum)
        self.matched += bool(note) and not is_other and self.parted is None
        self.unnoted += note is None
        self.show_reply(reply, note.asked if note else self.count, note and note.fate == DROPPED)
        if is_other:
            self.part("reply %d is another one than was recorded, which has %d bytes" % (self.matched + 1, note.length))

    def part(self, how):
        self.parted = how
        self.print("# here they part: %s" % how)

    # ---- showing

    def print(self, text):
        if self.out:
            print(text, file=self.out)

    def show_reply(self, reply, asked, was_dropped):
        length, error, unique = OUT_HEADER.unpack_from(reply)
        body = reply[OUT_HEADER.size :]
        dropped = ", which nobody took, as it was interrupted" if was_dropped else ""
        if unique == TOLD:
            self.print("# told who polls: %s" % (int.from_bytes(body[:8], "little") if error == 1 else "message %d" % error))
            return
        interrupt = next((each for each in self.unshown if each.interrupted() == unique and each.number <= asked), None)
        request = next((each for each in self.unshown if each.unique == unique), None)
        if interrupt or request:
            self.show_before((interrupt or request).number + bool(interrupt))
        waited = self.waiting.pop(unique, None)
        if waited or self.unshown and self.unshown[0] is request:
            told = self.lines.asked(waited or self.unshown.popleft())
            self.print("%s%s = %s%s" % (told, ", which waited" if waited else "", self.lines.answered(waited or request, error, body), dropped))
        else:
            self.print("# a reply to unique %d, which nothing has that waits" % unique)

    def show_before(self, number):
        """Shows the requests before that of a number, which have no answer yet."""
        while self.unshown and self.unshown[0].number < number:
            request = self.unshown.popleft()
            if request.opcode in UNANSWERED:
                self.print(self.lines.asked(request))
            else:
                self.waiting[request.unique] = request
                self.print("%s = %s" % (self.lines.asked(request), "waits" if request.opcode == READ else "no answer"))


# ---- files


class Files:
    """Reads files of the program by requests of its own."""

    def __init__(self, replay):
        self.replay, self.unique = replay, OWN

    def ask(self, opcode, node, body):
        """The error and the body of an answer."""
        self.unique += 2
        self.replay.server.ask(IN_HEADER.pack(IN_HEADER.size + len(body), opcode, self.unique, node, 0, 0, 0, 0) + body)
        while (reply := self.replay.server.replies.get()) is not None:
            _, error, unique = OUT_HEADER.unpack_from(reply)
            if unique == self.unique:
                return -error, reply[OUT_HEADER.size :]
            if self.unique == OWN + 2:  # what was owed when the first of these was asked
                self.replay.settle(reply)
        raise Failed("the program has ended", FAILED)

    def begin(self):
        """Until all that was asked before is answered."""
        if self.replay.count == 0:
            self.ask(INIT, 0, (7).to_bytes(4, "little") + (31).to_bytes(4, "little") + bytes(8))
        else:
            self.ask(LOOKUP, ROOT, b"trace\0")

    def text(self, path):
        node = ROOT
        for name in filter(None, os.fsencode(path).split(b"/")):
            node = int.from_bytes(self.answer(path, LOOKUP, node, name + b"\0")[:8], "little")
        handle = int.from_bytes(self.answer(path, OPEN, node, NUMBER.pack(os.O_RDONLY | os.O_NONBLOCK) + bytes(4))[:8], "little")
        text = b""
        while True:
            body = READ_IN.pack(handle, len(text), SIZE, 2, 0, os.O_NONBLOCK, 0)
            error, more = self.ask(READ, node, body)
            if error == errno.EAGAIN or not error and not more:  # nothing waits in a pipe, or the end
                return text
            if error:
                raise Failed("%s: %s" % (path, os.strerror(error)), FAILED)
            text += more

    def answer(self, path, opcode, node, body):
        error, got = self.ask(opcode, node, body)
        if error:
            raise Failed("%s: %s" % (path, os.strerror(error)), FAILED)
        return got


# ---- the command


def is_same(version, other):
    """Whether versions are the same, whatever is proved; where one of them knows no commit that counts for nothing."""
    parts = [[part for part in text.split(", ") if part not in ("proved", "unproved")] for text in (version, other)]
    return all(one == another for one, another in zip(*parts))


def plural(count, what):
    return "%d %s" % (count, what if count == 1 else "replies" if what == "reply" else what + "s")


def summary(replay, is_whole):
    told = "%s, %s" % (plural(replay.count, "request"), plural(replay.matched + replay.unnoted, "reply"))
    if replay.parted is not None:
        told += ": others than recorded"
    elif replay.unnoted:
        told += ": the first %d as recorded, which has no more" % replay.matched
    else:
        told += ": as recorded"
    if is_whole:
        told += "; it ended with status %d" % replay.status if replay.status is not None else "; no end was recorded"
    return told


def replayed(words, reader, out):
    options = reader.options
    if any(not re.fullmatch(r"--[a-z-]+=[+0-9]+", option) for option in options):
        raise Failed("the recording has options that are none of this program", NOT_REPLAYED)
    replay = Replay(reader, Server([words.program, *options]), out)
    replay.print("# %s; %s; %s" % (reader.version, reader.system, " ".join(options)))
    replay.ask(words.until)
    return replay


def show(words, reader):
    replay = replayed(words, reader, None if words.paths else sys.stdout)
    if words.paths:
        sys.stdout.flush()
        files = Files(replay)
        files.begin()
        for number, path in enumerate(words.paths):
            text = files.text(path)
            if len(words.paths) > 1:
                sys.stdout.buffer.write(b"%s==> %s <==\n" % (b"\n" if number else b"", os.fsencode(path)))
            sys.stdout.buffer.write(text)
        sys.stdout.buffer.flush()
        replay.server.end()
    else:
        replay.finish()
        replay.show_before(replay.count + 1)
    is_whole = words.until is None or replay.count < words.until
    if is_whole and replay.notes and replay.parted is None:
        replay.part("the recording has %s more" % plural(len(replay.notes), "reply"))
    replay.print("# %s" % summary(replay, is_whole))
    if is_whole and replay.damage:
        raise Failed("%s can't be replayed further: %s" % (words.file, replay.damage), NOT_REPLAYED)
    if replay.parted:
        raise Failed("%s: %s" % (words.file, replay.parted), OTHERS)


def main(words):
    with open(words.file, "rb") as file:
        try:
            reader = Reader(file)
        except NoRecording as fault:
            raise Failed("%s is no recording that can be replayed: %s" % (words.file, fault), NOT_REPLAYED)
        if not is_same(reader.version, words.version) and not words.any_version:
            raise Failed("%s was recorded by %s; this is %s" % (words.file, reader.version, words.version), FAILED)
        show(words, reader)


def words_of(given):
    parser = argparse.ArgumentParser(allow_abbrev=False)
    for name in ("program", "version", "file"):
        parser.add_argument(name)
    parser.add_argument("paths", nargs="*")
    parser.add_argument("--until", type=int)
    parser.add_argument("--any-version", action="store_true")
    return parser.parse_args(given)


def run(given):
    """The exit status."""
    try:
        main(words_of(given))
    except Failed as failed:
        sys.stdout.flush()
        say(failed.args[0])
        return failed.args[1]
    except BrokenPipeError:  # who reads has seen enough
        os.dup2(os.open(os.devnull, os.O_WRONLY), sys.stdout.fileno())
    except OSError as error:
        say("%s: %s" % (error.filename or "standard output", error.strerror))
        return FAILED
    return 0


if __name__ == "__main__":
    signal.signal(signal.SIGINT, signal.SIG_DFL)
    sys.exit(run(sys.argv[1:]))
