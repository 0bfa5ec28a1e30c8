"""Writes to `inject`: an open file of it is a stream of lines once it was written a newline."""
import errno
import os
import struct

import fuse
from kernel_request_cases.tracer import RECORD, TICK, Tracer

INJECT = TICK + "inject"
MOST_KEPT = 4_096
REFUSED = -errno.EINVAL

# What is done with an open `inject`, and what each step gives: how many bytes of a write were done or a refusal, of a close nothing, each in turn with
# what events it made. An owner follows what another program than that with owner 0 does.
WRITE, FLUSH, RELEASE = "write", "flush", "release"
STREAMS = {
    "a write does each line": [(WRITE, b"n=1\nn=2\nn=3\n", 12, [1, 2, 3])],
    "a blank line is no event": [(WRITE, b"n=1\n\n \t\nn=2\n\n", 13, [1, 2]), (WRITE, b"\n", 1, []), (RELEASE, [])],
    "a newline alone is no event": [(WRITE, b"\n", 1, []), (WRITE, b"\n\n", 2, []), (RELEASE, [])],
    "a write without a newline is an event at once": [(WRITE, b"n=1", 3, [1]), (WRITE, b"n=2", 3, [2]), (RELEASE, [])],
    "a line that is cut": [(WRITE, b"n=1\nn=", 6, [1]), (WRITE, b"23", 2, []), (WRITE, b"4\nn=5\n", 6, [234, 5]), (RELEASE, [])],
    "a line that is cut before its newline": [(WRITE, b"n=1\nn=2", 7, [1]), (WRITE, b"\n", 1, [2]), (WRITE, b"n=3\n", 4, [3])],
    "a line byte by byte": [(WRITE, b"n=0\n", 4, [0]), *((WRITE, byte, 1, []) for byte in (b"n", b"=", b"7")), (WRITE, b"\n", 1, [7])],
    "a newline, and then a rest": [(WRITE, b"\n", 1, []), (WRITE, b"n=1", 3, []), (RELEASE, [1])],
    "an event at once, and then a stream": [(WRITE, b"n=1", 3, [1]), (WRITE, b"n=2\nn=3", 7, [2]), (WRITE, b"4\n", 2, [34])],
    "a rest is done when its owner closes": [(WRITE, b"n=1\nn=2", 7, [1]), (FLUSH, 0, [2]), (FLUSH, 0, []), (RELEASE, [])],
    "a rest is not done when another closes": [(WRITE, b"n=1\nn=2", 7, [1], 5), (FLUSH, 0, [], 6), (WRITE, b"3\n", 2, [23], 5)],
    "a rest is done at last": [(WRITE, b"n=1\nn=2", 7, [1], 5), (FLUSH, 0, [], 6), (RELEASE, [2])],
    "a rest is whose who left it": [
        *((WRITE, b"n=1\nn=", 6, [1], 5), (WRITE, b"2", 1, [], 6)),
        *((FLUSH, 0, [], 5), (FLUSH, 0, [2], 6), (RELEASE, [])),
    ],
    "a rest that was ended is not done again": [(WRITE, b"n=1\nn=2", 7, [1]), (WRITE, b"\n", 1, [2]), (FLUSH, 0, []), (RELEASE, [])],
    "a blank rest is no event": [(WRITE, b"n=1\n  ", 6, [1]), (FLUSH, 0, []), (RELEASE, [])],
    "a stream goes on after a close": [(WRITE, b"n=1\nn=2", 7, [1]), (FLUSH, 0, [2]), (WRITE, b"n=3", 3, []), (WRITE, b"4\n", 2, [34])],
    "a refused line": [(WRITE, b"x=1\nn=2\n", REFUSED, []), (WRITE, b"n=3\n", 4, [3])],
    "a refused line, and those after it": [(WRITE, b"n=1\nn=2\nx=1\nn=3\n", 8, [1, 2]), (WRITE, b"x=1\nn=3\n", REFUSED, []), (WRITE, b"n=3\n", 4, [3])],
    "a refused line takes its rest with it": [(WRITE, b"n=1\nx=", 6, [1]), (WRITE, b"1\nn=2\n", REFUSED, []), (WRITE, b"n=3\n", 4, [3])],
    "a refused line after a rest": [(WRITE, b"n=1\nn=", 6, [1]), (WRITE, b"2\nx=1\nn=", 2, [2]), (WRITE, b"n=3\n", 4, [3]), (RELEASE, [])],
    "a refused line keeps no rest": [(WRITE, b"n=1\nx=1\nn=", 4, [1]), (WRITE, b"n=2\n", 4, [2]), (RELEASE, [])],
    "a refused rest": [(WRITE, b"n=1\nx=1", 7, [1]), (FLUSH, REFUSED, []), (FLUSH, 0, []), (WRITE, b"n=2\n", 4, [2]), (RELEASE, [])],
    "a refused rest at last": [(WRITE, b"n=1\nx=1", 7, [1], 5), (FLUSH, 0, [], 6), (RELEASE, [])],
    "a long rest": [(WRITE, b"n=1\nn=2" + b" " * 4_000, 4_007, [1]), (WRITE, b"\n", 1, [2])],
    "a rest that is too long": [(WRITE, b"n=1\n" + b"n" * (MOST_KEPT + 1), 4, [1]), (WRITE, b"n=2\n", 4, [2])],
    "a rest that grows too long": [(WRITE, b"n=1\nn=2" + b" " * (MOST_KEPT - 3), MOST_KEPT + 4, [1]), (WRITE, b" ", REFUSED, []), (WRITE, b"n=3\n", 4, [3])],
    "a long line": [(WRITE, b"n=1" + b" " * 4_000 + b"\nn=2\n", 4_008, [1, 2])],
    "many lines": [(WRITE, b"".join(b"n=%d\n" % n for n in range(100)), 490, list(range(100)))],
}


class Stream:
    """An open `inject`."""

    def __init__(self, tracer):
        self.tracer = tracer
        self.handle = tracer.open(tracer.injects, os.O_WRONLY)

    def write(self, data, owner=0, pid=None):
        try:
            return self.tracer.write_at(self.tracer.injects, self.handle, 0, data, pid, owner)
        except fuse.Refused as refused:
            return -refused.number

    def flush(self, owner=0, pid=None):
        return -self.tracer.refusal(self.tracer.flush, self.tracer.injects, self.handle, owner, pid)

    def release(self):
        """No program hears what this is answered."""
        self.tracer.refusal(self.tracer.release, self.tracer.injects, self.handle)

    def do(self, kind, *step):
        """What a step has given, as the table has it."""
        if kind == WRITE:
            return self.write(step[0], *step[3:])
        return self.flush(*step[2:]) if kind == FLUSH else self.release()


def streams_of_lines(command):
    tracer = Tracer(command)
    for name, steps in STREAMS.items():
        stream = Stream(tracer)
        for number, (kind, *step) in enumerate(steps, 1):
            *wanted, events = {WRITE: step[1:3], FLUSH: step[:2], RELEASE: [None, step[0]]}[kind]
            got = [stream.do(kind, *step), tracer.taken()]
            assert got == [*wanted, events], "%s, step %d: %s, and should be %s" % (name, number, got, [*wanted, events])
        if steps[-1][0] != RELEASE:
            stream.release()
    tracer.end()


def process_of_a_rest(command):
    """An event is of the process, and on the CPU, of the last write to its line, also when another closes."""
    tracer = Tracer(command, "--cpus", "4")

    def came(*wanted):
        got = [tuple(map(int, found)) for found in RECORD.findall(tracer.cat("trace_pipe"))]
        assert got == [(pid, pid % 4, number) for pid, number in wanted], "%s, and should be %s" % (got, wanted)

    stream = Stream(tracer)
    stream.write(b"n=1\nn=", pid=5)
    came((5, 1))
    stream.write(b"2\nn=3", pid=6)
    came((6, 2))
    stream.flush(pid=9)
    came((6, 3))
    stream.write(b"n=4", pid=7)
    tracer.pid = 11
    stream.release()
    came((7, 4))
    tracer.end()


def who_waits_is_told_once(command):
    tracer = Tracer(command)
    reader, poller = (tracer.open(tracer.pipes, os.O_RDONLY) for _ in range(2))
    stream = Stream(tracer)
    read = tracer.park(tracer.pipes, reader)
    assert stream.write(b"n=1\nn=2\nn=3\nn=") == 14
    unique, error, text = tracer.reply()
    assert (unique, error) == (read, 0) and [int(number) for _, _, number in RECORD.findall(text)] == [1, 2, 3], text
    assert tracer.poll(tracer.pipes, poller, 9) == 0
    assert stream.write(b"4\nn=5\nn=6\n") == 10
    assert tracer.message() == 9 and tracer.is_quiet() and tracer.taken() == [4, 5, 6]
    tracer.end()


def flags_of_open_files(command):
    """FLUSH comes for `inject` alone."""
    tracer = Tracer(command)
    own, others, pipes = fuse.FOPEN_DIRECT_IO, fuse.FOPEN_DIRECT_IO | fuse.FOPEN_NOFLUSH, fuse.FOPEN_NONSEEKABLE | fuse.FOPEN_STREAM
    for path, wanted in (
        *((INJECT, own), ("trace_pipe", others | pipes), ("per_cpu/cpu0/trace_pipe", others | pipes)),
        *((path, others) for path in ("trace", "tracing_on", "synthetic_events", "set_event", "error_log", "current_tracer", TICK + "trigger")),
    ):
        flags = tracer.open_told(tracer.lookup(path), os.O_WRONLY if path == INJECT else os.O_RDONLY)[1]
        assert flags == wanted, "%s is opened with flags of %d, and should be with %d" % (path, flags, wanted)
    for path in ("set_event", "error_log", "trace"):
        flags = tracer.open_told(tracer.lookup(path), os.O_WRONLY | os.O_TRUNC)[1]
        assert flags == others, "%s, emptied, is opened with flags of %d, and should be with %d" % (path, flags, others)
    tracer.end()


def refusals_are_noted_once(command):
    tracer = Tracer(command)
    stream = Stream(tracer)
    assert stream.write(b"n=1\nn=y\n") == 4 and not tracer.errors(), "what was not told is noted: %s" % tracer.errors()
    assert stream.write(b"n=y\n") == REFUSED
    assert stream.write(b"n=2\nz=") == 6 and stream.write(b"5\n") == REFUSED
    assert stream.write(b"n=3\nn=w") == 7 and stream.flush() == REFUSED
    assert stream.write(b"n=4\nn=v", 5) == 7 and stream.flush(6) == 0
    stream.release()
    assert [(file, line) for file, _, line, _ in tracer.errors()] == [(INJECT, line) for line in ("n=y", "z=5", "n=w", "n=v")], tracer.errors()
    tracer.end()


def a_stream_of_what_is_removed(command):
    """A rest is no event of an instance that is removed, and nothing is noted."""
    tracer = Tracer(command)
    tracer.mkdir("instances", "a")
    node = tracer.lookup("instances/a/" + INJECT)
    handles = [tracer.open(node, os.O_WRONLY) for _ in range(3)]
    for handle in handles:
        assert tracer.write_at(node, handle, 0, b"n=1\nn=2", owner=3) == 7
    assert tracer.taken() == [1, 1, 1]
    tracer.rmdir("instances", "a")
    assert tracer.refusal(tracer.write_at, node, handles[0], 0, b"3\n", None, 3) == errno.ENOENT
    tracer.refusal(tracer.flush, node, handles[1], 3)
    for handle in handles:
        tracer.refusal(tracer.ask, fuse.RELEASE, node, struct.pack("<QIIQ", handle, 0, 0, 0))
    assert tracer.taken() == [] and not tracer.errors()
    tracer.end()


CASES = (streams_of_lines, process_of_a_rest, who_waits_is_told_once, flags_of_open_files, refusals_are_noted_once, a_stream_of_what_is_removed)
