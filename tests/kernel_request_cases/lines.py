"""Writes of several lines to `synthetic_events` and to a trigger: a command a line."""
import errno
import os

import fuse
from kernel_request_cases.tracer import TICK, Tracer

TRIGGER = TICK + "trigger"


class OpenFile:
    """A file that is open for writing."""

    def __init__(self, tracer, path, flags=os.O_TRUNC):
        self.tracer, self.node = tracer, tracer.lookup(path)
        self.handle = tracer.open(self.node, os.O_WRONLY | flags)

    def write(self, data):
        """How many bytes were done, or what it was refused for."""
        try:
            return self.tracer.write_at(self.node, self.handle, 0, data)
        except fuse.Refused as refused:
            return -refused.number

    def close(self):
        self.tracer.close(self.node, self.handle)


def declarations(command):
    """The first is by `>`, the others by `>>`, and the last is done without a newline, too."""
    tracer = fuse.Server(command)
    file = OpenFile(tracer, "synthetic_events")
    assert file.write(b"tick u64 n\n\n  \nmove s64 d\nstop u8 x") == 35
    assert tracer.cat("synthetic_events") == b"tick u64 n\nmove s64 d\nstop u8 x\n"
    file.close()
    assert tracer.cat("available_events") == b"synthetic:tick\nsynthetic:move\nsynthetic:stop\n", "the close did more"
    file = OpenFile(tracer, "synthetic_events", os.O_APPEND)
    assert file.write(b"go u8 x\nbad u99 x\nwell u8 x\n") == 8, "the line before what is refused"
    assert file.write(b"bad u99 x\nwell u8 x\n") == -errno.EINVAL, "what is refused is told when it is first"
    assert file.write(b"well u8 x\n") == 10
    file.close()
    assert tracer.cat("available_events") == b"synthetic:tick\nsynthetic:move\nsynthetic:stop\nsynthetic:go\nsynthetic:well\n"
    tracer.end()


def first_by_emptying(command):
    """An open file that was emptied is emptied for its first command alone, whichever write that is in."""
    tracer = Tracer(command)
    file = OpenFile(tracer, "synthetic_events")
    assert file.write(b"move s64 d\nstop u8 x\n") == -errno.EBUSY, "`>` with an event in use"
    file.close()
    file = OpenFile(tracer, "synthetic_events", os.O_APPEND)
    assert file.write(b"move s64 d\nstop u8 x\n") == 21
    assert file.write(b"go u8 x\nwell u8 x") == 17
    file.close()
    assert tracer.cat("available_events").count(b"\n") == 5
    tracer.end()


def triggers(command):
    tracer = Tracer(command)
    file = OpenFile(tracer, TRIGGER)
    assert file.write(b"hist:keys=n\nsnapshot\n") == 21
    shown = tracer.cat(TRIGGER)
    assert shown.startswith(b"hist:keys=n:") and shown.endswith(b"\nsnapshot:unlimited\n"), shown
    assert file.write(b"!hist:keys=n\n!snapshot") == 22, "the last line is done without a newline, too"
    assert tracer.cat(TRIGGER).startswith(b"#")
    assert file.write(b"hist:keys=n\nhist:keys=nobody\nsnapshot\n") == 12
    assert not tracer.errors(), "what was not told is noted"
    assert file.write(b"hist:keys=nobody\nsnapshot\n") == -errno.EINVAL
    (name, _, line, column), = tracer.errors()
    assert (name, line, column) == ("hist:synthetic:tick", "hist:keys=nobody", 10), tracer.errors()
    file.close()
    shown = tracer.cat(TRIGGER)
    assert shown.startswith(b"hist:keys=n:") and shown.count(b"\n") == 1, shown
    tracer.end()


def any_removal_of_a_snapshot(command):
    """What follows `!snapshot:` is ignored, as a kernel does."""
    tracer = Tracer(command)
    for written in (b"!snapshot:unlimited", b"!snapshot:count=3", b"!snapshot:", b"!snapshot:x y if z", b"!snapshot:unlimited if n > 3"):
        tracer.echo(b"snapshot:3 if n > 5", TRIGGER, True)
        assert tracer.cat(TRIGGER) == b"snapshot:count=3 if n > 5\n"
        tracer.echo(written, TRIGGER, True)
        assert tracer.cat(TRIGGER).startswith(b"#"), "%s removed nothing" % written
    for written in (b"!snapshots", b"!snap", b"snapshot:unlimited"):
        assert tracer.refusal(tracer.echo, written, TRIGGER, True) == errno.EINVAL, "%s is done" % written
    tracer.end()


CASES = (declarations, first_by_emptying, triggers, any_removal_of_a_snapshot)
