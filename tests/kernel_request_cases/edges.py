"""Who polls a pipe: which messages come, and what a poll costs."""
import errno
import os

import fuse
from kernel_request_cases.lines import OpenFile
from kernel_request_cases.tracer import Tracer, numbers

READABLE = 0x41
ONE = 2_048  # bytes, for which one record is taken
MANY, POLLS = 10_000, 4_000
MOST_DEARER = 5.0  # by the processor's time, which caches and other programs change; in instructions it is far less


class Waiting:
    """An open pipe, which may be polled, with the number that a message tells."""

    def __init__(self, tracer, number):
        self.tracer, self.number = tracer, number
        self.handle = tracer.open(tracer.pipes, os.O_RDONLY | os.O_NONBLOCK)

    def poll(self, flags=fuse.POLL_SCHEDULE_NOTIFY):
        return self.tracer.poll(self.tracer.pipes, self.handle, self.number, flags)

    def read(self, size=65_536):
        """The numbers of what is read, or None if nothing is there."""
        try:
            return numbers(self.tracer.read_at(self.tracer.pipes, self.handle, 0, size, os.O_NONBLOCK))
        except fuse.Refused as refused:
            assert refused.number == errno.EAGAIN
            return None

    def is_told(self):
        """Whether a message of it is next. All that was told is read."""
        return self.tracer.message() == self.number and self.tracer.is_quiet()


def after_again(command):
    """As Go does: it reads until nothing is there, and then waits for an edge, never polling again."""
    tracer = Tracer(command)
    for number, first in enumerate((0, 3)):
        tracer.fill(first)
        pipe = Waiting(tracer, number)
        assert pipe.poll() == (READABLE if first else 0)
        if first:
            assert pipe.read() == list(range(first))
        assert pipe.read() is None
        for event in range(5):
            tracer.emit(event)
            assert pipe.is_told(), "event %d" % event
            tracer.emit(event + 10)
            assert tracer.is_quiet(), "a message came twice without a read"
            assert pipe.read() == [event, event + 10] and pipe.read() is None and tracer.is_quiet()
        tracer.release(tracer.pipes, pipe.handle)
        tracer.emit(99)
        assert tracer.is_quiet() and tracer.taken() == [99], "a file that is closed was told"
    tracer.end()


def after_a_short_read(command):
    """As tokio does: what a read leaves is told at once, since a short read is taken to have left nothing."""
    tracer = Tracer(command)
    pipe = Waiting(tracer, 7)
    assert pipe.poll() == 0
    tracer.emit(0)
    assert pipe.is_told()
    tracer.emit(1)
    tracer.emit(2)
    for event in range(3):
        assert pipe.read(ONE) == [event]
        assert pipe.is_told() if event < 2 else tracer.is_quiet(), "after record %d" % event
    tracer.emit(3)
    assert pipe.is_told() and pipe.read(ONE) == [3] and tracer.is_quiet()
    tracer.emit(4)
    assert pipe.is_told() and tracer.taken() == [4] and tracer.is_quiet()
    assert pipe.read() is None and tracer.is_quiet(), "another reader took what was told"
    tracer.emit(5)
    assert pipe.is_told() and pipe.read() == [5]
    tracer.end()


def a_rest_of_a_record(command):
    """What did not fit is left, too."""
    tracer = Tracer(command)
    pipe = Waiting(tracer, 8)
    assert pipe.poll() == 0
    tracer.emit(1)
    assert pipe.is_told()
    text = b""
    while not text.endswith(b"\n"):
        text += tracer.read_at(tracer.pipes, pipe.handle, 0, 7, os.O_NONBLOCK)
        if not text.endswith(b"\n"):
            assert pipe.is_told()
    assert numbers(text) == [1] and tracer.is_quiet() and pipe.read() is None
    tracer.emit(2)
    assert pipe.is_told() and pipe.read() == [2]
    tracer.end()


def after_the_end(command):
    """The end is told once; after it was read only a record is told."""
    tracer = Tracer(command)
    pipe, switch = Waiting(tracer, 3), OpenFile(tracer, "tracing_on", 0)
    assert pipe.poll() == 0
    tracer.emit(1)
    assert pipe.is_told() and pipe.read() == [1]
    assert switch.write(b"0") == 1
    assert pipe.is_told() and pipe.read() == [] and tracer.is_quiet()
    assert pipe.read() == [] and tracer.is_quiet()
    assert switch.write(b"1") == 1 and tracer.is_quiet()
    tracer.emit(2)
    assert pipe.is_told() and pipe.read() == [2] and tracer.is_quiet()
    tracer.emit(3)
    assert pipe.is_told() and switch.write(b"0") == 1 and pipe.read() == [3]
    assert pipe.is_told() and pipe.read() == [] and tracer.is_quiet(), "the end that is left is told"
    tracer.end()


def who_asked_for_nothing(command):
    """Only who asked to be told is told, by the number that it gave last."""
    tracer = Tracer(command)
    pipe, other = Waiting(tracer, 1), Waiting(tracer, 2)
    assert pipe.read() is None and other.poll(0) == 0 and other.read() is None
    tracer.emit(1)
    assert tracer.is_quiet() and pipe.read() == [1] and other.read() is None
    pipe.poll()
    pipe.number = 5
    assert pipe.poll() == 0 and other.read() is None
    tracer.emit(2)
    assert pipe.is_told() and pipe.poll(0) == READABLE and pipe.read() == [2] and tracer.is_quiet()
    tracer.emit(3)
    assert pipe.is_told(), "a poll that wants no message took away that one is wanted"
    tracer.end()


def of_an_instance_that_goes(command):
    tracer = Tracer(command)
    tracer.mkdir("instances", "a")
    node = tracer.lookup("instances/a/trace_pipe")
    handle = tracer.open(node, os.O_RDONLY)
    assert tracer.poll(node, handle, 4) == 0
    assert tracer.refusal(tracer.read_at, node, handle, 0, 4_096, os.O_NONBLOCK) == errno.EAGAIN
    tracer.rmdir("instances", "a")
    assert tracer.message() == 4 and tracer.is_quiet()
    for _ in range(3):
        assert tracer.refusal(tracer.read_at, node, handle, 0, 4_096) == errno.ENOENT and tracer.is_quiet()
    tracer.end()


def cost_of_a_poll(tracer, handles):
    """What a poll takes, in nanoseconds of the processor: the least of some tries."""
    tries = []
    for _ in range(5):
        before = tracer.processor_time()
        for number in range(POLLS):
            tracer.poll(tracer.pipes, handles[number % len(handles)], number)
        tries.append((tracer.processor_time() - before) / POLLS)
    return min(tries)


def beside_many(command):
    """A poll beside many that wait costs about what it does beside a few."""
    tracer = Tracer(command)
    few = [tracer.open(tracer.pipes, os.O_RDONLY) for _ in range(10)]
    beside_few = cost_of_a_poll(tracer, few)
    many = few + [tracer.open(tracer.pipes, os.O_RDONLY) for _ in range(MANY)]
    for number, handle in enumerate(many):
        tracer.poll(tracer.pipes, handle, number)
    beside_all = cost_of_a_poll(tracer, many[:: MANY // 100])
    assert beside_all < MOST_DEARER * beside_few, "a poll takes %d ns beside %d, and %d ns beside ten" % (beside_all, MANY, beside_few)
    tracer.emit(1)
    for _ in many:
        tracer.message()
    assert tracer.is_quiet(), "more were told than wait"
    tracer.end()


CASES = (after_again, after_a_short_read, a_rest_of_a_record, after_the_end, who_asked_for_nothing, of_an_instance_that_goes, beside_many)
