"""Instances that are removed while files of them are open, and what open files hold."""
import errno
import os

from kernel_request_cases.sizes import FOLDER, MODE, every_node
from kernel_request_cases.tracer import Tracer, numbers

TURNS, MOST_GROWN = 1_000, 64 * 1024
FILES = 20


def open_each(tracer, folder, flags, bits):
    """The node and a new open file of each file of an instance that can be used so."""
    for path, node, kind in list(every_node(tracer, folder, tracer.lookup(folder))):
        if kind != FOLDER and tracer.attributes(node)[MODE] & bits:
            yield path, node, tracer.open(node, flags)


def nothing_is_there(command):
    """Each read and each write of each file is ENOENT, also where a text or a record was begun, and nothing is noted."""
    tracer = Tracer(command, "--cpus", "2")
    tracer.mkdir("instances", "a")
    tracer.echo(b"1", "instances/a/events/enable")
    for number in range(20):
        tracer.emit(number, number + 2)
    assert tracer.refusal(tracer.echo, b"x", "instances/a/tracing_on") == errno.EINVAL
    fresh = list(open_each(tracer, "instances/a", os.O_RDONLY | os.O_NONBLOCK, 0o444))
    begun = list(open_each(tracer, "instances/a", os.O_RDONLY | os.O_NONBLOCK, 0o444))
    written = list(open_each(tracer, "instances/a", os.O_WRONLY, 0o222))
    assert len(fresh) > 30 and len(written) > 15
    read = {path: tracer.read_at(node, handle, 0, 5, os.O_NONBLOCK) for path, node, handle in begun}
    assert read["instances/a/trace_pipe"] and read["instances/a/trace"] and read["instances/a/error_log"], read
    tracer.rmdir("instances", "a")
    tracer.mkdir("instances", "a")
    for path, node, handle in fresh + begun:
        for offset in (0, 5, 1 << 20):
            assert tracer.refusal(tracer.read_at, node, handle, offset, 4_096, os.O_NONBLOCK) == errno.ENOENT, "a read of %s at %d" % (path, offset)
    for path, node, handle in written:
        for data in (b"1\n", b"x\ny\n", b"n=1", b"hist:keys=n"):
            assert tracer.refusal(tracer.write_at, node, handle, 0, data) == errno.ENOENT, "a write to %s" % path
    assert not tracer.errors() and not tracer.errors("instances/a/")
    for path, node, handle in fresh + begun + written:
        tracer.refusal(tracer.close, node, handle)
        for call, given in ((tracer.attributes, (node,)), (tracer.open, (node, os.O_RDONLY)), (tracer.open, (node, os.O_WRONLY | os.O_TRUNC))):
            assert tracer.refusal(call, *given) == errno.ENOENT, path
    assert not tracer.errors() and not tracer.errors("instances/a/") and tracer.taken() == list(range(20))
    tracer.end()


def turn(tracer):
    """What `mkdir; exec 3> tracing_on; rmdir; 8 refused writes; close` asks."""
    tracer.mkdir("instances", "a")
    node = tracer.lookup("instances/a/tracing_on")
    handle = tracer.open(node, os.O_WRONLY | os.O_TRUNC)
    tracer.rmdir("instances", "a")
    for _ in range(8):
        assert tracer.refusal(tracer.write_at, node, handle, 0, b"x" * 250 + b"\n") == errno.ENOENT
    tracer.close(node, handle)


def errors_of_what_is_gone(command):
    """The server does not grow by errors of instances that are no more."""
    tracer = Tracer(command)
    for _ in range(TURNS // 10):
        turn(tracer)
    before = tracer.resident()
    for _ in range(TURNS):
        turn(tracer)
    grown = tracer.resident() - before
    assert grown <= MOST_GROWN, "%d turns grew the server by %d bytes" % (TURNS, grown)
    tracer.end()


def texts_are_given_back(command):
    """An open file that was read to its end holds no text."""
    tracer = Tracer(command, "--pages", "1024")
    tracer.fill(60_000)
    node = tracer.lookup("trace")
    handles = [tracer.open(node, os.O_RDONLY) for _ in range(FILES)]
    sizes = []
    for handle in handles:
        size = 0
        while more := tracer.read_at(node, handle, size, 1 << 17):
            size += len(more)
        sizes.append(tracer.resident())
    assert size > 1_500_000 and sizes[-1] < sizes[0] + size, "%d open files of %d bytes: the server has %s" % (FILES, size, sizes)
    tracer.end()


def length_of_a_text_stays(command):
    """A read at the end of what was read, or beyond it, gives nothing, though there would be more by now. One before it makes the text anew."""
    tracer = Tracer(command)
    tracer.fill(3)
    node = tracer.lookup("trace")
    handle = tracer.open(node, os.O_RDONLY)
    before = tracer.cat("trace")
    assert tracer.read_at(node, handle, 0, 10) == before[:10]
    tracer.fill(3)
    assert tracer.read_at(node, handle, 10, 1 << 16) == before[10:], "a text that was begun goes on"
    for offset in (len(before), len(before) + 1, 1 << 30):
        assert tracer.read_at(node, handle, offset, 1 << 16) == b"", "after its end"
    after = tracer.cat("trace")
    assert tracer.read_at(node, handle, 20, 30) == after[20:50], "before its end it is made anew"
    assert tracer.read_at(node, handle, 50, 1 << 16) == after[50:]
    assert tracer.read_at(node, handle, len(after), 100) == b""
    tracer.fill(1)
    assert tracer.read_at(node, handle, len(after), 100) == b""
    assert numbers(tracer.read_at(node, handle, 0, 1 << 16)) == [0, 1, 2, 0, 1, 2, 0], "at 0 it is made anew"
    tracer.end()


CASES = (nothing_is_there, errors_of_what_is_gone, texts_are_given_back, length_of_a_text_stays)
