"""Sizes that are told, and reads of pages: what `sendfile`, and whatever asks for a size first, gets of a file."""
import errno
import os

import fuse
from kernel_request_cases.tracer import TICK, Tracer

PIPE_SIZE = 1  # what is told of a pipe, with EINVAL to a read of a page, so that who began with `sendfile` goes on with `read`; 0 without that
KEPT = 8  # texts
PAGE = 4_096
SIZE, MODE = 1, 9  # where fuse_attr has them
READ_BITS, FOLDER = 0o444, 4
LOOKED_AT = ("trace", "snapshot", "set_event", "error_log", "README", "trace_options", "tracing_on", "available_events", "synthetic_events", "current_tracer")


def every_node(tracer, path="", node=fuse.ROOT):
    """The path, the node and the kind of each file and folder."""
    yield path, node, FOLDER
    for name, number, kind in tracer.names(node):
        where = "%s/%s" % (path, name) if path else name
        if name in (".", ".."):
            continue
        if kind == FOLDER:
            yield from every_node(tracer, where, number)
        else:
            yield where, number, kind


def has_size(tracer, path, node, kind):
    """The size that a node should have, by what a read of it gives."""
    if path.endswith("trace_pipe"):
        return PIPE_SIZE
    if path.endswith("trace_pipe_raw"):
        return 0
    is_read = kind != FOLDER and tracer.attributes(node)[MODE] & READ_BITS
    return len(tracer.cat(path)) if is_read else 0


def of_every_file(command):
    """LOOKUP, GETATTR and SETATTR tell how long each text is, now, with and without records, errors, triggers and instances; of binary pages LOOKUP tells
    another size."""
    tracer = Tracer(command, "--cpus", "2", "--pages", "4")
    for turn in range(3):
        for path, node, kind in list(every_node(tracer)):
            wanted = has_size(tracer, path, node, kind)
            told = [tracer.attributes(node)[SIZE], fuse.ATTR.unpack_from(tracer.ask(fuse.SETATTR, node, bytes(88)), 16)[SIZE]]
            if path.endswith("trace_pipe_raw"):
                assert tracer.size_told(path) == fuse.PAGES_SIZE
            elif path:
                told.append(tracer.size_told(path))
            assert set(told) == {wanted}, "%s has a size of %d, and %s are told" % (path, wanted, told)
        if turn == 0:
            tracer.mkdir("instances", "a")
            tracer.echo(b"1", "instances/a/events/enable")
            tracer.echo(b"hist:keys=n", TICK + "trigger", True)
            tracer.echo(b"n > 1", "instances/a/" + TICK + "filter")
        tracer.fill(5_000)
        assert tracer.refusal(tracer.echo, b"n >", TICK + "filter") == errno.EINVAL
        tracer.echo(b"1", "snapshot")
    tracer.end()


def after_each_change(command):
    """A size is that of the text that a read would give, after whatever changes it."""
    tracer = Tracer(command)
    tracer.mkdir("instances", "a")
    changes = [
        *(lambda: tracer.emit(1), lambda: tracer.echo(b"stop u8 x", "synthetic_events", True), lambda: tracer.echo(b"1", "snapshot")),
        *(lambda: tracer.echo(b"0", "events/enable"), lambda: tracer.echo(b"stop", "set_event", True), lambda: tracer.echo(b"overwrite", "trace_options")),
        *(lambda: tracer.refusal(tracer.echo, b"x", TICK + "filter"), lambda: tracer.cat("trace_pipe"), lambda: tracer.echo(b"", "trace")),
        *(lambda: tracer.echo(b"n == 1", TICK + "filter"), lambda: tracer.echo(b"", "error_log"), lambda: tracer.echo(b"0", "snapshot")),
        *(lambda: tracer.echo(b"000", "tracing_on"), lambda: tracer.echo(b"n == 10", TICK + "filter")),
    ]
    paths = [*LOOKED_AT, TICK + "filter", TICK + "enable", "per_cpu/cpu0/stats", "instances/a/error_log", "events/enable"]
    for number, change in enumerate(changes):
        change()
        for path in paths:
            told, text = tracer.size_told(path), tracer.cat(path)
            assert told == len(text), "after change %d %s has %d bytes, and %d are told" % (number, path, len(text), told)
    tracer.end()


def pages(tracer, path, node, handle):
    """All that reads of pages give, each as the page cache asks it."""
    text, wanted = b"", tracer.attributes(node)[SIZE]
    while len(text) < wanted and (more := tracer.read_page(node, handle, len(text))):
        text += more
    return text


def pages_are_what_was_counted(command):
    """A read of a page gives of the text that was counted, whatever came since. An ordinary read makes its own."""
    tracer = Tracer(command)
    tracer.fill(200)
    before, counted = tracer.cat("trace"), tracer.size_told("trace")
    node = tracer.lookup("trace")
    handle = tracer.open(node, os.O_RDONLY)
    tracer.fill(5)
    assert len(before) == counted
    text = b"".join(tracer.read_page(node, handle, offset) for offset in range(0, counted, PAGE))
    assert text == before, "a page is not of the text that was counted"
    assert tracer.read_page(node, handle, counted) == b"", "after the text that was counted there is more"
    assert tracer.read_page(node, handle, 0, 100) == before[:100]
    own = tracer.open(node, os.O_RDONLY)
    after = tracer.read_at(node, own, 0, 1 << 16)
    assert len(after) > counted and tracer.read_page(node, handle, 0) in (before[:PAGE], after[:PAGE])
    tracer.size_told("trace")
    another = tracer.open(node, os.O_RDONLY)
    assert tracer.read_page(node, another, 0) == after[:PAGE], "what was counted anew is not given"
    tracer.end()


def counted_by_attributes(command):
    """GETATTR counts as LOOKUP does, as fstat asks it of an open file."""
    tracer = Tracer(command)
    node = tracer.lookup("trace")
    handle = tracer.open(node, os.O_RDONLY)
    tracer.fill(3)
    size, text = tracer.attributes(node)[SIZE], tracer.cat("trace")
    tracer.fill(3)
    assert tracer.read_page(node, handle, 0) == text and len(text) == size
    tracer.end()


def some_are_kept(command):
    """What was counted of the nodes that were asked for last is kept, one text a node."""
    tracer = Tracer(command)
    others = [path for path, _, kind in every_node(tracer) if "/" not in path and kind != FOLDER and path not in ("trace", "trace_pipe")]
    tracer.emit(1)
    counted, text = tracer.size_told("trace"), tracer.cat("trace")
    node = tracer.lookup("trace")
    tracer.emit(2)
    for path in others[: KEPT - 1]:
        tracer.size_told(path)
    handle = tracer.open(node, os.O_RDONLY)
    assert counted == len(text) and tracer.read_page(node, handle, 0) == text, "a text was dropped after %d others" % (KEPT - 1)
    tracer.end()


def few_are_kept(command):
    """They are few: of many large texts only so many are held."""
    tracer = Tracer(command, "--pages", "256")
    for number in range(7):
        tracer.mkdir("instances", "a%d" % number)
        tracer.echo(b"1", "instances/a%d/events/enable" % number)
    tracer.fill(40_000)
    paths = ["%s%strace" % (folder, part) for folder in ("", *("instances/a%d/" % number for number in range(7))) for part in ("", "per_cpu/cpu0/")]
    for path in paths:
        tracer.size_told(path)
    before = tracer.resident()
    for _ in range(5):
        tracer.emit(1)
        for path in paths:
            tracer.size_told(path)
    size, grown = tracer.size_told("trace"), tracer.resident() - before
    assert size > 1_000_000 and grown < 10 * size, "the server grew by %d bytes, and a text has %d" % (grown, size)
    tracer.end()


def pages_of_a_pipe(command):
    """A read of a page of a pipe takes nothing."""
    tracer = Tracer(command)
    tracer.emit(1)
    for path in ("trace_pipe", "per_cpu/cpu0/trace_pipe"):
        node = tracer.lookup(path)
        assert tracer.size_told(path) == tracer.attributes(node)[SIZE] == PIPE_SIZE
        if PIPE_SIZE:
            handle = tracer.open(node, os.O_RDONLY)
            assert tracer.refusal(tracer.read_page, node, handle, 0) == errno.EINVAL
    assert tracer.taken() == [1]
    tracer.end()


CASES = (of_every_file, after_each_change, pages_are_what_was_counted, counted_by_attributes, some_are_kept, few_are_kept, pages_of_a_pipe)
