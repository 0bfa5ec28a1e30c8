"""What an open does, who may use a file, and what a folder lists first."""
import os

import fuse
from kernel_request_cases.sizes import FOLDER, MODE, every_node
from kernel_request_cases.tracer import TICK, Tracer, numbers


def emptied_at_the_open(command):
    """`> trace` empties at once, and never again: what comes later is kept, whatever this open file writes, and however it is closed."""
    for path in ("trace", "per_cpu/cpu0/trace"):
        tracer = Tracer(command)
        node = tracer.lookup(path)
        tracer.emit(1)
        handle = tracer.open(node, os.O_WRONLY | os.O_TRUNC)
        assert numbers(tracer.cat("trace")) == [], "%s is not emptied by the open" % path
        tracer.emit(2)
        assert tracer.write_at(node, handle, 0, b"\n") == 1 and numbers(tracer.cat("trace")) == [2], "a write emptied %s again" % path
        assert tracer.write_at(node, handle, 0, b"some more\n") == 10
        tracer.emit(3)
        tracer.close(node, handle)
        assert numbers(tracer.cat("trace")) == [2, 3], "the close emptied %s" % path
        other = tracer.open(node, os.O_WRONLY | os.O_TRUNC)
        tracer.emit(4)
        tracer.close(node, other)
        assert numbers(tracer.cat("trace")) == [4], "the close of an open file that wrote nothing emptied %s" % path
        tracer.end()


def emptied_alone(command):
    """The CPU's, and the instance's, that was opened."""
    tracer = Tracer(command, "--cpus", "2")
    tracer.mkdir("instances", "a")
    tracer.echo(b"1", "instances/a/events/enable")
    tracer.emit(1, 4)
    tracer.emit(2, 5)
    for path, wanted, others in (("per_cpu/cpu0/trace", [2], [1, 2]), ("instances/a/per_cpu/cpu1/trace", [2], [1]), ("trace", [], [1])):
        tracer.open(tracer.lookup(path), os.O_WRONLY | os.O_TRUNC)
        assert [numbers(tracer.cat(folder + "trace")) for folder in ("", "instances/a/")] == [wanted, others], path
    tracer.end()


def nothing_else_is_emptied(command):
    """Without O_TRUNC nothing is."""
    tracer = Tracer(command)
    node = tracer.lookup("trace")
    tracer.emit(1)
    for flags in (os.O_WRONLY, os.O_RDWR, os.O_WRONLY | os.O_APPEND, os.O_RDONLY):
        tracer.close(node, tracer.open(node, flags))
    assert numbers(tracer.cat("trace")) == [1]
    tracer.end()


BITS = {"trace": 0o666, "events/synthetic": 0o7777, "instances": 0o7777, TICK + "inject": 0o222, TICK + "filter": 0o666, "per_cpu/cpu0/stats": 0o444}
BITS.update({"trace_pipe": 0o444, "README": 0o444, "set_event": 0o666, "error_log": 0o666, "events/synthetic/filter": 0o222, "current_tracer": 0o666})


def permissions(command):
    """`--mode` has what may be done, of which a file has what it can do. Without it the mounter may, and its group may read."""
    for options, mode in (([], 0o750), (["--mode", "0777"], 0o777), (["--mode", "0755"], 0o755), (["--mode", "700"], 0o700)):
        tracer = Tracer(command, *options)
        tracer.mkdir("instances", "a")
        for path, node, kind in every_node(tracer):
            got = tracer.attributes(node)[MODE] & 0o7777
            assert got == mode if kind == FOLDER else got in (mode & 0o444, mode & 0o222, mode & 0o666), "%s has %o by %s" % (path, got, options)
            name = path[len("instances/a/") :] if path.startswith("instances/a/") else path
            assert got == mode & BITS.get(name, got), "%s has %o by %s" % (path, got, options)
        tracer.end()


def lists_begin_alike(command):
    """`.` and `..` come first, whatever the size of the pieces, and once."""
    tracer = Tracer(command)
    tracer.mkdir("instances", "a")
    for path, node, kind in list(every_node(tracer)):
        if kind == FOLDER:
            for size in (65_536, 4_096, 64):
                names = tracer.names(node, size)
                assert [(name, kind) for name, _, kind in names[:2]] == [(".", FOLDER), ("..", FOLDER)], "%s lists %s first" % (path, names[:2])
                assert not {name for name, _, _ in names[2:]} & {".", ".."} and len({name for name, _, _ in names}) == len(names), path
    assert fuse.ROOT in (number for name, number, _ in tracer.names(fuse.ROOT) if name == ".")
    tracer.end()


CASES = (emptied_at_the_open, emptied_alone, nothing_else_is_emptied, permissions, lists_begin_alike)
