"""Recordings that are made without a kernel: tests/fuse.py asks tools/recorder.py, as a kernel would, which asks the program."""
import contextlib
import errno
import functools
import io
import os
import struct
import subprocess
import sys
import tempfile
from pathlib import Path
from types import SimpleNamespace

import fuse
from cases.running import TOP, Case, Outcome, run

sys.path.insert(0, str(TOP / "tools"))

import recording
import replay

PROGRAM = os.environ.get("TRACECTL_MOUNT_PROGRAM", TOP / "crates/tracectl_mount/out/tracectl_mount")
RECORDER, REPLAY = TOP / "tools/recorder.py", TOP / "tools/replay.py"
VERSION = "tracectl-mount 0.4.2, proved, commit 0123456789ab"
OPTIONS = ["--cpus=1", "--pages=16", "--uid=0", "--gid=0"]
TICK = "events/synthetic/tick/"

# Descriptors 4 and 5 are what is told, and the recording.
OPENING = 'exec "${@:3}" 4>> "$1" 5>> "$2"'


def judged(test):
    """A case of a test that asserts."""

    def differences_of(command):
        try:
            test()
        except (AssertionError, OSError, ValueError, EOFError, TimeoutError, fuse.Refused, subprocess.SubprocessError) as error:
            return ["%s: %s" % (type(error).__name__, str(error)[-600:])]
        return []

    return Case(test.__name__, differences_of)


def recorder(folder, options=OPTIONS, program=PROGRAM):
    """The words of a recorder that records in a folder."""
    return ["bash", "-c", OPENING, "-", folder / "told", folder / "recording", sys.executable, RECORDER, "NAME", VERSION, program, *options]


def server_of(folder, **how):
    return fuse.Server([*map(str, recorder(folder, **how))])


def replayed(file, *words, version=VERSION, by_itself=False):
    """What tools/replay.py does with a recording: in this process, or by itself, which takes longer."""
    given = [*(word for word in words if word.startswith("--")), "--", PROGRAM, version, file, *(word for word in words if not word.startswith("--"))]
    if by_itself:
        return run([sys.executable, REPLAY, *given])
    out, told = io.TextIOWrapper(io.BytesIO(), write_through=True), io.StringIO()
    with contextlib.redirect_stdout(out), contextlib.redirect_stderr(told):
        status = replay.run([str(word) for word in given])
    return Outcome(status, out.buffer.getvalue(), told.getvalue().encode())


def records_of(file):
    with open(file, "rb") as opened:
        reader = recording.Reader(opened)
        records = [(kind, content, reader.at) for kind, content in reader]
        return reader, records


def requests_of(file):
    return [content for kind, content, _ in records_of(file)[1] if kind == recording.REQUEST]


# ---- a session


def inject(server, number):
    server.echo(b"n=%d" % number, TICK + "inject", True)


def session(server):
    """Writers, a reader that waits, one that is interrupted, a poll, refusals and an instance."""
    server.echo(b"tick u64 n", "synthetic_events")
    server.echo(b"1", TICK + "enable")
    pipe = server.lookup("trace_pipe")
    handle = server.open(pipe, os.O_RDONLY)
    server.park(pipe, handle)
    inject_while_waiting(server, 1)
    read = server.park(pipe, handle)
    server.interrupt(read)
    assert server.reply() == (read, -errno.EINTR, b"")
    assert server.poll(pipe, handle) == 0
    server.mkdir("instances", "a")
    server.echo(b"1", "instances/a/" + TICK + "enable")
    for path, text in (("tracing_on", b"x"), (TICK + "filter", b"n ~ 1"), (TICK + "inject", b"m=1")):
        try:
            server.echo(text, path)
            raise AssertionError("%s was not refused" % path)
        except fuse.Refused as refused:
            assert refused.number == errno.EINVAL
    server.send(fuse.request(fuse.FORGET, 4_000, pipe, struct.pack("<Q", 1)))
    server.echo(b"hist:keys=n", TICK + "trigger")
    server.rmdir("instances", "a")
    assert server.cat("trace").count(b"tick: n=") == 0
    server.release(pipe, handle)


def inject_while_waiting(server, number):
    """The reply of a reader that waits comes after that of the writer."""
    node = server.lookup(TICK + "inject")
    handle = server.open(node, os.O_WRONLY)
    server.write_at(node, handle, 0, b"n=%d\n" % number)
    _, error, text = server.reply()
    assert error == 0 and text.endswith(b": tick: n=%d\n" % number), text
    server.close(node, handle)


@functools.lru_cache(maxsize=None)
def recorded():
    """A session that was recorded: the bytes of its recording, where the head ends, the records, each with where it ends, and what was asked."""
    with tempfile.TemporaryDirectory() as folder:
        server = server_of(Path(folder))
        session(server)
        assert server.end() == 0 and not Path(folder, "told").read_bytes()
        file = Path(folder, "recording")
        reader, records = records_of(file)
        assert not reader.is_cut
        return SimpleNamespace(data=file.read_bytes(), head=records[0][2] - len(records[0][1]) - 12, records=records, requests=server.requests)


class Session:
    """That session, its recording in a folder."""

    def __init__(self, folder):
        self.folder, self.file = Path(folder), Path(folder, "recording")
        vars(self).update(vars(recorded()))
        self.file.write_bytes(self.data)
