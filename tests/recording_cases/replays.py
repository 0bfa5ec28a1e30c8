"""Recordings are replayed: whole, cut at any byte, changed, with other answers, of other versions, and to see files."""
import errno
import io
import os
import random
import tempfile
from pathlib import Path
from types import SimpleNamespace

import fuse
from kernel_page_rules import PAGE, events_in
from recording_cases.making import OPTIONS, PROGRAM, TICK, VERSION, Session, inject, records_of, recorded, recording, replay, replayed, server_of

OTHER = "tracectl-mount 0.4.2, proved, commit ba9876543210"
CUTS = 1_000
CHANGED, REPLAYED = 1_000, 20
SECONDS = 60


def shows_what_was_asked():
    with tempfile.TemporaryDirectory() as folder:
        made = Session(folder)
        got = replayed(made.file)
        assert (got.status, got.stderr) == (0, b""), got
        lines = got.stdout.decode().splitlines()
        system = "%s %s" % (os.uname().sysname, os.uname().release)
        assert lines[0] == "# %s; %s; %s" % (VERSION, system, " ".join(OPTIONS)), lines[0]
        replies = sum(kind == recording.REPLY for kind, _, _ in made.records)
        assert lines[-1] == "# %d requests, %d replies: as recorded; it ended with status 0" % (len(made.requests), replies), lines[-1]
        numbers = [int(line.split()[0]) for line in lines[1:-1] if line[0] != "#" and ", which waited = " not in line]
        assert numbers == list(range(1, len(made.requests) + 1)), numbers
        for part in (
            '2 (7) LOOKUP synthetic_events = node ',
            'WRITE synthetic_events, file 0, 11 bytes at 0 "tick u64 n\\n" = 11',
            "READ trace_pipe, file 0, 65536 bytes at 0 = waits",
            'READ trace_pipe, file 0, 65536 bytes at 0, which waited = 21 "7 [000] 1: tick: n=1\\n"',
            "READ trace_pipe, file 0, 65536 bytes at 0, which waited = EINTR",
            "MKDIR instances/a = node ",
            'WRITE tracing_on, file 1, 2 bytes at 0 "x\\n" = EINVAL',
            "OPEN events/synthetic/tick/filter O_WRONLY|O_TRUNC = file ",
            "RMDIR instances/a = 0",
            "FORGET trace_pipe",
        ):
            assert any(part in line for line in lines), "no line has %s" % part
        copied(made.file, made.folder / "other", OPTIONS, lambda kind, content: content[:-1] + b"\1" if kind == recording.REPLY else content)
        dropped = replayed(made.folder / "other").stdout.decode().splitlines()
        answered = [" = " in line and not line.endswith("= waits") for line in lines]
        for i in range(1, len(lines) - 1):
            assert dropped[i] == lines[i] + (", which nobody took, as it was interrupted" if answered[i] else ""), dropped[i]
        parked = next(i for i, line in enumerate(lines) if "INTERRUPT " in line)
        assert lines[parked + 1].endswith("= EINTR") and lines[parked].split()[-1] == lines[parked + 1].split()[0], lines[parked : parked + 2]


# ---- recordings that were cut or changed


def outcome_of(data, most=None):
    """What replaying these bytes comes to, without lines."""
    reader = recording.Reader(io.BytesIO(data))
    one = replay.replayed(SimpleNamespace(program=str(PROGRAM), until=most), reader, None)
    one.finish()
    one.server.process.wait(SECONDS)
    one.server.process.stdout.close()
    return one


def read(data):
    """The records that these bytes have, what is wrong with them if anything is, and whether they end within one."""
    reader, found = recording.Reader(io.BytesIO(data)), []
    try:
        for kind, content in reader:
            found.append((kind, content, reader.at))
    except recording.NoRecording as fault:
        return found, str(fault), reader.is_cut
    return found, None, reader.is_cut


def is_recording(data):
    try:
        recording.Reader(io.BytesIO(data))
        return True
    except recording.NoRecording:
        return False


def beginnings():
    """Each is read up to its last whole record. What was read replays, once for each number of records."""
    made, tried = recorded(), set()
    ends = [end for _, _, end in made.records]
    for cut in random.Random(7).sample(range(len(made.data)), CUTS):
        data = made.data[:cut]
        if cut < made.head:
            assert not is_recording(data), "%d bytes are a recording" % cut
            continue
        count = sum(end <= cut for end in ends)
        assert read(data) == (made.records[:count], None, cut not in [made.head, *ends]), "cut at %d" % cut
        if count not in tried:
            tried.add(count)
            replays_whole(data, made.records[:count])
    with tempfile.TemporaryDirectory() as folder:
        got = replayed_text(folder, made.data[: ends[40] + 3], by_itself=True)
        assert got.status == 0 and b" as recorded" in got.stdout and got.stdout.endswith(b"; no end was recorded\n"), got
        got = replayed_text(folder, made.data[: made.head - 1])
        assert got.status == 4 and b"it is cut in its first lines" in got.stderr, got


def replays_whole(data, records):
    """What these bytes have of a recording replays, as recorded."""
    one, kinds = outcome_of(data), [kind for kind, _, _ in records]
    assert one.count == kinds.count(recording.REQUEST), "%d bytes: %d requests" % (len(data), one.count)
    assert one.parted is None and one.matched == kinds.count(recording.REPLY) and not one.notes, "%d bytes: %s" % (len(data), one.parted)
    return one


def replayed_text(folder, data, *words, **how):
    file = Path(folder, "other")
    file.write_bytes(data)
    return replayed(file, *words, **how)


def changed_bytes():
    """A byte that was changed is told, and what comes before it is replayed."""
    made, draw = recorded(), random.Random(8)
    ends = [end for _, _, end in made.records]
    for number, at in enumerate(draw.sample(range(len(made.data)), CHANGED)):
        data = bytearray(made.data)
        data[at] ^= draw.randrange(1, 256)
        if at < made.head:
            assert not is_recording(bytes(data)), "byte %d of the head was changed, and nothing told" % at
            continue
        count = sum(end <= at for end in ends)
        told = "it was changed after its byte %d" % (ends[count - 1] if count else made.head)
        assert read(bytes(data))[:2] == (made.records[:count], told), "byte %d" % at
        if number < REPLAYED:
            assert replays_whole(bytes(data), made.records[:count]).damage == told
    with tempfile.TemporaryDirectory() as folder:
        got = replayed_text(folder, made.data[:-1] + bytes([made.data[-1] ^ 1]))
        assert got.status == 4 and b"it was changed after its byte " in got.stderr and got.stderr.count(b"\n") == 1, got
        got = replayed_text(folder, b"#!/bin/sh\n")
        assert got.status == 4 and b"it does not begin with tracectl recording 1" in got.stderr, got
        for where in (folder, folder + "/none"):
            got = replayed(where)
            assert got.status == 5 and got.stderr.count(b"\n") == 1 and where.encode() in got.stderr, got


# ---- other answers, and other versions


def copied(file, to, options, change=lambda kind, content: content, version=VERSION):
    """A copy of a recording with other options and records."""
    with open(to, "wb") as out:
        writer = recording.Writer(out.fileno(), version, "Linux 0", options, print)
        for kind, content, _ in records_of(file)[1]:
            writer.add(kind, change(kind, content))


def other_answers():
    """Where the replies part is told."""
    with tempfile.TemporaryDirectory() as folder:
        made, other = Session(folder), Path(folder, "other")

        def changed(kind, content):
            return content.replace(b"n=1\n", b"n=2\n") if kind == recording.REQUEST else content

        copied(made.file, other, OPTIONS, changed)
        got = replayed(other)
        lines = got.stdout.decode().splitlines()
        parted = next(i for i, line in enumerate(lines) if line.startswith("# here they part: "))
        assert got.status == 1 and lines[-1].endswith(": others than recorded; it ended with status 0"), got
        assert lines[parted - 1].endswith('which waited = 21 "7 [000] 1: tick: n=2\\n"'), lines[parted - 1]
        number = int(lines[parted].split("reply ")[1].split()[0])
        assert lines[parted] == "# here they part: reply %d is another one than was recorded, which has 37 bytes" % number
        assert got.stderr.decode() == "tracectl-mount: %s: %s\n" % (other, lines[parted][len("# here they part: ") :]), got.stderr
        before = next(i for i, line in enumerate(lines) if 'WRITE events/synthetic/tick/inject, file 1, 4 bytes at 0 "n=2' in line)
        assert replayed(other, "--until=%d" % (int(lines[before].split()[0]) - 1)).status == 0
        assert replayed(other, "--until=%d" % int(lines[before].split()[0])).status == 1
        # replies that do not come
        copied(made.file, other, OPTIONS)
        with open(other, "ab") as out:
            writer = recording.Writer(os.open(os.devnull, os.O_WRONLY), VERSION, "Linux 0", OPTIONS, print)
            for kind, content, _ in records_of(made.file)[1]:
                writer.add(kind, content)
            writer.file = out.fileno()
            writer.add(recording.REPLY, recording.REPLY_CONTENT.pack(16, 0, 0))
        got = replayed(other)
        assert got.status == 1 and b"# here they part: the recording has 1 reply more\n" in got.stdout, got


def other_versions():
    """Another version is refused by its name, but by --any-version. What is proved is the same for it, and so is who knows no commit."""
    with tempfile.TemporaryDirectory() as folder:
        made = Session(folder)
        got = replayed(made.file, version=OTHER)
        assert got == (5, b"", ("tracectl-mount: %s was recorded by %s; this is %s\n" % (made.file, VERSION, OTHER)).encode()), got
        assert replayed(made.file, version="tracectl-mount 0.5.0, proved").status == 5
        for words, version in ((["--any-version"], OTHER), ([], VERSION.replace("proved", "unproved")), ([], "tracectl-mount 0.4.2, unproved")):
            got = replayed(made.file, *words, version=version)
            assert got.status == 0 and b": as recorded; " in got.stdout and not got.stderr, got
        copied(made.file, made.folder / "other", ["--help"])
        got = replayed(made.folder / "other")
        assert got.status == 4 and b"has options that are none of this program" in got.stderr, got


# ---- files after some requests


def files_are_shown():
    with tempfile.TemporaryDirectory() as name:
        folder, after = Path(name), []
        server = server_of(folder)
        server.echo(b"tick u64 n", "synthetic_events")
        server.echo(b"1", TICK + "enable")
        for number in range(20):
            inject(server, number)
            after.append((len(server.requests), server.cat("trace"), server.cat("per_cpu/cpu0/stats")))
            if number == 9:
                server.cat("trace_pipe", 21)
        last = server.cat("trace"), len(server.requests)
        assert server.end() == 0
        file = folder / "recording"
        for count, trace, stats in after[::4]:
            got = replayed(file, "--until=%d" % count, "trace", "per_cpu/cpu0/stats")
            assert got == (0, b"==> trace <==\n" + trace + b"\n==> per_cpu/cpu0/stats <==\n" + stats, b""), (count, got)
        assert replayed(file, "trace").stdout == last[0] and replayed(file, "/trace", "--until=%d" % (2 * last[1])).stdout == last[0]
        got = replayed(file, "trace_pipe", "trace_pipe")
        pipes = got.stdout.decode().split("==> trace_pipe <==\n")[1:]
        assert got.status == 0 and pipes[0].count("tick: n=") == 10 and pipes[1] == "", got
        assert replayed(file, "--until=0", "tracing_on") == (0, b"1\n", b"")
        for path, number in (("none", errno.ENOENT), ("events/none", errno.ENOENT), (TICK + "inject", errno.EACCES)):
            got = replayed(file, path)
            assert got == (5, b"", ("tracectl-mount: %s: %s\n" % (path, os.strerror(number))).encode()), got
        assert replayed(file, "events").status == 5


# ---- binary pages

RAW = "per_cpu/cpu0/trace_pipe_raw"


def ticks_in(page):
    assert len(page) == PAGE, "%d bytes are no page" % len(page)
    return [int.from_bytes(data[8:16], "little") for _, data in events_in(page)[0]]


def pages_are_shown():
    """What read(2), splice(2) and poll(2) ask, by numbers that are each LOOKUP's own; and the pages that wait after some requests."""
    with tempfile.TemporaryDirectory() as name:
        folder = Path(name)
        server = server_of(folder)
        server.echo(b"tick u64 n", "synthetic_events")
        server.echo(b"1", TICK + "enable")
        nodes = [server.lookup(RAW) for _ in range(3)]
        assert len(set(nodes)) == 3, "two LOOKUPs of pages give one number"
        handles = [server.open(node, os.O_RDONLY | os.O_NONBLOCK) for node in nodes]
        for number in range(3):
            inject(server, number)
        before = len(server.requests)
        assert ticks_in(server.read_page(nodes[0], handles[0], 0)) == [0, 1, 2]
        assert server.poll(nodes[0], handles[0]) == 0
        node = server.lookup(TICK + "inject")
        writer = server.open(node, os.O_WRONLY)
        server.write_at(node, writer, 0, b"n=3\n")
        assert server.message() == 1
        server.close(node, writer)
        parts = [server.read_at(nodes[1], handles[1], 0, 100), server.read_at(nodes[1], handles[1], 100, 131_072)]
        assert ticks_in(b"".join(parts)) == [3]
        inject(server, 4)
        assert server.poll(nodes[2], handles[2]) & 1
        assert server.end() == 0
        got = replayed(folder / "recording")
        lines = got.stdout.decode().splitlines()
        assert got.status == 0 and lines[-1].endswith(": as recorded; it ended with status 0"), got
        for part in ("READ %s, file 0, 4096 bytes at 0 = 4096 " % RAW, "READ %s, file 1, 100 bytes at 0 = 100 " % RAW, "POLL %s, file 2" % RAW, "# told who polls: 1"):
            assert sum(part in line for line in lines) == 1, "not one line has %s" % part
        for node in nodes:
            assert any(line.endswith("LOOKUP %s = node %d, size %d" % (RAW, node, 1 << 40)) for line in lines), "no line has the number %d" % node
        assert ticks_in(replayed(folder / "recording", RAW).stdout) == [4]
        assert ticks_in(replayed(folder / "recording", "--until=%d" % before, RAW).stdout) == [0, 1, 2]


TESTS = (shows_what_was_asked, beginnings, changed_bytes, other_answers, other_versions, files_are_shown, pages_are_shown)
