"""What the recorder hands on and records, and how it ends."""
import errno
import os
import signal
import struct
import tempfile
import threading
import time
import zlib
from pathlib import Path

import fuse
from cases.running import run
from recording_cases.making import OPTIONS, PROGRAM, TICK, Session, inject, recorder, recording, records_of, replayed, requests_of, server_of

SECONDS = 60


def passes_byte_for_byte():
    """What is recorded is what was asked, and the replies are those that the program gives without a recorder."""
    with tempfile.TemporaryDirectory() as folder:
        made = Session(folder)
        asked = [content for kind, content, _ in made.records if kind == recording.REQUEST]
        assert asked == made.requests
        kinds = b"".join(kind for kind, _, _ in made.records)
        assert kinds.endswith(recording.END) and made.records[-1][1] == bytes(4)
        direct = run([PROGRAM, *OPTIONS], script=b"".join(asked))
        with open(made.folder / "requests", "wb") as file:
            file.write(b"".join(asked))
        (made.folder / "recording").unlink()
        with open(made.folder / "requests", "rb") as file:
            fed = run(recorder(made.folder), stdin=file)
        assert fed == direct and direct.status == 0
        notes = [recording.REPLY_CONTENT.unpack(content) for kind, content, _ in made.records if kind == recording.REPLY]
        assert sum(length for length, _, _ in notes) == len(direct.stdout) and notes[-1][1] == zlib.crc32(direct.stdout)
        assert requests_of(made.file) == asked and not (made.folder / "told").read_bytes()


def no_room():
    """Where the recording can't grow it ends, which a line tells, and the tracer goes on."""
    with tempfile.TemporaryDirectory() as name:
        folder = Path(name)
        words = ["bash", "-c", 'ulimit -f 16; exec "$@"', "-", *recorder(folder)]
        server = fuse.Server([*map(str, words)])
        server.echo(b"tick u64 n", "synthetic_events")
        server.echo(b"1", TICK + "enable")
        for number in range(200):
            inject(server, number)
        assert server.cat("trace").count(b"tick: n=") == 200
        assert server.end() == 0
        told = "tracectl-mount: the recording NAME ends here, and the tracer goes on: File too large\n"
        assert (folder / "told").read_text() == told, (folder / "told").read_text()
        got = replayed(folder / "recording")
        assert got.status == 0 and b" as recorded" in got.stdout and got.stdout.endswith(b"; no end was recorded\n"), got
        assert 100 < len(requests_of(folder / "recording")) < len(server.requests)
        assert requests_of(folder / "recording") == server.requests[: len(requests_of(folder / "recording"))]


def large_messages():
    """Requests and replies of the largest sizes, also at once, as by reads of two open files."""
    with tempfile.TemporaryDirectory() as name:
        folder = Path(name)
        server = server_of(folder, options=["--pages=1024"])
        server.echo(b"tick u64 n", "synthetic_events")
        server.echo(b"1", TICK + "enable")
        node = server.lookup(TICK + "inject")
        handle = server.open(node, os.O_WRONLY)
        lines = b"".join(b"n=%d\n" % number for number in range(1_000_000, 1_013_100))
        assert len(lines) == 131_000 and server.write_at(node, handle, 0, lines) == len(lines)
        server.release(node, handle)
        trace = server.lookup("trace")
        opened = server.open(trace, os.O_RDONLY)
        read = fuse.request(fuse.READ, 9_001, trace, struct.pack("<QQIIQII", opened, 0, 131_072, 2, 0, 0, 0))
        body = struct.pack("<QQIIQII", 1 << 40, 0, 131_072, 2, 0, 0, 0) + bytes(131_072)
        sending = threading.Thread(target=lambda: [server.send(data) for data in (read, fuse.request(fuse.WRITE, 9_003, node, body)) * 3])
        sending.start()
        for number in range(3):
            got = server.reply()[:2], server.reply()[:2]
            assert got == ((9_001, 0), (9_003, -errno.EBADF)), (number, got)
        sending.join()
        assert server.end() == 0
        assert requests_of(folder / "recording") == server.requests
        got = replayed(folder / "recording")
        assert got.status == 0 and b": as recorded; it ended with status 0\n" in got.stdout, got.stderr


def no_requests():
    """Bytes that are no request end the program, as without a recorder."""
    begin = fuse.request(fuse.INIT, 2, 0, struct.pack("<IIII", 7, 31, 0, 0))
    for data in (bytes(40), b"\xff" * 40, begin + b"\x27\0\0\0" + bytes(80), begin[:30], begin + begin[:50]):
        with tempfile.TemporaryDirectory() as name:
            got = run(recorder(Path(name)), script=data)
            assert got == run([PROGRAM, *OPTIONS], script=data) and got.status == 4, (data, got)
            _, records = records_of(Path(name, "recording"))
            assert records[-1][:2] == (recording.END, recording.NUMBER.pack(4)), records
            got = replayed(Path(name, "recording"))
            assert got.status == 0 and got.stdout.endswith(b"; it ended with status 4\n"), got
    with tempfile.TemporaryDirectory() as name:
        assert run(recorder(Path(name))) == (0, b"", b"") and replayed(Path(name, "recording")).status == 0
        assert run(recorder(Path(name), options=["--cpus=9"])).status == 2


def children_of(process):
    return [int(word) for word in Path("/proc/%d/task/%d/children" % (process, process)).read_text().split()]


def ended_by_signals():
    """A signal ends the program, too, and is noted; a program that is killed ends the recorder; of one that is killed nothing is lost that was asked."""
    by_signals = [("recorder", signal.SIGTERM, 143), ("recorder", signal.SIGHUP, 129), ("recorder", signal.SIGINT, 130)]
    for whom, sign, status in (*by_signals, ("program", signal.SIGKILL, 137), ("recorder", signal.SIGKILL, None)):
        with tempfile.TemporaryDirectory() as name:
            server = fuse.Server(["env", "--default-signal=HUP,INT,TERM", *map(str, recorder(Path(name)))])
            inside = children_of(server.process.pid)
            server.echo(b"tick u64 n", "synthetic_events")
            pipe = server.lookup("trace_pipe")
            server.park(pipe, server.open(pipe, os.O_RDONLY))
            until = time.monotonic() + SECONDS
            while requests_of(Path(name, "recording")) != server.requests:
                assert time.monotonic() < until, "a request is not recorded"
                time.sleep(0.01)
            os.kill(inside[0] if whom == "program" else server.process.pid, sign)
            assert server.process.wait(SECONDS) == (-sign if status is None else status), (whom, sign, server.process.returncode)
            until = time.monotonic() + SECONDS
            while any(Path("/proc/%d" % process).exists() for process in inside):
                assert time.monotonic() < until, "the program goes on"
                time.sleep(0.01)
            server.process.stdin.close()
            server.process.stdout.close()
            got = replayed(Path(name, "recording"))
            ending = "; no end was recorded" if status is None else "; it ended with status %d" % status
            assert got.status == 0 and got.stdout.decode().endswith("%s\n" % ending) and b" = waits\n" in got.stdout, got


def unwritten():
    """Replies that are not taken end it, with the status that the program has then."""
    with tempfile.TemporaryDirectory() as name, tempfile.TemporaryFile() as requests, open("/dev/full", "wb") as full:
        requests.write(fuse.request(fuse.INIT, 2, 0, struct.pack("<IIII", 7, 31, 0, 0)))
        requests.seek(0)
        got = run(recorder(Path(name)), stdin=requests, stdout=full)
        assert got == (5, b"", b"tracectl-mount: a reply can't be written: No space left on device\n"), got
        written = os.open(os.devnull, os.O_WRONLY)
        got = run(recorder(Path(name)), stdin=written)
        os.close(written)
        assert got == (5, b"", b"tracectl-mount: requests can't be read: Bad file descriptor\n"), got


TESTS = (passes_byte_for_byte, no_room, large_messages, no_requests, ended_by_signals, unwritten)
