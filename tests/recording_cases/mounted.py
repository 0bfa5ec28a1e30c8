"""Recordings of tracers that are really mounted, each in a namespace of mounts and of processes, so that only its servers are seen there."""
import errno
import os
import re
import select
import signal
import stat
import subprocess
import sys
import tempfile
import time
import zlib
from pathlib import Path

from cases.running import TOP, Case, run
from kernel_page_rules import PAGE, events_in
from recording_cases.making import PROGRAM, judged, recording, records_of, replayed

RECORDING = TOP / "tests/recording"
PLACE = Path("/sys/kernel/tracing")
TICK = "events/synthetic/tick/"
WRITERS, EACH = 3, 40
PATIENCE = 60
NOBODY = ["setpriv", "--reuid", "65534", "--regid", "65534", "--clear-groups", "--", "env", "TMPDIR=/tmp"]
UNPROVED = re.compile(rb"^tracectl-mount: nothing of this program is proved;.*\n", re.M)


# ---- within the namespace of a command


def put(path, text, mode="w"):
    with open(PLACE / path, mode) as file:
        file.write(text)


def forked(call, *given):
    child = os.fork()
    if not child:
        try:
            call(*given)
            os._exit(0)
        finally:
            os._exit(1)
    return child


def emit(count):
    file = os.open(PLACE / (TICK + "inject"), os.O_WRONLY)
    for number in range(count):
        os.write(file, b"n=%d\n" % number)
    os.close(file)


def refused(call, number):
    try:
        call()
        raise AssertionError("it was not refused")
    except OSError as error:
        assert error.errno == number, error


def wait_parked(process):
    """Until it waits in a read of the tracer: of system calls read is number 0 on x86-64."""
    if os.uname().machine != "x86_64" or not Path("/proc/self/syscall").exists():
        time.sleep(1)
        return

    def is_parked():
        try:
            words = Path("/proc/%d/syscall" % process).read_text().split()
            return words[0] == "0" and os.readlink("/proc/%d/fd/%d" % (process, int(words[1], 16))).startswith(str(PLACE))
        except (OSError, IndexError):
            return False

    wait_until(is_parked, "%d does not wait in a read" % process)


def interrupted_read():
    """A reader that waits, and that a signal interrupts, whose handler raises."""

    def child():
        signal.signal(signal.SIGUSR1, lambda *_: os._exit(42))
        os.read(os.open(PLACE / "trace_pipe", os.O_RDONLY), 100)

    reader = forked(child)
    wait_parked(reader)
    os.kill(reader, signal.SIGUSR1)
    assert os.waitstatus_to_exitcode(os.waitpid(reader, 0)[1]) == 42


def events_of_pages(folder):
    """How many events the binary pages of two CPUs have, each the first one by splice, if this Python has that, and the others by read."""
    found = 0
    for cpu in range(2):
        file, (out, into) = os.open(PLACE / folder / ("per_cpu/cpu%d/trace_pipe_raw" % cpu), os.O_RDONLY | os.O_NONBLOCK), os.pipe()
        try:
            page = os.read(out, os.splice(file, into, PAGE)) if hasattr(os, "splice") else os.read(file, PAGE)
            while page:
                found += len(events_in(page)[0])
                page = os.read(file, PAGE)
        except BlockingIOError:
            pass
    return found


def session():
    """Writers beside a reader that waits, refusals, an instance, binary pages, and an interrupted read."""
    put("synthetic_events", "tick u64 n\n")
    put(TICK + "enable", "1\n")
    interrupted_read()
    (PLACE / "instances/a").mkdir()
    put("instances/a/" + TICK + "enable", "1\n")
    reader = subprocess.Popen(["cat", str(PLACE / "trace_pipe")], stdout=subprocess.PIPE)
    wait_parked(reader.pid)
    writers = [forked(emit, EACH) for _ in range(WRITERS)]
    read = b""
    while read.count(b"tick: n=") < WRITERS * EACH:
        assert select.select([reader.stdout], [], [], PATIENCE)[0], "the reader shows %d lines" % read.count(b"\n")
        read += os.read(reader.stdout.fileno(), 1 << 16)
    assert not any(os.waitstatus_to_exitcode(os.waitpid(writer, 0)[1]) for writer in writers)
    reader.kill()
    reader.wait()
    refused(lambda: put("tracing_on", "x\n"), errno.EINVAL)
    refused(lambda: put(TICK + "inject", "m=1\n"), errno.EINVAL)
    refused(lambda: os.mkdir(PLACE / "instances/a"), errno.EEXIST)
    assert (PLACE / "instances/a/trace").read_text().count(": tick: n=") == WRITERS * EACH
    assert events_of_pages("instances/a") == WRITERS * EACH
    (PLACE / "instances/a").rmdir()


# ---- beside a tracer that is mounted on a folder


def start(*words, **how):
    """What a command does. It has to let go of its output."""
    ran = subprocess.run([*map(str, words)], stdin=subprocess.DEVNULL, stdout=subprocess.PIPE, stderr=subprocess.PIPE, timeout=PATIENCE, **how)
    return ran.returncode, ran.stdout.decode(), UNPROVED.sub(b"", ran.stderr).decode()


def processes(name):
    """Those whose program or script has this in its words."""
    found = []
    for process in Path("/proc").glob("[0-9]*"):
        try:
            found += [int(process.name)] if name in (process / "cmdline").read_text().split("\0\0")[0] else []
        except OSError:
            pass
    return found


def servers():
    """The processes that serve here, recorders among them."""
    return [process for process in processes("/tracectl_mount") if process != os.getpid()]


def wait_until(is_so, what):
    until = time.monotonic() + PATIENCE
    while not is_so():
        assert time.monotonic() < until, what
        time.sleep(0.02)


def wait_for_end():
    wait_until(lambda: not servers(), "a server goes on: %s" % servers())


def use(place, count=1):
    """Declares an event, and makes some."""
    (place / "synthetic_events").write_text("tick u64 n\n")
    (place / TICK / "enable").write_text("1\n")
    for number in range(count):
        (place / TICK / "inject").write_text("n=%d\n" % number)


def replay(command, file, *words, by=()):
    """The lines of a replay as recorded."""
    status, out, said = start(*by, command, "--replay", file, *words)
    assert (status, said) == (0, ""), (status, out[-300:], said)
    return out.splitlines()


def is_private(file):
    return stat.S_IMODE(file.stat().st_mode) == 0o600


def on_folder(command, place):
    """In the background until umount, also with a FILE that is named from where the starter begins; its end is noted."""
    top = place.parent
    assert start(command, "--record", "one", "--cpus", "2", place, cwd=top) == (0, "", "")
    use(place, 3)
    assert is_private(top / "one")
    subprocess.run(["umount", str(place)], check=True)
    wait_for_end()
    lines = replay(command, top / "one")
    assert "; --cpus=2 --uid=" in lines[0], lines[0]
    assert lines[-1].endswith(": as recorded; it ended with status 0"), lines[-1]
    assert start(command, "--replay=one", "trace", cwd=top)[1].count(": tick: n=") == 3
    # a file that is there, and others that can't be made: nothing is mounted
    before = (top / "one").read_bytes()
    for where, why in ((top / "one", "cannot overwrite existing file"), (top / "none/file", "No such file or directory"), (top, "Is a directory")):
        assert start(command, "--record", where, place) == (5, "", "tracectl-mount: %s can't be made: %s\n" % (where, why)), where
    assert (top / "one").read_bytes() == before and not servers() and not os.path.ismount(place)
    assert start(command, "--record", top / "two", "--cpus", "9", place)[0] == 2 and not (top / "two").exists()
    assert start(command, "--record", top / "two", top / "none")[0] == 5 and not (top / "two").exists()
    (top / "two").touch(mode=0o644)  # as a start leaves it that can't mount
    assert start(command, "--record=%s" % (top / "two"), place) == (0, "", "") and is_private(top / "two")
    subprocess.run(["umount", str(place)], check=True)
    wait_for_end()
    replaying = (["--replay"], ["--replay", ""], ["--replay", "one", "--until"], ["--replay", "one", "--until", "x"], ["--replay", "one", "--cpus", "2"])
    for words in (["--record"], ["--record", ""], ["--record=", place], *replaying):
        status, out, said = start(command, *words, cwd=top)
        assert status == 2 and not out and said.startswith("usage: "), (words, said)


def ended(command, place):
    """With -f: by umount, by signals to the starter, and by SIGKILL of the recorder or of the program."""
    for number, (whom, sign, status, told) in enumerate(
        (
            ("umount", None, 0, "; it ended with status 0"),
            ("starter", signal.SIGTERM, 143, "; it ended with status "),
            ("program", signal.SIGKILL, 137, "; it ended with status 137"),
            ("recorder", signal.SIGKILL, 137, "; no end was recorded"),
        )
    ):
        file = place.parent / ("file%d" % number)
        process = subprocess.Popen([str(command), "-f", "--record", str(file), str(place)])
        wait_until(lambda: (place / "trace").exists(), "it is not mounted")
        use(place)
        reader = subprocess.Popen(["cat", str(place / "trace_pipe")], stdout=subprocess.PIPE, stderr=subprocess.DEVNULL)
        assert b"tick: n=0" in reader.stdout.readline()
        if whom == "umount":
            reader.kill()
            reader.wait()
            subprocess.run(["umount", str(place)], check=True)
        elif whom == "starter":
            process.send_signal(sign)
        else:
            recorder = processes("recorder.py")
            server = [each for each in servers() if each not in recorder and Path("/proc/%d/exe" % each).resolve().name.startswith("tracectl_mount")]
            assert len(recorder) == 1 and len(server) == 1, (recorder, server)
            os.kill((recorder if whom == "recorder" else server)[0], sign)
        assert process.wait(PATIENCE) == status, (whom, sign, process.returncode)
        reader.wait(PATIENCE)
        reader.stdout.close()
        wait_for_end()
        assert not os.path.ismount(place)
        got = replayed(file, version=records_of(file)[0].version)
        last = got.stdout.decode().splitlines()[-1]
        assert got.status == 0 and " as recorded" in last and told in last, (whom, got)


def full(command, place):
    """A disk that is full ends the recording, which the log tells at once, and not the tracer."""
    disk = place.parent / "disk"
    disk.mkdir()
    subprocess.run(["mount", "-t", "tmpfs", "-o", "size=32k", "none", str(disk)], check=True)
    assert start(command, "--record", disk / "file", place) == (0, "", "")
    use(place, 150)
    told = "tracectl-mount: the recording %s ends here, and the tracer goes on: No space left on device\n" % (disk / "file")
    assert Path("/var/log/tracectl-mount.log").read_text() == told
    assert (place / "trace").read_text().count(": tick: n=") == 150
    subprocess.run(["umount", str(place)], check=True)
    wait_for_end()
    lines = replay(command, disk / "file")
    assert " as recorded" in lines[-1] and lines[-1].endswith("; no end was recorded") and int(lines[-1].split()[1]) > 100, lines[-1]


def by_user(command, place):
    """An ordinary user records by fusermount3, and a start that can't mount leaves nothing that is in the way."""
    home, device = place.parent / "home", place.parent / "fuse"
    home.mkdir()
    for path in (home, place):
        os.chown(path, 65534, 65534)
    subprocess.run(["mknod", "-m", "666", str(device), "c", "10", "229"], check=True)
    subprocess.run(["mount", "--bind", str(device), "/dev/fuse"], check=True)
    by = [*NOBODY, "HOME=%s" % home]
    if start(*by, "python3", "-c", "")[0] or start(*by, "test", "-r", command)[0] or start(*by, "sh", "-c", "command -v fusermount3")[0]:
        print("skipped: by_user, as that user has no python3, no fusermount3 or can't read the repository")
        return
    status, out, said = start(*by, command, "--record", home / "file", "/var")
    assert status == 5 and "fusermount3: " in said and not servers(), said
    assert start(*by, command, "--record", "file", place, cwd=home) == (0, "", "")
    assert is_private(home / "file") and (home / "file").stat().st_uid == 65534
    example = "cd '%s'; echo 'tick u64 n' > synthetic_events; echo 1 > %senable; echo n=5 > %sinject; cat trace" % (place, TICK, TICK)
    assert ": tick: n=5\n" in start(*by, "sh", "-c", example)[1]
    assert start(*by, "umount", place)[0] == 0
    wait_for_end()
    assert replay(command, home / "file", by=by)[-1].endswith(": as recorded; it ended with status 0")


BESIDE = (on_folder, ended, full)
BESIDE_BY_ROOT = (by_user,)


def do_inside(words):
    name, *given = words
    {test.__name__: test for test in (session, *BESIDE, *BESIDE_BY_ROOT)}[name](*map(Path, given))
    return 0


# ---- outside


def of_a_command(command):
    """A session of a command. What the recording has, fed to the program, gives the replies that the kernel was given."""

    def tried():
        with tempfile.TemporaryDirectory() as folder:
            file = Path(folder, "file")
            got = run([command, "--record", file, "--cpus=2", "--", sys.executable, RECORDING, "--inside", "session"])
            assert got.status == 0, (got.stdout + got.stderr).decode()[-600:]
            assert is_private(file)
            lines = replay(command, file)
            assert re.search(r": as recorded; it ended with status (0|143)$", lines[-1]), lines[-1]
            for part, least in ((" INTERRUPT ", 1), (" = EINVAL", 2), (", which waited = EINTR", 1), (", which waited = ", 3)):
                assert sum(part in line for line in lines) >= least, "less than %d lines have %s" % (least, part)
            assert any(", which waited = " in line and "tick: n=" in line for line in lines), "nobody waited for an event"
            stats = start(command, "--replay", file, "per_cpu/cpu0/stats", "per_cpu/cpu1/stats")[1]
            assert sum(map(int, re.findall(r"read events: (\d+)", stats))) == WRITERS * EACH, stats
            reader, records = records_of(file)
            requests = [content for kind, content, _ in records if kind == recording.REQUEST]
            assert len(requests) == int(lines[-1].split()[1]) > WRITERS * EACH
            notes = [recording.REPLY_CONTENT.unpack(content) for kind, content, _ in records if kind == recording.REPLY]
            direct = run([PROGRAM, *reader.options], script=b"".join(requests)).stdout
            assert (len(direct), zlib.crc32(direct)) == (sum(length for length, _, _ in notes), notes[-1][1])

    tried.__name__ = "of_a_command"
    return tried


def beside(command, test):
    def tried():
        with tempfile.TemporaryDirectory() as folder:
            os.chmod(folder, 0o755)
            place = Path(folder, "place")
            place.mkdir()
            how = "-m" if os.geteuid() == 0 else "-Urm"
            log = 'mount -t tmpfs none /var/log && exec "$@"'
            inside = ["bash", "-c", log, "-", sys.executable, RECORDING, "--inside", test.__name__, command, place]
            got = run(["unshare", how, "-pf", "--mount-proc", "--", *inside])
            sys.stdout.write(got.stdout.decode())
            assert got.status == 0, got.stderr.decode()[-600:]

    tried.__name__ = test.__name__
    return tried


def cases(command):
    got = run([command, "--", "true"])
    if got.status:
        print("skipped: mounted, as nothing can be mounted here: %s" % got.stderr.decode().strip().split("\n")[-1])
        return []
    tests = BESIDE + (BESIDE_BY_ROOT if os.geteuid() == 0 else ())
    return [judged(of_a_command(command)), *(judged(beside(command, test)) for test in tests)]
