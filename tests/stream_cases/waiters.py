"""Programs that wait for what comes through a pipe: by reading, by letting the kernel copy, and by edges of epoll."""
import os
import re
import resource
import select
import signal
import subprocess
import time

from kernel_request_cases.sizes import PIPE_SIZE
from stream_cases.place import PLACE, ROOM, SECONDS, Skipped, compiled, declare, emit, instance, need, numbers, put, wait_until

BURST = 50

# What shows what comes through the pipe `$1`, until it ends. It may write into the file `$2`, which is shown then.
READERS = {
    "cat": ('exec cat "$1"', "cat"),
    "busybox cat": ('exec busybox cat "$1"', "busybox"),
    "busybox cp": ('exec busybox cp "$1" "$2"', "busybox"),
    "shutil.copyfile": ('exec python3 -c "import shutil, sys; shutil.copyfile(sys.argv[1], sys.argv[2])" "$1" "$2"', "python3"),
    "shutil.copyfileobj": ('exec python3 -c "import shutil, sys; shutil.copyfileobj(open(sys.argv[1], \'rb\', 0), sys.stdout.buffer)" "$1"', "python3"),
    "dd": ('exec dd if="$1" status=none', "dd"),
    "grep": ('exec grep --line-buffered tick "$1"', "grep"),
    "less -F": ('exec less -F "$1"', "less"),
    "head -n": ('exec head -n 5 "$1"', "head"),
    "awk": ('exec awk "{ print }" "$1"', "awk"),
}
BY_SENDFILE = ("busybox cat", "busybox cp", "shutil.copyfile")  # at a size of 0 they show nothing
FOLLOWERS = {  # these tell what they have at the end, and wait on
    "tail -n +1 -f": ('exec tail -n +1 -f "$1"', "tail"),
    "tail -f": ('exec tail -f "$1"', "tail"),
}


def begin():
    declare()


class Client:
    """A program that reads the pipe of an instance of its own."""

    def __init__(self, text, *words):
        self.name = "of_%d" % len(os.listdir(PLACE / "instances"))
        self.folder = instance(self.name)
        self.out, self.told, self.more = ROOM / (self.name + ".out"), ROOM / (self.name + ".told"), ROOM / (self.name + ".more")
        self.more.write_bytes(b"")
        with self.out.open("wb") as out, self.told.open("wb") as told:
            words = ["bash", "-c", text, "-", str(PLACE / self.folder / "trace_pipe"), str(self.more), *map(str, words)]
            self.process = subprocess.Popen(words, stdin=subprocess.DEVNULL, stdout=out, stderr=told, start_new_session=True)

    def shown(self):
        return numbers(self.out.read_bytes() + self.more.read_bytes())

    def stop(self):
        """Ends the pipe, and then, unless it ended by that, the program. Has its status."""
        put(self.folder + "tracing_on", "0\n")
        try:
            return self.process.wait(SECONDS)
        except subprocess.TimeoutExpired:
            return "it waits on"

    def remove(self):
        if self.process.poll() is None:
            os.killpg(self.process.pid, signal.SIGKILL)
            self.process.wait(SECONDS)
        (PLACE / self.folder).rmdir()


def reading(name, text, program, ends):
    def case():
        need(program)
        if name in BY_SENDFILE and not PIPE_SIZE:
            raise Skipped("a pipe has a size of 0")
        client = Client(text)
        try:
            time.sleep(0.1)
            for number in range(5):
                emit([number])
                time.sleep(0.03)
            if ends:
                status = client.stop()
                assert status == 0, "the status is %s, %s, and it shows %s" % (status, client.told.read_text(), client.shown())
            else:
                put(client.folder + "tracing_on", "0\n")
                wait_until(lambda: len(client.shown()) >= 5, 3)
            assert client.shown() == list(range(5)), "it shows %s" % client.shown()
        finally:
            client.remove()

    case.__name__ = name
    return case


def by_edges(how):
    def case():
        program = compiled("edges")
        client = Client('exec "$3" %s "$1"' % how, program)
        try:
            total = 0
            for burst in [1] * 20 + [2, BURST, 1, 3, BURST, BURST, 1]:
                emit(range(total, total + burst))
                total += burst
                wait_until(lambda: len(client.shown()) >= total, 3)
            for burst in (BURST, 1, BURST):  # not waiting for what is shown
                emit(range(total, total + burst))
                total += burst
            wait_until(lambda: len(client.shown()) >= total, 3)
            assert client.shown() == list(range(total)), "of %d events %d are shown" % (total, len(client.shown()))
            status = client.stop()
            told = client.told.read_text()
            assert status == 0, "the status is %s: %s" % (status, told)
            waits, reads = map(int, re.fullmatch(r"(\d+) waits, (\d+) reads\n", told).groups())
            assert waits <= reads + 2, "%d waits with %d reads" % (waits, reads)
        finally:
            client.remove()

    case.__name__ = "edges, until %s" % how
    return case


def two_by_edges():
    """Two programs that wait for edges of one pipe: each record goes to one, and none is left."""
    program = compiled("edges")
    both = [Client('exec "$3" %s "$1"' % how, program) for how in ("again", "short")]
    folder = both[0].folder
    pipe, quietly = str(PLACE / folder / "trace_pipe"), {"stdout": subprocess.PIPE, "stderr": subprocess.DEVNULL}
    others = [subprocess.Popen([str(program), how, pipe], **quietly) for how in ("again", "short")]
    try:
        for number in range(100):
            emit([number])
        found = []
        until = time.monotonic() + 60
        while len(found) + len(both[0].shown()) < 100 and time.monotonic() < until:
            for process in others:
                if select.select([process.stdout], [], [], 0.02)[0]:
                    found += numbers(os.read(process.stdout.fileno(), 1 << 16))
        assert sorted(found + both[0].shown()) == list(range(100)), "%d are shown" % (len(found) + len(both[0].shown()))
        wait_until(lambda: both[1].shown() == list(range(100)))
    finally:
        for process in others:
            process.kill()
            process.wait(SECONDS)
            process.stdout.close()
        for client in reversed(both):
            client.remove()


def many_polled():
    """A poll of many pipes that wait takes about as long, for each, as one of a few."""

    def takes(count):
        files = [os.open(PLACE / "trace_pipe", os.O_RDONLY | os.O_NONBLOCK) for _ in range(count)]
        try:
            polled = select.poll()
            for file in files:
                polled.register(file, select.POLLIN)
            tries = []
            for _ in range(10):
                begun = time.monotonic()
                assert not polled.poll(1), "something is there"  # one that waits, if shortly
                tries.append((time.monotonic() - begun) / count)
            return min(tries)
        finally:
            for file in files:
                os.close(file)

    most = resource.getrlimit(resource.RLIMIT_NOFILE)[1]
    count = min(8_000, most - 100)
    resource.setrlimit(resource.RLIMIT_NOFILE, (count + 100, most))
    pipe_of_all = os.open(PLACE / "trace_pipe", os.O_RDONLY | os.O_NONBLOCK)
    try:
        while True:
            os.read(pipe_of_all, 1 << 16)
    except BlockingIOError:
        os.close(pipe_of_all)
    few, many = takes(100), takes(count)
    print(few,many)
    assert many < 5 * few, "a poll takes %.1f us for each of %d, and %.1f of 100" % (many * 1e6, count, few * 1e6)


CASES = (
    *(reading(name, *how, True) for name, how in READERS.items()), *(reading(name, *how, False) for name, how in FOLLOWERS.items()),
    by_edges("again"), by_edges("short"), two_by_edges, many_polled,
)
