"""Walks through what a kernel asks of the server of a mounted tracer, where the files of docs/FILES.md that only a mount has are walked through, too."""
import errno
import os
import struct
from collections import Counter, namedtuple

import fuse
from walking.commands import Reading, Taking, Walk, Writing, row_of
from walking.texts import hist_of

MOST_OPEN = 40  # files that are left open, and pipes that wait
MOST_WAITING = 8
PIECES = (131_072, 65_536, 65_536, 4_096, 512)  # bytes of a read
LENGTHS = (1, 10, 99, 100, 101, 200, 255, 256, 257, 1_000, 4_096, 70_000)  # of lines that are refused
OF_INSTANCES = (
    *("available_tracers", "current_tracer", "set_event", "trace_clock", "timestamp_mode", "buffer_size_kb", "buffer_total_size_kb", "tracing_cpumask"),
    "error_log",
)
OF_TOP = ("available_events", "README", "saved_cmdlines", "printk_formats", "tracing_thresh")
SHOWN_AND_TAKEN = ("current_tracer", "buffer_size_kb", "per_cpu/cpu0/buffer_size_kb", "tracing_cpumask", "tracing_thresh")
CALLS = (
    *("attributes", "empty", "statfs", "access", "open", "open", "read on", "read on", "close"),
    *("open pipe", "poll", "wait", "wait", "interrupt", "close pipe"),
)
FAULTY = ("hello", "n", "=", "x=1", "common_pid=1", "'", "n='1", 'n="1', "n=1 n=1", "n=", "n=-1", "n=0x", "\x01", "é", "\t", " ", "", "#")


class Lines(namedtuple("Lines", "path texts")):
    """What is written to one open file, by a write each."""

    def line(self):
        return "%s >> %s" % (" + ".join(map(repr, self.texts)), self.path)


class Listing(namedtuple("Listing", "folder size")):
    def line(self):
        return "ls %s, %d bytes at once" % self


class Call(namedtuple("Call", "path kind number")):
    """What a kernel asks besides."""

    def line(self):
        return "%s of %s, %d" % (self.kind, self.path, self.number)


class MountWalk(Walk):
    KINDS = {**Walk.KINDS, "lines": 6, "tool": 8, "set": 4, "noted": 12, "list": 2, "call": 10}

    def emit(self):
        return super().emit()._replace(process=self.draw.choice((7, self.draw.randrange(1, 1 << 22))))

    def lines(self):
        """Lines that are written to one open file: declarations, triggers or a stream of emissions."""
        kind, event = self.draw.randrange(8), self.event()
        if kind == 0:
            return Lines("synthetic_events", ["\n".join(self.declare().text for _ in range(self.draw.randrange(1, 4))), "\n \n"])
        if kind == 1:
            texts = [hist_of(self.draw, event.fields, self.new_name) for _ in range(2)]
            texts += ["snapshot", "!snapshot:unlimited"] + ["!" + text for text in texts]
            return Lines(self.below(event.file("trigger")), ["\n".join(texts)])
        return Lines(self.below(event.file("inject")), self.stream(event, 0.2))

    def stream(self, event, wrong):
        """Emissions of an event, some with a field left out, in one write or cut anywhere into two; in some streams a line is wrong."""
        rows = [row_of(self.pairs_of(event)[self.draw.randrange(2) :]) for _ in range(self.draw.choice((1, 2, 5, 50)))]
        if self.chance(wrong):
            rows.insert(self.draw.randrange(len(rows) + 1), self.draw.choice((*FAULTY, "x" * self.draw.choice(LENGTHS))))
        text = "\n".join(rows) + self.draw.choice(("", "\n"))
        cut = self.draw.randrange(len(text) + 1)
        return self.draw.choice(([text], [text[:cut], text[cut:]]))

    def tool(self):
        """A read of a file that only a mount has, or a write of what it shows or of something else."""
        event, draw = self.event(), self.draw
        if self.chance(0.05):
            return Writing("counter", self.below("trace_clock"), False)
        if self.chance(0.3):
            return Call(self.below(draw.choice(SHOWN_AND_TAKEN)), "copy", draw.randrange(2))
        paths = [self.below(name) for name in OF_INSTANCES] + list(OF_TOP)
        paths += [self.below("per_cpu/cpu%d/buffer_size_kb" % self.cpu()), self.below(event.file("id")), self.below(event.file("id"))]
        return Reading(draw.choice(paths))

    def set(self):
        event = self.event().name
        words = (event, event, "synthetic:" + event, "synthetic:" + event, "synthetic", "synthetic:*", "*:*", ":", "nothing", "sched:x")
        word = self.draw.choice(("", "!")) + self.draw.choice(words)
        return Writing(" ".join([word] * self.draw.choice((1, 1, 2, 20))), self.below("set_event"), self.chance(0.9))

    def noted(self):
        """A write that is refused, of any length, or a read of what was noted, which is emptied now and then."""
        event, length, instance = self.event(), self.draw.choice(LENGTHS), self.draw.choice(self.instances[:2])
        if self.chance(0.3):
            return Reading(self.below("error_log", instance))
        if self.chance(0.03):
            return Writing("", self.below("error_log", instance), False)
        path, begin = self.draw.choice((
            (event.file("filter"), event.fields[0].name + " == ("),
            (event.file("filter"), "common_pid > x"),
            (event.file("trigger"), "hist:keys=common_pid if "),
            (event.file("trigger"), ""),
            (event.file("inject"), ""),
            ("tracing_on", ""),
            ("current_tracer", ""),
            ("set_event", ""),
        ))
        return Writing(begin + "x" * max(1, length - len(begin)), self.below(path, instance), True)

    def list(self):
        of_event, of_cpu = "events/synthetic/" + self.event().name, "per_cpu/cpu%d" % self.cpu()
        folder = self.below(self.draw.choice(("", "events", "events/synthetic", "events/synthetic", of_event, "per_cpu", of_cpu, "options")))
        return Listing(self.draw.choice((folder, folder, folder, "instances")), self.draw.choice((64, 200, 4_096, 65_536)))

    def call(self):
        event, kind = self.event(), self.draw.choice(CALLS)
        paths = ["trace", "error_log", "snapshot", "events", "instances", event.file("hist"), event.file("format"), "events/synthetic/" + event.name]
        if "pipe" in kind:
            paths = ["trace_pipe", "per_cpu/cpu%d/trace_pipe" % self.cpu()]
        path = self.draw.choice(paths)
        return Call(path if path == "instances" else self.below(path), kind, self.draw.randrange(1 << 16))

    def refused(self):
        command = super().refused()
        return Reading("nothing") if isinstance(command, Taking) else command


class Client(fuse.Server):
    """A kernel that goes on where something is refused. What it asks is a kernel's, and it keeps what it opened."""

    def __init__(self, command):
        self.lacking, self.refused, self.doing = [], Counter(), ("init", "the first request")
        self.files, self.pipes, self.waiting = [], [], set()
        super().__init__(command)

    def look(self, unique, error, opcode):
        if error == -errno.ENOMEM:
            self.lacking.append((*self.doing, "opcode %d" % opcode if unique == self.unique else "a read that waited"))

    def ask(self, opcode, node, body=b"", pid=None):
        self.unique += 2
        self.send(fuse.request(opcode, self.unique, node, body, self.pid if pid is None else pid))
        self.requests.clear()
        while True:
            unique, error, got = self.reply()
            self.look(unique, error, opcode)
            if unique == self.unique:
                break
            assert not unique or unique in self.waiting, "a reply to %d, which does not wait" % unique
            self.waiting.discard(unique)
        if error:
            assert not got, "an error has a body"
            raise fuse.Refused(-error)
        return got

    # ---- what a command asks

    def do(self, kind, command, size):
        """Does a command. Has whether it was done."""
        self.doing = kind, command.line()
        self.size = size
        try:
            getattr(self, "do_" + type(command).__name__.lower())(*command)
        except fuse.Refused as refused:
            self.refused[refused.number] += 1
            return False
        return True

    def do_emission(self, cpu, process, event, pairs):
        self.echo(row_of(pairs).encode(), "events/synthetic/%s/inject" % event, True, process)

    def do_writing(self, text, path, appends):
        self.echo(text.encode(), path, appends)

    def do_reading(self, path):
        self.cat(path, self.size)

    def do_taking(self, limit, path):
        node = self.lookup(path)
        handle = self.open(node, os.O_RDONLY | os.O_NONBLOCK)
        try:
            self.read_at(node, handle, 0, min(2_048 * limit, 4_096), os.O_NONBLOCK)
        finally:
            self.close(node, handle)

    def do_making(self, name):
        folder, _, last = ("instances/" + name).rpartition("/")
        self.mkdir(folder, last)

    def do_removing(self, name):
        folder, _, last = ("instances/" + name).rpartition("/")
        self.rmdir(folder, last)

    def do_lines(self, path, texts):
        node = self.lookup(path)
        handle = self.open(node, os.O_WRONLY | os.O_APPEND)
        try:
            for text in texts:
                data, done = text.encode(), 0
                while done < len(data):
                    count = self.write_at(node, handle, 0, data[done:])
                    assert 0 < count <= len(data) - done, "a write did %d bytes" % count
                    done += count
        finally:
            self.close(node, handle)

    def do_listing(self, folder, size):
        self.names(self.lookup(folder), size)

    def do_call(self, path, kind, number):
        getattr(self, "call_" + kind.replace(" ", "_"))(path, number)

    # ---- what a kernel asks besides

    def call_copy(self, path, number):
        """A write of what a file shows, or of something else."""
        self.echo(b"other" if number else self.cat(path).strip(), path)

    def call_attributes(self, path, number):
        self.attributes(self.lookup(path))

    def call_empty(self, path, number):
        self.ask(fuse.SETATTR, self.lookup(path), struct.pack("<II", 1 << 3, 0) + bytes(80))

    def call_statfs(self, path, number):
        self.ask(fuse.STATFS, self.lookup(path))

    def call_access(self, path, number):
        self.ask(fuse.ACCESS, self.lookup(path), bytes(8))

    def call_open(self, path, number):
        """Opens a file and reads where it begins."""
        if len(self.files) < MOST_OPEN:
            node = self.lookup(path)
            self.files.append([node, self.open(node, os.O_RDONLY), 0])
            self.call_read_on(path, -1)

    def call_read_on(self, path, number):
        """A read of a file that was opened before, there where the last one ended or from the beginning."""
        if self.files:
            file = self.files[number % len(self.files)]
            file[2] = 0 if number % 5 == 0 else file[2]
            file[2] += len(self.read_at(file[0], file[1], file[2], 100))

    def call_close(self, path, number):
        if self.files:
            node, handle, _ = self.files.pop(number % len(self.files))
            self.close(node, handle)

    def call_open_pipe(self, path, number):
        if len(self.pipes) < MOST_OPEN:
            node = self.lookup(path)
            self.pipes.append((node, self.open(node, os.O_RDONLY)))

    def call_poll(self, path, number):
        if self.pipes:
            self.poll(*self.pipes[number % len(self.pipes)], number)

    def call_wait(self, path, number):
        if self.pipes and len(self.waiting) < MOST_WAITING:
            self.waiting.add(self.park(*self.pipes[number % len(self.pipes)], 2_048))
            self.attributes(fuse.ROOT)

    def call_interrupt(self, path, number):
        if self.waiting:
            self.interrupt(sorted(self.waiting)[number % len(self.waiting)])
            self.attributes(fuse.ROOT)

    def call_close_pipe(self, path, number):
        if self.pipes:
            self.release(*self.pipes.pop(number % len(self.pipes)))


def many(server, count):
    """What is wrong with so many events, by writes of many lines."""
    client = Client([str(server), "--pages", "2", "--page-bytes", "64"])
    client.doing = "many", "%d events" % count
    client.echo(b"tick u64 n", "synthetic_events")
    client.echo(b"1", "events/enable")
    node = client.lookup("events/synthetic/tick/inject")
    handle = client.open(node, os.O_WRONLY | os.O_APPEND)
    lines = b"n=1\n" * (client.max_write // 4)
    for first in range(0, 4 * count, len(lines)):
        data = lines[: 4 * count - first]
        assert client.write_at(node, handle, 0, data) == len(data), "not all lines were done"
    client.close(node, handle)
    assert b"/%d   #P:1" % count in client.cat("trace"), client.cat("trace")
    assert client.end() == 0, "the server's status is %d" % client.process.returncode
    return client.lacking


def walk(server, draw, count, events, cpus, pages, page_bytes):
    """What was refused for lack of memory in a walk of so many commands, how often each kind was done, and how often what was refused."""
    client = Client([str(server), "--cpus", str(cpus), "--pages", str(pages), "--page-bytes", str(page_bytes)])
    done = Counter()
    for kind, step in MountWalk(draw, cpus, page_bytes).steps(count, events):
        done[kind] += client.do(kind, step, draw.choice(PIECES))
    assert client.end() == 0, "the server's status is %d" % client.process.returncode
    return client.lacking, done, client.refused
