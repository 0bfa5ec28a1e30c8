"""A server with an event `tick`, which is enabled, and what is asked of it again and again."""
import os
import re
from pathlib import Path

import fuse

TICK = "events/synthetic/tick/"
RECORD = re.compile(rb"^ *(\d+) \[(\d+)\] \d+: tick: n=(\d+)", re.M)


def numbers(text):
    """The events' numbers in a text of records."""
    return [int(number) for _, _, number in RECORD.findall(text)]


class Tracer(fuse.Server):
    def __init__(self, command, *options):
        super().__init__([*map(str, command), *options])
        self.echo(b"tick u64 n", "synthetic_events")
        self.echo(b"1", TICK + "enable")
        self.injects = self.lookup(TICK + "inject")
        self.pipes = self.lookup("trace_pipe")
        self.writer = self.open(self.injects, os.O_WRONLY)

    def emit(self, number, pid=None):
        """An event, by one request."""
        self.write_at(self.injects, self.writer, 0, b"n=%d" % number, pid)

    def fill(self, count):
        for number in range(count):
            self.emit(number)

    def taken(self):
        """The numbers of the events that came since this was asked last."""
        return numbers(self.cat("trace_pipe"))

    def errors(self, instance=""):
        """What is noted: each error's file, sentence, line, and the column of its caret."""
        text = self.cat(instance + "error_log").decode()
        found = re.findall(r"\[ *\d+\.\d{6}\] (.*?): error: (.*)\n  Command: (.*)\n( *)\^\n", text)
        return [(file, sentence, line, len(blanks) - len("  Command: ")) for file, sentence, line, blanks in found]

    def refusal(self, call, *given):
        """The errno with which a call is refused, or 0."""
        try:
            call(*given)
        except fuse.Refused as refused:
            return refused.number
        return 0

    def is_quiet(self):
        """Whether nothing was told but replies: the next is the reply to what is asked now."""
        self.attributes(fuse.ROOT)
        return True

    def resident(self):
        """Its memory, in bytes."""
        return int(re.search(r"VmRSS:\s*(\d+)", Path("/proc/%d/status" % self.process.pid).read_text())[1]) * 1024

    def processor_time(self):
        """What it has used, in nanoseconds."""
        return int(Path("/proc/%d/schedstat" % self.process.pid).read_text().split()[0])
