"""`error_log`: each write that is refused is noted, with the file, what is wrong, the line to blame, and a caret under the word to blame."""
import os

from kernel_request_cases.lines import OpenFile
from kernel_request_cases.tracer import Tracer

WHO = "events/synthetic/who/"
INJECT = WHO + "inject"
PAIRS, NO_FIELD, REPEATED = "expected `NAME=VALUE ..`", "the event has no field of this name", "the field is repeated"
NO_NUMBER, NOT_IN_RANGE = "its value is no number from -2^63 to 2^64 - 1", "its value is out of the range of its type"
TOO_LONG = "its value is too long"
ONLY_NOP, FIXED = "expected `nop`, the only tracer", "expected the size that it has: sizes are fixed"
AN_EVENT, ANY = "expected an event, as `synthetic:EVENT`, that is declared", None
SHOWN = 256  # bytes of a line

# Each file, what is written, what is wrong with it, and the column of the caret. The event is `who u64 n; char who[8]; u8 b`.
REFUSED = [
    *((INJECT, "hello", PAIRS, 0), (INJECT, "n=1 hello", PAIRS, 4), (INJECT, "  n", PAIRS, 2)),
    *((INJECT, "x=1", NO_FIELD, 0), (INJECT, "n=1  x=1 b=1", NO_FIELD, 5), (INJECT, "common_pid=1", NO_FIELD, 0)),
    *((INJECT, "n=1 n=2", REPEATED, 4), (INJECT, "who=a n=1 who=b", REPEATED, 10)),
    *((INJECT, "n=y", NO_NUMBER, 0), (INJECT, "n=", NO_NUMBER, 0), (INJECT, "b=1 n=-1", NOT_IN_RANGE, 4), (INJECT, "n=1 b=256", NOT_IN_RANGE, 4)),
    *((INJECT, "n=1 who=12345678", TOO_LONG, 4), (INJECT, "who='a b' n=y", NO_NUMBER, 10), (INJECT, "who='a b' n", PAIRS, 10)),
    *(("current_tracer", "function", ONLY_NOP, 0), ("current_tracer", " function_graph", ONLY_NOP, 1)),
    *((path, "4096", FIXED, 0) for path in ("buffer_size_kb", "per_cpu/cpu0/buffer_size_kb")),
    *(("set_event", "nobody", AN_EVENT, 0), ("set_event", "  sched:who", AN_EVENT, 2), ("set_event", "!nobody", AN_EVENT, 0)),
    *((path, "nonsense", ANY, 0) for path in ("trace_clock", "tracing_cpumask", "tracing_thresh", "tracing_on", "options/overwrite", "events/enable")),
    *((path, "nonsense", ANY, 0) for path in (WHO + "enable", "snapshot", "trace_options")),
]
OF_TOP = ("tracing_thresh",)  # what instances do not have
UNDER_OTHER_NAMES = [
    *((WHO + "filter", "nobody > 3", "event filter parse error", 0), (WHO + "filter", "n > 3 && nobody > 3", "event filter parse error", 9)),
    *((WHO + "trigger", "hist:keys=nobody", "hist:synthetic:who", 10), (WHO + "trigger", "traceoff", "hist:synthetic:who", 0)),
]


def begun(command):
    tracer = Tracer(command)
    tracer.mkdir("instances", "a")
    tracer.echo(b"who u64 n; char who[8]; u8 b", "synthetic_events", True)
    return tracer


def noted_after(tracer, folder, path, line):
    """What is noted of a line that is refused."""
    tracer.echo(b"", folder + "error_log")
    assert tracer.refusal(tracer.echo, line.encode(), folder + path, True), "%s takes %r" % (path, line)
    return tracer.errors(folder)


def each_is_noted(command):
    tracer = begun(command)
    for folder in ("", "instances/a/"):
        for path, line, sentence, column in REFUSED:
            if folder and path in OF_TOP:
                continue
            got = noted_after(tracer, folder, path, line)
            shown = "".join(byte if " " <= byte <= "~" else "?" for byte in line)
            wanted = [(folder + path, sentence or (got and got[0][1]), shown, column)]
            assert got == wanted and got[0][1], "%r to %s: %s, and should be %s" % (line, path, got, wanted)
        for path, line, name, column in UNDER_OTHER_NAMES:
            got = [(name, line, column) for name, _, line, column in noted_after(tracer, folder, path, line)]
            assert got == [(name, line, column)], "%r to %s: %s, and should be %s" % (line, path, got, (name, line, column))
    tracer.end()


def only_the_line_to_blame(command):
    """Of several lines it is shown which was refused, and of `set_event` what was not done."""
    tracer = begun(command)
    assert tracer.refusal(tracer.echo, b"n=1\nn=2\nx=1\nn=3", INJECT, True)
    assert [(file, line, column) for file, _, line, column in tracer.errors()] == [(INJECT, "x=1", 0)], tracer.errors()
    tracer.echo(b"", "error_log")
    tracer.refusal(tracer.echo, b"who\nwho nobody", "set_event", True)
    assert [(line, column) for _, _, line, column in tracer.errors()] in ([("nobody", 0)], [(" nobody", 1)]), tracer.errors()
    tracer.echo(b"", "error_log")
    tracer.refusal(tracer.echo, b"one u64 n\ntwo u99 n", "synthetic_events", True)
    assert [(file, line, column) for file, _, line, column in tracer.errors()] == [("synthetic_events", "two u99 n", 4)], tracer.errors()
    tracer.end()


def long_lines(command):
    """At most 256 bytes of a line are shown: those up to what is to blame."""
    tracer = begun(command)
    for times in (0, 1, 24, 27, 28, 29, 60):
        line = "n > 1 && " * times + "nobody > 3 && n > 4" + " && n > 4" * 40
        column = 9 * times
        wanted = (line[:SHOWN], column) if column < SHOWN else (line[column + 1 - SHOWN : column + 1], SHOWN - 1)
        got = [(line, column) for _, _, line, column in noted_after(tracer, "", WHO + "filter", line)]
        assert got == [wanted], "%d times: %s, and should be %s" % (times, got, wanted)
    for before in (200, 255, 256, 300, 4_000):
        line = "n=1" + " " * (before - 3) + "x=1"
        wanted = (line[:SHOWN], before) if before < SHOWN else (line[before + 1 - SHOWN : before + 1], SHOWN - 1)
        got = [(line, column) for _, _, line, column in noted_after(tracer, "", INJECT, line)]
        assert got == [wanted], "%d bytes before: %s, and should be %s" % (before, got, wanted)
    tracer.end()


def what_is_done_is_not(command):
    """Nothing is noted of what is not refused, of a read, or of a file that can't be opened."""
    tracer = begun(command)
    for path, line in ((INJECT, "n=1 who=a"), ("current_tracer", "nop"), ("set_event", "who"), ("buffer_size_kb", "63"), ("tracing_on", "1"), ("trace_clock", "counter")):
        tracer.echo(line.encode(), path, True)
    tracer.cat("trace")
    for path, flags in (("trace_pipe", os.O_WRONLY), (INJECT, os.O_RDONLY)):
        assert tracer.refusal(tracer.open, tracer.lookup(path), flags)
    file = OpenFile(tracer, INJECT, 0)
    assert file.write(b"n=1\nx") == 5
    assert not tracer.errors(), tracer.errors()
    tracer.end()


CASES = (each_is_noted, only_the_line_to_blame, long_lines, what_is_done_is_not)
