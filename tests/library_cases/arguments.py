"""arguments.py: what calls of the Python package come to, one after another: what they return, what is recorded, or which exception is raised.

A call that raises leaves the count of commands as it was, but for a read before it; a line ends in 'changed' where it does not.
"""
import sys
import threading
from enum import Enum, IntEnum
from pathlib import Path

sys.path.insert(0, str(Path(__file__).resolve().parent.parent.parent / "python"))

from drawing import LyingBytes, LyingNumber
from tracectl import Refused, Tracer

PIPE = "trace_pipe"
DECLARED = """
tick u64 n
request char path[16]; u32 status; s64 us
odd u8 cpu; u8 process; char event[8]; u8 fields; u8 self
"""
WRONG_KINDS = """
t.emit(1, n=5)
t.emit("tick", 5)
t.emit("tick", None)
t.emit("tick", [("n", 5)])
t.emit("tick", {1: 5})
t.emit("request", path=None, status=1, us=1)
t.emit("request", path="/x", status=True, us=1)
t.emit("request", path="/x", status=1.0, us=1)
t.emit("request", path=bytearray(b"/x"), status=1, us=1)
t.emit("tick", n=5, cpu="0")
t.emit("tick", n=5, cpu=None)
t.emit("tick", n=5, cpu=True)
t.emit("tick", n=5, process=7.0)
t.emit_values("tick", 5)
t.emit_values(None, 5)
t.emit_values(True, 5)
t.emit_values(1.0, 5)
t.emit_values(2, "/x", True, 1)
t.emit_values(2, "/x", 1.0, 1)
t.emit_values(2, None, 1, 1)
t.emit_values(2, ["/x"], 1, 1)
t.emit_values(1, 5, cpu=None)
t.emit_values(1, 5, process="7")
t.number_of(1)
t.number_of(None)
t.write("tracing_on", 0)
t.write("tracing_on", None)
t.write("tracing_on", bytearray(b"0"))
t.write("tracing_on")
t.write(0, "1")
t.append("synthetic_events", 0)
t.append(None, "x u8 n")
t.read()
t.read(0)
t.read(None)
t.read(Path("trace"))
t.take(0, 1)
t.take("trace_pipe", "1")
t.take("trace_pipe", None)
t.take("trace_pipe", True)
t.take("trace_pipe", 1.0)
t.take("trace_pipe")
t.waiting(0)
t.waiting()
t.wanted("tick")
t.wanted(True)
t.wanted()
t.line(0)
t.line(None)
t.line()
t.files(0)
t.entries(0)
t.event(0)
t.event(None)
t.event()
tick(5)
tick([("n", 5)])
tick({1: 5})
tick(n=None)
tick(n=5.0)
tick(n=True)
tick(n=5, cpu="0")
tick(n=5, process=7.0)
tick()
tick(n=5, m=6)
tick({"n": 5}, n=5)
tick({b"n": 5, "n": 5})
request(path="/x", status=1)
tick.filter(0)
tick.filter()
tick.trigger(None)
t.histogram(0)
t.histogram(None)
t.histogram(tick, "0")
t.histogram(tick, True)
t.histograms(b"tick", 0)
t.statistics("0")
t.statistics(True)
t.statistics(cpu=None)
t.mount(0)
t.mount(None)
t.mount([])
t.mount()
t.mount(".", True)
t.mount(".", allow_other=1)
t.mounted(".", True)
t.unmount(0)
Tracer(cpus="1")
Tracer(cpus=True)
Tracer(pages=16.0)
Tracer(page_bytes=None)
Tracer(history_limit=None)
Tracer(library=5)
Tracer(library=False)
"""
WRONG_VALUES = r"""
t.emit("request", path="/x\0status=9", status=1, us=1)
t.emit("request", path=b"/x\0status=9", status=1, us=1)
t.emit("request", {"path=/y\0us": 2}, path="/x", status=1)
t.emit("request", {"us=2\0path": "/x"}, status=1)
t.emit("request", {"path=": "/x"}, status=1, us=1)
t.emit("request", path="\ud800", status=1, us=1)
t.emit("tick\0", n=5)
t.emit("tick", n=2**64)
t.emit("tick", n=-(2**63) - 1)
t.emit("tick", n=5, cpu=2**32)
t.emit("tick", n=5, cpu=-1)
t.emit("tick", n=5, process=2**31)
t.emit("tick", n=5, process=-(2**31) - 1)
t.emit_values(2, "/x\0", 1, 1)
t.emit_values(2, "\udc41", 1, 1)
t.emit_values(1, 2**64)
t.emit_values(1, -(2**63) - 1)
t.emit_values(2**32 + 1, 5)
t.emit_values(-1, 5)
t.emit_values(1, 5, cpu=2**32)
t.emit_values(1, 5, process=2**31)
t.number_of("tick\0")
t.write("tracing_on\0", "0")
t.write("tracing_on", "0\0")
t.append("synthetic_events", b"x u8 n\0")
t.read("trace\0")
t.read("\ud800")
t.take("trace_pipe", -1)
t.take("trace_pipe", 2**64)
t.waiting("trace_pipe\0")
t.wanted(-1)
t.wanted(2**32 + 1)
t.line("cat trace\0")
t.event("x u8 n\0")
t.event("\ud800")
tick({"n\0": 5})
tick({"\ud800": 5})
tick(n="5\0")
tick(n=2**64)
tick(n=-(2**63) - 1)
tick(n=5, cpu=2**32)
tick(n=5, process=-(2**31) - 1)
tick.filter("0\0")
tick.trigger("snapshot\0")
t.histogram("tick\0")
t.histogram(tick, -1)
t.histogram(tick, 2**32)
t.histogram(others)
t.statistics(-1)
t.statistics(cpu=2**32)
t.mount("place\0")
t.mount(b"place\0")
Tracer(cpus=2**32 + 1)
Tracer(cpus=-1)
Tracer(pages=2**32 + 2)
Tracer(page_bytes=2**64 + 64)
Tracer(history_limit=2**64)
Tracer(library="")
"""
RIGHT = r"""
t.emit("request", path=b"/x", status=200, us=-5)
t.emit(b"request", {b"path": b"/y", "us": -(2**63)}, status=2**32 - 1, process=-(2**31))
t.emit("request", path="a=b c", status="7", us=0, cpu=1, process=2**31 - 1)
t.emit("tick", n=2**64 - 1)
t.emit("odd", {"cpu": 1, "process": 2}, event="e", fields=3, self=4, cpu=1, process=7)
t.emit("odd", {"cpu": 1, "process": 2, "event": b"e", "fields": 3, "self": 4})
t.emit_values(3, 1, 2, "e", 3, 4, cpu=1, process=7)
t.emit_values(2, b"/x", 200, -5)
t.emit_values(t.number_of(b"tick"), Whole.FIVE)
t.emit("tick", n=Whole.FIVE, cpu=Whole.ONE)
t.emit(Word.REQUEST, path=Word.REQUEST, status=1, us=1)
t.emit("tick", n=LyingNumber(5), process=LyingNumber(7))
t.emit_values(2, LyingBytes(b"/x"), 1, 1)
t.number_of("odd")
t.write(b"tracing_on", b"1")
t.read(b"events/synthetic/odd/enable")
t.take("trace_pipe", 2**64 - 1)
t.wanted(1)
t.wanted(2**32 - 1)
tick(n=5)
tick({b"n": 2**64 - 1}, cpu=1, process=7)
tick(n=Whole.FIVE, cpu=Whole.ONE)
request({"us": -5}, path=b"/x", status="7")
odd({"cpu": 1, "process": 2}, event="e", fields=3, self=4, cpu=1, process=7)
tick
t.event("odd").fields
t.event("  request\tchar  path[16] ;u32 status; s64 us ; ").number
t.event(b"tick u64 n;") is tick
t.event("tick u64 n").number == tick.number
tick.wanted
tick.disable()
tick.wanted
tick.enable()
tick.filter("n > 3")
t.read("events/synthetic/tick/filter")
tick.filter("0")
request.filter(b"path == '\xff'")
t.read("events/synthetic/request/filter")
request.filter(t.read("events/synthetic/request/filter").strip())
t.read(b"events/synthetic/request/filter")
request.filter("0")
t.take(b"trace_pipe", 0)
t.line("cat tracing_on")
t.line(b"cat tracing_on")
t.files().split("\n")[0]
t.histograms(tick)
t.statistics(cpu=1)
"""
# A call for each name that one can come to, in the order of the statuses.
REFUSED = """
t.read("no_file")
t.read("events/synthetic/filter")
t.write("trace_pipe", "1")
t.write("options/overwrite", "2")
t.emit("tock", n=1)
t.append("synthetic_events", "tick u64 m")
t.append("synthetic_events", "x u65 n")
t.append("synthetic_events", "wide char a[64]; char b[64]")
t.write("events/synthetic/tick/filter", "n == ")
t.write("events/synthetic/tick/filter", "m == 1")
t.write("events/synthetic/tick/filter", "n ~ 1")
t.write("events/synthetic/tick/trigger", "hist:vals=n")
t.write("events/synthetic/tick/trigger", "hist:keys=n:size=64")
t.append("events/synthetic/tick/trigger", "hist:keys=n")
t.append("events/synthetic/tick/trigger", "!hist:keys=n.log2")
t.write("events/synthetic/tick/filter", "!" * 17 + "(n == 1)")
t.line("mkdir instances/a")
t.read("instances/b/trace")
t.write("synthetic_events", "x u64 n")
t.emit("tick", n=1, cpu=2**32 - 1)
t.emit("tick", n=-1)
t.event("tick")(n=-1)
t.emit_values(1, 5, 6)
t.event("tick u64 m")
t.event("tick u32 n")
t.event("x u65 n")
t.event("")
t.event("tock")
t.event("a/b")
t.histogram("tock")
t.statistics(cpu=2)
full.read("trace")
t.line("#" * 5000)
t.line("cat \\x01")
t.line("cat 'trace")
t.line("ls")
t.line("cat")
t.line("take x trace_pipe")
t.line("end")
closed.read("trace")
closed.waiting("trace_pipe")
closed.wanted(1)
closed.mount(".")
closed.unmount()
t.unmount()
t.mount("no/folder")
t.mount("/dev/null")
t.mount(b"/proc", allow_other=True)
full.mount(".")
"""
ELSEWHERE = """
elsewhere(t.read, "tracing_on")
elsewhere(t.emit, "tick", {"n": 5})
elsewhere(t.emit_values, 1, 5)
elsewhere(t.waiting, "trace_pipe")
elsewhere(t.wanted, 1)
elsewhere(t.read, "events/synthetic/tick/enable")
elsewhere(t.read, "no_file")
elsewhere(t.close)
t.leave()
t.read("events/synthetic/tick/enable")
"""


class Whole(IntEnum):
    ONE = 1
    FIVE = 5


class Word(str, Enum):
    REQUEST = "request"


def elsewhere(call, *arguments):
    """Makes a call in another thread, and returns what it returned there, or raises what was raised."""
    returned, raised = [], []

    def make():
        try:
            returned.append(call(*arguments))
        except Exception as error:
            raised.append(error)

    thread = threading.Thread(target=make)
    thread.start()
    thread.join()
    for error in raised:
        raise error
    return returned[0]


def outcome(call, names):
    """What a call comes to. Of exceptions of Python's the kind is told, not the words."""
    try:
        return repr(eval(call, names))
    except Refused as refused:
        return "%s: %s" % (refused.name, refused)
    except (TypeError, ValueError) as error:
        return "TypeError" if isinstance(error, TypeError) else "ValueError"


def show(calls, names, raises=True):
    tracer = names["t"]
    for call in calls.strip().split("\n"):
        before = tracer.entries()
        told = outcome(call, names)
        changed = " changed" if raises and tracer.entries() != before else ""
        print("%s: %s%s" % (call, told, changed), flush=True)
        if not raises and tracer.waiting(PIPE):
            print("    " + tracer.take(PIPE, 1), end="", flush=True)


def main():
    with Tracer(cpus=2, pages=2, page_bytes=128) as tracer, Tracer(history_limit=1) as full, Tracer() as others:
        closed = Tracer()
        closed.close()
        full.read("trace")
        names = dict(globals(), t=tracer, full=full, closed=closed)
        for declared in DECLARED.strip().split("\n"):
            tracer.append("synthetic_events", declared)
        tracer.write("events/enable", "1")
        names.update((name, tracer.event(name)) for name in ("tick", "request", "odd"))
        names["others"] = others.event("tick u64 n")
        for calls in (WRONG_KINDS, WRONG_VALUES):
            show(calls, names)
        show(RIGHT, names, raises=False)
        tracer.write("events/synthetic/tick/trigger", "hist:keys=n")
        tracer.line("mkdir instances/a")
        show(REFUSED, names)
        tracer.write("trace", "")
        show(ELSEWHERE, names, raises=False)


main()
