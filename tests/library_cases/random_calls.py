"""random_calls.py SEED COUNT [each]: so many calls of the Python package, with random arguments of all types. `each` prints each before it is made.

A call with an argument that means nothing (drawing.py) has to raise TypeError or ValueError. Any other is made of a second tracer, too, by ctypes and
from what its arguments mean, emissions by values there by text: both have to come to the same, and both tracers to have done as many commands, so that
the calls which raised did none. A few are made in another thread. Ends with how many calls came to what, or with the first that came to something
else, and status 1.
"""
import faulthandler
import sys
import threading
from collections import Counter, namedtuple
from ctypes import CDLL, byref, c_int32, c_size_t, c_uint32, c_uint64, create_string_buffer
from functools import partial
from os import environ
from pathlib import Path

TOP = Path(__file__).resolve().parent.parent.parent
sys.path.insert(0, str(TOP / "python"))

from drawing import NOTHING, Drawing
from tracectl import Refused, Tracer
from tracectl.structures import Handle, Settings

NO_OFFSET = 2**64 - 1
RAISED = "TypeError or ValueError"
PERIOD, CLOSED = 5_000, 50  # each so many calls there are new tracers, which are closed for the last calls

EVENTS = {"tick": ["n"], "request": ["path", "status", "us"], "odd": ["cpu", "process", "event", "fields", "self"]}
DECLARED = ["tick u64 n", "request char path[16]; u32 status; s64 us", "odd u8 cpu; u8 process; char event[8]; u8 fields; s8 self"]
PIPES = ["trace_pipe", "per_cpu/cpu0/trace_pipe", "per_cpu/cpu1/trace_pipe", "instances/a/trace_pipe", "per_cpu/cpu2/trace_pipe"]
TICK = "events/synthetic/tick/"
READ = ["trace", "tracing_on", "snapshot", "per_cpu/cpu1/stats", "synthetic_events", "instances/a/trace", TICK + "hist", "no/file", "/"]
WRITTEN = ["trace", "tracing_on", "snapshot", "synthetic_events", "events/enable", TICK + "filter", TICK + "trigger", "no/file"]
WORDS = ["0", "1", "2", " 1 ", "n > 2", "n == 9 || m", "hist:keys=n.log2", "!hist:keys=n.log2", "snapshot:2", "!snapshot", "tick u64 n", "x u65 n"]
LINES = ["cat trace", "take 1 trace_pipe", "emit 1 7 tick n=5", "emit 0 7 tick n=-1", "echo 1 > events/enable", "mkdir instances/a",
         "rmdir instances/a", "# comment", "", "parallel", "ls", "cat 'trace", "cat", "take x trace_pipe"]


class Library:
    """A second tracer: the functions of tracectl.h by ctypes, called by what arguments mean."""

    def __init__(self, path, *settings):
        self.library, self.tracer, self.thread = CDLL(path), Handle(), (c_uint64 * 1)()
        for name, kind in (("reply_length", c_size_t), ("reply", c_size_t), ("offset", c_size_t), ("entries", c_uint64), ("waiting", c_int32), ("wanted", c_int32)):
            getattr(self.library, "tracectl_" + name).restype = kind
        self.opened = self.come(self.library.tracectl_open(byref(self.tracer), byref(Settings(*settings))) or self.join())

    def join(self):
        return self.library.tracectl_join(byref(self.tracer), self.thread)

    def close(self):
        if self.library.tracectl_leave(self.thread) or self.library.tracectl_close(byref(self.tracer)):
            raise ValueError("the second tracer can't be closed")

    @staticmethod
    def come(status):
        """What a call that has no reply comes to."""
        return ("refused", status, NO_OFFSET, b"") if status else ("done", b"")

    def call(self, name, *words):
        return getattr(self.library, "tracectl_" + name)(self.thread, *words)

    def ask(self, name, *given):
        """What a call comes to. Once it is closed, this thread can't join, as that of the module can't."""
        if not self.thread[0]:
            return self.come(self.join())
        words = []
        for each in given:
            words += [each, c_size_t(len(each))] if isinstance(each, bytes) else [each]
        status = self.call(name, *words)
        room = create_string_buffer(self.call("reply_length") + 1)
        count = self.call("reply", c_size_t(0), room, c_size_t(len(room)))
        return ("refused", status, self.call("offset"), room.raw[:count]) if status else ("done", room.raw[:count])

    def look(self, name, *words):
        if not self.thread[0]:
            return self.come(self.join())
        told = self.call(name, *words)
        return self.come(-told) if told < 0 else ("done", told == 1)

    def entries(self):
        return ("done", self.call("entries")) if self.thread[0] else self.come(self.join())

    def emit(self, event, pairs, place):
        cpu, process = (place[name].means if name in place else 0 for name in ("cpu", "process"))
        return self.ask("emit", event, c_uint32(cpu), c_int32(process), b"\0".join(b"%s=%s" % pair for pair in pairs))


# Each draws a call: its arguments as they are given, its keywords, whether all of them mean something, and what the second tracer does for it.
Call = namedtuple("Call", "given keywords fits second")


def fit(*arguments):
    return not any(argument.means is NOTHING for argument in arguments)


def call_of(arguments, second):
    return Call([argument.value for argument in arguments], {}, fit(*arguments), second)


def without_reply(come):
    return ("done", None) if come[0] == "done" else come


def drawn_strings(name, *usual, gives=lambda come: come):
    """A draw of a call whose arguments are all strings."""

    def draw(drawing):
        given = [drawing.string(each) for each in usual]
        return call_of(given, lambda second: gives(second.ask(name, *(each.means for each in given))))

    return draw


def draw_take(drawing):
    path, limit = drawing.string(PIPES + READ[:2]), drawing.number([0, 1, 2, 100], 0, 2**64 - 1)
    return call_of([path, limit], lambda second: second.ask("take", path.means, c_uint64(limit.means)))


def draw_waiting(drawing):
    path = drawing.string(PIPES + READ[:2])
    return call_of([path], lambda second: second.look("waiting", path.means, c_size_t(len(path.means))))


def draw_wanted(drawing):
    event = drawing.number([1, 2, 3, 0, 4, 64, 65], 0, 2**32 - 1)
    return call_of([event], lambda second: second.look("wanted", c_uint32(event.means)))


def draw_number_of(drawing):
    def look(second):
        come = second.ask("read", b"events/synthetic/%s/format" % event.means)
        return ("done", int(come[1].split(b"ID: ")[1].split()[0])) if come[0] == "done" else come

    event = drawing.string(list(EVENTS))
    return call_of([event], look)


def draw_pairs(drawing, event):
    """Names and values of fields, those of the event as a rule: those that are keywords, and those in a mapping."""
    by_keyword, in_mapping = {}, {}
    for field in [*EVENTS[event], "other"]:
        if drawing.chance(0.02 if field == "other" else 0.98):
            name = drawing.name(field)
            is_keyword = type(name.value) is str and name.value not in ("cpu", "process") and drawing.chance(0.5)
            (by_keyword if is_keyword else in_mapping)[name.value] = name, drawing.value(field)
    return by_keyword, in_mapping


def draw_emit(drawing):
    event = drawing.choice(list(EVENTS))
    by_keyword, in_mapping = draw_pairs(drawing, event)
    pairs = [*in_mapping.values(), *by_keyword.values()]
    place, name = drawing.place(), drawing.string([event])
    keywords = {key: argument.value for key, argument in [*place.items(), *((key, value) for key, (_, value) in by_keyword.items())]}
    mapping = {key: value.value for key, (_, value) in in_mapping.items()}
    given = [name.value, mapping] if mapping or drawing.chance(0.5) else [name.value]
    fits = fit(name, *place.values(), *(part for each in pairs for part in each))
    if not mapping and drawing.chance(drawing.unfit):
        given, fits = [name.value, drawing.choice([None, 5, "n", [("n", 5)], set()])], False
    return Call(given, keywords, fits, lambda second: without_reply(second.emit(name.means, [(n.means, v.means) for n, v in pairs], place)))


def draw_event(drawing):
    """A call of an event, which has to have its fields and no others. Its values are looked at in order of declaration."""
    event = drawing.choice(list(EVENTS))
    by_keyword, in_mapping = draw_pairs(drawing, event)
    values = {name.means: value for name, value in [*in_mapping.values(), *by_keyword.values()]}
    place, fields = drawing.place(), [field.encode() for field in EVENTS[event]]
    keywords = {key: argument.value for key, argument in [*place.items(), *((key, value) for key, (_, value) in by_keyword.items())]}
    fits = set(values) == set(fields) and fit(*place.values(), *values.values())
    mapping = {key: value.value for key, (_, value) in in_mapping.items()}
    pairs = [(field, values[field].means) for field in fields] if fits else []
    return Call([event, mapping], keywords, fits, lambda second: without_reply(second.emit(event.encode(), pairs, place)))


def draw_values(drawing):
    def emit(second):
        event = names[number.means - 1] if 1 <= number.means <= len(names) else "none"
        fields = EVENTS.get(event, []) + [""] * len(values)
        return without_reply(second.emit(event.encode(), [(field.encode(), value.means) for field, value in zip(fields, values)], place))

    names = list(EVENTS)
    event = drawing.choice(names)
    number = drawing.number([names.index(event) + 1] * 9 + [0, 4], 0, 2**32 - 1)
    values = [drawing.value(field) for field in EVENTS[event]]
    values += [drawing.value("other")] * drawing.chance(0.05)
    place = drawing.place()
    keywords = {key: argument.value for key, argument in place.items()}
    return Call([each.value for each in (number, *values)], keywords, fit(number, *values, *place.values()), emit)


def draw_settings(drawing):
    def open_second(second):
        other = Library(environ["TRACECTL_LIBRARY"], *(each.means for each in drawn.values()))
        if other.thread[0]:
            other.close()
        return without_reply(other.opened)

    drawn = {"cpus": drawing.number([1, 2, 8, 9, 0], 0, 2**32 - 1), "pages": drawing.number([2, 3, 1], 0, 2**32 - 1)}
    drawn.update(page_bytes=drawing.number([64, 128, 65], 0, 2**32 - 1), history_limit=drawing.number([0, 1, 2**32], 0, 2**64 - 1))
    return Call([], {key: argument.value for key, argument in drawn.items()}, fit(*drawn.values()), open_second)


def draw_count(least, most):
    """A draw of a call with too many or too few arguments."""

    def draw(drawing):
        counts = [count for count in range(5) if not least <= count <= most]
        return Call([drawing.string(["trace", "1"]).value for _ in range(drawing.choice(counts))], {}, False, None)

    return draw


def opened(**settings):
    Tracer(**settings).close()


DRAWS = {  # how often each is drawn, and the draw
    "line": (10, drawn_strings("line", LINES)),
    "emit": (30, draw_emit),
    "emit_values": (25, draw_values),
    "event": (15, draw_event),
    "number_of": (3, draw_number_of),
    "write": (10, drawn_strings("write", WRITTEN, WORDS, gives=without_reply)),
    "append": (10, drawn_strings("append", WRITTEN, WORDS, gives=without_reply)),
    "read": (8, drawn_strings("read", READ)),
    "take": (5, draw_take),
    "waiting": (5, draw_waiting),
    "wanted": (3, draw_wanted),
    "files": (1, drawn_strings("files")),
    "open": (2, draw_settings),
}
DRAWN = [name for name, (often, _) in DRAWS.items() for _ in range(often)]
COUNTS = {"line": (1, 1), "emit": (1, 2), "number_of": (1, 1), "write": (2, 2), "append": (2, 2), "read": (1, 1), "take": (2, 2)}
COUNTS.update(waiting=(1, 1), wanted=(1, 1), files=(0, 0))  # how many positional arguments a call takes, at least and at most
OTHERS = {name: draw_count(*bounds) for name, bounds in COUNTS.items()}


def elsewhere(make):
    """What a call comes to in another thread."""
    come = []
    thread = threading.Thread(target=lambda: come.append(outcome(make)))
    thread.start()
    thread.join()
    return come[0]


def as_bytes(text):
    return text.encode(errors="surrogateescape")


def outcome(make):
    try:
        return ("done", make())
    except Refused as refused:
        return ("refused", refused.status, NO_OFFSET if refused.offset is None else refused.offset, as_bytes(refused.field or ""))
    except (TypeError, ValueError):
        return (RAISED,)


class Run:
    """A module's tracer, and the second one."""

    def __init__(self, drawing):
        self.drawing, self.counts = drawing, Counter()

    def renew(self):
        self.tracer = Tracer(cpus=2, pages=2, page_bytes=128)
        self.second = Library(environ["TRACECTL_LIBRARY"], 2, 2, 128, 0)
        self.events = {declared.split()[0]: self.tracer.event(declared) for declared in DECLARED}
        for declared in DECLARED:
            self.second.ask("append", b"synthetic_events", declared.encode())
            self.second.ask("read", b"events/synthetic/%s/format" % declared.split()[0].encode())
        self.tracer.write("events/enable", "1")
        self.second.ask("write", b"events/enable", b"1")

    def close(self):
        self.tracer.close()
        self.second.close()

    def draw(self):
        """The name of a call, and the call."""
        self.drawing.unfit = 0.2 if self.drawing.chance(0.4) else 0
        if self.drawing.chance(0.02):
            name = self.drawing.choice(list(OTHERS))
            return name, OTHERS[name](self.drawing)
        name = self.drawing.choice(DRAWN)
        return name, DRAWS[name][1](self.drawing)

    def differs(self, name, call):
        """Makes a call of both, and says what differs."""
        others = {"open": opened, "event": lambda event, /, *given, **keywords: self.events[event](*given, **keywords)}
        method = others.get(name) or getattr(self.tracer, name)
        make = partial(method, *call.given, **call.keywords)
        got = elsewhere(make) if self.drawing.chance(0.002) else outcome(make)
        if got[0] == "done" and isinstance(got[1], (str, bytes)):
            if isinstance(got[1], bytes) != (name != "files" and isinstance(call.given[0], bytes)):
                return "came to a %s" % type(got[1]).__name__
            got = "done", got[1] if isinstance(got[1], bytes) else as_bytes(got[1])
        want = call.second(self.second) if call.fits else (RAISED,)
        self.counts[want[0]] += 1
        if got != want:
            return "came to %r, expected %r" % (got, want)
        if call.fits and not self.drawing.chance(0.1):
            return ""
        counts = outcome(self.tracer.entries), self.second.entries()
        return "" if counts[0] == counts[1] else "commands: %r, expected %r" % counts


def main(seed, count, each=""):
    faulthandler.enable()
    run = Run(Drawing(int(seed)))
    for number in range(int(count)):
        if number % PERIOD == 0:
            run.renew()
        if number % PERIOD == PERIOD - CLOSED:
            run.close()
        name, call = run.draw()
        if each:
            print("%d: %s(*%r, **%r)" % (number, name, call.given, call.keywords), flush=True)
        differs = run.differs(name, call)
        if differs:
            print("call %d: %s(*%r, **%r) %s" % (number, name, call.given, call.keywords, differs))
            return 1
    print(", ".join("%d %s" % (times, come) for come, times in run.counts.most_common()))
    return 0


sys.exit(main(*sys.argv[1:]))
