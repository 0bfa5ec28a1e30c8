"""Commands drawn at random, most of which a tracer does: what it was asked is remembered, and the limits of docs/FILES.md are come to often."""
import re
import string
from collections import namedtuple

from walking.texts import filter_of, hist_of

MOST_EVENTS, MOST_INSTANCES, MOST_TRIGGERS, MOST_FIELDS = 64, 8, 4, 16
LENGTHS = (1, 2, 8, 15, 16, 17, 31, 32)  # of names
STRINGS = (1, 2, 8, 16, 63, 64)  # lengths of fields
LETTERS = string.ascii_letters + "_"
PRINTED = "".join(map(chr, range(0x20, 0x7F)))
NUMBERS = {"%s%d" % (sign, bits): (-(1 << bits - 1), (1 << bits - 1) - 1) if sign == "s" else (0, (1 << bits) - 1) for sign in "us" for bits in (8, 16, 32, 64)}
NUMBERS.update({"unsigned long": NUMBERS["u64"], "long": NUMBERS["s64"], "unsigned int": NUMBERS["u32"], "int": NUMBERS["s32"], "pid_t": NUMBERS["s32"]})
SPECIAL = re.compile(r"[^\w=.,:/*!&-]")

Field = namedtuple("Field", "name kind bounds size")  # bounds are None for a string


def quoted(text):
    """A word of a script that has this text."""
    if text and not SPECIAL.search(text):
        return text
    return "".join('"%s"' % part if "'" in part else "'%s'" % part for part in re.split("('+)", text) if part) or "''"


def row_of(pairs):
    """The words for fields with these values."""
    return " ".join("%s=%s" % (name, quoted(value)) for name, value in pairs)


class Emission(namedtuple("Emission", "cpu process event pairs")):
    def line(self):
        return "emit %d %d %s %s" % (self.cpu, self.process, self.event, row_of(self.pairs))


class Writing(namedtuple("Writing", "text path appends")):
    def line(self):
        return "echo %s %s %s" % (quoted(self.text), ">>" if self.appends else ">", self.path)


class Reading(namedtuple("Reading", "path")):
    def line(self):
        return "cat " + self.path


class Taking(namedtuple("Taking", "limit path")):
    def line(self):
        return "take %d %s" % self


class Making(namedtuple("Making", "name")):
    def line(self):
        return "mkdir instances/" + self.name


class Removing(namedtuple("Removing", "name")):
    def line(self):
        return "rmdir instances/" + self.name


def kind_of(kind, command):
    """A command and its kind: what was to be made may have been removed, and the other way round."""
    return (kind if kind == "refused" else {Making: "make", Removing: "remove"}.get(type(command), kind)), command


class Event:
    """A declared event."""

    def __init__(self, name, fields):
        self.name, self.fields = name, fields

    def text(self):
        fields = ("%s %s" % (field.kind, field.name if field.bounds else "%s[%d]" % (field.name, field.size)) for field in self.fields)
        return "%s %s" % (self.name, "; ".join(fields))

    def file(self, name):
        return "events/synthetic/%s/%s" % (self.name, name)

    def record_bytes(self):
        return 16 + (sum(field.size for field in self.fields) + 7) // 8 * 8


class Walk:
    """What is there, as far as it is remembered, and draws of commands."""

    def __init__(self, draw, cpus, page_bytes):
        self.draw, self.cpus, self.page_bytes = draw, cpus, page_bytes
        self.events, self.instances, self.names = [], [""], set()
        self.attached = {}  # the hist triggers of an event in an instance
        self.snapping = set()  # instances and events with a snapshot trigger

    # ---- names, fields, values

    def chance(self, share):
        return self.draw.random() < share

    def new_name(self, length=None):
        """A name that was not given before."""
        length = length or self.draw.choice(LENGTHS)
        while True:
            name = self.draw.choice(LETTERS) + "".join(self.draw.choices(LETTERS + string.digits, k=length - 1))
            if name not in self.names:
                self.names.add(name)
                return name
            length = min(length + 1, 32)

    def new_field(self):
        if self.chance(0.3):
            return Field(self.new_name(), "char", None, self.draw.choice(STRINGS))
        kind = self.draw.choice(list(NUMBERS))
        least, most = NUMBERS[kind]
        return Field(self.new_name(), kind, (least, most), (most - least + 1).bit_length() // 8)

    def new_event(self, most_fields=MOST_FIELDS):
        """An event whose records fit a page."""
        count = self.draw.choice((1, 1, 2, 3, 8, MOST_FIELDS - 1, MOST_FIELDS))
        event = Event(self.new_name(), [self.new_field() for _ in range(min(count, most_fields))])
        while event.record_bytes() > self.page_bytes:
            event.fields.pop()
        return event if event.fields else Event(event.name, [Field("n", "u64", NUMBERS["u64"], 8)])

    def value_of(self, field):
        """A value of a field, often one that came before."""
        if field.bounds:
            least, most = field.bounds
            number = self.draw.choice((least, most, 0, 1, self.draw.randrange(1, 10), self.draw.randint(least, most)))
            return hex(number) if number > 9 and self.chance(0.1) else str(number)
        length = self.draw.choice((0, 1, field.size - 1, self.draw.randrange(field.size)))
        if self.chance(0.5):
            return "a" * min(length, field.size - 1)
        return "".join(self.draw.choices(PRINTED, k=min(length, field.size - 1)))

    # ---- what there is

    def instance(self):
        return self.draw.choice(self.instances)

    def below(self, path, instance=None):
        instance = self.instance() if instance is None else instance
        return "instances/%s/%s" % (instance, path) if instance else path

    def event(self):
        return self.draw.choice(self.events)

    def cpu(self):
        return self.draw.randrange(self.cpus)

    # ---- each kind of command

    def declare(self):
        event = self.new_event()
        if len(self.events) < MOST_EVENTS:
            self.events.append(event)
        return Writing(event.text(), "synthetic_events", True)

    def make(self):
        if len(self.instances) == MOST_INSTANCES and self.chance(0.9):
            return self.remove()
        name = self.new_name()
        if len(self.instances) < MOST_INSTANCES:
            self.instances.append(name)
        return Making(name)

    def remove(self):
        if len(self.instances) == 1:
            return self.make()
        name = self.instances.pop(self.draw.randrange(1, len(self.instances)))
        self.attached = {key: texts for key, texts in self.attached.items() if key[0] != name}
        self.snapping = {key for key in self.snapping if key[0] != name}
        return Removing(name)

    def enable(self):
        path = self.draw.choice((self.event().file("enable"), self.event().file("enable"), "events/enable", "events/synthetic/enable"))
        return Writing("1" if self.chance(0.8) else "0", self.below(path), self.chance(0.5))

    def filter(self):
        event = self.event()
        return Writing("0" if self.chance(0.3) else filter_of(self.draw, event.fields), self.below(event.file("filter")), self.chance(0.5))

    def filter_all(self):
        text = "0" if self.chance(0.5) else filter_of(self.draw, self.event().fields if self.chance(0.3) else [])
        return Writing(text, self.below("events/synthetic/filter"), self.chance(0.5))

    def attach(self):
        """A hist trigger, perhaps of a named table, or an action on one."""
        event, instance = self.event(), self.instance()
        texts = self.attached.setdefault((instance, event.name), [])
        appends = self.chance(0.9)
        if not appends:
            texts.clear()
        path = self.below(event.file("trigger"), instance)
        if texts and (self.chance(0.3) or len(texts) + ((instance, event.name) in self.snapping) >= MOST_TRIGGERS):
            return Writing(self.acted_on(texts), path, True)
        text = hist_of(self.draw, event.fields, self.new_name)
        texts.append(text)
        return Writing(text, path, appends)

    def acted_on(self, texts):
        """One of these hist triggers, with an action or to be removed."""
        text = self.draw.choice(texts)
        if self.chance(0.3):
            texts.remove(text)
            return "!" + text
        head, blank, rest = text.partition(" ")
        return head + self.draw.choice((":pause", ":continue", ":cont", ":clear")) + blank + rest

    def snap(self):
        """A snapshot trigger is attached or removed."""
        event, instance = self.event(), self.instance()
        key, path = (instance, event.name), self.below(event.file("trigger"), instance)
        if key in self.snapping:
            self.snapping.discard(key)
            return Writing("!snapshot", path, True)
        if len(self.attached.get(key, ())) < MOST_TRIGGERS:
            self.snapping.add(key)
        word = self.draw.choice(("snapshot", "snapshot:1", "snapshot:3", "snapshot:4294967295"))
        return Writing(word + (" if " + filter_of(self.draw, event.fields) if self.chance(0.5) else ""), path, True)

    def snapshot(self):
        return Writing(self.draw.choice("11102"), self.below("snapshot"), self.chance(0.5))

    def switch(self):
        path, words = self.draw.choice((("tracing_on", "01111"), ("options/overwrite", "011"), ("trace_options", ("overwrite", "nooverwrite"))))
        return Writing(self.draw.choice(words), self.below(path), self.chance(0.5))

    def clear(self):
        return Writing("", self.below(self.draw.choice(("trace", "per_cpu/cpu%d/trace" % self.cpu()))), self.chance(0.2))

    def read(self):
        """A read of a file of any kind."""
        cpu = self.cpu()
        paths = ["trace", "trace_pipe", "snapshot", "tracing_on", "options/overwrite", "trace_options", "events/enable", "events/synthetic/enable"]
        paths += ["per_cpu/cpu%d/%s" % (cpu, name) for name in ("trace", "trace_pipe", "stats")]
        paths += [self.event().file(name) for name in ("enable", "filter", "format", "trigger", "trigger", "hist", "hist")]
        return Reading("synthetic_events" if self.chance(0.05) else self.below(self.draw.choice(paths)))

    def take(self):
        return Taking(self.draw.choice((0, 1, 2, 7, (1 << 64) - 1)), self.below(self.draw.choice(("trace_pipe", "per_cpu/cpu%d/trace_pipe" % self.cpu()))))

    def pairs_of(self, event):
        """A value for each field of an event, in any order."""
        pairs = [(field.name, self.value_of(field)) for field in event.fields]
        return self.draw.sample(pairs, len(pairs)) if self.chance(0.3) else pairs

    def emit(self):
        event = self.event()
        process = self.draw.choice((0, 7, 7, self.draw.randrange(1 << 22), -(1 << 31), (1 << 31) - 1))
        return Emission(self.cpu(), process, event.name, self.pairs_of(event))

    def wrong_emission(self, name):
        emission = self.emit()
        (first, _), *others = emission.pairs
        pairs = (others or [("none", "1")], [*emission.pairs, (first, "1")], [(first, "x" * 65), *others])
        if self.chance(0.4):
            return emission._replace(**self.draw.choice(({"cpu": 8}, {"event": name})))
        return emission._replace(pairs=self.draw.choice(pairs))

    def wrong_writing(self, name, path):
        draw, event = self.draw, self.event()
        wide = "; ".join("char %s[64]" % letter for letter in string.ascii_letters[: self.page_bytes // 64 + 1])
        declarations = (event.text(), "%s u64 n" % name, "x", "y u65 n", "z u64 n;;", "w char c[65]", "w " + wide)
        triggers = ("hist:keys=none", "hist:vals=n", "hist:keys=%s:size=1" % event.fields[0].name, "snapshot:0", "nonsense", "!hist:keys=common_pid.hex")
        below, words = self.below, ("x", "", str(1 << 64), "x" * 2_000)
        return draw.choice((
            Writing("1", draw.choice((path, "trace_pipe", event.file("hist"), event.file("format"))), True),
            Writing(draw.choice(words), below(draw.choice(("tracing_on", "snapshot", event.file("enable"), "trace_options"))), True),
            Writing(draw.choice(declarations), "synthetic_events", self.chance(0.9)),
            Writing(draw.choice(("n ==", "none == 1", "(" * 17, "x" * 1_025, "common_pid ~ 1", "common_pid == x")), below(event.file("filter")), True),
            Writing(draw.choice(triggers), below(event.file("trigger")), True),
        ))

    def refused(self):
        """A command that can't be done, as a rule."""
        name = self.draw.choice(("none", "9x", "x" * 33))
        path = self.draw.choice(("nothing", "events/synthetic/none/enable", "instances/none/trace", "per_cpu/cpu9/stats"))
        making = Making(self.draw.choice(("9x", "x" * 33, self.instance() or "a/b")))
        others = (Reading(path), Reading(self.below("events/synthetic/filter")), Taking(1, self.below("trace")), making, Removing(name))
        return self.draw.choice((self.wrong_emission(name), self.wrong_writing(name, path), self.wrong_writing(name, path), self.draw.choice(others)))

    # ---- walks

    # Each kind of command, and how often it is drawn.
    KINDS = {
        **{"emit": 30, "read": 20, "take": 3, "attach": 8, "filter": 6, "filter_all": 2, "snap": 3, "snapshot": 4, "switch": 4, "enable": 6, "clear": 2},
        **{"make": 2, "remove": 1, "declare": 1, "refused": 5},
    }

    def steps(self, count, events):
        """So many commands, each with its kind. Before them so many events are declared, and after each an instance is made."""
        for _ in range(events):
            yield "declare", self.declare()
            if len(self.instances) == MOST_INSTANCES:
                yield "remove", self.remove()
            yield "make", self.make()
        yield "enable", Writing("1", "events/enable", False)
        for kind in self.draw.choices(list(self.KINDS), weights=list(self.KINDS.values()), k=count):
            yield kind_of(kind, getattr(self, kind)())
