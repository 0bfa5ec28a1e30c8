"""Walks by calls of the library for C, from Python: what each command replies is what the program prints of it in a script."""
import re
from collections import Counter

from cases.running import differences, run
from tracectl import NAMES, Refused, Tracer
from walking.commands import Emission, Reading, Taking, Writing
from walking.scripts import OUT_OF_MEMORY, drawn, text_of

MEMORY = 23
WHOLE = re.compile(r"0|-?[1-9][0-9]*")


def value_of(text):
    return int(text) if WHOLE.fullmatch(text) else text.encode()


class Caller:
    """A tracer, and its events as far as they were asked for."""

    def __init__(self, draw, words):
        cpus, pages, page_bytes = (int(word) for word in words[1:6:2])
        self.draw, self.tracer = draw, Tracer(cpus=cpus, pages=pages, page_bytes=page_bytes)
        self.events = {}

    def declared(self, event):
        """The number of an event, and its fields in order of declaration; nothing, if it is not there."""
        if event not in self.events:
            try:
                found = self.tracer.event(event)
            except Refused:
                return None, []
            self.events[event] = found.number, [field.name for field in found.fields]
        return self.events[event]

    def emit(self, emission):
        """By text, or by values if each field has one, and nothing else has."""
        values, place = dict(emission.pairs), {"cpu": emission.cpu, "process": emission.process}
        number, fields = self.declared(emission.event)
        if len(values) < len(emission.pairs):
            return self.tracer.line(emission.line().encode())
        if sorted(values) == sorted(fields) and self.draw.random() < 0.5:
            self.tracer.emit_values(number, *[value_of(values[name]) for name in fields], **place)
        else:
            self.tracer.emit(emission.event, values, **place)
        return b""

    def done(self, command):
        """What a command replies, done as a line or by the call of its kind."""
        if self.draw.random() < 0.3:
            return self.tracer.line(command.line().encode())
        if isinstance(command, Emission):
            return self.emit(command)
        if isinstance(command, Writing):
            (self.tracer.append if command.appends else self.tracer.write)(command.path, command.text)
            return b""
        if isinstance(command, Reading):
            return self.tracer.read(command.path.encode())
        if isinstance(command, Taking):
            return self.tracer.take(command.path.encode(), command.limit)
        return self.tracer.line(command.line().encode())


def shown(number, refused):
    """What a script prints of a refusal."""
    at = " at %d" % refused.offset if refused.offset is not None else ""
    field = " " + (refused.field or "") if NAMES[refused.status] == "BadRow" else ""
    return ("! %d: N%d %s%s%s\n" % (number, refused.status, NAMES[refused.status], at, field)).encode()


def walk(program, draw, count, events, cpus, pages, page_bytes):
    """What was refused for lack of memory in a walk of so many commands, how often each kind was done, and how often what was refused."""
    words, steps = drawn(draw, count, events, cpus, pages, page_bytes)
    caller, replies, lacking, done, refusals = Caller(draw, words), [], [], Counter(), Counter()
    with caller.tracer as tracer:
        for number, (kind, command) in enumerate(steps, 1):
            try:
                replies.append(caller.done(command))
                done[kind] += 1
                if draw.random() < 0.02:
                    tracer.files()
            except Refused as refused:
                replies.append(shown(number, refused))
                refusals[refused.status] += 1
                if refused.status == MEMORY:
                    lacking.append((kind, command.line(), "status 23"))
    got = run([program, *words], script=text_of(steps))
    assert lacking or got.status != OUT_OF_MEMORY, "the program was refused memory"
    wrong = [] if lacking else differences(got._replace(status=0), got._replace(status=0, stdout=b"".join(replies)))
    assert not wrong, "of the script, with the replies of calls: %s" % wrong[0]
    return lacking, done, refusals

