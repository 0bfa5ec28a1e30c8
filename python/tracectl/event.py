"""An event, which is emitted by a call."""
from __future__ import annotations

import re
from collections.abc import Mapping
from typing import TYPE_CHECKING, NamedTuple

from .arguments import NO_FIELDS, Fields, FieldValue, Text, decoded, string

if TYPE_CHECKING:
    from .tracer import Tracer

FIELD = re.compile(r"^\tfield:(.+) (\w+)(\[\d+\])?;\toffset:\d+;\tsize:(\d+);\tsigned:([01]);$", re.MULTILINE)
ID = re.compile(r"^ID: (\d+)$", re.MULTILINE)


class Field(NamedTuple):
    """A field of an event: `type` is as it was declared, of a string `char`, and `size` its bytes in a record."""

    name: str
    type: str
    size: int
    is_signed: bool

    @property
    def is_string(self) -> bool:
        return self.type == "char"


def parse_format(text: str) -> tuple[int, tuple[Field, ...]]:
    """The number of an event and its fields, of the text of its file `format`. That has `common_pid` before them."""
    number = ID.search(text)
    if not number:
        raise ValueError("this is no format: %r" % text)
    fields = [Field(name, kind, int(size), signed == "1") for kind, name, _, size, signed in FIELD.findall(text)]
    return int(number[1]), tuple(fields[1:])


def as_declared(declaration: bytes) -> bytes:
    """A declaration as `synthetic_events` shows it, with single blanks."""
    parts = [b" ".join(part.split()) for part in declaration.split(b";")]
    return b"; ".join(parts if parts[-1] else parts[:-1])


class Event:
    """An event of a tracer, from `Tracer.event`: a call of it is an emission.

        tick = tracer.event("tick u64 n")
        tick(n=5)

    It has its `name`, its `number` and its `fields`, in order of declaration. Any thread may use it.
    """

    def __init__(self, tracer: Tracer, name: Text) -> None:
        self.tracer = tracer
        self.name = decoded(string("an event", name))
        self._folder = "events/synthetic/%s/" % self.name
        self.number, self.fields = parse_format(tracer.read(self._folder + "format"))
        self._names = [field.name for field in self.fields]
        self._keys = set(self._names)

    def __repr__(self) -> str:
        return "<Event %s, number %d>" % (self.name, self.number)

    def __call__(self, fields: Fields = NO_FIELDS, /, *, cpu: int = 0, process: int = 0, **more: FieldValue) -> None:
        """It happens, on a CPU and in a process, with a value for each field. A field is given by keyword, or in the mapping, as one named `cpu` or
        `process` is. A field too many, too few or given twice is a TypeError; a value that the field can't have is refused (BadRow)."""
        if fields is NO_FIELDS and more.keys() == self._keys:
            values = [more[name] for name in self._names]
        else:
            values = self._ordered(fields, more)
        self.tracer.emit_values(self.number, *values, cpu=cpu, process=process)

    def _ordered(self, *given: Fields) -> list[FieldValue]:
        """The values of these fields, in order of declaration."""
        values: dict[str, FieldValue] = {}
        for each in given:
            if not isinstance(each, Mapping):
                raise TypeError("the fields are a mapping, not %s" % type(each).__name__)
            for field, value in each.items():
                name = decoded(string("a field's name", field))
                if name in values:
                    raise TypeError("%s has two values for %s" % (self.name, name))
                values[name] = value
        lacking = [name for name in self._names if name not in values]
        if lacking:
            raise TypeError("%s has no value for %s" % (self.name, ", ".join(lacking)))
        ordered = [values.pop(name) for name in self._names]
        if values:
            raise TypeError("%s has no field %s" % (self.name, ", ".join(values)))
        return ordered

    @property
    def wanted(self) -> bool:
        """Whether an emission may do more than count the clock: `Tracer.wanted`."""
        return self.tracer.wanted(self.number)

    def enable(self) -> None:
        """It is recorded from now on, by the top instance."""
        self.tracer.write(self._folder + "enable", "1")

    def disable(self) -> None:
        """It is not recorded any more."""
        self.tracer.write(self._folder + "enable", "0")

    def filter(self, text: Text) -> None:
        """Only emissions that pass this filter are recorded. `0` clears it."""
        self.tracer.write(self._folder + "filter", text)

    def trigger(self, text: Text) -> None:
        """Attaches a trigger, as `hist:keys=n`, or with a `!` before it removes one."""
        self.tracer.append(self._folder + "trigger", text)
