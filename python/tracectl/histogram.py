"""Histograms, parsed from the text of an event's file `hist`, whose grammar docs/FILES.md has.

A row is `{ KEY: VALUE, .. } hitcount: N  VALUE: N ..`. A string key is shown as it is, padded by blanks to 16 columns, and may have any printable
characters, also those that end a key. Numbers have none of them. So the end of the row is found from the right, where only numbers are, and between
string keys every split is tried that a row can have.
"""
from __future__ import annotations

import re
from collections.abc import Sequence
from dataclasses import dataclass
from typing import NamedTuple, Union

from .event import Field

COMMON = (Field("common_pid", "s32", 4, True), Field("common_cpu", "u32", 4, False))
COLUMNS = 16  # of a string
HEAD = re.compile(r"# event histogram\n#\n# trigger info: (hist:.*?) \[(active|paused)\]\n#\n\n", re.DOTALL)
TOTALS = re.compile(r"\nTotals:\n    Hits: (\d+)\n    Entries: (\d+)\n    Dropped: (\d+)\n\n?")


@dataclass(frozen=True)
class Bucket:
    """Whole numbers that share a row, from `least` to `greatest`. The first one of `.log2` has no least number: it is None."""

    least: int | None
    greatest: int

    def __contains__(self, number: int) -> bool:
        return number <= self.greatest and (self.least is None or self.least <= number)

    def __str__(self) -> str:
        return "..%d" % self.greatest if self.least is None else "%d..%d" % (self.least, self.greatest)


KeyValue = Union[int, str, Bucket]


class Row(NamedTuple):
    """A row: the values of its keys by their names, its hits, and the sums of the values by theirs. A key is a number, a string, or with `.log2` and
    `.buckets` a Bucket. A string ends at its last character that is not a blank, since blanks pad it."""

    keys: dict[str, KeyValue]
    hitcount: int
    values: dict[str, int]


@dataclass(frozen=True)
class Histogram:
    """A histogram: its trigger as the file shows it, whether it is paused, its rows in order, and the totals. `hits` are those in rows, `dropped` those
    for which there was no room."""

    trigger: str
    is_paused: bool
    rows: tuple[Row, ...]
    hits: int
    entries: int
    dropped: int


class Key:
    """A key of a trigger: how it is shown, and what that means."""

    def __init__(self, written: str, fields: Sequence[Field]) -> None:
        self.name, _, modifier = written.partition(".")
        self.modifier = modifier.partition("=")[0]
        found = [field for field in fields if field.name == self.name]
        if not found:
            raise ValueError("the event has no field %r" % self.name)
        self.field = found[0]
        self.pattern = self._pattern()

    def _pattern(self) -> str:
        if self.field.is_string:
            return ".{%d,%d}" % (COLUMNS, max(COLUMNS, self.field.size - 1))
        return {"hex": " *[0-9a-f]+", "log2": r" *~ 2\^\d+", "buckets": r" *~ -?\d+--?\d+"}.get(self.modifier, r" *-?\d+")

    def value(self, shown: str) -> KeyValue:
        if self.field.is_string:
            return shown.rstrip(" ") if len(shown) == COLUMNS else shown
        if self.modifier == "hex":
            bits = int(shown, 16)
            return bits - 2**64 if self.field.is_signed and bits >= 2**63 else bits
        if self.modifier == "log2":
            power = int(shown.partition("^")[2])
            return Bucket(2 ** (power - 1) + 1 if power else None, 2**power)
        if self.modifier == "buckets":
            least, greatest = re.fullmatch(r" *~ (-?\d+)-(-?\d+)", shown).groups()  # type: ignore[union-attr]
            return Bucket(int(least), int(greatest))
        return int(shown)


class Rows:
    """Reads the rows of a trigger."""

    def __init__(self, trigger: str, fields: Sequence[Field]) -> None:
        attributes = dict(word.partition("=")[::2] for word in trigger.split(" ")[0].split(":"))
        self.keys = [Key(written, fields) for written in attributes.get("keys", "").split(",")]
        self.values = [name for name in attributes.get("vals", "").split(",") if name != "hitcount"]
        end = r" \} hitcount: +(\d+)" + "".join(r"  %s: +(-?\d+)" % name for name in self.values)
        self.early, self.late = (re.compile(r"\{ %s%s" % (", ".join(self._shown(lazy)), end)) for lazy in ("?", ""))

    def _shown(self, lazy: str) -> list[str]:
        """The pattern of each key, which takes few characters or many."""
        return ["%s: (%s)" % (key.name, key.pattern + (lazy if key.field.is_string else "")) for key in self.keys]

    def row(self, line: str) -> Row:
        found, last = self.early.fullmatch(line), self.late.fullmatch(line)
        if not found or not last:
            raise ValueError("this is no row: %r" % line)
        if found.groups() != last.groups():
            raise ValueError("where a string ends in this row can't be told: %r" % line)
        shown = found.groups()
        keys = {key.name: key.value(text) for key, text in zip(self.keys, shown)}
        hitcount, *sums = map(int, shown[len(self.keys) :])
        return Row(keys, hitcount, dict(zip(self.values, sums)))


def parse_histograms(text: str, fields: Sequence[Field]) -> list[Histogram]:
    """The histograms of the text of a file `hist`, of an event with these fields. A ValueError if it can't be read in one way."""
    found: list[Histogram] = []
    at = 0
    while at < len(text):
        head = HEAD.match(text, at)
        if not head:
            raise ValueError("this is no histogram: %r" % text[at:])
        reader = Rows(head[1], (*fields, *COMMON))
        rows: list[Row] = []
        at = head.end()
        totals = TOTALS.match(text, at)
        while not totals:
            end = text.find("\n", at)
            if end < 0:
                raise ValueError("a histogram has no totals")
            rows.append(reader.row(text[at:end]))
            at = end + 1
            totals = TOTALS.match(text, at)
        at = totals.end()
        found.append(Histogram(head[1], head[2] == "paused", tuple(rows), *map(int, totals.groups())))
    return found
