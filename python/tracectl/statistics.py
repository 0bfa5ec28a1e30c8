"""What a CPU's ring holds and has lost, as numbers."""
from __future__ import annotations

import re
from typing import NamedTuple


class Statistics(NamedTuple):
    """The lines of a file `stats`: docs/RING.md tells what each counts."""

    entries: int
    overrun: int
    commit_overrun: int
    bytes: int
    oldest_event_ts: int
    now_ts: int
    dropped_events: int
    read_events: int


LINES = re.compile("".join("%s: ([0-9]+)\n" % name.replace("_", " ") for name in Statistics._fields))


def parse_statistics(text: str) -> Statistics:
    """The numbers of the text of a file `stats`."""
    found = LINES.fullmatch(text)
    if not found:
        raise ValueError("these are no statistics: %r" % text)
    return Statistics(*map(int, found.groups()))
