"""What a tracer refuses."""
from __future__ import annotations

# The names of statuses (docs/REFUSALS.md): refusals from 1, faults of lines from 101, and what is wrong with a handle or a mount from 200
# (tracectl.h).
REFUSALS = """NoSuchFile NotReadable NotWritable BadValue NoSuchEvent EventExists BadDefinition TooBig FilterSyntax NoSuchField WrongOperator
    HistSyntax BadSize TriggerExists NoSuchTrigger TooMany InstanceExists NoSuchInstance Busy NoSuchCpu BadRow HistoryFull Memory Worn"""
FAULTS = "LineTooLong BadByte UnclosedQuote UnknownCommand WrongWords BadNumber BlockOutOfPlace TooManyThreads"
HANDLES = """NotOpen AlreadyOpen Busy NotJoined AlreadyJoined NoPassLeft StillJoined Forked InCall OtherThread
    NotMounted AlreadyMounted NoFolder FolderBusy NoDevice NoRight NotNow Limited"""
NAMES = {status: name for first, names in ((1, REFUSALS), (101, FAULTS), (200, HANDLES)) for status, name in enumerate(names.split(), first)}


class Refused(Exception):
    """A call was refused: its `status`, the `name` of that, the `offset` in bytes of what is wrong, if there is one, of BadRow the `field`'s name, and
    an `explanation`, what is wrong in a sentence. A call that the tracer was not asked has none, nor has one where memory for it is refused."""

    def __init__(self, status: int, offset: int | None = None, field: str | None = None, explanation: str | None = None) -> None:
        super().__init__(status, offset, field, explanation)
        self.status, self.name = status, NAMES.get(status, "Unknown")
        self.offset = offset
        self.field = field
        self.explanation = explanation

    def __str__(self) -> str:
        at = "" if self.offset is None else " at %d" % self.offset
        if self.explanation:
            return "%s%s: %s (status %d)" % (self.name, at, printable(self.explanation), self.status)
        return "%s%s%s (status %d)" % (self.name, at, " " + printable(self.field) if self.field else "", self.status)


def printable(text: str) -> str:
    """A string in which bytes that are no UTF-8 are written as such."""
    return text.encode(errors="surrogateescape").decode(errors="backslashreplace")
