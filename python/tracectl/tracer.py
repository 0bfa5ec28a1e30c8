"""A tracer by ctypes: its calls are methods, which threads share."""
from __future__ import annotations

import atexit
import os
from collections.abc import Iterator, Mapping
from contextlib import contextmanager
from ctypes import CDLL, addressof, byref, c_int32, c_size_t, c_uint32, c_uint64, c_void_p, create_string_buffer, get_errno
from pathlib import Path
from threading import get_ident, local
from typing import Any, AnyStr

from .arguments import NO_FIELDS, S32, U32, U64, Fields, FieldValue, Text, decoded, like, number, pair, string
from .event import Event, as_declared, parse_format
from .histogram import Histogram, parse_histograms
from .library import find_library
from .mount import ALLOW_OTHER, refusal
from .refused import NAMES, Refused
from .statistics import Statistics, parse_statistics
from .structures import NO_OFFSET, Handle, Settings, Value

ROOM = 256  # for a piece of an explanation; most are shorter
OPEN: dict[int, Handle] = {}  # by their addresses: a thread that ends leaves by its tracer's handle, also where the `Tracer` is gone


class Seat:
    """A thread that has joined a tracer. It leaves when this is let go, which is when the thread ends."""

    def __init__(self, library: CDLL, tracer: Handle) -> None:
        self._leave, self._thread = library.tracectl_leave, get_ident()
        self.handle = (c_void_p * 1)()  # 0 while it has not joined
        status = library.tracectl_join(byref(tracer), self.handle)
        if status:
            raise Refused(status)

    def leave(self) -> None:
        """Leaves, if this is the thread that joined: another one leaves by itself when it ends."""
        if get_ident() == self._thread:
            self._leave(self.handle)

    __del__ = leave


class Tracer:
    """A tracer, to be used in a `with` or closed. A limit of 0 on the number of commands is none. `library` is the path of the shared library; it is found
    as `find_library` tells if there is none.

    A path is `str` or `bytes`, and so are a line and a text; what a call returns has the type of its path or line.

    Any thread may call it: with its first call it joins, and it leaves when it ends, or by `leave`. One call at a time has its turn at the tracer; while
    it runs, or waits for its turn, other threads of Python run. A handler of a signal makes no call of a tracer that it may have interrupted, since that
    would take its reply away. In the child of a fork each call is refused (Forked), and there is no mount.
    """

    def __init__(
        self,
        cpus: int = 1,
        pages: int = 16,
        page_bytes: int = 4080,
        history_limit: int = 0,
        library: Text | os.PathLike[str] | None = None,
    ) -> None:
        sizes = [number(what, value, U32) for what, value in (("cpus", cpus), ("pages", pages), ("page_bytes", page_bytes))]
        settings = Settings(*sizes, number("history_limit", history_limit, U64))
        path = find_library() if library is None else os.fsdecode(library)
        if not path:
            raise ValueError("`library` names no file")
        self._library = CDLL(path)
        self._here = local()  # `seat` is the thread's
        self._handle = Handle()
        status = self._library.tracectl_open(byref(self._handle), byref(settings))
        if status:
            raise Refused(status)
        OPEN[addressof(self._handle)] = self._handle

    def __enter__(self) -> Tracer:
        return self

    def __exit__(self, *error: object) -> None:
        try:
            self.close()
        except Refused as refused:
            if refused.name != "Forked":  # a child that leaves the `with` of its parent closes nothing
                raise

    def _seat(self) -> Seat:
        """That of this thread, which joins if it has not."""
        if not hasattr(self._here, "seat"):
            self._here.seat = Seat(self._library, self._handle)
        seat: Seat = self._here.seat
        return seat

    def _call(self, name: str, *given: Any, result: Any = c_uint32) -> int:
        """Calls a function of the library. What is given was checked: values of C types, and bytes, of which C takes a pointer and a length."""
        function = getattr(self._library, "tracectl_" + name)
        function.restype = result
        words: list[Any] = []
        for each in given:
            words += (each, c_size_t(len(each))) if isinstance(each, bytes) else (each,)
        told: int = function(self._seat().handle, *words)
        return told

    def _do(self, name: str, *given: Any) -> None:
        """Makes a call, whose reply nobody reads unless it is refused."""
        status = self._call(name, *given)
        if status:
            offset = self._call("offset", result=c_size_t)
            field, explanation = decoded(self._reply()) or None, decoded(self._explanation()) or None
            raise Refused(status, None if offset == NO_OFFSET else offset, field, explanation)

    def _ask(self, name: str, *given: Any) -> bytes:
        """Makes a call, and gives its reply."""
        self._do(name, *given)
        return self._reply()

    def _reply(self) -> bytes:
        """That of this thread's last call."""
        length = self._call("reply_length", result=c_size_t)
        if not length:
            return b""
        room = create_string_buffer(length)
        count = self._call("reply", c_size_t(0), room, c_size_t(length), result=c_size_t)
        return room.raw[:count]

    def _explanation(self) -> bytes:
        """What is wrong with this thread's last call."""
        text, room = b"", create_string_buffer(ROOM)
        while True:
            count = self._call("explain", c_size_t(len(text)), room, c_size_t(ROOM), result=c_size_t)
            text += room.raw[:count]
            if count < ROOM:
                return text

    def leave(self) -> None:
        """This thread leaves. Its next call joins again."""
        if hasattr(self._here, "seat"):
            self._here.seat.leave()
            del self._here.seat

    def close(self) -> None:
        """Closes it, and this thread leaves. If it is mounted, that ends first. Refused (StillJoined) while other threads have not ended, and not left. Once
        it is closed, this does nothing, and commands are refused."""
        self.leave()
        status = self._library.tracectl_close(byref(self._handle))
        if status and NAMES.get(status) != "NotOpen":
            raise Refused(status)
        OPEN.pop(addressof(self._handle), None)
        atexit.unregister(self._take_away)

    def mount(self, folder: Text | os.PathLike[Any], *, allow_other: bool = False) -> None:
        """Mounts it on a folder, by FUSE: its files are there for shells and other programs, until `unmount`, `close` or the program's end. `allow_other`
        lets other users in, as far as the files' permissions do.

        Refused if it is mounted (AlreadyMounted) or has a `history_limit` (Limited), of a folder that is none (NoFolder) or that something else is
        mounted on (FolderBusy), and where this user can't open /dev/fuse (NoDevice) or may not mount there (NoRight). What a program that was killed has
        left on the folder is taken away.
        """
        if not isinstance(allow_other, bool):
            raise TypeError("allow_other is bool, not %s" % type(allow_other).__name__)
        name = string("a folder", os.fsencode(folder))
        calls = CDLL(self._library._name, handle=self._library._handle, use_errno=True)  # the same library
        status = calls.tracectl_mount(byref(self._handle), name, c_uint32(ALLOW_OTHER if allow_other else 0))
        if status:
            raise refusal(status, name, get_errno())
        atexit.register(self._take_away)  # the server uses the handle, which Python takes back before the C library ends mounts

    def unmount(self) -> None:
        """Takes the mount away, though programs have files of it open. Refused (NotMounted) if there is none."""
        status = self._take_away()
        if status:
            raise refusal(status)
        atexit.unregister(self._take_away)

    def _take_away(self) -> int:
        """Has the status of that. In a child, which has no mount, it is refused."""
        status: int = self._library.tracectl_unmount(byref(self._handle))
        return status

    @contextmanager
    def mounted(self, folder: Text | os.PathLike[Any], *, allow_other: bool = False) -> Iterator[Path]:
        """Mounts it on a folder, as `mount`, for a `with`, and gives the path of that:

            with tracer.mounted("place") as place:
                print((place / "synthetic_events").read_text())

        At its end nothing is refused, though it may have been unmounted or closed before.
        """
        self.mount(folder, allow_other=allow_other)
        try:
            yield Path(os.path.abspath(os.fsdecode(folder)))
        finally:
            if not self._take_away():
                atexit.unregister(self._take_away)

    def line(self, line: AnyStr) -> AnyStr:
        """Does a line of a script, and gives what it prints."""
        return like(line, self._ask("line", string("a line", line)))

    def event(self, declaration: Text) -> Event:
        """Declares an event, as `tick u64 n`, unless it is declared with the same fields, and gives it. A name alone finds one that is declared. Refused
        (EventExists) if it is declared with other fields."""
        given = string("a declaration", declaration)
        words = given.split()
        if len(words) != 1:
            self._declare(given)
        return Event(self, words[0])

    def _declare(self, declaration: bytes) -> None:
        try:
            self.append("synthetic_events", declaration)
        except Refused as refused:
            if refused.name != "EventExists" or as_declared(declaration) not in self.read(b"synthetic_events").split(b"\n"):
                raise

    def emit(self, event: Text, fields: Fields = NO_FIELDS, /, *, cpu: int = 0, process: int = 0, **more: FieldValue) -> None:
        """An event happens, on a CPU and in a process. A field is given by keyword, or in the mapping, as one named `cpu` or `process` is."""
        if not isinstance(fields, Mapping):
            raise TypeError("the fields are a mapping, not %s" % type(fields).__name__)
        pairs = [pair(name, value) for each in (fields, more) for name, value in each.items()]
        place = c_uint32(number("cpu", cpu, U32)), c_int32(number("process", process, S32))
        self._do("emit", string("an event", event), *place, b"\0".join(pairs))

    def number_of(self, event: Text) -> int:
        """The number of an event, by which `emit_values` names it: the ID in its format. This is a read."""
        return parse_format(decoded(self.read(b"events/synthetic/%s/format" % string("an event", event))))[0]

    def emit_values(self, event: int, /, *values: FieldValue, cpu: int = 0, process: int = 0) -> None:
        """As `emit`, of the event of this number and with the values of its fields in order of declaration."""
        given = (Value * len(values))(*map(Value.of, values))
        place = c_uint32(number("cpu", cpu, U32)), c_int32(number("process", process, S32))
        self._do("emit_values", c_uint32(number("an event's number", event, U32)), *place, given, c_size_t(len(values)))

    def write(self, path: Text, text: Text) -> None:
        """Writes a string to a file, as `echo TEXT > PATH` does."""
        self._do("write", string("a path", path), string("a text", text))

    def append(self, path: Text, text: Text) -> None:
        """Appends a string to a file, as `echo TEXT >> PATH` does."""
        self._do("append", string("a path", path), string("a text", text))

    def read(self, path: AnyStr) -> AnyStr:
        """Reads a file to its end."""
        return like(path, self._ask("read", string("a path", path)))

    def take(self, path: AnyStr, limit: int) -> AnyStr:
        """Reads at most so many records of a pipe."""
        return like(path, self._ask("take", string("a path", path), c_uint64(number("a limit", limit, U64))))

    def histograms(self, event: Event | Text) -> list[Histogram]:
        """The histograms of an event, one for each of its hist triggers, in order of attachment."""
        found = self._found(event)
        return parse_histograms(self.read("events/synthetic/%s/hist" % found.name), found.fields)

    def histogram(self, event: Event | Text, index: int = 0) -> Histogram:
        """The histogram of an event's hist trigger, or of the one with this index, from 0. An IndexError if there is none."""
        at = number("an index", index, U32)
        found = self.histograms(event)
        if at >= len(found):
            raise IndexError("the event has %d hist triggers" % len(found))
        return found[at]

    def _found(self, event: Event | Text) -> Event:
        if not isinstance(event, Event):
            return Event(self, event)
        if event.tracer is not self:
            raise ValueError("%s is an event of another tracer" % event.name)
        return event

    def statistics(self, cpu: int = 0) -> Statistics:
        """What a CPU's ring holds and has lost."""
        return parse_statistics(self.read("per_cpu/cpu%d/stats" % number("cpu", cpu, U32)))

    def _look(self, name: str, *given: Any) -> bool:
        """Makes a call that is no command, and tells yes or no."""
        told = self._call(name, *given, result=c_int32)
        if told < 0:
            raise Refused(-told)
        return told == 1

    def waiting(self, path: Text) -> bool:
        """Whether a record waits to be read in a pipe. It is refused as `take` is, but has no reply, and leaves that of the last call."""
        return self._look("waiting", string("a path", path))

    def wanted(self, event: int) -> bool:
        """Whether an emission of the event of this number may do more than count the clock: an instance records it, or a trigger of it may act. False if
        no event has the number. It leaves the reply of the last call."""
        return self._look("wanted", c_uint32(number("an event's number", event, U32)))

    def files(self) -> str:
        """Lists the files that there are, as `tracectl --list` does."""
        return decoded(self._ask("files"))

    def entries(self) -> int:
        """How many commands were done, by all threads and by what was asked of the mount."""
        return self._call("entries", result=c_uint64)
