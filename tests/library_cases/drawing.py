"""Random arguments of all types: each is drawn as a value and what it means, bytes or a number, or nothing where the call can't take it."""
import decimal
import random
from collections import namedtuple
from ctypes import c_char_p, c_uint32, create_string_buffer
from pathlib import Path

NOTHING = object()  # what an argument means that no call takes

STRINGS = [b"/x", b"two words", b"a=b", b"=", b"", b"17", b"-5", b"0x1", b"\xc3\xa9", b"\xff\xfe", b"\n", b"%n%s", b"path=/x"]
STRINGS += [b"x" * 17, b"y" * 5_000, b"z" * 70_000]
WITH_0 = [b"\0", b"/x\0status=9", b"trace\0", b"\0tick"]
EDGES = [edge + more for edge in (0, 2**7, 2**8, 2**15, 2**31, 2**32, 2**60, 2**63, 2**64, -(2**31), -(2**63), 10**40) for more in (-1, 0, 1)]


class LyingNumber(int):
    """An int whose methods tell another."""

    def __index__(self):
        return 2**70

    __int__ = __index__

    def __str__(self):
        return "6"

    __repr__ = __str__

    def __le__(self, other):
        return True

    __lt__ = __ge__ = __gt__ = __le__

    def __mod__(self, other):
        return -1


class LyingStr(str):
    """A str whose methods tell another."""

    def encode(self, *how):
        return b"\0" * 9

    def __str__(self):
        return "other"


class LyingBytes(bytes):
    """Bytes whose methods tell others, and more."""

    def __len__(self):
        return 2**40

    def __bytes__(self):
        return b"other"

    def __contains__(self, byte):
        return False


class Pretender:
    """An object that calls itself a str."""

    __class__ = str


# What means nothing to any call, but for a dict; the second of these may be keys.
UNFIT = [lambda: bytearray(b"trace"), lambda: [b"trace"], dict, set, lambda: create_string_buffer(8), lambda: c_char_p(b"trace"), lambda: c_uint32(1)]
UNFIT_KEYS = [None, True, False, 0.0, 1.0, float("nan"), float("inf"), 1j, (), (1, 2), ..., NotImplemented, int, len, object(), range(3),
              decimal.Decimal(1), Path("trace"), memoryview(b"trace"), frozenset(), Pretender(), "\ud800", "a\udc41"]
Argument = namedtuple("Argument", "value means")


class Drawing:
    """Draws arguments: of one call all fit, or about one in five does not."""

    def __init__(self, seed):
        self.drawn = random.Random(seed).random
        self.unfit = 0

    def chance(self, share):
        return self.drawn() < share

    def choice(self, among):
        return among[int(self.drawn() * len(among))]

    def nothing(self, hashable=False):
        if hashable or self.chance(0.7):
            return Argument(self.choice(UNFIT_KEYS), NOTHING)
        return Argument(self.choice(UNFIT)(), NOTHING)

    def as_string(self, means):
        """These bytes in a type that has them."""
        values = [means, means, LyingBytes(means)]
        text = means.decode(errors="surrogateescape")
        values += [text, text, LyingStr(text)]
        return Argument(self.choice(values), NOTHING if 0 in means else means)

    def string(self, usual, hashable=False):
        if self.chance(self.unfit):
            return self.choice([self.nothing(hashable), self.as_string(self.choice(WITH_0)), Argument(self.choice(EDGES), NOTHING)])
        return self.as_string(self.choice(usual).encode() if self.chance(0.9) else self.choice(STRINGS))

    def number(self, usual, least, greatest):
        if self.chance(self.unfit):
            return self.choice([self.nothing(), Argument(self.choice(["1", b"1", "", LyingBytes(b"1")]), NOTHING)])
        return self.whole(usual, least, greatest)

    def whole(self, usual, least, greatest):
        """A whole number, perhaps out of these bounds."""
        means = self.choice(usual if self.chance(0.9) else EDGES if self.unfit else [edge for edge in EDGES if least <= edge <= greatest])
        return Argument(LyingNumber(means) if self.chance(0.1) else means, means if least <= means <= greatest else NOTHING)

    def name(self, field):
        """The name of a field, which has no `=`."""
        name = self.string([field], hashable=True) if self.chance(0.3) else Argument(field, field.encode())
        return name._replace(means=NOTHING) if name.means is not NOTHING and b"=" in name.means else name

    def value(self, field):
        """The value of a field as a rule suits it. What it means is its text."""
        if self.chance(self.unfit / 2):
            return self.nothing()
        if self.chance(0.9 if field in ("path", "event") else 0.1):
            return self.as_string(self.choice(STRINGS[:5] if self.chance(0.9) else STRINGS + WITH_0[: bool(self.unfit)]))
        number = self.whole([0, 1, 5, 100], -(2**63), 2**64 - 1)
        return number if number.means is NOTHING else number._replace(means=b"%d" % number.means)

    def place(self):
        """The keywords `cpu` and `process`, either of which may lack."""
        drawn = {"cpu": self.number([0, 1, 0, 1, 2], 0, 2**32 - 1), "process": self.number([0, 7, -7], -(2**31), 2**31 - 1)}
        return {name: argument for name, argument in drawn.items() if self.chance(0.7)}
