"""Checks of arguments, which come before any call.

A `str` is given to a tracer as UTF-8. What is read as `str` is decoded likewise; a byte that is no UTF-8 becomes a surrogate, as in names of files, and
that byte again when it is written.
"""
from __future__ import annotations

from typing import AnyStr, Mapping, Union

Text = Union[str, bytes]
FieldValue = Union[Text, int]
Fields = Union[Mapping[str, FieldValue], Mapping[bytes, FieldValue]]  # values by the names of fields; it may have both kinds of names
NO_FIELDS: Mapping[str, FieldValue] = {}

U32, S32, U64, NUMBER = (0, 2**32 - 1), (-(2**31), 2**31 - 1), (0, 2**64 - 1), (-(2**63), 2**64 - 1)  # the least number and the greatest


def string(what: str, value: Text) -> bytes:
    """The bytes of a string. No method of a subclass is asked for them."""
    if not isinstance(value, (str, bytes)):
        raise TypeError("%s is str or bytes, not %s" % (what, type(value).__name__))
    given = str.encode(value, "utf-8", "surrogateescape") if isinstance(value, str) else b"".join([value])
    if 0 in given:
        raise ValueError("%s has no byte 0" % what)
    return given


def decoded(reply: bytes) -> str:
    return reply.decode("utf-8", "surrogateescape")


def like(asked: AnyStr, reply: bytes) -> AnyStr:
    """A reply in the type of what asked for it: `str` for a `str`, `bytes` for `bytes`, as `os.listdir` has it."""
    return decoded(reply) if isinstance(asked, str) else reply


def number(what: str, value: int, bounds: tuple[int, int]) -> int:
    """A number within bounds. No method of a subclass is asked for it."""
    if isinstance(value, bool) or not isinstance(value, int):
        raise TypeError("%s is int, not %s" % (what, type(value).__name__))
    given = int.__index__(value)
    if not bounds[0] <= given <= bounds[1]:
        raise ValueError("%s is from %d to %d" % (what, *bounds))
    return given


def field_value(value: FieldValue) -> bytes | int:
    """The value of a field: its bytes, or a number of 64 bits with or without a sign."""
    if isinstance(value, (str, bytes)):
        return string("a value", value)
    if isinstance(value, int):
        return number("a value", value, NUMBER)
    raise TypeError("a value is str, bytes or int, not %s" % type(value).__name__)


def pair(name: Text, value: FieldValue) -> bytes:
    """A field as `tracectl_emit` takes it."""
    given, written = string("a field's name", name), field_value(value)
    if b"=" in given:
        raise ValueError("a field's name has no =")
    return given + b"=" + (written if isinstance(written, bytes) else b"%d" % written)
