"""What tracectl.h declares, for ctypes."""
from __future__ import annotations

from ctypes import Structure, c_char_p, c_int32, c_size_t, c_uint32, c_uint64, c_void_p

from .arguments import FieldValue, field_value

NO_OFFSET = c_size_t(-1).value
UNSIGNED, SIGNED, BYTES = range(3)  # kinds of values


class Passes(Structure):
    _fields_ = [("state", c_uint64), ("passes", c_void_p)]


class Mask(Structure):
    _fields_ = [("entries", c_uint64), ("events", c_uint64)]


class Handle(Structure):
    """`tracectl`, a tracer, of zeros before it is opened. Its fields belong to the library."""

    _fields_ = [
        ("passes", Passes),
        ("cpus", c_uint32),
        ("forks", c_uint32),
        ("mask", Mask),
        ("mask_lock", c_uint32),
        ("wakes", c_int32),
        ("is_woken", c_uint32),
        ("is_limited", c_uint32),
    ]


class Settings(Structure):
    """`tracectl_settings`, what a tracer is made with."""

    _fields_ = [("cpus", c_uint32), ("pages", c_uint32), ("page_bytes", c_uint32), ("history_limit", c_uint64)]


class Value(Structure):
    """`tracectl_value`, a value of a field, as `tracectl_emit_values` takes it."""

    _fields_ = [("kind", c_uint32), ("number", c_uint64), ("bytes", c_char_p), ("bytes_length", c_size_t)]

    @classmethod
    def of(cls, value: FieldValue) -> Value:
        given = field_value(value)
        if isinstance(given, bytes):
            return cls(BYTES, 0, given, len(given))
        return cls(SIGNED if given < 0 else UNSIGNED, given % 2**64, b"", 0)
