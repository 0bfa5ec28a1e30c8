"""The library that trace-cmd reads pages with, by ctypes: formats, the events of a page, their fields, and how they are printed."""
import ctypes
from ctypes import byref, c_char_p, c_int, c_longlong, c_uint, c_ulong, c_ulonglong, c_void_p

LONGS_OF_8, LITTLE_ENDIAN = 1, 1


class Record(ctypes.Structure):
    """struct tep_record of event-parse.h."""

    _fields_ = [("ts", c_ulonglong), ("offset", c_ulonglong), ("missed_events", c_longlong), ("record_size", c_int), ("size", c_int), ("data", c_void_p),
                ("cpu", c_int), ("ref_count", c_int), ("locked", c_int), ("priv", c_void_p)]  # fmt: skip


class Sequence(ctypes.Structure):
    """struct trace_seq of trace-seq.h."""

    _fields_ = [("buffer", c_void_p), ("buffer_size", c_uint), ("len", c_uint), ("readpos", c_uint), ("state", c_int)]


class Event:
    """An event of a page, as long as the page is loaded."""

    def __init__(self, library, record):
        self.library, self.record, self.time = library, record, record.ts

    def common(self):
        call, handle = self.library.call, self.library.handle
        return call.tep_data_type(handle, byref(self.record)), call.tep_data_pid(handle, byref(self.record))

    def event(self):
        return self.library.call.tep_find_event(self.library.handle, self.common()[0])

    def number(self, field):
        """The bytes of a number, without its sign."""
        value = c_ulonglong()
        if self.library.call.tep_get_field_val(byref(self.library.text), self.event(), field.encode(), byref(self.record), byref(value), 1):
            return None
        return value.value

    def string(self, field, size):
        length = c_int()
        at = self.library.call.tep_get_field_raw(byref(self.library.text), self.event(), field.encode(), byref(self.record), byref(length), 1)
        return ctypes.string_at(at, size) if at and length.value == size else None

    def shown(self):
        """What is printed of it, by its format's `print fmt`."""
        call, text = self.library.call, self.library.text
        call.trace_seq_reset(byref(text))
        call.tep_print_event(self.library.handle, byref(text), byref(self.record), b"%s", b"INFO")
        call.trace_seq_terminate(byref(text))
        return ctypes.string_at(text.buffer, text.len)


class Library:
    """OSError if it is not installed."""

    def __init__(self):
        self.call = ctypes.CDLL("libtraceevent.so.1")
        for name in ("tep_alloc", "kbuffer_alloc", "kbuffer_read_event", "kbuffer_next_event", "tep_find_event", "tep_get_field_raw"):
            getattr(self.call, name).restype = c_void_p
        self.call.kbuffer_load_subbuffer.argtypes = [c_void_p, c_char_p]
        self.call.tep_get_field_val.argtypes = [c_void_p, c_void_p, c_char_p, c_void_p, c_void_p, c_int]
        self.call.tep_get_field_raw.argtypes = [c_void_p, c_void_p, c_char_p, c_void_p, c_void_p, c_int]
        self.handle, self.buffer = c_void_p(self.call.tep_alloc()), c_void_p(self.call.kbuffer_alloc(LONGS_OF_8, LITTLE_ENDIAN))
        self.text = Sequence()
        self.call.trace_seq_init(byref(self.text))

    def parse_header(self, text):
        return self.call.tep_parse_header_page(self.handle, text, c_ulong(len(text)), 8) == 0

    def parse_format(self, text):
        return self.call.tep_parse_event(self.handle, text, c_ulong(len(text)), b"synthetic") == 0

    def load(self, page):
        """How many records were lost before a page, in 32 bits, as this library tells them; its events are next."""
        self.page = ctypes.create_string_buffer(page, len(page))
        self.call.kbuffer_load_subbuffer(self.buffer, self.page)
        return self.call.kbuffer_missed_events(self.buffer) % 2**32

    def events(self):
        time = c_ulonglong()
        at = self.call.kbuffer_read_event(self.buffer, byref(time))
        while at:
            size = self.call.kbuffer_event_size(self.buffer)
            yield Event(self, Record(time.value, 0, 0, size, size, at, 0, 1, 0, None))
            at = self.call.kbuffer_next_event(self.buffer, byref(time))
