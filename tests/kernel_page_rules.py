"""Binary pages of a ring, read and written by the rules of Linux alone: include/linux/ring_buffer.h, and the offsets, sizes and signs of a `format`."""
import re
import struct

PAGE, ROOM = 4096, 4080
FIELD = re.compile(r"\tfield:(.*?)(?:\[\d*\])?;\toffset:(\d+);\tsize:(\d+);\tsigned:([01]);")


# ---- how Linux reads


def events_in(page):
    """The events of a page, each with its time, and how many were lost before them, or None if the number isn't told."""
    time, commit = struct.unpack_from("<QQ", page)
    size, at, events = commit & ~(3 << 30), 16, []
    while at < 16 + size:
        (head,) = struct.unpack_from("<I", page, at)
        kind, delta = head & 31, head >> 5
        (second,) = struct.unpack_from("<I", page, at + 4)
        if kind == 29:
            if delta == 0:
                break
            at += 4 + second
        elif kind == 30:
            time, at = time + delta + (second << 27), at + 8
        elif kind == 31:
            time, at = time >> 59 << 59 | delta + (second << 27), at + 8
        elif kind == 0:
            time += delta
            events.append((time, page[at + 8 : at + 4 + second]))
            at += 4 + second
        else:
            time += delta
            events.append((time, page[at + 4 : at + 4 + 4 * kind]))
            at += 4 + 4 * kind
    if at > 16 + size:
        raise ValueError("an event ends after the page's data")
    lost = 0 if not commit >> 31 & 1 else struct.unpack_from("<Q", page, 16 + size)[0] if commit >> 30 & 1 else None
    return events, lost


def layout_in(format):
    """Of each field that a `format` tells its offset, its size, and whether it is signed."""
    return {words.rsplit(" ", 1)[1]: (int(offset), int(size), int(signed)) for words, offset, size, signed in FIELD.findall(format)}


# ---- how Linux writes


def event_written(delta, data):
    before = b""
    if delta >= 1 << 27:
        before, delta = struct.pack("<II", 30 | (delta & (1 << 27) - 1) << 5, delta >> 27), 0
    if len(data) <= 112:
        return before + struct.pack("<I", len(data) // 4 | delta << 5) + data
    return before + struct.pack("<II", delta << 5, len(data) + 4) + data


def page_written(rows):
    """A page of the first of these rows, each a time, a lost count and data; and how many it has."""
    events, taken, last = b"", 0, rows[0][0]
    room = ROOM - 8 if rows[0][1] else ROOM
    for time, lost, data in rows:
        if taken and (lost or time < last or time - last >= 1 << 59):
            break
        event = event_written(time - last, data)
        if len(events) + len(event) > room:
            break
        events, taken, last = events + event, taken + 1, time
    lost = rows[0][1]
    commit = len(events) | (3 << 30 if lost else 0)
    return (struct.pack("<QQ", rows[0][0], commit) + events + (struct.pack("<Q", lost) if lost else b"")).ljust(PAGE, b"\0"), taken
