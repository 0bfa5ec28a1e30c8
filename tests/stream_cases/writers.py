"""Programs that write many lines to `inject`: each line is one event, however their buffers cut it."""
import os
import re

from stream_cases.place import INJECT, PLACE, ROOM, compiled, declare, errno_of, get, need, put, script

LINES = 10_000
ENTRY = re.compile(rb"^\{ n: +(\d+) \} hitcount: +(\d+)", re.M)
TRIGGER = "events/synthetic/tick/trigger"

PYTHON = """python3 -c '
import sys
with open(sys.argv[1], "%s") as file:
    for number in range(int(sys.argv[3])):
        file.write(%s"n=%%d\\n" %% number)
' "$@"
"""

# What writes, as a script with the path of `inject`, that of a file with all lines, and their number, and the programs that it needs.
SCRIPTS = {
    "cat": ('seq -f n=%.0f 0 "$(($3 - 1))" | cat > "$1"', ["seq", "cat"]),
    "cat of a file": ('cat "$2" > "$1"', ["cat"]),
    "cp": ('cp "$2" "$1"', ["cp"]),
    "dd": ('dd if="$2" of="$1" bs=512 status=none', ["dd"]),
    "dd of seven bytes": ('dd if="$2" of="$1" bs=7 status=none', ["dd"]),
    "tee": ('cat "$2" | tee "$1" > /dev/null', ["tee"]),
    "seq": ('seq -f n=%.0f 0 "$(($3 - 1))" > "$1"', ["seq"]),
    "sed": ('seq 0 "$(($3 - 1))" | sed s/^/n=/ > "$1"', ["seq", "sed"]),
    "awk": ("awk -v to=\"$1\" -v count=\"$3\" 'BEGIN { for (i = 0; i < count; i++) print \"n=\" i > to }'", ["awk"]),
    "perl": ("perl -e 'open F, q(>), $ARGV[0] or die; print F qq(n=$_\\n) for 0 .. $ARGV[2] - 1; close F or die' \"$@\"", ["perl"]),
    "python": (PYTHON % ("w", ""), ["python3"]),
    "python's bytes": (PYTHON % ("wb", "b"), ["python3"]),
    "exec 3>": ('exec 3> "$1"; for ((i = 0; i < $3; i++)); do printf "n=%d\\n" "$i" >&3; done', ["bash"]),
    "busybox cat": ('cat "$2" | busybox cat > "$1"', ["busybox"]),
}


def begin():
    declare()
    (ROOM / "lines").write_bytes(b"".join(b"n=%d\n" % number for number in range(LINES)))
    put("events/enable", "0\n")


def counted(write):
    """Whether what writes made each event once, and no other."""
    put(TRIGGER, "hist:keys=n:size=16384\n")
    try:
        write()
        text = get("events/synthetic/tick/hist")
    finally:
        put(TRIGGER, "!hist:keys=n:size=16384\n", "a")
    found = {int(key): int(count) for key, count in ENTRY.findall(text)}
    hits = int(re.search(rb"Hits: (\d+)", text)[1])
    more = {key: count for key, count in found.items() if count != 1 or key >= LINES}
    assert hits == len(found) == LINES and not more, "%d events, %d entries, of which not 1 are %s" % (hits, len(found), str(more)[:100])


def by_script(name):
    text, programs = SCRIPTS[name]

    def case():
        need(*programs)
        counted(lambda: script(text, PLACE / INJECT, ROOM / "lines", LINES))

    case.__name__ = name
    return case


def by_pieces(size):
    """A first whole line, and then buffers of this size. What a write left of one is written again."""

    def write():
        data = (ROOM / "lines").read_bytes()
        file = os.open(PLACE / INJECT, os.O_WRONLY)
        done = os.write(file, b"n=0\n")
        while done < len(data):
            end = done + size
            while done < min(end, len(data)):
                done += os.write(file, data[done:end])
        os.close(file)

    case = lambda: counted(write)
    case.__name__ = "buffers of %d bytes" % size
    return case


def stdio_with_system():
    program = compiled("stdio")
    counted(lambda: script('"$1" "$2" "$3"', program, PLACE / INJECT, LINES))


def declarations_in_a_write():
    """A here-document is one write: a declaration a line."""
    script('cat >> "$1/synthetic_events" << END\none u64 n\ntwo u64 n\n\nthree u64 n\nEND', PLACE)
    assert get("available_events") == b"synthetic:tick\nsynthetic:one\nsynthetic:two\nsynthetic:three\n"
    script('printf "hist:keys=n\\nsnapshot\\n" | cat > "$1/events/synthetic/one/trigger"', PLACE)
    assert get("events/synthetic/one/trigger").endswith(b"[active]\nsnapshot:unlimited\n")


def a_refusal_is_told():
    """A program that writes more than is right hears of it, at its close at the latest."""
    for text in (b"n=1\nx=1\n", b"n=1\nx=1", b"x=1\n", b"x=1"):
        file = os.open(PLACE / INJECT, os.O_WRONLY)
        put("error_log", "\n")
        done, refused = 0, 0
        try:
            while done < len(text):
                done += os.write(file, text[done:])
        except OSError:
            refused = 1
        refused += bool(errno_of(os.close, file))
        assert refused == 1 and get("error_log").count(b": error: ") == 1, "%r: %d refusals" % (text, refused)


CASES = (
    *map(by_script, SCRIPTS), *map(by_pieces, (1, 7, 4_095)),
    stdio_with_system, declarations_in_a_write, a_refusal_is_told,
)
