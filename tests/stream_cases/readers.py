"""Programs that read files, some of which believe the size that they are told, or let the kernel copy."""
import os
import re
import signal
import time

from stream_cases.place import INJECT, PLACE, ROOM, declare, get, need, numbers, put, resident, script

# So many records are there first that their number, which the text's head has, keeps its length while more come.
QUIET, TIMES = 10_000, 5
HEADER = re.compile(rb"# tracer: nop\n#\n# entries-in-buffer/entries-written: (\d+)/(\d+)   #P:1\n#\n")

# What shows all of the file `$1`, and the program that it needs.
WHOLE = {
    "cat": ('cat "$1"', "cat"),
    "cp": ('cp "$1" out && cat out', "cp"),
    "busybox cat": ('busybox cat "$1"', "busybox"),
    "busybox cp": ('busybox cp "$1" out && cat out', "busybox"),
    "shutil.copyfile": ("python3 -c 'import shutil, sys; shutil.copyfile(sys.argv[1], \"out\")' \"$1\" && cat out", "python3"),
    "grep": ('grep "" "$1"', "grep"),
    "dd": ('dd if="$1" status=none', "dd"),
    "dd of megabytes": ('dd if="$1" bs=1M status=none', "dd"),
    "head -c": ('head -c 9999999 "$1"', "head"),
    "tail -n +1": ('tail -n +1 "$1"', "tail"),
    "tail -n +1 -f": ('timeout 3 tail -n +1 -f "$1" || [ $? -eq 124 ]', "timeout"),
}

# These take as much as they were told, of a text that may have grown since. GNU tar says so by a status of 1; `less` may end at any multiple of 8,192
# bytes that is not below the size.
BY_SIZE = {
    "less -F": ('less -F "$1"', "less"),
    "rsync": ('rsync "$1" out && cat out', "rsync"),
    "tar": ('{ tar -C "${1%/*}" -cf - "${1##*/}" || [ $? -eq 1 ]; } | tar -xOf -', "tar"),
}
FILES = ("trace", "events/synthetic/tick/hist", "per_cpu/cpu0/stats", "README", "available_events")


def begin():
    declare()
    put("events/synthetic/tick/trigger", "hist:keys=n.log2\n")
    write(range(QUIET))


def write(events):
    file = os.open(PLACE / INJECT, os.O_WRONLY)
    for number in events:
        os.write(file, b"n=%d" % number)
    os.close(file)


def quiet(name, text, program):
    def case():
        need(program)
        for path in FILES:
            (ROOM / "out").unlink(missing_ok=True)
            shown, wanted = script(text, PLACE / path), get(path)
            assert shown == wanted, "%s: %d bytes of %d are shown" % (path, len(shown), len(wanted))

    case.__name__ = name
    return case


def quiet_ends():
    """What counts from the end."""
    for path in FILES:
        text = get(path)
        assert int(script('wc -c < "$1"', PLACE / path)) == len(text), "wc -c %s" % path
        assert int(script('wc -c "$1"', PLACE / path).split()[0]) == len(text), "wc -c %s" % path
        assert int(script('stat -c %s "$1"', PLACE / path)) == len(text), "stat %s" % path
        for count in (1, 10, 1_000, 5_000):
            assert script('tail -c "$2" "$1"', PLACE / path, count) == text[-count:], "tail -c %d %s" % (count, path)
        assert script('tail -n 3 "$1"', PLACE / path) == b"".join(text.splitlines(True)[-3:]), "tail -n 3 %s" % path


class Growing:
    """A process that makes one event after another, numbered on."""

    def __enter__(self):
        self.first = len(numbers(get("trace")))
        self.child = os.fork()
        if not self.child:
            signal.signal(signal.SIGTERM, signal.SIG_DFL)
            file = os.open(PLACE / INJECT, os.O_WRONLY)
            number = self.first
            while True:
                os.write(file, b"n=%d" % number)
                number += 1
                time.sleep(0.0003)
        return self

    def __exit__(self, *_):
        os.kill(self.child, signal.SIGTERM)
        os.waitpid(self.child, 0)


def fault_of_whole(text):
    """What is wrong with a text of `trace`, of which nothing was overwritten, or None."""
    header = HEADER.match(text)
    if not header:
        return "it has no header: %r" % text[:100]
    found = numbers(text)
    if found != list(range(len(found))) or text.count(b"\n") != len(found) + 4 or not text.endswith(b"\n"):
        return "its %d records and %d lines are not one text" % (len(found), text.count(b"\n"))
    if len(found) != int(header[1]):
        return "%d records are shown of %s" % (len(found), header[1].decode())
    return None


def growing(name, text, program, is_by_size):
    def case():
        need(program)
        with Growing():
            for _ in range(1 if "-f" in name else TIMES):
                (ROOM / "out").unlink(missing_ok=True)
                least = len(numbers(get("trace")))
                shown = script(text, PLACE / "trace")
                found = numbers(shown[: shown.rfind(b"\n") + 1])
                assert len(found) >= least - is_by_size, "%d records are shown of %d" % (len(found), least)
                fault = found != list(range(len(found))) and "the records are not one text" if is_by_size else fault_of_whole(shown)
                assert not fault, fault

    case.__name__ = name + ", growing"
    return case


def growing_ends():
    with Growing():
        for _ in range(TIMES):
            for text in ('wc -c < "$1"', 'wc -c "$1"', 'stat -c %s "$1"'):
                least, told, most = len(get("trace")), int(script(text, PLACE / "trace").split()[0]), len(get("trace"))
                assert least <= told <= most, "%s: %d, which is not from %d to %d" % (text, told, least, most)
            shown = script('tail -c 3000 "$1"', PLACE / "trace")
            lines = numbers(b"\n" + shown.partition(b"\n")[2].rpartition(b"\n")[0] + b"\n")
            assert len(lines) > 50 and lines == list(range(lines[0], lines[0] + len(lines))) and len(shown) == 3_000, "tail -c: %s" % lines
            last = numbers(script('tail -n 5 "$1"', PLACE / "trace"))
            assert last == list(range(last[0], last[0] + 5)), "tail -n 5: %s" % last


def texts_are_given_back():
    """Open files that were read to their end hold no text."""
    files = [os.open(PLACE / "trace", os.O_RDONLY) for _ in range(20)]
    sizes = []
    for file in files:
        size = 0
        while more := os.read(file, 1 << 17):
            size += len(more)
        sizes.append(resident())
    for file in files:
        os.close(file)
    assert size > 100_000 and sizes[-1] < sizes[0] + 2 * size, "20 open files of %d bytes: the server has %s" % (size, sizes)


CASES = (
    *(quiet(name, *how) for name, how in {**WHOLE, **BY_SIZE}.items()), quiet_ends,
    texts_are_given_back,
    *(growing(name, *how, False) for name, how in WHOLE.items()), *(growing(name, *how, True) for name, how in BY_SIZE.items()), growing_ends,
)
