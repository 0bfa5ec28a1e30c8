"""The widest event, what is large, and each number of CPUs."""

from cases.emitting import EMISSION, SETUP, STATS, stats_text
from cases.running import SMALL, Outcome, case_of

NAME = "a_name_as_long_as_a_name_gets_"  # two more bytes make it as long as a name gets
TEXT = "no field holds a longer text than this one: it has sixty-three."
WIDEST = NAME + "ev"
NUMBERS = range(10, 26)


def texts_of_the_widest_event():
    """A script about an event of 16 texts with the longest names, and what it writes: a trace of it that has more than 65,536 bytes, among others."""
    count = 45
    fields = "; ".join("char %s%d[64]" % (NAME, number) for number in NUMBERS)
    pairs = ["%s%d=%s" % (NAME, number, TEXT) for number in NUMBERS]
    filter_text = '%s10 != "%s"' % (NAME, TEXT)  # no emission passes it
    declared = "%s %s" % (WIDEST, fields)
    lines = ["echo '%s' > synthetic_events" % declared, "cat synthetic_events", "cat events/synthetic/%s/format" % WIDEST]
    lines += ["echo 'snapshot:3 if %s' > events/synthetic/%s/trigger" % (filter_text, WIDEST), "cat events/synthetic/%s/trigger" % WIDEST]
    lines += ["echo 1 > events/enable"] + ["emit 0 7 %s %s" % (WIDEST, " ".join("'%s'" % pair for pair in pairs))] * count + ["cat trace"]
    replies = [declared, "name: " + WIDEST, "ID: 1", "format:", "\tfield:s32 common_pid;\toffset:8;\tsize:4;\tsigned:1;", ""]
    replies += ["\tfield:char %s%d[64];\toffset:%d;\tsize:64;\tsigned:0;" % (NAME, number, 16 + 64 * place) for place, number in enumerate(NUMBERS)]
    replies += ["snapshot:count=3 if " + filter_text, "# tracer: nop", "#", "# entries-in-buffer/entries-written: %d/%d   #P:1" % (count, count), "#"]
    replies += ["7 [000] %d: %s: %s" % (place, WIDEST, " ".join(pairs)) for place in range(1, count + 1)]
    return "\n".join(lines + [""]).encode(), "\n".join(replies + [""]).encode()


def events_with_the_largest_record():
    """A script that declares as many events as there may be, each with the largest record there is, 1,040 bytes, and what it writes."""
    declared = ["%s%02d %s" % (NAME, event, "; ".join("char %s%d[64]" % (NAME, number) for number in NUMBERS)) for event in range(64)]
    lines = ["echo '%s' >> synthetic_events" % text for text in declared] + ["cat synthetic_events", "echo 1 > events/enable"]
    pairs = ["%s%d=%s" % (NAME, number, TEXT) for number in NUMBERS]
    lines += ["emit 0 7 %s63 %s" % (NAME, " ".join("'%s'" % pair for pair in pairs)), "cat per_cpu/cpu0/stats", "cat trace"]
    replies = declared + ["entries: 1", "overrun: 0", "commit overrun: 0", "bytes: 1040", "oldest event ts: 1", "now ts: 1", "dropped events: 0", "read events: 0"]
    replies += ["# tracer: nop", "#", "# entries-in-buffer/entries-written: 1/1   #P:1", "#", "7 [000] 1: %s63: %s" % (NAME, " ".join(pairs))]
    return "\n".join(lines + [""]).encode(), "\n".join(replies + [""]).encode()


def widest_cases():
    script, written = texts_of_the_widest_event()
    events, texts = events_with_the_largest_record()
    small = ["--pages", "2", "--page-bytes", "1040", "-"]
    refused = b"! 1: N8 TooBig\n"
    return [
        case_of("the texts of the widest event", Outcome(0, written, b""), ["-"], script=script),
        case_of("64 events with the largest record", Outcome(0, texts, b""), ["-"], script=events),
        case_of("64 events with the largest record, a page each", Outcome(0, texts, b""), small, script=events),
        case_of("a page too small for the largest record", Outcome(1, refused, b""), ["--page-bytes", "1032", "-"], script=events.splitlines(keepends=True)[0]),
    ]


HIST_HEAD = "# event histogram\n#\n# trigger info: %s\n#\n\n"
TOTALS = "\nTotals:\n    Hits: %d\n    Entries: %d\n    Dropped: %d\n"
TRACE_HEAD = "# tracer: nop\n#\n# entries-in-buffer/entries-written: %d/%d   #P:1\n#\n"
GREATEST = 2**64 - 1


def on_the_last_cpu(cpus):
    """An emission on the last CPU is counted there; there is none after it."""
    script = SETUP + [b"emit %d 7 tick n=5\n" % (cpus - 1), b"cat per_cpu/cpu%d/stats\n" % (cpus - 1)]
    script += [b"emit %d 7 tick n=5\n" % cpus, b"cat per_cpu/cpu%d/stats\n" % cpus]
    want = stats_text(1, 0, 1, 1) + b"! 5: N20 NoSuchCpu\n! 6: N20 NoSuchCpu\n"
    return case_of("%d CPUs" % cpus, Outcome(1, want, b""), ["--cpus", cpus] + SMALL, script=b"".join(script))


def ring_words(pages, page_bytes):
    return ["--pages", pages, "--page-bytes", page_bytes, "-"]


def filled_ring(pages, page_bytes, emissions, lost):
    """After so many emissions a ring has lost its oldest page once or many times."""
    script = b"".join(SETUP + [EMISSION] * emissions + [STATS, b"take 1 trace_pipe\n"])
    want = stats_text(emissions - lost, lost, lost + 1, emissions)
    want += b"CPU:0 [LOST %d EVENTS]\n7 [000] %d: tick: n=1\n" % (lost, lost + 1)
    return case_of("%d emissions fill %d pages" % (emissions, pages), Outcome(0, want, b""), ring_words(pages, page_bytes), script=script)


def long_trace(pages, page_bytes, count):
    """A trace of so many records, and a read of the pipe that takes them all."""
    emission = b"emit 0 7 tick n=%d\n" % GREATEST
    script = b"".join(SETUP + [emission] * count + [b"cat trace\n", b"take %d trace_pipe\n" % GREATEST])
    lines = "".join("7 [000] %d: tick: n=%d\n" % (time, GREATEST) for time in range(1, count + 1))
    want = TRACE_HEAD % (count, count) + lines + lines
    return case_of("a trace of %d records" % count, Outcome(0, want.encode(), b""), ring_words(pages, page_bytes), script=script)


LONGEST_LINE = 4_096


def lengthened(line, filling):
    """A line that is as long as a line gets, or a byte less, with the filling in each place of `*`."""
    places = line.count("*")
    return line.replace("*", filling * ((LONGEST_LINE - len(line) + places) // places))


LONG_LINES = [  # lines that are lengthened in the places of `*`, what they are lengthened with, and what each one gives
    ("echo *1 > events/synthetic/tick/enable", "0", ""),
    ("echo '*0*' > options/overwrite", " ", ""),
    ("echo '*n == 5*' > events/synthetic/tick/filter", " ", ""),
    ("echo 'tock*u64 n*' >> synthetic_events", " ", ""),
    ("emit 0 7 tick n=*5", "0", ""),
    ("echo '*' >> trace", " ", ""),
    ("cat options/overwrite*", " ", "0\n"),
    ("cat *events/synthetic/tick/filter", " ", "n == 5\n"),
    ("cat synthetic_events", "", "tick u64 n\ntock u64 n\n"),
    ("cat trace", "", TRACE_HEAD % (1, 1) + "7 [000] 1: tick: n=5\n"),
    ("echo '*' > trace", " ", ""),
    ("cat trace_pipe", "", ""),
    ("cat '*'", " ", "! 15: N1 NoSuchFile\n"),
]


def long_lines():
    lines = [lengthened(line, filling) if filling else line for line, filling, _ in LONG_LINES]
    script = b"".join(SETUP) + "".join(line + "\n" for line in lines).encode()
    want = "".join(reply for _, _, reply in LONG_LINES)
    return case_of("the longest lines", Outcome(1, want.encode(), b""), SMALL, script=script)


def counting(texts):
    """The lines that attach hist triggers to `tick`."""
    return SETUP[:1] + [b"echo %s >> events/synthetic/tick/trigger\n" % text for text in texts]


HIST = b"cat events/synthetic/tick/hist\n"


def filled_histogram(text, last, size, entries):
    """A histogram that is hit by each number up to the last one, and then by the first once more: there is room for so many entries. They come in the
    order of their counts, and of their first hits."""
    script = counting([text]) + [b"emit 0 7 tick n=%d\n" % n for n in range(1, last + 1)] + [EMISSION, HIST]
    dropped = last - entries
    want = HIST_HEAD % ("hist:keys=n:vals=hitcount,n:sort=hitcount:size=%d [active]" % size)
    want += "".join("{ n: %10d } hitcount:          1  n: %10d\n" % (n, n) for n in range(2, entries + 1))
    want += "{ n:          1 } hitcount:          2  n:          2\n" + TOTALS % (last + 1 - dropped, entries, dropped)
    return case_of("a histogram of %d entries" % entries, Outcome(0, want.encode(), b""), SMALL, script=b"".join(script))


def histograms_hit_often():
    """Two histograms, each with one key that 20,000 emissions have; the sum of the second is none of 64 bits."""
    count = 20_000
    script = counting([b"hist:keys=common_cpu", b"hist:keys=n:vals=n:size=65"]) + [b"emit 0 7 tick n=%d\n" % GREATEST] * count + [HIST]
    want = HIST_HEAD % "hist:keys=common_cpu:vals=hitcount:sort=hitcount:size=2048 [active]"
    want += "{ common_cpu:          0 } hitcount:      20000\n" + TOTALS % (count, 1, 0) + "\n"
    want += HIST_HEAD % "hist:keys=n:vals=hitcount,n:sort=hitcount:size=128 [active]"
    want += "{ n: 18446744073709551615 } hitcount:      20000  n: 368934881474191032300000\n" + TOTALS % (count, 1, 0)
    return case_of("histograms that are hit often", Outcome(0, want.encode(), b""), SMALL, script=b"".join(script))


def size_cases():
    return [on_the_last_cpu(cpus) for cpus in range(1, 9)] + [
        filled_ring(2, 64, 2_500, 2_496),
        filled_ring(300, 2_048, 25_501, 85),
        filled_ring(1_024, 4_080, 174_081, 170),
        long_trace(50, 2_048, 4_000),
        long_trace(1_024, 4_080, 20_000),
        long_lines(),
        filled_histogram(b"hist:keys=n:vals=n", 2_049, 2_048, 2_048),
        filled_histogram(b"hist:keys=n:vals=n:size=4096", 2_100, 4_096, 2_100),
        histograms_hit_often(),
    ]
