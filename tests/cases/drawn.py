"""Histograms that are drawn as bars."""
import errno
import os
import re
import subprocess

from cases.running import SECONDS, TOP, Case, Outcome, case_of, differences, failed_on, quoted, run
from cases.scripts import beside, scripts_of, wanted, words_of

TRIGGER = "events/synthetic/tick/trigger"
SETUP = ["echo 'tick u64 n' > synthetic_events", "echo 'hist:keys=n:sort=n' > %s" % TRIGGER]
READ = "cat events/synthetic/tick/hist"
WRITTEN = "hist:keys=n:vals=hitcount:sort=n:size=2048 [active]"


def text_of(lines):
    return "".join(line + "\n" for line in lines).encode()


def emissions(counts):
    """An emission for each that is counted."""
    return ["emit 0 7 tick n=%d" % n for n, count in sorted(counts.items()) for _ in range(count)]


def shown(counts):
    """What the file shows of a trigger that counted so many of each number."""
    entries = ["{ n: %10d } hitcount: %10d" % entry for entry in sorted(counts.items())]
    totals = ["Totals:", "    Hits: %d" % sum(counts.values()), "    Entries: %d" % len(counts), "    Dropped: 0"]
    return ["# event histogram", "#", "# trigger info: " + WRITTEN, "#", ""] + entries + [""] + totals


def bars(counts):
    """What is drawn of it: the greatest count has 60 columns, and each other its share of them, one at least; above them what they count."""
    greatest = max(counts.values())
    width = max(len(str(greatest)), len("hitcount"))
    lines = ["  n: %10d  %*d  %s" % (n, width, count, "#" * max(1, 60 * count // greatest)) for n, count in sorted(counts.items())]
    return ["  %13s  %*s" % ("", width, "hitcount")] + lines


FEW = {3: 1, 7: 7, 11: 2}
LINES = SETUP + emissions(FEW) + [READ]
DRAWN = Outcome(0, text_of(shown(FEW)), text_of(bars(FEW)))
UNLIKE = {1: 1, 2: 60, 3: 61, 4: 119, 5: 120, 6: 2}  # the bar of 1 would have half a column, and those of 61 and of 119 would end in one
MANY = {n: 1 + n % 5 for n in range(400)}


def one_histogram(counts):
    want = Outcome(0, text_of(shown(counts)), text_of(bars(counts)))
    return case_of("--bars, counts up to %d" % max(counts.values()), want, ["--bars", "-"], script=text_of(SETUP + emissions(counts) + [READ]))


def both_in_one(name, words, lines, status, wants):
    """Standard error goes where standard output goes."""

    def mingled(program):
        command = [str(program)] + words + ["-"]
        ended = subprocess.run(command, input=text_of(lines), stdout=subprocess.PIPE, stderr=subprocess.STDOUT, timeout=SECONDS)
        return differences(Outcome(ended.returncode, ended.stdout, b""), Outcome(status, text_of(wants), b""))

    return Case(name, mingled)


def mingled_cases():
    """Where both streams are one, bars are right after the file that they are of, and those of a part after all of its replies."""
    more = {n: count + (n == 7) for n, count in FEW.items()}
    again = ["cat tracing_on", "emit 0 7 tick n=7", READ, "cat tracing_on"]
    wants = shown(FEW) + bars(FEW) + ["1"] + shown(more) + [""] + bars(more) + ["1"]
    part = SETUP + emissions(FEW) + ["parallel", "thread", READ, "cat tracing_on", "thread", "thread", READ, "end"]
    part_wants = ["-- thread 0"] + shown(FEW) + ["1", "-- thread 1", "-- thread 2"] + shown(FEW) + bars(FEW) + [""] + bars(FEW)
    number = len(part) + 1
    refused = ["! %d: N1 NoSuchFile" % number, "<stdin>:%d:5: NoSuchFile: no file has this path" % number, "  cat nothing", "      ^"]
    return [
        both_in_one("--bars, and both go one way", ["--bars"], LINES + again, 0, wants),
        both_in_one("--bars and a part, and both go one way", ["--bars"], part + ["cat tracing_on"], 0, part_wants + ["1"]),
        both_in_one(
            "--explain, --bars and a part, and both go one way",
            ["--explain", "--bars"],
            part + ["cat nothing", READ],
            1,
            part_wants + refused + shown(FEW) + [""] + bars(FEW),
        ),
    ]


def names_of(trigger, attribute):
    """The names in a list of a trigger, each with what is after its dot."""
    found = re.match(r"\S*?:%s=([^: ]*)" % attribute, trigger)
    return [tuple((name + ".").split(".")[:2]) for name in found[1].split(",")]


def drawn_table(trigger, entries):
    """What is drawn of the entries of a table: of its values the one that it is sorted by first, or else its hits."""
    sorted_by = names_of(trigger, "sort")[0][0]
    value = sorted_by if (sorted_by, "") in names_of(trigger, "vals") else "hitcount"
    numbers = [int(re.search(r"(?:^|  )%s: +(-?\d+)" % value, shown)[1]) for _, shown in entries]
    greatest = max(map(abs, numbers))
    lines = []
    (key, modifier), several = names_of(trigger, "keys")[0], len(names_of(trigger, "keys")) > 1
    step = {"log2": 1, "buckets": int((modifier + "=0").split("=")[1])}.get(modifier.split("=")[0])
    gaps = step and not several and value != key == sorted_by
    firsts = [int(re.search(r"~ (?:2\^)?(-?\d+)", keys)[1]) if gaps else 0 for keys, _ in entries]
    keys_width = max(len(keys.encode()) for keys, _ in entries)
    width = max(map(len, [value] + [str(number) for number in numbers]))
    for at, ((keys, _), number) in enumerate(zip(entries, numbers)):
        if gaps and at > 0 and abs(firsts[at] - firsts[at - 1]) != step:
            lines.append("  ..")
        bar = "-#"[number > 0] * (number != 0 and max(1, 60 * abs(number) // greatest))
        lines.append(("  %-*s  %*d  %s" % (keys_width, keys, width, number, bar)).rstrip(" "))
    return ["  %*s  %*s" % (keys_width, "", width, value)] + lines


def drawn_tables(text):
    """What is drawn of the tables in an output, with an empty line between two."""
    tables, lines = [], []
    for line in text.splitlines():
        begun = re.match("# trigger info: (.*)", line)
        entry = re.match(r"\{ (.*) \} (hitcount: .*)", line)
        if begun:
            tables.append((begun[1], []))
        elif entry:
            tables[-1][1].append((entry[1], entry[2]))
    for trigger, entries in tables:
        if entries:
            lines += [""] * bool(lines) + drawn_table(trigger, entries)
    return text_of(lines)


def drawn_script(script):
    """That a script has the output and the status that lie beside it, and the bars that are computed of that output, as its file of bars has them."""
    drawn_beside = beside(script, ".bars")

    def drawn(program):
        want = wanted(script)
        bars_wanted = drawn_tables(want.stdout.decode())
        got = run([program, "--bars"] + words_of(script), script=script.read_bytes())
        found = differences(got, want._replace(stderr=bars_wanted))
        if drawn_beside.exists() and drawn_beside.read_bytes() != bars_wanted:
            found.append("%s is not what is computed: %s" % (drawn_beside.name, quoted(bars_wanted)))
        return found

    return Case("--bars %s" % script.relative_to(TOP), drawn)


def drawn_cases():
    script, undrawn = text_of(LINES), DRAWN._replace(stderr=b"")
    refused = Outcome(1, b"! 1: N1 NoSuchFile\n" + DRAWN.stdout, DRAWN.stderr)
    full = os.open("/dev/full", os.O_WRONLY)
    return (
        [one_histogram(counts) for counts in (FEW, UNLIKE, MANY)]
        + mingled_cases()
        + [
            case_of("nothing is drawn without --bars", undrawn, ["-"], script=script),
            case_of("--explain alone draws nothing", undrawn, ["--explain", "-"], script=script),
            case_of("--bars alone explains nothing", refused, ["--bars", "-"], script=b"cat nothing\n" + script),
            case_of("--bars after the lines", DRAWN, ["-c"] + LINES + ["--bars"]),
            case_of("--bars, and standard error is closed", undrawn, ["--bars", "-"], script=script, before=lambda: os.close(2)),
            case_of("--bars, and standard output is a full device", failed_on("standard output", errno.ENOSPC), ["--bars", "-"], script=script, stdout=full),
        ]
        + [drawn_script(script) for script in scripts_of(TOP / "examples") + scripts_of(TOP / "tests" / "rows")]
    )
