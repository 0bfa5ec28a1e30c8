"""What is explained, and lines that have a fault."""
import errno
import os
import re
import subprocess

from cases.emitting import REFUSED
from cases.running import SECONDS, TOP, Case, Outcome, case_of, differences, failed_on, quoted, run
from cases.scripts import beside, scripts_of, wanted, words_of

WRITTEN = "echo 'n == 1 || z == 2' > events/synthetic/tick/filter"

EXPLAINED = [  # the lines of a script, what each one gives, and what is told of it: the bytes before the caret, the name, and the words
    ("echo 'tick u64 n; s8 d; char who[4]' > synthetic_events", "", None),
    ("# a comment", "", None),
    ("emit 0 7 tick n=1 d=2 who=me m=3", "! 3: N21 BadRow m", ("emit 0 7 tick n=1 d=2 who=me ", "BadRow", "m: the event has no field of this name")),
    ("emit 0 7 tick n=1 d=2 who=me n=1", "! 4: N21 BadRow n", ("emit 0 7 tick n=1 d=2 who=me ", "BadRow", "n: the field is repeated")),
    ("emit 0 7 tick n=1 d=2", "! 5: N21 BadRow who", ("emit 0 7 ", "BadRow", "who: the field is missing")),
    ("emit 0 7 tick n=1 d=200 who=me", "! 6: N21 BadRow d", ("emit 0 7 tick n=1 ", "BadRow", "d: its value is out of the range of its type")),
    ("cat tracing_on", "1", None),
    (WRITTEN, "! 8: N10 NoSuchField at 10", (WRITTEN[: WRITTEN.index("z")], "NoSuchField", "the event has no field of this name")),
    ("emit 0 7 tock n=1", "! 9: N5 NoSuchEvent", ("emit 0 7 ", "NoSuchEvent", "no event of this name is declared", "tick")),
    ("cat nothing", "! 10: N1 NoSuchFile", ("cat ", "NoSuchFile", "no file has this path")),
    ("cat 'trace", "! 11: script UnclosedQuote", ("cat ", "UnclosedQuote", "this quote is not closed")),
]


def text_of(lines):
    return "".join(line + "\n" for line in lines if line).encode()


def told(number, line, why, script="<stdin>"):
    """What is told of a line of this number, if anything is."""
    if why is None:
        return []
    before, name, words, *meant = why
    heading = "%s:%d:%d: %s: %s" % (script, number, len(before) + 1, name, words)
    return [heading, "  " + line, "  " + " " * len(before) + "^"] + ["  did you mean `%s`?" % name for name in meant]


def script_of(lines):
    return "".join(line + "\n" for line, _, _ in lines).encode()


def replies_of(lines):
    return text_of(reply for _, reply, _ in lines)


def explanations_of(lines, first=1):
    return text_of(text for number, (line, _, why) in enumerate(lines, first) for text in told(number, line, why))


NO_FILE = ("cat ", "NoSuchFile", "no file has this path")


PART = [  # a part, whose commands are told of once all that the part writes is written
    ("parallel", "", None),
    ("thread", "-- thread 0", None),
    ("emit 0 7 tick n=1 m=3", "! 4: N21 BadRow m", ("emit 0 7 tick n=1 ", "BadRow", "m: the event has no field of this name")),
    ("emit 0 7 tick n=1", "", None),
    ("# a comment", "", None),
    ("cat nothing", "! 7: N1 NoSuchFile", NO_FILE),
    ("thread", "-- thread 1", None),
    ("", "", None),
    ("emit 0 7 tock n=1", "! 10: N5 NoSuchEvent", ("emit 0 7 ", "NoSuchEvent", "no event of this name is declared", "tick")),
    ("end", "", None),
]
BEFORE_PART = [("echo 'tick u64 n' > synthetic_events", "", None)]
AFTER_PART = [("cat tracing_on", "1", None), ("cat nothing", "! 13: N1 NoSuchFile", NO_FILE)]
EXPLAINED_PART = BEFORE_PART + PART + AFTER_PART


def mingled_of(lines, first=1):
    """What lines by themselves give where both streams are one: each explanation stands right after its own reply."""
    return text_of(text for number, (line, reply, why) in enumerate(lines, first) for text in [reply] + told(number, line, why))


def mingled_part(before, part, after):
    """Likewise of a part between two lists of lines: its explanations stand after all of its replies."""
    end = len(before) + len(part) + 1
    return mingled_of(before) + replies_of(part) + explanations_of(part, len(before) + 1) + mingled_of(after, end)


# What a part declares is known behind it: a `Sink` hears of the commands that are done, too.
DECLARING_PART = [
    ("parallel", "", None),
    ("thread", "-- thread 0", None),
    ("echo 'tock u64 n' > synthetic_events", "", None),
    ("end", "", None),
    ("emit 0 7 tock n=1 m=3", "! 5: N21 BadRow m", ("emit 0 7 tock n=1 ", "BadRow", "m: the event has no field of this name")),
]

# Scripts of 1,200 lines, with refused ones where the numbers of lines become longer, and elsewhere. Each refused line is another one.
REFUSED_AT = {2, 9, 10, 11, 99, 100, 101, 102, 256, 257, 999, 1000, 1001, 1024, 1199, 1200}
PART_FROM, NEXT_THREAD, PART_END = 98, 560, 1100


def line_at(number):
    """The line of this number, with what it gives and what is told of it."""
    if number == 1:
        return BEFORE_PART[0]
    if number in REFUSED_AT or number % 67 == 0:
        unknown = "n%d" % number
        return [
            ("cat %s" % unknown, "! %d: N1 NoSuchFile" % number, NO_FILE),
            (
                "emit 0 7 tick n=1 %s=1" % unknown,
                "! %d: N21 BadRow %s" % (number, unknown),
                ("emit 0 7 tick n=1 ", "BadRow", "%s: the event has no field of this name" % unknown),
            ),
        ][number % 2]
    return [("emit 0 7 tick n=%d" % number, "", None), ("# a comment", "", None), ("", "", None), ("cat tracing_on", "1", None)][number % 4]


def lines_at(first, end):
    return [line_at(number) for number in range(first, end)]


MANY = lines_at(1, 1201)
BEFORE_LONG_PART = lines_at(1, PART_FROM)
LONG_PART = (
    [("parallel", "", None), ("thread", "-- thread 0", None)]
    + lines_at(PART_FROM + 2, NEXT_THREAD)
    + [("thread", "-- thread 1", None)]
    + lines_at(NEXT_THREAD + 1, PART_END)
    + [("end", "", None)]
)
AFTER_LONG_PART = lines_at(PART_END + 1, 1201)
MANY_AND_PART = BEFORE_LONG_PART + LONG_PART + AFTER_LONG_PART


def both_in_one(name, script, want):
    """Standard error goes where standard output goes."""

    def mingled(program):
        ended = subprocess.run([str(program), "--explain", "-"], input=script, stdout=subprocess.PIPE, stderr=subprocess.STDOUT, timeout=SECONDS)
        return differences(Outcome(ended.returncode, ended.stdout, b""), want)

    return Case(name, mingled)


def explained_script(script):
    """That a script has the output and the status that lie beside it, and the explanations that do; where none do, one that begins with its number
    for each line that was refused or has a fault."""
    told_beside = beside(script, ".explained")

    def explained(program):
        want = wanted(script)
        got = run([program, "--explain"] + words_of(script), script=script.read_bytes())
        if told_beside.exists():
            return differences(got, want._replace(stderr=told_beside.read_bytes()))
        numbers = re.findall(rb"^! (\d+): (?:N\d+|script) (\w+)", want.stdout, re.MULTILINE)
        lines = got.stderr.splitlines()
        headings = [line for line in lines if not line.startswith(b"  ")]
        right = [re.match(rb"<stdin>:%s:(\d+:)? %s: " % number, line) for number, line in zip(numbers, headings)]
        found = differences(got._replace(stderr=b""), want)
        return found + ([] if len(headings) == len(numbers) and all(right) else ["standard error is %s" % quoted(got.stderr)])

    return Case("--explain %s" % script.relative_to(TOP), explained)


def explained_cases():
    script = script_of(EXPLAINED)
    explained = Outcome(2, replies_of(EXPLAINED), explanations_of(EXPLAINED))
    part = Outcome(1, replies_of(EXPLAINED_PART), explanations_of(EXPLAINED_PART))
    declaring = Outcome(1, replies_of(DECLARING_PART), explanations_of(DECLARING_PART))
    long_part = Outcome(1, replies_of(MANY_AND_PART), explanations_of(MANY_AND_PART))
    mingled_long = mingled_part(BEFORE_LONG_PART, LONG_PART, AFTER_LONG_PART)
    unheard = explained._replace(stderr=b"")
    scripts = scripts_of(TOP / "examples") + scripts_of(TOP / "tests" / "rows")
    return [
        case_of("--explain", explained, ["--explain", "-"], script=script),
        case_of("nothing is explained without --explain", unheard, ["-"], script=script),
        case_of("--explain, and standard error is closed", unheard, ["--explain", "-"], script=script, before=lambda: os.close(2)),
        case_of("--explain, and standard output is a full device", failed_on("standard output", errno.ENOSPC), ["--explain", "-"], script=REFUSED, stdout=os.open("/dev/full", os.O_WRONLY)),
        both_in_one("--explain, and both go one way", script, Outcome(2, mingled_of(EXPLAINED), b"")),
        case_of("--explain, and a part", part, ["--explain", "-"], script=script_of(EXPLAINED_PART)),
        both_in_one("--explain and a part, and both go one way", script_of(EXPLAINED_PART), Outcome(1, mingled_part(BEFORE_PART, PART, AFTER_PART), b"")),
        case_of("--explain, a part, and standard output is a full device", failed_on("standard output", errno.ENOSPC), ["--explain", "-"], script=script_of(EXPLAINED_PART), stdout=os.open("/dev/full", os.O_WRONLY)),
        case_of("--explain, and what a part declares", declaring, ["--explain", "-"], script=script_of(DECLARING_PART)),
        case_of("--explain, and 1,200 lines", Outcome(1, replies_of(MANY), explanations_of(MANY)), ["--explain", "-"], script=script_of(MANY)),
        both_in_one("--explain and 1,200 lines, and both go one way", script_of(MANY), Outcome(1, mingled_of(MANY), b"")),
        case_of("--explain, and a part of 1,000 lines", long_part, ["--explain", "-"], script=script_of(MANY_AND_PART)),
        both_in_one("--explain and a part of 1,000 lines, and both go one way", script_of(MANY_AND_PART), Outcome(1, mingled_long, b"")),
    ] + [explained_script(script) for script in scripts]


FAULTS = [  # lines, each with its fault
    ("# \x7f", "BadByte"),
    ("cat \x1f", "BadByte"),
    ("ls 'x", "UnclosedQuote"),
    ("cat \"x'", "UnclosedQuote"),
    ("'#' x", "UnknownCommand"),
    ("'' cat", "UnknownCommand"),
    ("> x", "UnknownCommand"),
    ("parallels", "UnknownCommand"),
    ("END", "UnknownCommand"),
    ("parallel 'x", "UnclosedQuote"),
    ("parallel x", "WrongWords"),
    ("thread > a", "WrongWords"),
    ("end ''", "WrongWords"),
    ("end # of it", "WrongWords"),
    ("cat", "WrongWords"),
    ("cat a b", "WrongWords"),
    ("cat > a", "WrongWords"),
    ("cat a>b", "WrongWords"),
    ("mkdir", "WrongWords"),
    ("mkdir a b", "WrongWords"),
    ("mkdir a > b", "WrongWords"),
    ("rmdir", "WrongWords"),
    ("rmdir > a", "WrongWords"),
    ("take 1", "WrongWords"),
    ("take x a b", "WrongWords"),
    ("take x trace_pipe", "BadNumber"),
    ("take '' trace_pipe", "BadNumber"),
    ("take 18446744073709551616 trace_pipe", "BadNumber"),
    ("echo", "WrongWords"),
    ("echo a", "WrongWords"),
    ("echo a >", "WrongWords"),
    ("echo a > b c", "WrongWords"),
    ("echo a > b > c", "WrongWords"),
    ("echo a >> b > c", "WrongWords"),
    ("echo a >>> b", "WrongWords"),
    ("emit 0 7 tick", "WrongWords"),
    ("emit 0 7 tick n=1 m", "WrongWords"),
    ("emit x 7 tick n", "WrongWords"),
    ("emit x 7 tick n=1", "BadNumber"),
    ("emit -0 7 tick n=1", "BadNumber"),
    ("emit 4294967296 7 tick n=1", "BadNumber"),
    ("emit 0 +1 tick n=1", "BadNumber"),
    ("emit 0 -2147483649 tick n=1", "BadNumber"),
]

QUOTE = "quote what is written, as `echo 'n > 5' > PATH`: a `>` outside quotes is a redirection"
ONE = "expected one redirection, `> PATH` or `>> PATH`"

TOLD_FAULTS = [  # lines, each with its fault, how it is shown, the bytes before the caret, and the words
    ("cat 'a' \"b'", "UnclosedQuote", "cat 'a' \"b'", "cat 'a' ", "this quote is not closed"),
    ("cat \u00e9", "BadByte", "cat ??", "cat ", "this byte is neither a tab nor one from 0x20 to 0x7e"),
    ("\tls", "UnknownCommand", "\tls", "\t", "unknown command"),
    ("end", "BlockOutOfPlace", "end", "", "no parallel part is open here"),
    ("parallel x", "WrongWords", "parallel x", "parallel ", "expected nothing more"),
    ("cat", "WrongWords", "cat", "cat", "expected `cat PATH`"),
    ("cat a b", "WrongWords", "cat a b", "cat a ", "expected `cat PATH`"),
    ("cat a>b", "WrongWords", "cat a>b", "cat a", "expected `cat PATH`"),
    ("mkdir a > b", "WrongWords", "mkdir a > b", "mkdir a ", "expected `mkdir PATH`"),
    ("rmdir", "WrongWords", "rmdir", "rmdir", "expected `rmdir PATH`"),
    ("take 1", "WrongWords", "take 1", "take 1", "expected `take N PATH`"),
    ("take x a b", "WrongWords", "take x a b", "take x a ", "expected `take N PATH`"),
    ("take x trace_pipe", "BadNumber", "take x trace_pipe", "take ", "expected a number in its range"),
    ("echo a", "WrongWords", "echo a", "echo a", "expected `echo WORD .. > PATH`, or `>>`"),
    ("echo a >", "WrongWords", "echo a >", "echo a >", "expected `echo WORD .. > PATH`, or `>>`"),
    ("echo a > b c", "WrongWords", "echo a > b c", "echo a > b ", "expected `echo WORD .. > PATH`, or `>>`"),
    ("echo a > b > c", "WrongWords", "echo a > b > c", "echo a > b ", QUOTE),
    ("echo lat > 5 > ../filter", "WrongWords", "echo lat > 5 > ../filter", "echo lat > 5 ", QUOTE),
    ("echo a >= 5 >> c", "WrongWords", "echo a >= 5 >> c", "echo a >= ", QUOTE),
    ("echo a>5&&b>6 > c", "WrongWords", "echo a>5&&b>6 > c", "echo a>5&&b", QUOTE),
    ("echo 'a > b' > c > 'd'", "WrongWords", "echo 'a > b' > c > 'd'", "echo 'a > b' > c ", QUOTE),
    ("echo a > b >> c", "WrongWords", "echo a > b >> c", "echo a > b ", QUOTE),
    ("echo a >> b > c", "WrongWords", "echo a >> b > c", "echo a >> b ", ONE),
    ("echo 'a > b'>>c>>'d' e", "WrongWords", "echo 'a > b'>>c>>'d' e", "echo 'a > b'>>c", ONE),
    ("echo >> a >", "WrongWords", "echo >> a >", "echo >> a ", ONE),
    ("echo a >> b c > d", "WrongWords", "echo a >> b c > d", "echo a >> b ", "expected `echo WORD .. > PATH`, or `>>`"),
    ("echo a > > b > c", "WrongWords", "echo a > > b > c", "echo a > ", "expected `echo WORD .. > PATH`, or `>>`"),
    ("cat a >> b > c", "WrongWords", "cat a >> b > c", "cat a ", "expected `cat PATH`"),
    ("echo a >>> b", "WrongWords", "echo a >>> b", "echo a >>", "expected `echo WORD .. > PATH`, or `>>`"),
    ("emit 0 7 tick", "WrongWords", "emit 0 7 tick", "emit 0 7 tick", "expected `emit CPU PID EVENT FIELD=VALUE ..`"),
    ("emit 0 7 tick n=1 m", "WrongWords", "emit 0 7 tick n=1 m", "emit 0 7 tick n=1 ", "expected `emit CPU PID EVENT FIELD=VALUE ..`"),
    ("emit x 7 tick n=1", "BadNumber", "emit x 7 tick n=1", "emit ", "expected a number in its range"),
    ("emit '0' +1 tick n=1", "BadNumber", "emit '0' +1 tick n=1", "emit '0' ", "expected a number in its range"),
]


def fault_cases():
    def case(line, fault, words, told):
        script = b"cat options/overwrite\n" + line.encode() + b"\ncat options/overwrite\n"
        return case_of("the line %s" % quoted(line.encode()), Outcome(2, b"1\n! 2: script %s\n" % fault.encode(), told.encode()), words, script=script)

    def told(fault, shown, before, words):
        under = "".join("\t" if byte == "\t" else " " for byte in before)
        return "<stdin>:2:%d: %s: %s\n  %s\n  %s^\n" % (len(before) + 1, fault, words, shown, under)

    plain = [case(line, fault, ["-"], "") for line, fault in FAULTS]
    return plain + [case(line, fault, ["--explain", "-"], told(fault, *rest)) for line, fault, *rest in TOLD_FAULTS]
