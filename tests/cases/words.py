"""The command line."""
import errno
import os
import subprocess

from cases.emitting import EMISSION, SETUP, STATS, stats_text
from cases.running import BAD_VALUE, SECONDS, SMALL, TOP, Case, Outcome, case_of, differences, failed_on, quoted, run, text_differences
from cases.scripts import wanted

RECORDS_OF_PAGE = 4080 // 24


def fills_the_default_ring(program):
    """One record more than 16 pages hold, so that the oldest page is lost."""
    count = 16 * RECORDS_OF_PAGE + 1
    want = stats_text(count - RECORDS_OF_PAGE, RECORDS_OF_PAGE, RECORDS_OF_PAGE + 1, count)
    return differences(run([program, "-"], script=b"".join(SETUP + [EMISSION] * count + [STATS])), Outcome(0, want, b""))


def refusing(got, part):
    """What is wrong with a run whose words were to be refused, with a text that has this part."""
    found = [] if got.status == 2 else ["exit status %d" % got.status]
    found += [] if got.stderr.startswith(b"error: ") and part.encode() in got.stderr else ["standard error is %s" % quoted(got.stderr)]
    return found + text_differences("standard output", got.stdout, b"")


def helping(got, program):
    """What is wrong with a help that was asked for: the three lines that it shows do what it says."""
    found = differences(got._replace(stdout=b""), Outcome(0, b"", b""))
    text = got.stdout.decode()
    found += ["help lacks %s" % quoted(part) for part in ("--cpus <N>", "--page-bytes <N>", "[default: 4080]", "--explain ", "--bars ", "--list ", "-c <LINE>...", "Exit status:") if part not in text]
    lines, shown = [], None
    for line in text.splitlines():
        if line.strip().startswith("These three lines"):
            shown = line.split("shows as ")[1].rstrip(":")
        elif shown and len(lines) < 3:
            lines.append(line.strip())
    traced = run([program, "-"], script="\n".join(lines + ["cat trace", ""]).encode())
    return found + ([] if shown and traced.status == 0 and traced.stdout.decode().splitlines()[-1] == shown else ["its example is wrong"])


def wrong_words():
    """Words that are refused as such, and a part of what is told of them."""
    script = str(TOP / "examples" / "filters")
    return [
        ([], "required arguments were not provided:\n  <SCRIPT>"),
        (["--"], "required arguments were not provided"),
        (["--pages", "2"], "required arguments were not provided"),
        (["a", "b"], "unexpected argument 'b' found"),
        ([script, "extra"], "unexpected argument 'extra' found"),
        (["--nonsense"], "unexpected argument '--nonsense' found"),
        (["--page", "2", "-"], "unexpected argument '--page' found"),
        (["-x", script], "unexpected argument '-x' found"),
        (["--pages"], "a value is required for '--pages <N>'"),
        (["--pages", "x", "-"], "invalid value 'x' for '--pages <N>'"),
        (["--cpus", "", "-"], "for '--cpus <N>'"),
        (["--cpus", "1.5", "-"], "invalid value '1.5' for '--cpus <N>'"),
        (["--page-bytes", "0x40", "-"], "invalid value '0x40' for '--page-bytes <N>'"),
        (["--cpus", "4294967296", "-"], "invalid value '4294967296' for '--cpus <N>'"),
        (["--pages", "2", "--pages", "2", "-"], "cannot be used multiple times"),
        # words are looked at before the configuration, and both before the script
        (["-c"], "a value is required for '-c <LINE>...'"),
        (["-c", "--pages", "2"], "a value is required for '-c <LINE>...'"),
        (["-", "-c", "cat trace"], "cannot be used with '-c <LINE>...'"),
        (["-c", "cat trace", "--", "-"], "the argument '-c <LINE>...' cannot be used with '[SCRIPT]'"),
        (["-c", "cat trace", "--nonsense"], "unexpected argument '--nonsense' found"),
        (["--explain", "-", "--explain"], "cannot be used multiple times"),
        (["--explain=yes", "-"], "unexpected value 'yes' for '--explain' found"),
        (["--explain"], "required arguments were not provided"),
        (["--bars", "--explain", "-", "--bars"], "cannot be used multiple times"),
        (["--bars=#", "-"], "unexpected value '#' for '--bars' found"),
        (["-c", "--bars"], "a value is required for '-c <LINE>...'"),
        (["--list"], "required arguments were not provided"),
        (["--list", "-", "--list"], "cannot be used multiple times"),
        (["--list=r", "-"], "unexpected value 'r' for '--list' found"),
        (["--try", "-"], "unexpected argument '--try' found"),
        (["--prove", "-"], "unexpected argument '--prove' found"),
        (["--pages", "--list", "2", "-"], "a value is required for '--pages <N>'"),
        (["--pages", "1", "--nonsense", "-"], "unexpected argument '--nonsense' found"),
        (["--pages", "1", "missing", "extra"], "unexpected argument 'extra' found"),
    ]


RANGES = {"--cpus": "1 to 8", "--pages": "2 to 1024", "--page-bytes": "64 to 4080, a multiple of 8"}


def out_of_range(option, number):
    """What is told of an option whose number is out of range: always the same line, and a second one that says which."""
    return Outcome(2, b"", BAD_VALUE + ("tracectl: %s %s: expected %s\n" % (option, number, RANGES[option])).encode())


def bad_configurations():
    """Words with a number that is out of range, and what comes of them: of several the first in the order of help is told."""
    numbers = [("--cpus", "0"), ("--cpus", "9"), ("--pages", "0"), ("--pages", "1"), ("--pages", "1025"), ("--page-bytes", "56")]
    numbers += [("--page-bytes", "65"), ("--page-bytes", "4081"), ("--page-bytes", "4088"), ("--cpus", "4294967295")]
    few = out_of_range("--pages", 1)
    each = [([option, number, "-"], out_of_range(option, number)) for option, number in numbers]
    return each + [(["--pages=1", "missing"], few), (["--pages", "1", str(TOP)], few), (["--page-bytes", "7", "--pages", "1", "-"], few)]


def unopened_scripts():
    missing = str(TOP / "tests" / "no-such-script")
    named = [([missing], missing), ([""], ""), (["--", missing], missing), (["--", "-odd"], "-odd"), (["--pages", "2", missing], missing)]
    named += [(["a\nb"], r"a\nb")]
    return [(words, failed_on('script "%s"' % name, errno.ENOENT)) for words, name in named] + [([str(TOP)], failed_on('script "%s"' % TOP, errno.EISDIR))]


def line_words():
    """Words with the lines of a script in place of its name, and what comes of them."""
    tick = [line.decode().rstrip("\n") for line in SETUP + [EMISSION]]
    shown = b"# tracer: nop\n#\n# entries-in-buffer/entries-written: 1/1   #P:%d\n#\n7 [000] 1: tick: n=1\n"
    faulty = ["cat options/overwrite", "ls", "cat tracing_on"]
    return [
        (["-c"] + tick + ["cat trace"], Outcome(0, shown % 1, b"")),
        (["-c"] + tick + ["cat trace", "--cpus", "2"], Outcome(0, shown % 2, b"")),
        (["--cpus=3", "-c", tick[0], "-c", tick[1], tick[2], "-c", "cat trace"], Outcome(0, shown % 3, b"")),
        (["-ccat tracing_on"], Outcome(0, b"1\n", b"")),
        (["-c", "cat tracing_on\ncat nothing"], Outcome(1, b"1\n! 2: N1 NoSuchFile\n", b"")),
        (["-c", "", "# a comment", "cat nothing"], Outcome(1, b"! 3: N1 NoSuchFile\n", b"")),
        (["-c"] + faulty, Outcome(2, b"1\n! 2: script UnknownCommand\n", b"")),
        (["-c", "-"], Outcome(2, b"! 1: script UnknownCommand\n", b"")),
        (["-c", "cat \u00e9"], Outcome(2, b"! 1: script BadByte\n", b"")),
        (["--pages", "1", "-c", "ls"], out_of_range("--pages", 1)),
        (["--pages", "1", "--explain", "-c", "ls"], out_of_range("--pages", 1)),
        (["-c", "cat nothing", "--explain"], Outcome(1, b"! 1: N1 NoSuchFile\n", b"-c:1:5: NoSuchFile: no file has this path\n  cat nothing\n      ^\n")),
    ]


def named(words):
    return " ".join(str(word).replace(str(TOP), ".").replace("\n", "\\n") or "''" for word in words) or "no word"


def word_cases(start=lambda program, words, **how: run([program] + words, **how), starter="tracectl"):
    """The cases of the command line, of the program or of what starts it."""

    def case(words, want, **how):
        return Case("%s %s" % (starter, named(words)), lambda program: differences(start(program, words, **how), want))

    script = TOP / "examples" / "first-session"
    small, text, want = SMALL[:-1], script.read_bytes(), wanted(script)
    two_cpus = b"cat per_cpu/cpu%d/stats\n"
    cases = [case(words, want) for words, want in bad_configurations() + unopened_scripts() + line_words()]
    cases += [
        Case("%s %s" % (starter, named(words)), lambda program, words=words, part=part: refusing(start(program, words), part))
        for words, part in wrong_words()
    ]
    cases += [
        Case("%s %s" % (starter, word), lambda program, word=word: helping(start(program, [word]), program)) for word in ("--help", "-h")
    ]
    return cases + [
        case(small + [str(script)], want),
        case([str(script)] + small, want),
        case(["--pages=2", "--page-bytes=64", str(script)], want),
        case(small + ["-"], want, script=text),
        case(small + ["--", "-"], want, script=text),
        case(["--cpus", "1", "--page-bytes", "64", "--pages", "2", "--", str(script)], want),
        case(["--cpus", "8", "-"], Outcome(0, stats_text(0, 0, 0, 0), b""), script=two_cpus % 7),
        case(["--cpus", "8", "-"], Outcome(1, b"! 1: N20 NoSuchCpu\n", b""), script=two_cpus % 8),
        case(["-"], Outcome(1, b"! 1: N20 NoSuchCpu\n", b""), script=two_cpus % 1),
        case(["--pages", "1024", "--page-bytes", "4080", "--cpus", "8", "-"], Outcome(0, b"", b"")),
    ]


def tells_version(program):
    got = run([program, "--version"])
    found = differences(got._replace(stdout=b""), Outcome(0, b"", b""))
    words = got.stdout.decode().split()
    return found + ([] if words[:1] == ["tracectl"] and len(words) == 2 or words[2:] == ["unproved"] else ["no version but %s" % quoted(got.stdout)])


def other_word_cases():
    full = os.open("/dev/full", os.O_WRONLY)
    return [
        Case("the default ring", fills_the_default_ring),
        Case("a word that is no UTF-8", lambda program: refusing(run_bytes([os.fsencode(program), b"\xff"]), "invalid UTF-8")),
        Case("--version", tells_version),
        Case("--help has each range that is told", tells_ranges),
        case_of("--help to a full device", failed_on("standard output", errno.ENOSPC), ["--help"], stdout=full),
        case_of("--version to a full device", failed_on("standard output", errno.ENOSPC), ["--version"], stdout=full),
        case_of("a bad value, and a folder as standard input", out_of_range("--pages", 1), ["--pages", "1", "-"], stdin=os.open(str(TOP), os.O_RDONLY)),
    ]


def tells_ranges(program):
    told = run([program, "--help"]).stdout.decode()
    return ["help lacks %s" % text for text in RANGES.values() if ", %s [" % text not in told]


def run_bytes(words):
    ended = subprocess.run(words, stdin=subprocess.DEVNULL, stdout=subprocess.PIPE, stderr=subprocess.PIPE, timeout=SECONDS)
    return Outcome(ended.returncode, ended.stdout, ended.stderr)
