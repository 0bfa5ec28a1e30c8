"""Running a program, and comparing what it does with what it must do."""
import itertools
import os
import subprocess
from collections import namedtuple
from pathlib import Path

TOP = Path(__file__).resolve().parent.parent.parent
# what is tested, where no other program is named
PROGRAM = Path(os.environ.get("TRACECTL_PROGRAM") or TOP / "crates" / "tracectl" / "out" / "tracectl")
SECONDS = 300
MOST_SCRIPT_BYTES = 16_777_216

SMALL = ["--pages", "2", "--page-bytes", "64", "-"]  # the words for rings of two pages of two records

OUT_OF_MEMORY = b"tracectl: out of memory\n"
DEVICE_FAILED = b"tracectl: read or write failed\n"
BAD_VALUE = b"tracectl: bad value\n"

Outcome = namedtuple("Outcome", "status stdout stderr")
Case = namedtuple("Case", "name differences")  # `differences` takes the program and gives a list of texts, empty where it is right.


def run(command, script=None, stdin=subprocess.DEVNULL, stdout=subprocess.PIPE, before=None):
    """What a command does with a script, or with another standard input. `before` is called in its process before it starts."""
    given = {"stdin": stdin} if script is None else {"input": script}
    words = [str(word) for word in command]
    ended = subprocess.run(words, stdout=stdout, stderr=subprocess.PIPE, preexec_fn=before, timeout=SECONDS, **given)
    return Outcome(ended.returncode, ended.stdout or b"", ended.stderr)


def quoted(line):
    if line is None:
        return "nothing"
    text = repr(line)[1:]
    return text if len(text) <= 100 else text[:100] + ".."


def text_differences(name, got, want):
    """The first line in which two texts differ."""
    lines = itertools.zip_longest(got.splitlines(keepends=True), want.splitlines(keepends=True))
    for number, (one, other) in enumerate(lines, 1):
        if one != other:
            return ["%s, line %d: %s, expected %s" % (name, number, quoted(one), quoted(other))]
    return []


def differences(got, want):
    found = []
    if got.status != want.status:
        found.append("exit status %d, expected %d" % (got.status, want.status))
    found += text_differences("standard output", got.stdout, want.stdout)
    return found + text_differences("standard error", got.stderr, want.stderr)


def passes(case, program):
    """Whether a case is right. Prints what is not."""
    try:
        found = case.differences(program)
    except (OSError, subprocess.SubprocessError) as error:
        found = [str(error)]
    for difference in found:
        print("%s: %s" % (case.name, difference), flush=True)
    return not found


def run_cases(cases, program):
    """Prints what is wrong with these cases, and how many passed and failed. Has the exit status."""
    results = [passes(case, program) for case in cases]
    print("%d passed, %d failed" % (results.count(True), results.count(False)))
    return 0 if all(results) else 1


def case_of(name, want, words=SMALL, **how):
    """A case in which the program is run like this."""
    return Case(name, lambda program: differences(run([program] + words, **how), want))


FAILED = Outcome(4, b"", DEVICE_FAILED)


def failed_on(name, number):
    """What is told where something can't be opened, read or written, and the system says why by this number of an error."""
    return FAILED._replace(stderr=DEVICE_FAILED + ("tracectl: %s: %s (os error %d)\n" % (name, os.strerror(number), number)).encode())
