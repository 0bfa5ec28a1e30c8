"""Walks in which the program does a script, and the greatest one."""
import re
from collections import Counter

from cases.running import MOST_SCRIPT_BYTES, run
from walking.commands import Walk

OUT_OF_MEMORY = 3
REFUSED = re.compile(rb"^! (\d+): N(\d+) ", re.M)


def drawn(draw, count, events, cpus, pages, page_bytes):
    """The words for the program, and the steps."""
    words = ["--cpus", str(cpus), "--pages", str(pages), "--page-bytes", str(page_bytes), "-"]
    return words, list(Walk(draw, cpus, page_bytes).steps(count, events))


def text_of(steps):
    return "".join(command.line() + "\n" for _, command in steps).encode()


def first_lacking(program, words, steps):
    """The first step for which memory did not last, found by scripts of fewer."""
    done, lacking = 0, len(steps)
    while lacking - done > 1:
        middle = (done + lacking) // 2
        if run([program, *words], script=text_of(steps[:middle])).status == OUT_OF_MEMORY:
            lacking = middle
        else:
            done = middle
    kind, command = steps[lacking - 1]
    return kind, command.line()


def walk(program, draw, count, events, cpus, pages, page_bytes):
    """What was refused for lack of memory in a walk of so many commands, how often each kind was done, and how often what was refused."""
    words, steps = drawn(draw, count, events, cpus, pages, page_bytes)
    got = run([program, *words], script=text_of(steps))
    if got.status == OUT_OF_MEMORY:
        return [(*first_lacking(program, words, steps), "status 3")], Counter(), Counter()
    assert got.status in (0, 1) and not got.stderr, "status %d, standard error %s" % (got.status, got.stderr)
    refused = {int(number): int(kind) for number, kind in REFUSED.findall(got.stdout)}
    done = Counter(kind for number, (kind, _) in enumerate(steps, 1) if number not in refused)
    return [], done, Counter(refused.values())


def many(program, count):
    """What is wrong with so many emissions, by the longest lines of which a script has so many."""
    begin, end = b"echo 'a u64 n' > synthetic_events\necho 1 > events/enable\n", b"cat trace\n"
    emission = b"emit 0 7 a n=1\n"
    script = begin + emission * count + end
    assert len(script) <= MOST_SCRIPT_BYTES
    got = run([program, "--pages", "2", "--page-bytes", "64", "-"], script=script)
    if got.status == OUT_OF_MEMORY:
        return [("many", "%d emissions" % count, "status 3")]
    assert got.status == 0 and b"/%d   #P:1" % count in got.stdout, got
    return []
