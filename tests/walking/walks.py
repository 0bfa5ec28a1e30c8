"""Walks of one seed: what each is like, and what they come to."""
import itertools
import os
import random
import time
from collections import Counter, namedtuple

MOST_TOLD = 12
REFUSED = "refused"  # the kind of commands that can't be done, as a rule
LIMITS = (64, 8, 16, 4_080)  # of the first walk

# `walk` is given what draws, a walk's length and its sizes, and has what was refused for lack of memory (the kind of command, the command, what was
# refused), how often each kind was done, and how often each other was refused. `many`, if it is there, is given a count, and has what was refused.
Walked = namedtuple("Walked", "name walk length kinds many count", defaults=(None, 0))


def seed_of():
    """What TRACECTL_SEED in the environment says, or any."""
    return os.environ.get("TRACECTL_SEED") or str(random.randrange(1 << 32))


def sizes_of(draw, number):
    """How many events a walk begins with, and how many CPUs, pages and bytes of a page it has."""
    if not number:
        return LIMITS
    cpus = draw.choice((1, 1, 2, 8))
    return draw.choice((1, 3, 17, 64)), cpus, draw.choice((2, 2, 3, 16, 1_024 // cpus)), draw.choice((64, 256, 1_048, 4_080))


def shortened(text):
    return text if len(text) <= 400 else "%s .. %s" % (text[:200], text[-200:])


def fault_of(kind, line, what):
    return "%s: %s: memory was refused, %s" % (kind, line, what)


def one_walk(walked, draw, sizes):
    """Faults, what was done and what was refused. Each fault has a key, which begins with the kind of its command, or with nothing if the walk ended."""
    try:
        lacking, done, refused = walked.walk(draw, walked.length, *sizes)
    except Exception as error:
        return {("", type(error).__name__): "%s: %s" % (type(error).__name__, error)}, Counter(), Counter()
    return {(kind, what, line.rsplit("/", 1)[-1][:16]): fault_of(kind, line, what) for kind, line, what in reversed(lacking)}, done, refused


def walks(walked, seed, numbers, seconds):
    """Does these walks, or else the first, and others until the time is over. Has the faults, no two alike, and a line about all."""
    until, faults, done, refused, count = time.monotonic() + seconds, {}, Counter(), Counter(), 0
    for number in numbers or itertools.count():
        if not numbers and number and (time.monotonic() > until or len(faults) >= MOST_TOLD or any(not kind for kind, *_ in faults)):
            break
        draw = random.Random("%s %s %d" % (walked.name, seed, number))
        found, done_now, refused_now = one_walk(walked, draw, sizes_of(draw, number))
        for key, told in found.items():
            faults.setdefault(key, "walk %d, %s" % (number, told))
        done, refused, count = done + done_now, refused + refused_now, count + 1
    undone = [kind for kind in walked.kinds if not done[kind] and kind != REFUSED]
    told = [*faults.values()][:MOST_TOLD] + (["nothing was done of %s" % ", ".join(undone)] if undone and not faults else [])
    line = "%d walks of %d commands and more, %d done, %d refused" % (count, walked.length, sum(done.values()), sum(refused.values()))
    return told, line


def many_at_once(walked):
    try:
        return [fault_of(*each) for each in walked.many(walked.count)]
    except Exception as error:
        return ["%d commands at once: %s: %s" % (walked.count, type(error).__name__, error)]


def all_of(walked, seed, numbers, seconds):
    """Prints what the walks come to, and many commands at once, if there are some. Has how many passed and failed."""
    told, line = walks(walked, seed, numbers, seconds)
    print("%s: %s, again by TRACECTL_SEED=%s" % (walked.name, line, seed), flush=True)
    parts = [told] + ([many_at_once(walked)] if walked.many else [])
    for fault in itertools.chain(*parts):
        print("%s: %s" % (walked.name, shortened(fault)), flush=True)
    return sum(not part for part in parts), sum(map(bool, parts))
