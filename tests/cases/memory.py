"""Too little memory."""
import itertools
import resource

from cases.devices import comments
from cases.emitting import COSTLY_EMISSION, COSTLY_SETUP, EMISSION, SETUP, STATS, emissions, stats
from cases.running import MOST_SCRIPT_BYTES, OUT_OF_MEMORY, SMALL, TOP, Case, Outcome, case_of, differences, run, text_differences
from cases.scripts import wanted


def limit_memory(kibibytes):
    """As ulimit -v does."""
    return lambda: resource.setrlimit(resource.RLIMIT_AS, (kibibytes * 1024, kibibytes * 1024))


def ends_early(got, replies, some=True):
    """What is wrong with a run for which memory did not last: it writes a prefix of the replies, some of them unless that isn't asked, each one whole."""
    found = differences(got._replace(stdout=b""), Outcome(3, b"", OUT_OF_MEMORY))
    ends = {0, *itertools.accumulate(len(reply) for reply in replies)}
    whole = b"".join(replies)
    if not whole.startswith(got.stdout):
        found += text_differences("standard output", got.stdout, whole)
    elif len(got.stdout) not in ends:
        found.append("standard output ends after %d bytes, within a reply" % len(got.stdout))
    if got.stdout == whole or (some and not got.stdout):
        found.append("standard output has %s" % ("no reply" if not got.stdout else "every reply, though memory did not last"))
    return found


def long_script_differences(kibibytes, times, **lines_of):
    lines, replies = emissions(times, 1000, **lines_of)
    return lambda program: ends_early(run([program] + SMALL, script=b"".join(lines), before=limit_memory(kibibytes)), replies)


def all_done(program):
    lines, replies = emissions(100, 1000)
    return differences(run([program] + SMALL, script=b"".join(lines)), Outcome(0, b"".join(replies), b""))


def lasts(program, lines, count, before):
    """Whether memory lasts for so many of the first lines. The script that is run is as long as all lines together."""
    script = b"".join(lines[:count])
    padding = comments(sum(map(len, lines)) - len(script))
    return run([program] + SMALL, script=padding + script, before=before).status == 0


def replies_before_refusal(program):
    """The reply of each line before the one for which memory did not last is written, and no other. The line is found by runs of fewer lines."""
    lines, replies = emissions(90_000, 2)
    before = limit_memory(16_384)
    done, refused = 0, len(lines)
    if lasts(program, lines, refused, before):
        return ["memory lasts for %d lines" % refused]
    while refused - done > 1:
        middle = (done + refused) // 2
        if lasts(program, lines, middle, before):
            done = middle
        else:
            refused = middle
    got = run([program] + SMALL, script=b"".join(lines), before=before)
    return differences(got, Outcome(3, b"".join(replies[:done]), OUT_OF_MEMORY))


PART_SIZES = [1024 * size for size in range(16, 256, 20)]  # KiB: from what a script of a few lines needs to more than parts do
ROUNDS = 40
MANY = 600_000
ONE_ARENA = ["env", "MALLOC_ARENA_MAX=1"]  # the C library sets aside 64 MiB of address space for each thread, where there are so many: by luck


def parts_of_eight_threads():
    """The lines of a script with parts, of 1,600 emissions each, and each item's reply."""
    lines, replies = SETUP[:], [b""] * len(SETUP)
    for done in range(1, ROUNDS + 1):
        lines += [b"parallel\n"] + ([b"thread\n"] + [EMISSION] * 200) * 8 + [b"end\n", STATS]
        replies += [b"".join(b"-- thread %d\n" % thread for thread in range(8)), stats(1600 * done)]
    return lines, replies


def parts_in_little_memory(program, before=(), steady=False):
    """A script with parts, in address space of each of these sizes: it is done, or ends early with whole replies. Where memory is steady, once a size is
    enough, each that is larger by a quarter or more is."""
    lines, replies = parts_of_eight_threads()
    script, enough, found = b"".join(lines), [], []
    for kibibytes in PART_SIZES:
        got = run(list(before) + [program] + SMALL, script=script, before=limit_memory(kibibytes))
        if got == Outcome(0, b"".join(replies), b""):
            enough.append(kibibytes)
            continue
        found += ["%s, in %d KiB" % (difference, kibibytes) for difference in ends_early(got, replies, some=False)]
        if steady and enough and 4 * kibibytes >= 5 * enough[0]:
            found.append("%d KiB are enough, and %d are not" % (enough[0], kibibytes))
    return found + ([] if enough or not steady else ["%d KiB are not enough" % PART_SIZES[-1]])


def endless_part():
    """The longest script, a part whose `end` never comes."""
    begins = b"parallel\nthread\n"
    count = (MOST_SCRIPT_BYTES - len(begins)) // len(EMISSION)
    return begins + EMISSION * count


def many_in_chunks(program):
    """The history of these emissions takes 18 MiB, in chunks: one piece of memory that grows by doubling would have 32."""
    want = Outcome(0, stats(MANY), b"")
    return differences(run([program] + SMALL, script=b"".join(SETUP + [EMISSION] * MANY + [STATS]), before=limit_memory(47_104)), want)


def long_use(program):
    """A ring of two pages goes on through 140,000 emissions, with overwriting and without in turn, and 20,000 reads: each one takes a record."""
    lines = SETUP[:]
    for overwrite in [b"1", b"0"] * 10_000:
        lines += [b"echo %s > options/overwrite\n" % overwrite] + [EMISSION] * 7 + [b"take 1 trace_pipe\n"]
    got = run([program] + SMALL, script=b"".join(lines))
    records = [line for line in got.stdout.splitlines() if not line.startswith(b"CPU:0 [LOST ")]
    found = differences(got._replace(stdout=b""), Outcome(0, b"", b""))
    return found + ([] if len(records) == 20_000 and all(record.endswith(b": tick: n=1") for record in records) else ["%d records are read" % len(records)])


def memory_cases():
    short = (TOP / "examples" / "first-session").read_bytes()
    want = wanted(TOP / "examples" / "first-session")
    longest = comments(MOST_SCRIPT_BYTES)
    return [
        Case("100,000 emissions", all_done),
        Case("140,000 emissions and 20,000 reads", long_use),
        Case("600,000 emissions in 46 MiB", many_in_chunks),
        case_of("a short script in 64 MiB", want, script=short, before=limit_memory(65_536)),
        case_of("a short script in 16 MiB", want, script=short, before=limit_memory(16_384)),
        Case("a long script with a hist trigger in 24 MiB", long_script_differences(24_576, 500, setup=COSTLY_SETUP, emission=COSTLY_EMISSION)),
        Case("a long script in 30 MiB", long_script_differences(30_720, 700)),
        Case("a long script in 16 MiB", long_script_differences(16_384, 300)),
        Case("a script with parts in little memory, of %d sizes" % len(PART_SIZES), parts_in_little_memory),
        Case("the same, with one arena", lambda program: parts_in_little_memory(program, ONE_ARENA, steady=True)),
        case_of("a script of 16 MiB in 16 MiB", Outcome(3, b"", OUT_OF_MEMORY), script=longest, before=limit_memory(16_384)),
        Case("each reply before the line for which memory does not last", replies_before_refusal),
        case_of("a part without an end, of 16 MiB in 64 MiB", Outcome(2, b"! 1: script BlockOutOfPlace\n", b""), script=endless_part(), before=limit_memory(65_536)),
    ]
