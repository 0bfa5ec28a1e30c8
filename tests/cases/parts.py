"""Parts whose threads may come in any order, and parts of which a thread can't be started."""
import os
import resource
import shutil
import tempfile

from cases.emitting import SETUP, STATS, stats_text
from cases.running import OUT_OF_MEMORY, SMALL, TOP, Case, Outcome, case_of, differences, quoted, run

NOBODY = 65_534  # a user with no rights


def stats_of_two_threads(program):
    """After the threads of two_threads_on_two_cpus each ring has the newest 4 of its 50 records. Which emission was the oldest of these depends on the
    order in which the threads came: it is the 47th of its thread at the earliest, and 3 come after it."""
    script = (TOP / "tests/rows/two_threads_on_two_cpus").read_bytes() + b"cat per_cpu/cpu0/stats\ncat per_cpu/cpu1/stats\n"
    got = run([program, "--cpus", "2"] + SMALL, script=script)
    stats = got.stdout.splitlines()[-16:]
    oldest = [int(line.rpartition(b" ")[2]) for line in stats if line.startswith(b"oldest event ts: ")]
    others = [line for line in stats if not line.startswith(b"oldest event ts: ")]
    each = [b"entries: 4", b"overrun: 46", b"commit overrun: 0", b"bytes: 96", b"now ts: 100", b"dropped events: 0", b"read events: 0"]
    found = [] if (got.status, others) == (0, each + each) else ["the stats are %s" % quoted(b"\n".join(stats))]
    return found + ([] if len(oldest) == 2 and all(47 <= time <= 97 for time in oldest) else ["the oldest are of %s" % oldest])


def eight_thread_script():
    """Eight threads of 200 emissions each, in a process each, and what is written where all come, and none twice."""
    lines = SETUP + [b"echo hist:keys=common_pid:sort=common_pid > events/synthetic/tick/trigger\n", b"parallel\n"]
    for process in range(8):
        lines += [b"thread\n"] + [b"emit 0 %d tick n=1\n" % process] * 200
    lines += [b"end\n", b"cat events/synthetic/tick/hist\n", STATS]
    replies = ["-- thread %d" % thread for thread in range(8)] + ["# event histogram", "#"]
    replies += ["# trigger info: hist:keys=common_pid:vals=hitcount:sort=common_pid:size=2048 [active]", "#", ""]
    replies += ["{ common_pid: %10d } hitcount:        200" % process for process in range(8)]
    replies += ["", "Totals:", "    Hits: 1600", "    Entries: 8", "    Dropped: 0", ""]
    return b"".join(lines), "\n".join(replies).encode() + stats_text(1600, 0, 1, 1600)


def eight_threads():
    script, written = eight_thread_script()
    return case_of("eight threads", Outcome(0, written, b""), ["-"], script=script)


def limit_threads(most):
    """Lets the process and its threads be so many. A superuser is not held to that, so the process becomes another user's."""

    def limit():
        if os.geteuid() == 0:
            os.setuid(NOBODY)
        resource.setrlimit(resource.RLIMIT_NPROC, (most, most))

    return limit


def run_as_nobody(program, words, **how):
    """Runs a copy of the program that each user may read."""
    with tempfile.TemporaryDirectory() as folder:
        os.chmod(folder, 0o755)
        copy = shutil.copy(str(program), folder)
        os.chmod(copy, 0o755)
        return run([copy] + words, **how)


TWO_THREADS = b"""\
cat options/overwrite
parallel
thread
cat tracing_on
cat nothing
thread
echo 0 > options/overwrite
end
cat options/overwrite
"""


def refused_threads():
    """Where the system refuses a thread of a part, the session ends and nothing of the part is written."""
    done = Outcome(1, b"1\n-- thread 0\n1\n! 5: N1 NoSuchFile\n-- thread 1\n0\n", b"")
    refused = Outcome(3, b"1\n", OUT_OF_MEMORY)
    alone = TWO_THREADS.replace(b"parallel\n", b"").replace(b"thread\n", b"").replace(b"end\n", b"")

    def case(name, want, words, script, before=None):
        return Case(name, lambda program: differences(run_as_nobody(program, words, script=script, before=before), want))

    none = limit_threads(1)
    return [
        case("the same lines by themselves, with no thread", Outcome(1, b"1\n1\n! 3: N1 NoSuchFile\n0\n", b""), SMALL, alone, none),
        case("two threads, with no limit", done, SMALL, TWO_THREADS),
        case("two threads, which are refused", refused, SMALL, TWO_THREADS, none),
        case("two threads, which are refused, explained", refused, ["--explain"] + SMALL, TWO_THREADS, none),
        Case("eight threads, of which some are refused", some_threads_refused),
    ]


def some_threads_refused(program):
    """Of eight threads the first may have ended before the last is begun. So what is refused is not known; but all of the part is written, or nothing."""
    script, written = eight_thread_script()
    whole, nothing = Outcome(0, written, b""), Outcome(3, b"", OUT_OF_MEMORY)
    found = []
    for most in range(2, 9):
        got = run_as_nobody(program, ["-"], script=script, before=limit_threads(most))
        found += [] if got in (whole, nothing) else differences(got, nothing)
    return found


def part_cases():
    return [Case("two threads on two CPUs, and their stats", stats_of_two_threads), eight_threads()] + refused_threads()
