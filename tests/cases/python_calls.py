"""The Python package: what calls come to by their arguments, calls with random arguments, walks, and the names of statuses.

Calls are made in processes of their own, so that a crash is one case's failure.
"""
import re
import sys

from cases.running import TOP, Case, Outcome, differences, run
from cases.statuses import in_header, name_differences
from walking.walks import seed_of

CASES = TOP / "tests" / "library_cases"
COUNT = 100_000
SECONDS = 10  # of walks


def run_script(library, name, *words):
    settings = ["env", "PYTHONDONTWRITEBYTECODE=1", "TRACECTL_LIBRARY=%s" % library]
    return run(settings + [sys.executable, CASES / name, *words])


def arguments(library):
    return differences(run_script(library, "arguments.py"), Outcome(0, (CASES / "arguments.stdout").read_bytes(), b""))


def random_calls(library):
    """Makes the calls of the seed that TRACECTL_SEED in the environment says, or of any, which is told."""
    seed = seed_of()
    got = run_script(library, "random_calls.py", seed, COUNT)
    told = got.stdout.decode(errors="backslashreplace").strip()
    print("random calls from Python, again by TRACECTL_SEED=%s: %s" % (seed, told if not got.status else "status %d" % got.status), flush=True)
    if got.status or got.stderr:
        return ["seed %s, exit status %d: %s" % (seed, got.status, line) for line in told.split("\n") + got.stderr.decode().split("\n") if line]
    times = {come: int(count) for count, come in re.findall(r"(\d+) ([^,]+)", told)}
    rare = [come for come in ("done", "refused", "TypeError or ValueError") if times.get(come, 0) < COUNT / 10]
    return ["seed %s: less than a tenth of the calls came to %s" % (seed, " or ".join(rare))] if rare else []


def walks(library, program):
    """What is wrong with walks, likewise of a seed."""
    got = run_script(library, "walks.py", program, seed_of(), str(SECONDS))
    told, *wrong = got.stdout.decode(errors="backslashreplace").splitlines() or ["nothing was told"]
    print(told, flush=True)
    return wrong + got.stderr.decode().splitlines() + ([] if got.status == 0 else ["exit status %d: %s" % (got.status, told)])


def names(_):
    """Compares the names with those of the header, which tests/cases/statuses.py compares with all others."""
    import tracectl

    return name_differences("in Python", getattr(tracectl, "NAMES", {}), {number: name for number, name in in_header().items() if number})


def python_cases(library):
    return [
        Case("tests/library_cases/arguments.py", lambda _: arguments(library)),
        Case("tests/library_cases/random_calls.py", lambda _: random_calls(library)),
        Case("tests/library_cases/walks.py", lambda program: walks(library, program)),
        Case("the names of statuses in python/tracectl/refused.py", names),
    ]
