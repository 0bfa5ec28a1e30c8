"""That no function that is to be inlined wherever it is called is in a proved program by itself."""
import re
import sys

from cases.running import TOP, Case, run

sys.path.insert(0, str(TOP / "tools"))
from hints import hints_of


def names_in(program):
    """The names of functions in the program's table of symbols, those of generic functions without their numbers."""
    found = (name for name in program.read_bytes().split(b"\0") if re.match(rb"\w+(?:::\w+)+", name))
    return {re.sub(rb"::<.*", b"", name).decode() for name in found}


def are_inlined(program):
    """The kit drops `#[inline(always)]` without a word from a function that would grow very large. Of an unproved program this is not told: it is
    compiled without hints."""
    if b"unproved" in run([program, "--version"]).stdout:
        return []
    hints = {}
    for sources in sorted((TOP / "crates").glob("*/src")):
        hints.update(hints_of(sources.parent.name, sources))
    always = {name for name, words in hints.items() if "alwaysinline" in words}
    names = names_in(program)
    if not any(name.startswith("trace_session::") for name in names):
        return ["it has no table of symbols, so nothing is known"]
    left = [name for name in sorted(names) if name in always or "::".join([name.split("::")[0], *name.split("::")[-2:]]) in always]
    return ["%s is not inlined: it has grown too large" % name for name in left]


def inlined_cases():
    return [Case("functions that are inlined everywhere", are_inlined)]
