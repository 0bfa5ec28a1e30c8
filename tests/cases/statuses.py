"""The names of statuses: tracectl.h has the numbers and names of the Rust sources and of docs/REFUSALS.md, and `tracectl_status_name` tells them."""
import re
from ctypes import CDLL, c_char_p, c_uint32

from cases.running import TOP, Case

CRATES = TOP / "crates"
FIRST_FAULT, FIRST_OF_HANDLES = 101, 200
OF_TRIES = {"TRY_BUSY": "BUSY", "TRY_NOT_NOW": "NOT_NOW"}  # constants whose names are others in Rust
OF_MOUNTS = ("NOT_MOUNTED", "ALREADY_MOUNTED", "NO_FOLDER", "FOLDER_BUSY", "NO_DEVICE", "NO_RIGHT", "LIMITED")
OF_C = ("FORKED", "IN_CALL", "OTHER_THREAD", *OF_MOUNTS)  # which the C files alone tell
BEYOND = 2**16


def spelled(constant):
    """The name that a constant has as a status: that of NO_SUCH_FILE is NoSuchFile."""
    return "".join(word.capitalize() for word in OF_TRIES.get(constant, constant).split("_"))


def in_header():
    text = (CRATES / "tracectl_c" / "tracectl.h").read_text()
    constants = re.search(r"enum tracectl_status \{(.*?)\};", text, re.DOTALL)[1]
    return {int(number): spelled(name) for name, number in re.findall(r"TRACECTL_(\w+) = (\d+)", constants)}


def in_page():
    text = (TOP / "docs" / "REFUSALS.md").read_text()
    names = {int(number): name for number, name in re.findall(r"^- \*\*N(\d+) (\w+)", text, re.MULTILINE)}
    return {**names, **dict(enumerate(re.findall(r"^- \*\*(\w+)\*\*:", text[text.index("## Script faults") :], re.MULTILINE), FIRST_FAULT))}


def arms(path, enum, result):
    """What the arms of a `match` come to where it looks like this, by what they match."""
    return dict(re.findall(r"^ *(.*\b%s::.*) => %s,$" % (enum, result), path.read_text(), re.MULTILINE))


def numbered(numbers, names, before=0):
    """The name of what is matched by its number, and this before it."""
    return {before + int(number): names.get(matched, "nameless") for matched, number in numbers.items()}


def in_rust():
    path = CRATES / "trace_command/src/refusal.rt"
    refusals = numbered(arms(path, "Refusal", r"(\d+)"), arms(path, "Refusal", r'"(\w+)"'))
    numbers, names = CRATES / "library_tracer/src/status.rt", CRATES / "trace_script/src/fault.rt"
    faults = numbered(arms(numbers, "ScriptFault", r"(\d+)"), arms(names, "ScriptFault", r'"(\w+)"'), FIRST_FAULT - 1)
    constants = re.findall(r"^pub\(crate\) const (\w+): u32 = (2\d\d);$", (CRATES / "tracectl_c/src/statuses.rt").read_text(), re.MULTILINE)
    return {**refusals, **faults, **{int(number): spelled(name) for name, number in constants}}


def name_differences(where, got, want):
    """The statuses that have another name than in the header, or no name, or are none there."""
    numbers = sorted({**got, **want})
    return ["%d is %s %s, in tracectl.h %s" % (number, got.get(number), where, want.get(number)) for number in numbers if got.get(number) != want.get(number)]


def rust_differences(_):
    of_c = [spelled(name) for name in OF_C]
    return name_differences("in Rust", in_rust(), {number: name for number, name in in_header().items() if number and name not in of_c})


def page_differences(_):
    return name_differences("in docs/REFUSALS.md", in_page(), {number: name for number, name in in_header().items() if 0 < number < FIRST_OF_HANDLES})


def told_differences(library):
    """Of what `tracectl_status_name` tells of each number that might be one, and of some that are too large."""
    tell = CDLL(str(library)).tracectl_status_name
    tell.argtypes, tell.restype = [c_uint32], c_char_p
    numbers = [*range(BEYOND), 2**31 - 1, 2**31, 2**32 - 203, 2**32 - 1]
    told = {number: tell(number).decode() for number in numbers}
    return name_differences("by tracectl_status_name", told, {**dict.fromkeys(numbers, "unknown"), **in_header()})


def status_cases(library):
    return [
        Case("the names of statuses in Rust", rust_differences),
        Case("the names of statuses in docs/REFUSALS.md", page_differences),
        Case("the names of statuses by tracectl_status_name", lambda _: told_differences(library)),
    ]
