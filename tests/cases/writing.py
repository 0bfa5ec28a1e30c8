"""What scripts are compared with, written anew as the program has it, and what that changes."""
import contextlib
import difflib
import io
import shutil
import tempfile
from pathlib import Path

from cases.running import TOP, Case, Outcome, passes, run
from cases.scripts import beside, name_of, script_cases, scripts_of, words_of

LAWFUL = (0, 1, 2)  # the statuses of a script that was read to its end or to a fault
OPTIONAL = {".explained": "--explain", ".bars": "--bars", ".listed": "--list"}  # written where they are there, each of what this option adds


def lines_of(data):
    return [] if data is None else [line.decode(errors="backslashreplace") for line in data.splitlines()]


def rewrite(path, data):
    """Writes a file anew, or takes it away where there is to be none, and shows what that changes. Whether it changed."""
    old = path.read_bytes() if path.exists() else None
    if old == data:
        return False
    from_name, to_name = (name_of(path) if found is not None else "/dev/null" for found in (old, data))
    print("\n".join(difflib.unified_diff(lines_of(old), lines_of(data), from_name, to_name, lineterm="", n=2)), flush=True)
    if data is None:
        path.unlink()
    else:
        path.write_bytes(data)
    return True


def outputs_of(script, program):
    """What is to lie beside a script, by its suffix; None where nothing is."""
    words, text = words_of(script), script.read_bytes()
    plain = run([program] + words, script=text)
    if plain.status not in LAWFUL:
        raise ValueError("it ends with status %d" % plain.status)
    found = {".stdout": plain.stdout, ".status": b"%d\n" % plain.status if plain.status else None}
    for suffix, option in OPTIONAL.items():
        if beside(script, suffix).exists():
            got = run([program, option] + words, script=text)
            found[suffix] = got.stdout[len(plain.stdout) :] if option == "--list" else got.stderr
    return found


def write_outputs(scripts, program):
    """Writes what lies beside these scripts anew, tells how many files changed, and has the exit status."""
    changed = failed = 0
    for script in scripts:
        try:
            changed += sum(rewrite(beside(script, suffix), data) for suffix, data in outputs_of(script, program).items())
        except ValueError as error:
            print("%s: nothing is written, as %s" % (script.name, error))
            failed += 1
    print("%d files changed" % changed)
    return 1 if failed else 0


CHOSEN = ("explained_refusals", "histograms_as_bars", "instances", "fault_in_a_part", "five_emissions")
EDITS = {  # what is wrong beside copies of these scripts; None where a file is missing
    "explained_refusals.explained": b"nothing is explained\n",
    "histograms_as_bars.bars": b"",
    "instances.listed": b"rw nothing\n",
    "fault_in_a_part.status": None,
    "five_emissions.status": b"1\n",
}
SHOWN = ("-nothing is explained\n", "-rw nothing\n", "+rw trace_options\n", "--- /dev/null\n", "+2\n", "-1\n", "+++ /dev/null\n")
TOLD = "%d files changed\n" % (len(EDITS) + 1)  # and an output that is missing


def files_in(folder):
    return {path.name: path.read_bytes() for path in folder.iterdir()}


def copies_of(names, folder):
    """The files of these scripts of tests/rows, copied, and then as EDITS has them."""
    for path in (TOP / "tests" / "rows").iterdir():
        if path.name.partition(".")[0] in names:
            shutil.copy(str(path), str(folder))
    right = files_in(folder)
    for name, data in EDITS.items():
        if data is None:
            (folder / name).unlink()
        else:
            (folder / name).write_bytes(data)
    return right


def said_by(call, *given):
    """What a call returns, and what it prints."""
    said = io.StringIO()
    with contextlib.redirect_stdout(said):
        return call(*given), said.getvalue()


def writes_what_changed(program):
    """What is wrong is told and left, until it is to be written anew: then it is right, and each change is shown."""
    with tempfile.TemporaryDirectory() as top:
        folder = Path(top)
        right = copies_of(CHOSEN, folder)
        edited = files_in(folder)
        results, _ = said_by(lambda: [passes(case, program) for case in script_cases(folder)])
        wrong = results.count(False)
        found = [] if wrong == 2 and files_in(folder) == edited else ["%d scripts are wrong, or files changed unasked" % wrong]
        (folder / "instances.stdout").unlink()
        status, said = said_by(write_outputs, scripts_of(folder), program)
        found += ["%s is not as it was" % name for name, data in files_in(folder).items() if right.get(name) != data]
        found += ["%s is missing" % name for name in right.keys() - files_in(folder).keys()]
        found += ["%r is not shown in %s" % (line, said) for line in (*SHOWN, TOLD) if line not in said]
        again = said_by(write_outputs, scripts_of(folder), program)
        return found + ([] if (status, again) == (0, (0, "0 files changed\n")) else ["again: %d, %s" % (status, again)])


def writes_nothing_of_failures(_):
    """Of a program that fails nothing is written."""
    with tempfile.TemporaryDirectory() as top, tempfile.TemporaryDirectory() as failing:
        folder, program = Path(top), Path(failing) / "program"
        program.write_text("#!/bin/sh\nexit 3\n")
        program.chmod(0o755)
        copies_of(CHOSEN, folder)
        edited = files_in(folder)
        status, said = said_by(write_outputs, scripts_of(folder), program)
        wanted = "".join("%s: nothing is written, as it ends with status 3\n" % name for name in sorted(CHOSEN)) + "0 files changed\n"
        return [] if (status, said, files_in(folder)) == (1, wanted, edited) else ["%d, %s" % (status, said)]


def writing_cases():
    return [Case("--write: what changed", writes_what_changed), Case("--write, and the program fails", writes_nothing_of_failures)]
