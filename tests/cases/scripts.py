"""Scripts that lie beside what they write, and what they are written with."""

from cases.running import TOP, Outcome, case_of

BESIDE = (".args", ".stdout", ".status", ".explained", ".bars", ".listed", ".tree")


def beside(script, suffix):
    """The file that lies beside a script, by its suffix."""
    return script.with_name(script.name + suffix)


def scripts_of(folder):
    scripts = sorted(path for path in folder.iterdir() if path.is_file() and path.suffix not in BESIDE)
    if not scripts:
        raise FileNotFoundError("no script in %s" % folder)
    return scripts


def name_of(path):
    return str(path.relative_to(TOP) if TOP in path.parents else path)


def wanted(script):
    status = beside(script, ".status")
    return Outcome(
        int(status.read_text()) if status.exists() else 0,
        beside(script, ".stdout").read_bytes(),
        b"",
    )


def script_cases(folder):
    return [case_of(name_of(path), wanted(path), words_of(path), script=path.read_bytes()) for path in scripts_of(folder)]


def words_of(script):
    words = beside(script, ".args")
    return words.read_text().splitlines() if words.exists() else ["-"]
