"""What a check says of planted bugs.

An edit is refused for its meaning where a goal of a function that it changes stays open, or a proof of such a function is of another type than it has to
be. It is proved where the check says so of each of these functions. All else shows nothing of the contracts.
"""
import re
from collections import namedtuple

PROVED, REFUSED, NOT_TOLD = "PROVED", "refused", "NOT REFUSED FOR ITS MEANING"
FALSE = "values at which this goal is false"

Verdict = namedtuple("Verdict", "kind why")

STATE = re.compile(r"^fn \w+::(\S+?): (.*)$", re.M)
GOAL = re.compile(r"^note: (?:\./)?(src/\S+?):(\d+):\d+: (.*(?:not proved that|found no proof).*)$", re.M)
FRONT = re.compile(r"^(?:\./)?(src/\S+?):(\d+):\d+: (error\[.*)$", re.M)
ERROR = re.compile(r"^(?:\./)?((?:src|specs|proofs)/\S+?):(\d+):\d+: error: (.*(?:\n  .*)?)$", re.M)  # which may go on in a second line
QUOTED = re.compile(r"`[^`]*`")
# a proof that names what the function no longer has, or that rests on a declaration that was refused
OF_NAMES = re.compile(r"has no (?!atom)|in scope|is no name|not admitted|rejected|not checked")
WORD = re.compile(r"[^\s(){}\[\],;.:`]+")
UNREAD = re.compile(r"is not in scope|has no field|is no name|operand is missing|expected the end|cannot continue")


def lines_found(pattern, said):
    """The files, lines and texts that a pattern finds."""
    return [(path, int(line), " ".join(text.split())) for path, line, text in pattern.findall(said)]


def front_errors(said):
    """What does not compile."""
    return lines_found(FRONT, said)


def is_of_names(error):
    return bool(OF_NAMES.search(QUOTED.sub("", error[2])))


def is_unread(error):
    """Whether the checker could not even read what is stated there."""
    return error[0].startswith(("src/", "specs/")) and bool(UNREAD.search(QUOTED.sub("", error[2])))


def is_part_of(name, function):
    """Whether a function is this one or a closure in it."""
    modules, _, own = function.rpartition("::")
    return name == function or name.startswith("::".join([modules, "fn", own, ""] if modules else ["fn", own, ""]))


def folders_of(functions):
    """Where the proofs of functions lie: that of one which calls itself begins with a `+`."""
    paths = [it.replace("::", "/").rpartition("/") for it in functions]
    return tuple("proofs/%s%s%s%s/" % (modules, slash, mark, own) for modules, slash, own in paths for mark in ("", "+"))


def verdict_of(edit, said, function_at):
    """What a check says of an edit; `function_at` tells which function a line is in."""
    own = {name: state for name, state in STATE.findall(said) if not edit.functions or any(is_part_of(name, it) for it in edit.functions)}
    goals = [it for it in lines_found(GOAL, said) if not edit.is_of_bodies or function_at(it[0], it[1] - 1) in edit.functions]
    errors = lines_found(ERROR, said)
    unread = [it for it in errors if is_unread(it)]
    if edit.is_of_bodies:
        folders = folders_of(edit.functions)
        errors = [it for it in errors if it[0].startswith(folders) or function_at(it[0], it[1] - 1) in edit.functions]
    meant = [it for it in goals if not edit.lacks_answers or FALSE in it[2]] + [it for it in errors if not is_of_names(it)]
    if unread:
        return Verdict(NOT_TOLD, "%s:%d: %s" % unread[0])
    if own and all(state.startswith("proved") for state in own.values()) and edit.functions <= set(own) and (edit.is_of_bodies or "\nlogic=proved " in said):
        return Verdict(PROVED, "")
    if meant:
        return Verdict(REFUSED, "%s:%d: %s" % meant[0])
    if errors:
        return Verdict(NOT_TOLD, "%s:%d: %s" % errors[0])
    if goals:
        return Verdict(NOT_TOLD, "without the answers that name what it takes away: %s:%d: %s" % goals[0])
    return Verdict(NOT_TOLD, next((state for state in own.values() if not state.startswith("proved")), "the check says nothing of it"))


def without_answers(edit, said, read):
    """The texts of the answers of the functions that an edit changes, without those that name what these functions no longer have, by their paths."""
    folders = folders_of(edit.functions)
    faults = {}
    for path, line, text in lines_found(ERROR, said):
        if path.startswith(folders) and path.endswith("/Answers.antt"):
            faults.setdefault(path, []).append((line - 1, set(re.findall(r"has no `([^`]+)`", text))))
    texts = {}
    for path, found in faults.items():
        gone, number, kept = set().union(*(names for _, names in found)), 0, []
        for block in read(path).split("\n\n"):
            end = number + block.count("\n") + 2
            if block.startswith("use "):
                kept.append(without_names(block, gone))
            elif not any(number <= line < end for line, _ in found) and not gone & set(WORD.findall(block)):
                kept.append(block)
            number = end
        texts[path] = "\n\n".join(kept)
    return texts


def without_names(imports, names):
    """Imports without these names."""
    return re.sub(r"\{([^{}]*)\}", lambda found: "{%s}" % ", ".join(it for it in re.split(r",\s*", found[1].strip()) if it not in names), imports)
