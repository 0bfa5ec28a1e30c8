"""Sessions of a shell, with what they show: text in which lines that are indented by four blanks are a shell's, and all others are for who reads it.

    # What a case is about
    Any words.

        $ echo one; cat << END
        > two
        > END
        one
        two
        $ false
        [1]

All commands of a file are done by one bash, one after the other. What a command shows, on standard output and standard error, is compared with the lines
that follow it, the last of which is its exit status, if that is not 0. Empty lines at its end are not compared.
"""
import difflib
import re
from collections import namedtuple

Command = namedtuple("Command", "number lines shown")  # `number` is that of its first line
Titled = namedtuple("Titled", "title commands")

INDENT = "    "
MARK = "%%: command %d ended with status"  # what is shown after each command


def without_empty_end(lines):
    return lines if not lines or lines[-1] else without_empty_end(lines[:-1])


def read_session(text):
    """The cases of a session."""
    cases, empty = [], 0
    for number, line in enumerate(text.splitlines(), 1):
        if line.startswith("# "):
            cases.append(Titled(line[2:], []))
        elif line.startswith(INDENT + "$ "):
            cases[-1].commands.append(Command(number, [line[len(INDENT) + 2 :]], []))
        elif line.rstrip() == INDENT + ">" or line.startswith(INDENT + "> "):
            cases[-1].commands[-1].lines.append(line[len(INDENT) + 2 :])
        elif line.startswith(INDENT):
            cases[-1].commands[-1].shown.extend([""] * empty + [line[len(INDENT) :]])
        empty = 0 if line else empty + 1
    return cases


def script_of(commands):
    """A script of bash that does them, and tells where each one ends."""
    lines = ["exec 2>&1"]
    for number, command in enumerate(commands):
        lines += [*command.lines, "printf '\\n%s %%d\\n' \"$?\"" % (MARK % number).replace("%", "%%")]
    return "\n".join(lines) + "\n"


def shown_by(output, count):
    """What each of so many commands has shown, as lines; nothing of those that were not reached. And what is left of the output."""
    shown, rest = [], output
    for number in range(count):
        text, mark, after = rest.partition("\n%s " % (MARK % number))
        if not mark:
            break
        status, _, rest = after.partition("\n")
        shown.append(without_empty_end(text.split("\n")) + ([] if status == "0" else ["[%s]" % status]))
    return shown, rest


def session_differences(commands, shown, rest):
    """What is wrong with what these commands have shown; `shown` lacks those that were not reached."""
    found = []
    for command, lines in zip(commands, shown):
        if lines != command.shown:
            found.append("line %d: $ %s" % (command.number, command.lines[0]))
            found += list(difflib.unified_diff(command.shown, lines, "expected", "shown", lineterm="", n=1))[2:]
    if len(shown) < len(commands):
        found.append("line %d: this was not reached; last came %s" % (commands[len(shown)].number, rest[-500:]))
    return found


def rewritten(text, commands, shown):
    """The text of a session, with what each command shows now."""
    lines, result, at = text.splitlines(), [], 0
    for command, output in zip(commands, shown):
        end = command.number - 1 + len(command.lines)
        result += lines[at:end] + [INDENT + line if line else "" for line in output]
        at = end + len(command.shown)
    return "\n".join(result + lines[at:]) + "\n"
