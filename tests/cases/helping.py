"""What is made of the help of the program and of ./tracectl-mount: manual pages, and completions for bash and zsh.

Run by itself, with a program or with none for the one that is built, it writes these files anew.
"""
import os
import re
import shutil
import subprocess
import sys
from collections import namedtuple
from pathlib import Path

if __name__ == "__main__":
    sys.path.insert(0, str(Path(__file__).resolve().parent.parent))

from cases.running import PROGRAM, SECONDS, TOP, Case, run, text_differences

DOCS = TOP / "docs"
TOOLS = ("tracectl", "tracectl-mount")
MADE = "Made of the text of %s --help by tests/cases/helping.py."

Section = namedtuple("Section", "heading lines")
Term = namedtuple("Term", "term description")  # of an option, a command, a file or a status


def sections_of(text):
    """What is told before the first heading, and the sections. A heading begins its line and ends with a colon, or has the first line after it."""
    about, sections = [], []
    for line in text.splitlines():
        heading = re.match(r"(\w[\w ]*):(?: (.*))?$", line)
        if heading:
            sections.append(Section(heading.group(1), [heading.group(2)] if heading.group(2) else []))
        elif line:
            (sections[-1].lines if sections else about).append(line)
    return about, sections


def term_in(line):
    """The term of a line and its description: two blanks or more are between them."""
    found = re.match(r" +(\S(?:.*?\S)?) {2,}(\S.*)$", line)
    return Term(*found.groups()) if found else None


def options_in(text):
    """The options, as `--cpus <N>` or `-h, --help`, with their descriptions."""
    terms = [term_in(line) for section in sections_of(text)[1] if section.heading in ("Arguments", "Options") for line in section.lines]
    return [term for term in terms if term and names_in(term.term)]


def names_in(term):
    return re.findall(r"(?<![\w-])--?\w[\w-]*", term)


def value_in(term):
    """What stands for the value of an option, as N, or nothing."""
    found = re.search(r"--?\w[\w-]* <?(\w+)", term)
    return found.group(1) if found else None


def escaped(text):
    """Text of a man page, of which no line begins with a request."""
    text = text.replace("\\", "\\e").replace("-", "\\-").replace("'", "\\(aq").replace("`", "\\(ga")
    return "\\&" + text if text.startswith(".") else text


def section_lines(section):
    """A section of the man page: terms with their descriptions, an example as it is, and any other line as text."""
    yield ".SH " + section.heading.upper()
    is_example, was_term = False, False
    for line in section.lines:
        term = term_in(line)
        if was_term and not term:
            yield ".PP"
        was_term = bool(term)
        if is_example != line.startswith("    ") and not term:
            is_example = not is_example
            yield ".RS\n.nf" if is_example else ".fi\n.RE"
        if term:
            yield ".TP\n.B %s\n%s" % (escaped(term.term), escaped(term.description))
        else:
            yield escaped(line.strip())
    if is_example:
        yield ".fi\n.RE"


def for_a_page(text):
    """Help without the name of the repository's starter, by which it is called there, and of the user who asks."""
    text = text.replace("./tracectl-mount", "tracectl-mount")
    logs = "  /var/log/tracectl-mount.log, or of others than root ~/.local/state/tracectl-mount.log  "
    return re.sub(r"^  /.*/tracectl-mount\.log\n +", logs, text, flags=re.M)


def man_page(tool, text, version):
    about, sections = sections_of(for_a_page(text))
    head = ['.\\" ' + MADE % tool, '.TH %s 1 "" "tracectl %s" "User Commands"' % (escaped(tool.upper()), version), ".SH NAME"]
    head += ["%s \\- %s" % (escaped(tool), escaped(about[0][0].lower() + about[0][1:].split(":")[0].rstrip("."))), ".SH SYNOPSIS"]
    usage = [escaped(line.strip()) for line in sections[0].lines]
    head += [".B " + "\n.br\n.B ".join(usage), ".SH DESCRIPTION"] + [escaped(line) for line in about]
    other = next(name for name in TOOLS if name != tool)
    tail = [".SH SEE ALSO", ".BR %s (1)" % escaped(other)]
    return "\n".join(head + [line for section in sections[1:] for line in section_lines(section)] + tail) + "\n"


# ---- For bash


def bash_completion(tool, text):
    options = [term for term, _ in options_in(text)]
    names = [name for term in options for name in names_in(term)]
    with_value = [name for term in options if value_in(term) not in (None, "DIR", "FILE") for name in names_in(term)]
    with_file = [name for term in options if value_in(term) == "FILE" for name in names_in(term)]
    made = {"tool": tool, "made": MADE % tool, "name": tool.replace("-", "_"), "options": " ".join(names), "with_value": " | ".join(with_value)}
    made["files"] = OF_FILES % " | ".join(with_file) if with_file else ""
    return COMPLETING.format(**made, **({"kind": "d", "command": OF_A_COMMAND} if tool == "tracectl-mount" else {"kind": "f", "command": ""}))


COMPLETING = """\
# Completes the words of {tool} in bash, once this file is sourced. {made}
_{name}() {{
  local word=${{COMP_WORDS[COMP_CWORD]}} before=${{COMP_WORDS[COMP_CWORD - 1]}}
  COMPREPLY=()
{command}  case $before in
    {with_value}) return ;;
{files}  esac
  if [[ $word = -* ]]; then
    mapfile -t COMPREPLY < <(compgen -W '{options}' -- "$word")
  else
    mapfile -t COMPREPLY < <(compgen -{kind} -- "$word")
  fi
}}
complete -o filenames -F _{name} {tool} ./{tool}
"""

OF_FILES = """\
    %s)
      mapfile -t COMPREPLY < <(compgen -f -- "$word")
      return
      ;;
"""

OF_A_COMMAND = """\
  if [[ " ${COMP_WORDS[*]:1:COMP_CWORD - 1} " = *' -- '* ]]; then # a command and its words
    if [[ $before = -- ]]; then mapfile -t COMPREPLY < <(compgen -c -- "$word"); else mapfile -t COMPREPLY < <(compgen -f -- "$word"); fi
    return
  fi
"""


# ---- For zsh


def zsh_option(term, description):
    """An option as `_arguments` takes it: one of two names shuts out the other. A number or a file may follow = in the same word, and a folder may not."""
    names, value = names_in(term), value_in(term)
    sign = "=" if value not in (None, "DIR") and names[0].startswith("--") else ""
    told = "[%s]" % re.sub(r"([\[\]\\])", r"\\\1", description).replace("'", "'\\''")
    if value:
        told += ":%s:%s" % (value, {"DIR": "_directories", "FILE": "_files"}.get(value, " "))
    if len(names) == 2:
        return "'(%s)'{%s}'%s'" % (" ".join(names), ",".join(names), told)
    return "'%s%s%s%s'" % ("*" if term.endswith("...") else "", names[0], sign, told)


def zsh_completion(tool, text):
    words = [zsh_option(*option) for option in options_in(text)] + ["'1:DIR:_directories'" if tool == "tracectl-mount" else "'1:SCRIPT:_files'"]
    before = ZSH_COMMAND if tool == "tracectl-mount" else ""
    return "#compdef %s\n# Completes the words of %s in zsh, from a folder of fpath. %s\n%s_arguments \\\n  %s\n" % (tool, tool, MADE % tool, before, " \\\n  ".join(words))


ZSH_COMMAND = """\
local at=${words[(i)--]}
if (( at < CURRENT )); then # a command and its words
  shift at words
  (( CURRENT -= at ))
  _normal
  return
fi
"""


# ---- The files


def helps_of(program):
    """The help of each tool, as users are shown it."""
    return {"tracectl": run([program, "--help"]).stdout.decode(), "tracectl-mount": run([TOP / "tracectl-mount", "--help"]).stdout.decode()}


def made_of(program):
    """The files, and what must be in them."""
    version = run([program, "--version"]).stdout.decode().split()[1]
    files = {}
    for tool, text in helps_of(program).items():
        files[DOCS / (tool + ".1")] = man_page(tool, text, version)
        files[DOCS / (tool + ".bash")] = bash_completion(tool, text)
        files[DOCS / (tool + ".zsh")] = zsh_completion(tool, text)
    return files


def is_as_made(file):
    def differences(program):
        return text_differences("docs/" + file.name, file.read_bytes(), made_of(program)[file].encode())

    return differences


def has_each_option(program):
    """Each word of --help that begins with a dash, in the lines that have one first."""
    found = []
    for tool, text in helps_of(program).items():
        names = [name for line in re.findall(r"^ +(-[-\w].*?)(?:  .*)?$", text, re.M) for name in re.findall(r"(?<!\S)--?\w[\w-]*", line)]
        for suffix in (".1", ".bash", ".zsh"):
            content = (DOCS / (tool + suffix)).read_text().replace("\\-", "-")
            found += ["docs/%s%s lacks %s" % (tool, suffix, name) for name in names if not re.search(r"(?<![\w-])%s(?![\w-])" % name, content)]
        found += [] if len(names) > 8 else ["%s --help has no options but %s" % (tool, names)]
    return found


def man_pages_are_set(_):
    """They are formatted without a warning, where the machine can."""
    if not shutil.which("groff"):
        print("skipped: docs/*.1 are formatted, as there is no groff", flush=True)
        return []
    found = []
    for tool in TOOLS:
        words = ["groff", "-man", "-Tascii", "-ww", str(DOCS / (tool + ".1"))]
        ended = subprocess.run(words, stdout=subprocess.PIPE, stderr=subprocess.PIPE, timeout=SECONDS)
        found += [ended.stderr.decode()] if ended.returncode or ended.stderr else []
    return found


def completed(words):
    """What bash would put in place of the last of these words. A command may be in two folders of PATH."""
    script = 'source "docs/$1.bash"; COMP_WORDS=("$@"); COMP_CWORD=$(($# - 1)); "_${1//-/_}"; printf "%s\\n" "${COMPREPLY[@]}"'
    ended = subprocess.run(["bash", "-c", script, "-"] + words, stdout=subprocess.PIPE, stderr=subprocess.STDOUT, cwd=str(TOP), timeout=SECONDS)
    return sorted(set(ended.stdout.decode().split()))


def completes(_):
    wants = [
        (["tracectl", "--pa"], ["--page-bytes", "--pages"]),
        (["tracectl", "--list", "--e"], ["--explain"]),
        (["tracectl", "--cpus", ""], []),
        (["tracectl", "-c", "ec"], []),
        (["tracectl", "crates.t"], ["crates.txt"]),
        (["tracectl-mount", "--mo"], ["--mode"]),
        (["tracectl-mount", "--mode", ""], []),
        (["tracectl-mount", "--re"], ["--record", "--replay"]),
        (["tracectl-mount", "--replay", "crates.t"], ["crates.txt"]),
        (["tracectl-mount", "crates"], ["crates"]),
        (["tracectl-mount", "--cpus", "2", "--", "truncat"], ["truncate"]),
        (["tracectl-mount", "--", "cat", "crates.t"], ["crates.txt"]),
        (["tracectl-mount", "--", "cat", "--mo"], []),
    ]
    return ["%s is completed by %s, expected %s" % (words, completed(words), want) for words, want in wants if completed(words) != want]


# What zsh's _arguments would be given, a word on each line.
ZSH_WORDS = '_arguments() { print -rl -- "$@" }; _normal() { print -r -- "$CURRENT of $words" }; CURRENT=$#; words=("$@"); done_by() { source "docs/$1.zsh" }; done_by "$1"'


def completes_in_zsh(program):
    """The words for _arguments, with a name on each, and what comes after --."""
    if not shutil.which("zsh"):
        print("skipped: docs/*.zsh, as there is no zsh", flush=True)
        return []
    found = []
    for tool, text in helps_of(program).items():
        got = run(["env", "-C", TOP, "zsh", "-fc", ZSH_WORDS, "-", tool, ""])
        names = [re.match(r"(?:\(.*?\))?\*?(--?[\w-]+)=?\[.*\](?::\w+:(?: |_\w+))?$", line) for line in got.stdout.decode().splitlines()[:-1]]
        want = [name for term, _ in options_in(text) for name in names_in(term)]
        found += [] if got.status == 0 and all(names) and [name.group(1) for name in names] == want else ["docs/%s.zsh: it is %s" % (tool, got)]
    got = run(["env", "-C", TOP, "zsh", "-fc", ZSH_WORDS, "-", "tracectl-mount", "--cpus", "2", "--", "cat", "fi"])
    return found + ([] if got.stdout == b"2 of cat fi\n" else ["after --: it is %s" % (got,)])


def tells_the_time_of_a_proof(program):
    told = re.search(r'^readonly TIME_OF_PROOF="(.*)"$', (TOP / "tools" / "building.bash").read_text(), re.M).group(1)
    return [] if told in " ".join(run([program, "--help"]).stdout.decode().split()) else ["--help lacks %s" % told]


def helping_cases():
    files = [DOCS / (tool + suffix) for tool in TOOLS for suffix in (".1", ".bash", ".zsh")]
    return [Case("docs/%s is made of --help" % file.name, is_as_made(file)) for file in files] + [
        Case("each option is in docs/", has_each_option),
        Case("docs/*.1 are formatted", man_pages_are_set),
        Case("docs/*.bash complete words", completes),
        Case("docs/*.zsh complete words", completes_in_zsh),
        Case("--help tells how long the starter says that a proof takes", tells_the_time_of_a_proof),
    ]


if __name__ == "__main__":
    built = sys.argv[1] if len(sys.argv) > 1 else PROGRAM
    for path, content in made_of(os.path.abspath(str(built))).items():
        path.write_text(content)
