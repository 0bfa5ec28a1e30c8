"""docs/BELIEVE.md: every definition on which the headline rests, in the order to read them; and that nothing public rests on specs/private.

Run by itself it writes the page.
"""
import re
import sys
import textwrap
from pathlib import Path

if __name__ == "__main__":
    sys.path.insert(0, str(Path(__file__).resolve().parent.parent))

from cases.definitions import CRATES, IMPORT, MODEL, Library, imports_of
from cases.running import TOP, Case

PAGE = TOP / "docs" / "BELIEVE.md"
HEADLINE = (("trace_session", "session.rt", "run_session"), ("parallel_history", "history.rt", "history_of"))
MOUNT = (("mount_service", "service.rt", "serve_tracer"),)
MOST = 3000  # lines of definitions, without comments, that the headline may rest on

PREFACE = """# What has to be believed

To believe what `run_session` and `history_of` promise, believe these definitions: all that their clauses name, and all that those name, but the
words of the standard library. **{count} definitions, {lines} lines without comments and blank lines**, types of Rust included, each after those that it
cites. [READING-SPECS.md](READING-SPECS.md) says how to read them. Everything else of the repository, code, proofs and other definitions, is checked
against them by the compiler.

This page is written by `python3 tests/cases/believing.py`, and `tests/program` fails if it is not what that writes, or if a name stands for nothing.
A name is followed by its spelling, so a definition is listed too often rather than too seldom. Not listed, since it need not be believed:

- What a trait says that only bounds a type of which no clause speaks, as `SharedBook` in `run_session`. The clauses hold whatever it says.
- How private fields make up what contracts see of a value. If a call takes or returns such values, as `Book`, the function that returns what contracts
  see of one is listed; if not, the type that they see, as `Parsed` of a `Filter`.
- The cause of a refusal, and which limit was passed. No output of a session shows one, so what tells them can change no byte of it:
{causes}.
  What hears a session is told them, and a mounted tracer's `error_log` rests on them.
- A function that reads a text, or the relation that says how such a text is written, if a theorem says that they agree: believe either. The shorter is
  listed. Where that is the relation, what the theorem says is listed in place of the function:
  {laws}. The last is of a filter of an event
  and a row of it; in a history nothing else is asked (`filters_are_of_their_events` of tracer_specification, `triggers_meet_as_their_trees` of
  history_laws).

| What is read | Function | Relation | Theorem | Listed |
|---|---|---|---|---|
{readings}

"""


class Reading:
    """What is read by a function, the relations that say how it is written, the theorem that they agree, and the words of that, if the page lists these."""

    def __init__(self, what, crate, function, relations, theorem, laws=()):
        self.what, self.crate, self.function, self.relations, self.theorem, self.laws = what, crate, function, relations, theorem, laws

    def row(self):
        files = dict.fromkeys(file for file, _ in self.relations)
        names = "; ".join("%s: %s" % (file, ", ".join("`%s`" % name for home, name in self.relations if home == file)) for file in files)
        listed = "relation" if self.laws else "function"
        return "| %s | `%s` | `%s`, %s | `%s` | %s |" % (self.what, self.function[1], self.crate, names, self.theorem, listed)


READINGS = (
    Reading("what a line asks for", "trace_script", ("Lines", "line_of"), (("Commands", "AsksFor"),), "lines_are_as_written"),
    Reading("the fault of a line", "trace_script", ("Lines", "line_of"), (("Faults", "HasFault"),), "faults_come_in_order"),
    Reading("the words of a line", "trace_script", ("Tokens", "tokens_of"), (("Grammar", "IsWritten"),), "tokens_are_as_written"),
    Reading(
        "an event's declaration",
        "trace_format",
        ("Reading", "definition_of"),
        (("Definitions", "Declares"), ("Definitions", "IsRefusedAt")),
        "declarations_are_as_written",
        ("DefinitionIsRead", "RefusalIsRead"),
    ),
    Reading(
        "the fields of an emission",
        "trace_format",
        ("Rows", "row_of"),
        (("Pairs", "Give"), ("Pairs", "IsWrongPair"), ("Pairs", "IsMissingField")),
        "rows_are_as_given",
    ),
    Reading(
        "a record's payload", "trace_format", ("Decoding", "row_from"), (("Cells", "payload_of"),), "payloads_are_read_as_their_rows", ("PayloadIsRead",)
    ),
    Reading("the words of a filter", "trace_filter", ("Tokens", "spots_of"), (("TokenGrammar", "IsWrittenText"),), "tokens_are_as_written"),
    Reading(
        "a filter",
        "trace_filter",
        ("Filters", "answer_of"),
        (("Filters", "IsFilter"), ("Filters", "IsRefused")),
        "filters_are_as_written",
        ("FilterIsAnswered", "RefusalIsAnswered"),
    ),
    Reading("whether it passes", "trace_filter", ("Values", "holds_of"), (("Filters", "Passes"),), "filters_hold_as_their_trees", ("HoldsAsItsTree",)),
    Reading("a pattern", "trace_filter", ("Globs", "parts_of"), (("GlobGrammar", "IsWrittenGlob"),), "globs_are_as_written"),
    Reading(
        "a snapshot trigger", "trace_trigger", ("TriggerTexts", "said_of"), (("TriggerGrammar", "Writes"), ("Laws", "IsBad")), "trigger_texts_are_as_written"
    ),
    Reading(
        "a hist trigger",
        "trace_trigger",
        ("HistTexts", "spec_of"),
        (("HistGrammar", "Says"), ("HistRefusals", "IsRefusedAs")),
        "hist_triggers_are_as_written",
    ),
)


# What tells causes, and nothing else.
CAUSES = {
    ("trace_format", "fault"): ("DeclarationCause", "RowCause"),
    ("trace_format", "Reading"): ("cause_in",),
    ("trace_format", "Rows"): ("pair_cause",),
    ("trace_filter", "fault"): ("FilterCause",),
    ("trace_filter", "FilterCauses"): ("cause_at",),
    ("trace_trigger", "fault"): ("TextCause", "OperatorCause", "HistCause"),
    ("trace_trigger", "TriggerTexts"): ("condition_cause",),
    ("trace_trigger", "HistOffsets"): ("attribute_cause", "is_first"),
    ("trace_command", "refusal"): ("Limit",),
}


def clauses_of(text, function):
    """The head of a function with its clauses."""
    start = re.search(r"pub fn %s[<(]" % function, text).start()
    return text[start : text.index("\n{", start)]


def believed_of(head):
    """A head without the bounds of types of which no clause speaks: then its clauses hold whatever the traits say."""
    generics = re.match(r"pub fn \w+<(.*?)>\(", head, re.S)
    for name, bounds in re.findall(r"(\w+): ([^,]*)", generics.group(1)) if generics else ():
        if not re.search(r"\b%s\." % name, head):
            head = head.replace("%s: %s" % (name, bounds), name, 1)
    return head


def without_fields(text, kept):
    """A record's text without the fields that nothing names."""
    lines = text.splitlines()
    fields = [re.match(r"  pub (\w+) :", line) for line in lines]
    return "\n".join(line for line, field in zip(lines, fields) if not field or field.group(1) in kept)


def reached_from(places, left_out=CAUSES):
    """All definitions that these places rest on, each after those that it cites, and what they name that stands for nothing. Of what contracts see of
    a type, only what these clauses name."""
    library = Library()
    order, seen = [], set()
    laws = {(each.crate, each.function): each.laws for each in READINGS if each.laws}

    def add(definition, kept=None):
        if definition in seen:
            return
        seen.add(definition)
        file = definition.file
        if definition.name in left_out.get((file.crate, file.path.stem), ()):
            return
        theorem = laws.get((file.crate, (file.path.stem, definition.name)))
        if theorem:
            for law in theorem:
                add(library.named(file.crate, "Laws", law))
            return
        text = without_fields(definition.naming, kept) if kept else definition.naming
        inner = kept if definition.name.startswith("impl ") else None
        for other in library.cited(file, text, definition.names):
            add(other, inner)
        order.append(definition)

    for crate, source, function in places:
        file = library.file(crate, CRATES / crate / "src" / source)
        library.take_values(file, believed_of(clauses_of(file.text, function)))
    for crate, source, function in places:
        file = library.file(crate, CRATES / crate / "src" / source)
        head = believed_of(clauses_of(file.text, function))
        for definition in library.cited(file, head):
            add(definition, set(re.findall(r"\.(\w+)", head)))
    return order, library.missing


def lines_in(order):
    """How many lines the definitions have, without comments and blank ones."""
    return sum(len(definition.code()) for definition in order)


def files_in(order):
    """The files of these definitions, each with its own, in the order in which a file's first one is cited."""
    files = {}
    for definition in order:
        files.setdefault(definition.file, []).append(definition)
    return {file: sorted(found, key=lambda each: each.place) for file, found in files.items()}


def contents(order):
    """A row for each crate."""
    rows = ["| Crate | Files | Definitions | Lines |", "|---|---|---|---|"]
    crates = dict.fromkeys(definition.file.crate for definition in order)
    for crate in crates:
        found = [definition for definition in order if definition.file.crate == crate]
        names = dict.fromkeys(definition.file.path.stem for definition in found)
        rows.append("| `%s` | %s | %d | %d |" % (crate, ", ".join(names), len(found), lines_in(found)))
    return "\n".join(rows) + "\n"


def page():
    """The page as it is to be."""
    order, _ = reached_from(HEADLINE)
    listed = {(each.file.path, each.name) for each in order}
    besides = [each for each in reached_from(MOUNT, {})[0] if (each.file.path, each.name) not in listed]
    laws = ", ".join("`%s`" % law for each in READINGS for law in each.laws)
    readings = "\n".join(each.row() for each in READINGS)
    causes = ", ".join("`%s`" % name for names in CAUSES.values() for name in names)
    causes = textwrap.fill(causes, 150, initial_indent="  ", subsequent_indent="  ")
    counted = dict(count=len(order), lines=format(lines_in(order), ","), laws=laws, causes=causes, readings=readings)
    parts = [PREFACE.format(**counted), contents(order)]
    parts.append(
        "\nWhat `serve_tracer`, the theorem of a mounted tracer, rests on besides is not printed here: %d definitions, %s lines.\n\n%s"
        % (len(besides), format(lines_in(besides), ","), contents(besides))
    )
    parts.append("\n## The promises\n")
    for crate, source, function in HEADLINE:
        text = (CRATES / crate / "src" / source).read_text()
        parts.append("\n### `%s::%s`\n\n```rust\n%s\n```\n" % (crate, function, clauses_of(text, function)))
    parts.append("\n## The definitions\n")
    for file, found in files_in(order).items():
        language = "rust" if file.path.suffix == ".rt" else ""
        texts = "\n\n".join(definition.text for definition in found)
        parts.append("\n### `%s`, %s\n\n```%s\n%s\n```\n" % (file.crate, file.title(), language, texts))
    return "".join(parts)


def misread(reading):
    """What is wrong with a row of the preface: a word that is nowhere, or a theorem that says nothing of it."""
    library = Library()
    theorem = next((file for file in (CRATES / reading.crate / "src").rglob("*.rt") if "pub fn %s()" % reading.theorem in file.read_text()), None)
    if theorem is None:
        return "there is no theorem %s" % reading.theorem
    home = library.file(reading.crate, theorem)
    clauses = clauses_of(home.text, reading.theorem)
    said = clauses + "".join(definition.text for definition in library.cited(home, clauses))
    unsaid = [name for file, name in (reading.function, *reading.relations) if not re.search(r"\b%s\b" % name, said)]
    nowhere = [name for file, name in (reading.function, *reading.relations) if library.named(reading.crate, file, name) is None]
    unnamed = [law for law in reading.laws if not re.search(r"\b%s\b" % law, clauses)]
    return "%s: not said of %s" % (reading.theorem, unsaid + nowhere + unnamed) if unsaid + nowhere + unnamed else None


def citing_private():
    """The files of specs/ outside specs/private that import one inside, and the sources where a public function's clauses name a word of one, or what
    contracts see of a public type."""
    for file in TOP.glob("crates/*/specs/**/*.antt"):
        if file.parent.name != "private" and any(module.startswith("private.") for _, module, _, _ in IMPORT.findall(file.read_text())):
            yield file
    for file in TOP.glob("crates/*/src/**/*.rt"):
        text = file.read_text()
        clauses = [found.group() for found in re.finditer(r"^( *)pub fn .*?\n\1\{\n", text, re.M | re.S)]
        models = [re.search(MODEL % name, text, re.M) for name in re.findall(r"^pub (?:struct|enum) (\w+)", text, re.M)]
        views = [line for found in models if found for line in re.findall(r"ghost (?:Value|view) = .*", found.group())]
        names, modules = imports_of(text)
        words = [word for word, (_, module, _) in names.items() if module.startswith("private.")]
        words += [word for word, (_, module) in modules.items() if module.startswith("private.")]
        if any(re.search(r"(?<![\w.])%s(?!\w)" % re.escape(word), "\n".join(clauses + views)) for word in words):
            yield file


def believing_cases():
    def right(_):
        return [] if PAGE.read_text() == page() else ["tests/cases/believing.py writes another page"]

    def listed(_):
        text = PAGE.read_text()
        return ["%s, %s: %s" % (each.file.crate, each.file.title(), each.name) for each in reached_from(HEADLINE)[0] if each.text not in text]

    def found(_):
        missing = {**reached_from(HEADLINE, {})[1], **reached_from(MOUNT, {})[1]}
        return ["%s, %s names %s, which stands for nothing" % (file.crate, file.title(), name) for file, name in missing]

    def short(_):
        lines = lines_in(reached_from(HEADLINE)[0])
        return [] if lines <= MOST else ["the headline rests on %d lines, at most %d were promised" % (lines, MOST)]

    def said(_):
        names = {(each.file.crate, each.file.path.stem, name) for each in reached_from(HEADLINE)[0] for name in each.names}
        rows = [each.row() for each in READINGS if each.row() not in PAGE.read_text() or ((each.crate, *each.function) in names) == bool(each.laws)]
        return rows + [wrong for wrong in map(misread, READINGS) if wrong]

    def public(_):
        return ["%s cites specs/private" % file.relative_to(TOP) for file in citing_private()]

    return [
        Case("docs/BELIEVE.md: what the headline rests on", right),
        Case("docs/BELIEVE.md: all that a listed definition names is listed", listed),
        Case("docs/BELIEVE.md: each name stands for something", found),
        Case("docs/BELIEVE.md: each theorem of the preface says what its row says", said),
        Case("docs/BELIEVE.md: it is short enough", short),
        Case("specs/private: no public clause cites it", public),
    ]


if __name__ == "__main__":
    PAGE.write_text(page())
