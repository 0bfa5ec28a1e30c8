"""docs/FILES.md, and what `did you mean` names: that they have the files of the table that code and definitions read (crates/file_list/src/files.rt), and
no others."""
import re

from cases.running import TOP, Case

TABLE = TOP / "crates" / "file_list" / "src" / "files.rt"
PAGE = TOP / "docs" / "FILES.md"
LEFT_OUT = TOP / "crates" / "refusal_explanations" / "src" / "left_out.rt"
NEAR = TOP / "crates" / "refusal_explanations" / "src" / "near.rt"
ROW = re.compile(r'\(\s*(\w+)(?:\([^"]*\))?,\s*"(\w+)",\s*(?:Both|Read|Write),?\s*\),')
MOUNTED = ("Tool", "OfTop", "CpuSize", "EventId", "ErrorLog", "Layout", "RawPipe")  # those of a mount only; docs/MOUNT.md has inject


def last(paths):
    return {path.split("/")[-1] for path in paths}


def differ_in(what, page, table):
    told = sorted(page - table), sorted(table - page)
    return ["%s: only on the page %s, only in the table %s" % (what, *told)] if page != table else []


def files_are_listed():
    table = TABLE.read_text()
    rows, size = ROW.findall(table), int(re.search(r"FILES: \[.*; (\d+)\]", table)[1])
    commands, mounted = PAGE.read_text().split("\n## Filters\n")[0].split("\n### A `format` in a mount\n")[0].split("\n## Of a mount only\n")
    headings = [path for line in re.findall(r"^## (.*)$", commands, re.M) for path in line.split(", ")]
    items = [path for line in re.findall(r"^- (.*)$", mounted, re.M) for path in re.findall(r"`([^`]+)`", line.split(":")[0])]
    return (
        differ_in("files of commands", last(headings) - {"NAME"}, {name for kind, name in rows if kind not in MOUNTED + ("Inject",)})
        + differ_in("files of a mount only", last(items), {name for kind, name in rows if kind in MOUNTED})
        + ([] if len(rows) == size else ["%d rows of %d are read" % (len(rows), size)])
    )


def near_ones_are_files():
    rows, near = ROW.findall(TABLE.read_text()), NEAR.read_text()
    fixed = re.findall(r'"([\w/]+)"', re.search(r"const FILES: .*? = \[(.*?)\];", near, re.S)[1])
    of_events = re.findall(r'"(\w+)"', re.search(r"for file in &\[(.*?)\]", near)[1])
    wrong = []
    for what, paths, kinds in (("of no event", fixed, ("SyntheticEvents", "OfInstance", "SystemEnable", "OfCpu")), ("of an event", of_events, ("OfEvent",))):
        named, there = sorted(path.split("/")[-1] for path in paths), sorted(name for kind, name in rows if kind in kinds)
        if named != there:
            wrong.append("%s: near ones %s, the table %s" % (what, named, there))
    return wrong


def mounted_ones_are_told():
    rows = ROW.findall(TABLE.read_text())
    told = set(re.findall(r"only a mounted tracer has `(\w+)`", LEFT_OUT.read_text()))
    commands = {name for kind, name in rows if kind not in MOUNTED + ("Inject",)}
    return differ_in("files that are said to be a mount's", told, {name for kind, name in rows if kind in MOUNTED + ("Inject",)} - commands)


def file_cases():
    return [
        Case("docs/FILES.md has the files of the table", lambda _program: files_are_listed()),
        Case("`did you mean` knows the files of the table", lambda _program: near_ones_are_files()),
        Case("--explain knows the files that only a mount has", lambda _program: mounted_ones_are_told()),
    ]
