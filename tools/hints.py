"""The hints on inlining that sources give (`#[inline]` and its like): found in them, and put into the text of a module of LLVM.

Rattle's build hands them on to LLVM, but `rt try`, whose module tools/unproved.py compiles, does not.
"""
import re

HINT = re.compile(r"^ *#\[(inline|inline\(always\)|inline\(never\)|cold)\]$")
WORDS = {"inline": "inlinehint", "inline(always)": "alwaysinline", "inline(never)": "noinline", "cold": "cold"}  # in LLVM's text
FUNCTION = re.compile(r'^ *(?:pub(?:\([^)]*\))? )?(?:(?:const|unsafe|extern "C") )*fn (\w+)')
OWNER = re.compile(r"^impl (?:(?:\w+::)*(\w+) for )?(&?)(?:'\w+ )?(?:mut )?(\[?)(?:\w+::)*(\w+)")
DEFINITION = re.compile(r'^(define [^@\n]*@"?([\w+]+(?:::[\w+]+)*)(?:::<[^"]*>)?"?\(.*) \{$', re.M)  # a generic function's name ends with `::<#HASH>`


def without_generics(text):
    """The text without what stands in angle brackets."""
    text, count = text.replace("->", ""), 1
    while count:
        text, count = re.subn(r"<[^<>]*>", "", text)
    return text


def owner_of(head):
    """How the functions of an `impl` with this head are named: by the type, and the trait if there is one."""
    found = OWNER.match(without_generics(head))
    if not found:
        return ""
    trait, is_borrowed, is_slice, name = found.groups()
    of_type = "Slice" if is_slice else name[0].upper() + name[1:]
    return ("Ref" if is_borrowed else "") + of_type + (trait if trait and trait != "Drop" else "")


def hints_in(text):
    """For each function of a file that has hints, its owner or nothing, its name, and the hints in LLVM's words."""
    owner, due, lines = "", [], iter(text.splitlines())
    for line in lines:
        if line.startswith("impl"):
            while not line.endswith(("{", "}")):
                line += " " + next(lines).strip()
            owner = owner_of(line)
        elif line == "}":
            owner = ""
        elif HINT.match(line):
            due.append(WORDS[HINT.match(line)[1]])
        elif FUNCTION.match(line):
            if due:
                yield owner, FUNCTION.match(line)[1], " ".join(due)
            due = []


def hints_of(crate, sources):
    """The hints of a crate with these sources: of a function by its whole name, of a method by its crate, its owner and its own name, since in a module
    of LLVM it is named by its type's file, which may be another."""
    found = {}
    for path in sorted(sources.glob("**/*.rt")):
        names = path.relative_to(sources).with_suffix("").parts
        modules = [] if names in (("lib",), ("main",)) else names
        for owner, name, words in hints_in(path.read_text()):
            found["::".join([crate, *([owner] if owner else modules), name])] = words
    return found


def with_hints(text, hints):
    """The text of a module in which each function has its hints."""

    def hinted(found):
        names = [name.split("+")[0] for name in found[2].split("::")]  # `CommandOf+Bytes+..` is `CommandOf` of these types
        words = hints.get(found[2]) or hints.get("::".join([names[0], *names[-2:]]))
        return "%s %s {" % (found[1], words) if words else found[0]

    return DEFINITION.sub(hinted, text)
