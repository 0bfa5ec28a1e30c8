"""Planted bugs: files with a line `file: PATH`, and pairs of lines `old: TEXT` and `new: TEXT`, of which each TEXT stands once in that file."""
import difflib
from collections import namedtuple

# What an edit changes in a file: these lines, from the first to the one before the second, counted from 0, become others.
Hunk = namedtuple("Hunk", "path first end lines")


class BadEdit(Exception):
    pass


def texts_after(edit, read):
    """The texts of the files that an edit changes, by their paths; `read` gives what a file has before."""
    path, old, texts = None, None, {}
    for line in edit.split("\n"):
        key, _, rest = line.partition(":")
        rest = rest[1:] if rest.startswith(" ") else rest
        if key == "file":
            path = rest.strip()
        elif key == "old":
            old = rest
        elif key == "new":
            if not path or not old:
                raise BadEdit("a line 'new:' has no line 'file:' or 'old:' before it")
            try:
                texts.setdefault(path, texts[path] if path in texts else read(path))
            except OSError:
                raise BadEdit("there is no file %s" % path) from None
            if texts[path].count(old) != 1:
                raise BadEdit("an 'old:' is in %s %d times, and not once: %s" % (path, texts[path].count(old), old))
            texts[path], old = texts[path].replace(old, rest), None
    if not texts:
        raise BadEdit("it changes nothing")
    return texts


def hunks_between(path, before, after):
    """What changes in a file from one text to another."""
    one, other = before.split("\n"), after.split("\n")
    found = difflib.SequenceMatcher(None, one, other, autojunk=False).get_opcodes()
    return [Hunk(path, first, end, tuple(other[start:stop])) for tag, first, end, start, stop in found if tag != "equal"]
