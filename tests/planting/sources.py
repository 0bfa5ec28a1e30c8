"""The sources of a crate: which functions are where, which of them call others, and which a definition reaches."""
import collections
import re

from planting.functions import functions_of, homes_of

IMPORT = re.compile(r"\s*(pub(\([^)]*\))? )?(ghost )?use |\s*$")
CALL = re.compile(r"(?:(\bself\s*\.)|(\.)|(\w+)::)?\b(\w+)(?:::<[^()]*>)?\(")
# a definition in specs/, or an item of src/ that is no function
DEFINED = re.compile(
    r"^(?:(?:pub(?:\([^)]*\))?|abbrev|unfoldable|opaque|data|record|ghost) )*(?:(?:const|static|struct|enum|trait|use|mod|type) )?([^\s:(){},;=]+)"
)
WORD = re.compile(r"[^\s(){}\[\],;.:`]+")
LAW = re.compile(r"\bfn \w+\(\)")


def called(caller, call, by_name):
    """The functions that a call can be of, each as the names that lead to it."""
    of_self, of_other, owner, name = call.groups()
    for parts in by_name.get(name, ()):
        is_own = parts[:-1] == caller[:-1]
        is_method = len(parts) > 1 and parts[-2][0].isupper()
        if of_self or owner == "Self":
            can_be = is_own
        elif of_other:
            can_be = is_method and not is_own
        else:
            can_be = parts[-2:-1] == [owner] if owner else not is_method
        if can_be:
            yield "::".join(parts)


class Sources:
    def __init__(self, folder):
        def texts_of(part, ending):
            return {str(path.relative_to(folder)): path.read_text() for path in sorted((folder / part).glob("**/*" + ending))}

        self.folder = folder
        self.texts = texts_of("src", ".rt")
        self.specs = texts_of("specs", ".antt")
        self.homes = homes_of(self.texts)
        self.functions = {path: functions_of(path, text, self.homes) for path, text in self.texts.items()}

    def read(self, path):
        """The text of a file of the crate; it may raise OSError."""
        return self.texts.get(path) or self.specs.get(path) or (self.folder / path).read_text()

    def lines_of(self, path, first, end):
        return "\n".join(self.read(path).split("\n")[first:end])

    def body_changed_by(self, hunk):
        """The function whose body a hunk changes, or nothing. What follows the brace that begins a body is of it."""
        old, new = self.lines_of(hunk.path, hunk.first, hunk.first + 1), "".join(hunk.lines[:1])
        above = int(old.endswith("{") and new.startswith(old))
        return next((it.name for it in self.functions.get(hunk.path, ()) if it.body - above <= hunk.first and hunk.end - 1 <= it.last), None)

    def changes_imports(self, hunk):
        """Whether a hunk changes imports of code alone."""
        return hunk.path in self.texts and all(IMPORT.match(line) for line in [*hunk.lines, *self.lines_of(hunk.path, hunk.first, hunk.end).split("\n")])

    def calls(self):
        """Which functions of the crate each one calls, as far as its text tells: rather more than fewer."""
        bodies = {it.name: self.lines_of(path, it.body, it.last) for path, found in self.functions.items() for it in found}
        by_name = collections.defaultdict(list)
        for name in bodies:
            by_name[name.rpartition("::")[2]].append(name.split("::"))
        return {name: {other for call in CALL.finditer(body) for other in called(name.split("::"), call, by_name)} for name, body in bodies.items()}

    def definition_at(self, path, line):
        """The name of the definition or item that a line is in, or nothing."""
        lines = self.read(path).split("\n")
        for text in lines[line::-1]:
            found = DEFINED.match(text)
            if found and not text.startswith(("--", "//", "#", "}", ")")):
                return found[1]
        return None

    def reached_by(self, words):
        """The functions whose contracts or bodies name one of these words, or a definition that leads to one: all of them, and those that are laws."""
        words, parts = set(words), []
        for text in self.specs.values():
            block = []
            for line in text.split("\n"):
                if block and line and not line[0].isspace():
                    parts.append(block)
                    block = []
                block.append(line)
            parts.append(block)
        parts = [(DEFINED.match(block[0]), set(WORD.findall("\n".join(block)))) for block in parts]
        count = 0
        while count < len(words):
            count = len(words)
            for name, own in parts:
                if name and own & words:
                    words.add(name[1])
        found = [
            (it.name, LAW.search(self.lines_of(path, it.first, it.body)))
            for path, functions in self.functions.items()
            for it in functions
            if words & set(WORD.findall(self.lines_of(path, it.first, it.last + 1)))
        ]
        return {name for name, _ in found}, {name for name, is_law in found if is_law}
