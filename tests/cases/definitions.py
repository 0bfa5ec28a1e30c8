"""The definitions of the repository, and what each of them names: those of specs/, and the types, traits and constants of src/ that they speak of."""
import re
from textwrap import dedent

from cases.running import TOP

CRATES = TOP / "crates"

# `use Rattle.CRATE.specs.MODULE.{NAMES}`, or `.. as OTHER`, or a module or a name alone.
IMPORT = re.compile(r"^\s*(?:pub )?(?:ghost )?use Rattle\.(\w+)\.specs\.([\w.]+?)(?:\.\{(.*?)\}| as (\w+))?;?$", re.M)
# `use CRATE::MODULE::{NAMES};`
RUST_IMPORT = re.compile(r"^(?:pub(?:\(crate\))? )?use ([^;]+);", re.M)
# The first line of a definition in a file of specs/, indented in a block of definitions that name each other.
HEAD = re.compile(r"(?:pub )?(?:abbrev|unfoldable|data|record|pub)(?: (?:pub|data|record|abbrev|unfoldable))* ([\w?']+|\S*◌\S*)")
BLOCK = re.compile(r"(?:(?:abbrev|unfoldable) )?mutual$")
FIXITY = re.compile(r"(?:infix[lr]?|prefix|postfix) ")
CONSTRUCTOR = re.compile(r"^ +(\w+) :", re.M)
# A type, a constant or a trait in a file of src/, and how contracts see a type.
TYPE = r"^(?:pub(?:\([a-z]+\))? )?(?:enum|struct|trait|const|type) %s\b[^\n]*(?:\n(?:[ ].*|)$)*(?:\n\})?"
MODEL = r"^impl(?:<[^>]*>)? Model for %s\b[^\n]*(?:\n(?:[ ].*|)$)*\n\}"
WORD = re.compile(r"(?<![\w.])([A-Za-z_]\w*)((?:\.[A-Za-z_]\w*)*)")
# Names that a definition binds, which are no words of others.
BOUND = re.compile(r"λ ([^.]*)\.|[({]((?:[a-z]\w* )+):|let (\w+)[ :]|[{;,] (\w+) = |^\s+(?:pub )?([a-z]\w*) [:=]", re.M)

# Types with private fields, each with the function that returns what contracts see of it. So it need not be believed how that is made of the fields.
RETURNED_BY = {
    ("trace_lex", "Text"): "as_bytes",
    ("trace_format", "BoxedBadRow"): "get",
    ("trace_command", "Pairs"): "as_slice",
    ("command_log", "Entries"): "into_vec",
    ("trace_book", "Book"): "entries",
}


class Definition:
    """A definition, or a block of them that name each other: its file, its name, its text with the comment above, and its place in the file."""

    def __init__(self, file, names, text, place):
        self.file, self.names, self.name, self.text, self.place = file, names, names[0], text, place
        self.naming = text  # the text whose names it cites

    def code(self):
        """Its lines without comments."""
        lines = [line for line in self.text.splitlines() if line.strip()]
        return [line for line in lines if not re.match(r"\s*(--|//|#\[)", line)]


class File:
    """A file of specs/ with its definitions, or one of src/ with the types that were asked for."""

    def __init__(self, crate, path):
        self.crate, self.path = crate, path
        self.text = path.read_text()
        self.found = {}
        self.constructors = {}
        self.imports, self.modules = imports_of(self.text)
        self.uses = {}
        if path.suffix == ".antt":
            self.read_specs()
        else:
            self.uses = uses_of(self.text)

    def title(self):
        return self.path.relative_to(CRATES / self.crate).as_posix()

    def read_specs(self):
        held, comment, names, start, in_block = [], [], [], 0, False
        lines = [*self.text.splitlines(), "use"]
        for number, line in enumerate(lines):
            block, fixity = BLOCK.match(line), FIXITY.match(line)
            head = None if block or line.startswith("pub mod") else HEAD.match(line)
            begins = block or head
            ends = begins or fixity or re.match("use|pub mod", line)
            if held and (ends or (line.startswith("--") and not (names and goes_on(lines[number:], names[-1])))):
                self.keep(names, held, start)
                held, names = [], []
            if (fixity or line.startswith("--")) and not held:
                comment = [] if line.startswith("-- ----") else [*comment, line]
            elif begins:
                names, held, comment, start, in_block = [head.group(1)] if head else [], [*comment, line], [], number, block
            elif held:
                held.append(line)
                if in_block and line.startswith("  ") and HEAD.match(line[2:]):
                    names.append(HEAD.match(line[2:]).group(1))
            else:
                comment = []

    def keep(self, names, held, start):
        """A definition that was read, by each of its names."""
        definition = Definition(self, names, "\n".join(held).rstrip(), start)
        self.found.update((name, definition) for name in names)
        if re.search(r"^ *(?:pub )?data ", definition.text, re.M):
            self.constructors.update((name, definition) for name in CONSTRUCTOR.findall(definition.text))

    def has(self, name):
        """The definition of this name, or the one that has this constructor."""
        return self.found.get(name) or self.constructors.get(name)

    def of_source(self, name):
        """A type, a trait or a constant of src/."""
        if name not in self.found:
            found = re.search(TYPE % re.escape(name), self.text, re.M)
            if found is None:
                return None
            self.found[name] = self.with_comment([name], found.start(), found.group().rstrip())
        return self.found[name]

    def with_comment(self, names, start, text):
        """A definition of src/ with the comment above it."""
        above = []
        for line in reversed(self.text[:start].splitlines()):
            if not line.strip().startswith(("///", "#[")):
                break
            above.insert(0, line)
        return Definition(self, names, "\n".join([*above, text]), self.text[:start].count("\n"))

    def seen(self, name, is_value):
        """How contracts see a type with a model. Of one whose values no function of the headline takes or returns, only the type that they see matters."""
        key = "impl " + name
        found = re.search(MODEL % re.escape(name), self.text, re.M)
        if found is None:
            return self.of_source(name)
        if key not in self.found:
            value = re.search(r"ghost Value = \{ (.*?) \};", found.group()).group(1)
            returned_by = RETURNED_BY.get((self.crate, name))
            if not is_value:
                text, place = "impl Model for %s { ghost Value = { %s }; .. }" % (name, value), found.start()
            elif returned_by:
                blocks = re.finditer(r"^impl(?:<[^>]*>)? %s\b.*?^\}$" % re.escape(name), self.text, re.M | re.S)
                shown = r"^    pub fn %s\(" % returned_by
                place = next(block.start() + at.start() for block in blocks if (at := re.search(shown, block.group(), re.M)))
                method = self.with_comment([key], place, self.text[place : self.text.index("\n    {\n", place)])
                text = "// Contracts see a value of %s as one of %s. This function of it shows that to a caller.\n%s" % (name, value, dedent(method.text))
            else:
                model = re.sub(r"^    ghost (?:use|invariant)\b[^;]*;\n+", "", found.group(), flags=re.M)
                text, place = self.of_source(name).text + "\n\n" + model, found.start()
            self.found[key] = Definition(self, [key], text, self.text[:place].count("\n"))
            self.found[key].naming = text + "\n" + value
        return self.found[key]


def goes_on(lines, name):
    """Whether an equation of this definition follows these comments."""
    return next(line for line in lines if not line.startswith("--")).startswith("%s " % name)


def imports_of(text):
    """For each imported name where it is from, and for each alias its module."""
    names, modules = {}, {}
    for crate, module, inside, other in IMPORT.findall(text):
        if inside:
            for each in inside.split(","):
                name, _, alias = each.strip().partition(" as ")
                names[alias or name] = (crate, module, name)
        else:
            modules[other or module.split(".")[-1]] = (crate, module)
    return names, modules


def uses_of(text):
    """For each name that a source brings in, its path; of a variant that of its type."""
    paths = [path for tree in RUST_IMPORT.findall(text) for path in paths_of(re.sub(r"\s+", " ", tree))]
    return {path[-1]: path[:-1] if len(path) > 1 and path[-2][0].isupper() else path for path in paths}


def paths_of(tree):
    """The paths of a tree of imports, as `a::{b, c::{d, e}}`."""
    first, brace, rest = tree.strip().partition("{")
    if not brace:
        return [[part.strip() for part in first.partition(" as ")[0].split("::")]] if first else []
    inside, depth, start = rest.rpartition("}")[0], 0, 0
    branches = []
    for index, byte in enumerate(inside + ","):
        depth += {"{": 1, "}": -1}.get(byte, 0)
        if byte == "," and depth == 0:
            branches.append(inside[start:index])
            start = index + 1
    front = [part for part in first.strip().split("::") if part]
    return [[*front, *path] for branch in branches for path in paths_of(branch)]


class Library:
    """The definitions of the repository, and the names that were looked for and stand for nothing."""

    def __init__(self):
        self.files = {}
        self.missing = {}
        self.values = set()

    def file(self, crate, path):
        if path not in self.files and path.exists():
            self.files[path] = File(crate, path)
        return self.files.get(path)

    def located(self, crate, modules, name):
        """The file of src/ that has this type, trait or constant, by the path of its module."""
        source = CRATES / crate / "src"
        module = source.joinpath(*modules)
        paths = (module.with_suffix(".rt"), module / "mod.rt") if modules else (source / "lib.rt", source / "main.rt")
        for file in filter(None, (self.file(crate, path) for path in paths)):
            if file.of_source(name):
                return file
            if name in file.uses:
                return self.used(file, name)
        return None

    def used(self, file, name):
        """The file that has what this one brings in under a name."""
        path = file.uses[name]
        root, *modules, name = path if len(path) > 1 else ["crate", *path]
        if root == "crate":
            return self.located(file.crate, modules, name)
        if (file.path.parent / root).with_suffix(".rt").exists():
            return self.located(file.crate, [root, *modules], name)
        return self.located(root, modules, name)

    def source(self, crate, modules, name):
        """What contracts see of a type in src/; or a trait, or a constant."""
        file = self.located(crate, modules, name)
        return file and file.seen(name, (file, name) in self.values)

    def take_values(self, file, text):
        """Notes the types of src/ that a text names, and those of their fields: functions take and return values of them."""
        for word in set(re.findall(r"\b[A-Z]\w*", re.sub(r"//.*|#\[.*|^ *ghost .*", "", text, flags=re.M))):
            home = self.used(file, word) if word in file.uses else file if file.of_source(word) else None
            word = file.uses[word][-1] if word in file.uses else word
            if home and (home, word) not in self.values:
                self.values.add((home, word))
                self.take_values(home, home.seen(word, True).text)

    def named(self, crate, module, name):
        """What an imported name stands for."""
        parts = module.split(".")
        if parts[0] == "declared":
            if parts[-1] == "TheConstants":
                return self.source(crate, parts[1:-1], name)
            if parts[-1] in ("TheVariants", "TheInside"):
                return self.source(crate, parts[1:-2], parts[-2])
            return self.source(crate, parts[1:-1], name) or self.source(crate, parts[1:], name)
        if parts[0] == "contracts" and name == "the_type":
            return self.source(crate, parts[1:-1], parts[-1])
        file = self.file(crate, (CRATES / crate / "specs").joinpath(*parts).with_suffix(".antt"))
        return file.has(name) if file else None

    def cited(self, file, text, own=()):
        """The definitions that a text of this file names. A name of the repository that stands for none is missing."""
        for name, found in self.names_in(file, text, own):
            if found is None:
                self.missing.setdefault((file, name), text)
            else:
                yield found

    def names_in(self, file, text, own):
        """The names of the repository in a text of this file, each with what it stands for."""
        bound = bound_in(text, own)
        plain = re.sub(r"--.*|//.*|^\s*#\[.*", "", text, flags=re.M)
        for first, rest in WORD.findall(plain):
            if first in own or (first in bound and not rest):
                continue
            if first in file.imports:
                crate, module, name = file.imports[first]
            elif first in file.modules:
                crate, module = file.modules[first]
                name = rest[1:].split(".")[0]
            else:
                yield from self.near(file, first)
                continue
            if crate != "std":
                yield first + rest, self.named(crate, module, name)
        for operator in [name for name in [*file.imports, *file.found] if "◌" in name]:
            if operator not in own and re.search(r"(?<=\s)%s(?=\s)" % re.escape(operator.strip("◌")), plain):
                crate, module, name = file.imports.get(operator, (file.crate, None, operator))
                if crate != "std":
                    yield operator, self.named(crate, module, name) if module else file.found[name]

    def near(self, file, name):
        """What a name stands for that no import of specs/ brings in: a definition of the same file, or a type that a source brings in or has."""
        if file.path.suffix == ".antt":
            if file.has(name):
                yield name, file.has(name)
        elif name[0].isupper() and (name in file.uses or file.of_source(name)):
            if name not in file.uses or file.uses[name][0] not in ("std", "core"):
                home = self.used(file, name) if name in file.uses else file
                last = file.uses[name][-1] if name in file.uses else name
                yield name, home and home.seen(last, (home, last) in self.values)


def bound_in(text, own):
    """The names that a text binds: parameters, fields, and the variables of a definition's equations."""
    bound = {word for groups in BOUND.findall(text) for group in groups for word in group.split()}
    for line in text.splitlines():
        if line.strip().startswith(tuple(name + " " for name in own)) and "=" in line:
            heads = line.split(" = ")[0].split()[1:]
            bound |= {word.strip("(){}") for word in heads if re.fullmatch(r"[({]*[a-z_]\w*[)}]*", word)}
    return bound
