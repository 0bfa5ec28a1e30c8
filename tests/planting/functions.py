"""The functions of a crate's sources, as `rt fmt` lays them out, by the names that a check prints."""
import re
from collections import namedtuple
from pathlib import Path

TYPE = re.compile(r"^(?:pub(?:\([^)]*\))? )?(?:struct|enum|union) (\w+)", re.M)
IMPL = re.compile(r"^(?:unsafe )?impl\b")
TRAIT = re.compile(r"^(?:pub(?:\([^)]*\))? )?(?:unsafe )?trait (\w+)")
FUNCTION = re.compile(r'^( *)(?:pub(?:\([^)]*\))? )?(?:(?:const|unsafe|extern "C") )*fn (\w+)')
ABOVE = re.compile(r"^ *(?:#\[|//)")  # an attribute or a comment

# A function by its name below the crate, and its lines, counted from 0: `first` is the first line of its comments and attributes, those from `body` to
# `last` are its body. A function that a trait only declares has no body.
Function = namedtuple("Function", "name first body last")


def module_of(path):
    """The modules that lead to a file of src/."""
    names = list(Path(path).with_suffix("").parts[1:])
    return names[:-1] if names[-1] in ("lib", "main", "mod") else names


def homes_of(sources):
    """The modules in which the types of these sources are, given by their paths."""
    return {name: module_of(path) for path, text in sources.items() for name in TYPE.findall(text)}


def capital(word):
    return word[0].upper() + word[1:]


def without_generics(text):
    """The text without what is in angle brackets."""
    text, count = text.replace("->", ""), 1
    while count:
        text, count = re.subn(r"<[^<>]*>", "", text)
    return text


def owner_of(head, modules, homes):
    """What leads to the functions of an `impl` with this head, in these modules."""
    parameters, rest = re.match(r"(?:unsafe )?impl *(<(?:[^<>]|<[^<>]*>)*>)?(.*)", head.partition("{")[0].partition(" where ")[0]).groups()
    trait, _, target = rest.strip().rpartition(" for ")
    found = re.match(r"(&?)(?:'\w+ )?(?:mut )?(\[?)(?:\w+::)*(\w+)", target)
    name = ("Ref" if found[1] else "") + ("Slice" if found[2] else "") + capital(found[3])
    own = re.findall(r"(?<!')\b[A-Za-z]\w*", parameters or "")
    if trait in ("", "Drop"):
        # the type's own arguments, as `Of+Bytes` of `impl<'a> Of<Bytes<'a>>`, without those that the impl is generic in
        words = [word for word in re.findall(r"(?<!')\b[A-Za-z]\w*", target.partition("<")[2]) if word not in own]
        return homes.get(found[3], modules) + ["+".join([name, *words])]
    # the arguments of the trait, as `VecU8` of `From<Vec<u8>>`, without those that the impl is generic in
    words = [word for word in re.findall(r"(?<!')\b[A-Za-z]\w*", trait.partition("<")[2]) if word not in own]
    return modules + [name + without_generics(trait).split("::")[-1] + "".join(map(capital, words))]


def functions_of(path, text, homes):
    """The functions of a file, in their order, without those inside others."""
    lines, owner, is_trait, found, number = text.split("\n"), None, False, [], 0
    while number < len(lines):
        line = lines[number]
        if IMPL.match(line):
            head = line
            while not lines[number].endswith(("{", "}")):
                number += 1
                head += " " + lines[number].strip()
            owner, is_trait = None if head.endswith("}") else owner_of(head, module_of(path), homes), False
        elif TRAIT.match(line):
            owner, is_trait = module_of(path) + [TRAIT.match(line)[1]], True
        elif line == "}":
            owner, is_trait = None, False
        elif FUNCTION.match(line):
            indent, name = FUNCTION.match(line).groups()
            first = body = number
            while first and ABOVE.match(lines[first - 1]):
                first -= 1
            while not (is_trait and lines[body].endswith(";") or re.match(indent + r"\S", lines[body]) and lines[body].endswith(("{", "}"))):
                body += 1
            number = body
            while lines[body].endswith("{") and lines[number] != indent + "}":
                number += 1
            found.append(Function("::".join([*(module_of(path) if owner is None else owner), name]), first, min(body + 1, number), number))
        number += 1
    return found
