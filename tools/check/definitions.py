"""Reads the definitions in crates/*/specs and the contracts in crates/*/src: which definition uses which.

A name means what the module defines or imports under it, so two definitions of one
name in two crates are two. A variable that a definition binds (an argument, a
pattern, `λ`, `let`) hides a definition of the same name; a field after a dot is no
name of a definition.
"""

import re
from collections.abc import Iterable, Iterator, Mapping
from functools import cache
from pathlib import Path
from typing import NamedTuple

from tools.command import TOP

CRATES = TOP / "crates"
DECLARED = "src"  # in place of a file of specs/: a struct or an enum of the crate's code
VARIANTS = "TheVariants"  # the module of an enum's constructors


class Key(NamedTuple):
    """A definition: its crate, its file in specs/ (or DECLARED), its name."""
    crate: str
    file: str
    name: str


class Definition(NamedTuple):
    """A definition without comments."""
    key: Key
    kind: str  # "record", "data" or ""
    lines: tuple[str, ...]
    around: str  # the parameters of the modules around it
    makes: tuple[str, ...]  # the constructors of a data type


START = re.compile(r"( *)((?:unfoldable|abbrev|pub|record|data) )+")
NAMED = re.compile(r" *((?:(?:unfoldable|abbrev|pub|record|data) )+)(\S+)")
OTHER = re.compile(r" *(module|use|pub use|unfoldable use|unfoldable pub use|infix[lr]?|pub mod|mod)\b")
MODULE = re.compile(r"( *)module _ (.*) where$")
USE = re.compile(r"^(?:ghost )?(?:unfoldable )?(?:pub )?use Rattle\.(\w+)\.specs\.([\w.-]+?)"
                 r"(?:\.\{([^}]*)\}| as (\w+));?$", re.M)
TOKEN = re.compile(r"[^\s(){};,\[\]|]+")
BINDER = re.compile(r"[({]([^(){}:=;]*?) :(?= )|λ ([^.(]*)\.|\blet (\S+)(?= =)")
ARM = re.compile(r"[\[|]([^\[\]|↦]*)↦")
GIVEN = re.compile(r"(?<=[{;])(\s*)(\S+)(?= = )")  # the name of a field in `record { name = value; .. }`
LET = re.compile(r"\b(let )(\S+)(?= =)")
DECLARATION = re.compile(r"^(?:pub )?(?:struct|enum) (\w+)\s*(?:\{(.*?)^\}|\(([^;]*)\);)", re.M | re.S)
FUNCTION = re.compile(r"^ *(?:pub(?:\(crate\))? )?(?:extern \"C\" )?fn (\w+)(.*?)(?:^ *| )\{$", re.M | re.S)
CLAUSE = re.compile(r"\b(requires|ensures)\*?(?: \w+)? \{")


def without_comments(text: str) -> list[str]:
    """The lines of a file of definitions, without comments and empty lines."""
    lines = (re.sub(r"(?:^|\s)--(?:\s.*|$)", "", line).rstrip() for line in text.splitlines())
    return [line for line in lines if line]


def indent(line: str) -> int:
    return len(line) - len(line.lstrip(" "))


def constructors(lines: Iterable[str]) -> tuple[str, ...]:
    """The constructors of a data type: the names before the colon, two spaces in."""
    body = list(lines)
    inner = indent(body[0]) + 2
    made = [line.split(" :")[0].split() for line in body[1:] if indent(line) == inner and " :" in line]
    return tuple(name for names in made for name in names)


def definition(crate: str, file: str, lines: list[str], around: str) -> Definition:
    found = NAMED.match(lines[0])
    assert found
    kind = next((word for word in ("record", "data") if word in found[1].split()), "")
    return Definition(Key(crate, file, found[2]), kind, tuple(lines), around,
                      constructors(lines) if kind == "data" else ())


def read_specs(crate: str, file: str, text: str) -> Iterator[Definition]:
    """The definitions of a file, in its order."""
    block: list[str] = []
    modules: list[tuple[int, str]] = []
    for line in without_comments(text):
        if block and (indent(line) > indent(block[0]) or not (START.match(line) or OTHER.match(line))):
            block.append(line)
            continue
        if block:
            yield definition(crate, file, block, " ".join(given for _, given in modules))
        block = []
        modules = [(depth, given) for depth, given in modules if depth < indent(line)]
        if module := MODULE.match(line):
            modules.append((indent(line), module[2]))
        elif not OTHER.match(line) and NAMED.match(line):
            block = [line]
    if block:
        yield definition(crate, file, block, " ".join(given for _, given in modules))


@cache
def definitions() -> dict[Key, Definition]:
    """Every definition in crates/*/specs."""
    found: dict[Key, Definition] = {}
    for path in sorted(CRATES.glob("*/specs/*.antt")):
        if path.stem != "Lib":
            for each in read_specs(path.parent.parent.name, path.stem, path.read_text(encoding="utf-8")):
                found[each.key] = each
    return found


@cache
def declared() -> dict[Key, str]:
    """Every struct and enum of the code, with its text."""
    found = {}
    for path in sorted(CRATES.glob("*/src/**/*.rt")):
        crate = path.relative_to(CRATES).parts[0]
        for name, fields, members in DECLARATION.findall(path.read_text(encoding="utf-8")):
            found[Key(crate, DECLARED, name)] = re.sub(r"//.*", "", fields or members)
    return found


def bare(name: str) -> str:
    """An operator as it is written between its arguments: ≤ᶠ for ◌≤ᶠ◌."""
    return name.strip("◌") or name


class Scope(NamedTuple):
    """What the names of a module mean: definitions, and constructors by the type that they make."""
    names: Mapping[str, Key]
    made: Mapping[str, Key]

    def find(self, token: str) -> Key | None:
        return self.names.get(token) or self.made.get(token)


@cache
def exported(crate: str, file: str) -> Scope:
    """The names that a file of definitions gives to others: its own, and those that it passes on by `pub use`."""
    here = [each for key, each in definitions().items() if key[:2] == (crate, file)]
    names = {each.key.name: each.key for each in here}
    made = {name: each.key for each in here for name in each.makes}
    path = CRATES / crate / "specs" / (file + ".antt")
    text = path.read_text(encoding="utf-8") if path.is_file() else ""
    for name, key, constructor in imported("\n".join(re.findall(r"^(?:unfoldable )?pub use .*", text, re.M))):
        (made if constructor else names)[name] = key
    return Scope(names, made)


def imported(text: str) -> Iterator[tuple[str, Key, bool]]:
    """The names that `use` lines bring: as written, what they mean, and whether a constructor."""
    for crate, module, names, alias in USE.findall(text):
        parts = module.split(".")
        if parts[0] == "declared":
            key = Key(crate, DECLARED, [part for part in parts if part != VARIANTS][-1])
            listed = [name.strip() for name in names.split(",")] if names else []
            yield from ((name.split(" as ")[-1], key, VARIANTS in parts) for name in listed)
            if alias:
                yield alias + ".", key, True
            continue
        given = exported(crate, parts[0])
        if alias:
            yield from ((alias + "." + bare(name), key, False) for name, key in given.names.items())
            yield from ((alias + "." + bare(name), key, True) for name, key in given.made.items())
        for name in names.split(",") if names else []:
            name, _, called = name.strip().partition(" as ")
            if meant := given.find(name):
                yield called or name, meant, name in given.made and name not in given.names


def unresolved(text: str) -> Iterator[str]:
    """Names that a text imports from definitions of ours and that are not found, so that a closure would lack them."""
    for line, crate in re.findall(r"^((?:ghost )?(?:unfoldable )?(?:pub )?use Rattle\.(\w+).*)", text, re.M):
        if (CRATES / crate).is_dir() and not USE.search(line):
            yield line
    for crate, module, listed, _ in USE.findall(text):
        names = [name.strip().split(" as ")[0] for name in listed.split(",")] if listed else []
        if module.startswith("declared.") or not (CRATES / crate).is_dir():  # a crate of the kit
            continue
        yield from ("%s of %s: %s" % (name, crate, module) for name in names if not exported(crate, module).find(name))


def scope_of(text: str, own: Scope) -> Scope:
    """What the names of a file mean: its own definitions and what it imports."""
    names = {bare(name): key for name, key in own.names.items()}
    made = {bare(name): key for name, key in own.made.items()}
    for name, key, constructor in imported(text):
        (made if constructor else names)[bare(name)] = key
    return Scope(names, made)


def head_of(token: str) -> str:
    """What a token begins with: the value of a projection, as in row.class, or the module of a name."""
    return token.partition(".")[0] or token


def meaning(token: str, scope: Scope) -> Key | None:
    """The definition that a token names, if any: by its name, by a module's other name, or as the value of a field."""
    head = head_of(token)
    return scope.find(token) or (head != token and (scope.made.get(head + ".") or scope.find(head)) or None)


def is_constructor(token: str, scope: Scope) -> bool:
    return token in scope.made or token.partition(".")[0] + "." in scope.made


def bound(text: str, scope: Scope) -> list[tuple[int, str]]:
    """The variables that a text binds, each with the place from which on."""
    found = []
    for match in BINDER.finditer(text):
        words = (match[1] or match[2] or match[3] or "").split()
        # a `let` binds behind its value, which may name a definition of the same name
        value = re.compile(r" in(?= |$)").search(text, match.end()) if match[3] else None
        found += [(value.start() if value else match.start(), word) for word in words]
    for match in ARM.finditer(text):
        found += [(match.start(), word) for word in TOKEN.findall(match[1]) if not is_constructor(word, scope)]
    return found


def references(text: str, scope: Scope, hidden: Iterable[str] = ()) -> set[Key]:
    """The definitions that a text names."""
    text = GIVEN.sub(lambda match: match[1] + " " * len(match[2]), text)
    variables = bound(text, scope) + [(0, name) for name in hidden]
    text = LET.sub(lambda match: match[1] + " " * len(match[2]), text)
    found = set()
    for match in TOKEN.finditer(text):
        token = match[0].rstrip(".")  # as in `λ r.`; of a field, .vp, the dot stays, so that it is no name
        if any(head_of(token) == name and match.start() >= place for place, name in variables):
            continue
        if key := meaning(token, scope):
            found.add(key)
    return found


def segments(each: Definition) -> list[str]:
    """The parts of a definition: its type and its equations, or its head and its fields or constructors."""
    inner = indent(each.lines[0]) + (2 if each.kind else 0)
    parts: list[list[str]] = [[]]
    for number, line in enumerate(each.lines):
        if number and indent(line) == inner:
            parts.append([])
        parts[-1].append(line.strip())
    return [" ".join(part) for part in parts]


def parameters(text: str) -> list[str]:
    return [word for names in re.findall(r"[({]([^(){}:=;]*?) :(?= )", text) for word in names.split()]


def field_name(segment: str) -> str:
    return segment.removeprefix("pub ").split(" :")[0]


def uses(each: Definition, scope: Scope, left_out: Iterable[str] = ()) -> set[Key]:
    """The definitions that a definition names; of a record without the fields that are left out."""
    first, *rest = segments(each)
    hidden = parameters(each.around)
    found = references(each.around, scope)
    head = NAMED.sub("", first, count=1)
    found |= references(head, scope, hidden)
    if each.kind:
        hidden = hidden + parameters(head.partition(" where")[0])
        for segment in rest:
            name, _, said = segment.partition(" :")
            if field_name(segment) not in left_out:
                found |= references(said, scope, hidden)
            hidden = hidden + (name.removeprefix("pub ").split() if each.kind == "record" else [])
        return found - {each.key}
    for segment in rest:
        left, _, right = segment.partition(" = ")
        words = TOKEN.findall(left)
        patterns = [word for word in words if not is_constructor(word, scope) and word != bare(each.key.name)]
        found |= {key for word in words if is_constructor(word, scope) and (key := meaning(word, scope))}
        found |= references(right, scope, hidden + patterns)
    return found - {each.key}


@cache
def scopes() -> dict[tuple[str, str], Scope]:
    """The scope of every file of definitions."""
    return {(path.parent.parent.name, path.stem): scope_of(path.read_text(encoding="utf-8"),
                                                          exported(path.parent.parent.name, path.stem))
            for path in sorted(CRATES.glob("*/specs/*.antt"))}


@cache
def graph() -> dict[Key, frozenset[Key]]:
    """Which definition names which, the types that the code declares among them."""
    found = {key: frozenset(uses(each, scopes()[key[:2]])) for key, each in definitions().items()}
    types = declared()
    for key, body in types.items():
        words = set(re.findall(r"\w+", body))
        found[key] = frozenset(other for other in types if other.name in words and other.crate == key.crate)
    return found


def closure(roots: Iterable[Key], edges: Mapping[Key, Iterable[Key]], stop: Iterable[Key] = ()) -> set[Key]:
    """The roots and all that they name, directly or by others; behind those of `stop` it does not look."""
    found: set[Key] = set()
    left, ends = list(roots), set(stop)
    while left:
        key = left.pop()
        if key not in found:
            found.add(key)
            left += [] if key in ends else edges.get(key, ())
    return found


class Contract(NamedTuple):
    """A function of the code and the definitions that its contract names."""
    path: Path
    name: str
    requires: bool
    needs: frozenset[Key]
    ensures: frozenset[Key]


def clauses(head: str) -> list[tuple[str, str]]:
    """The clauses of a function's head, each with its word, `requires` or `ensures`."""
    found = []
    for match in CLAUSE.finditer(head):
        end, depth = match.end(), 1
        while depth and end < len(head):
            depth += {"{": 1, "}": -1}.get(head[end], 0)
            end += 1
        found.append((match[1], " ".join(head[match.end():end - 1].split())))
    return found


def read_contracts(path: Path) -> Iterator[Contract]:
    """The functions of a file of code; of a file that has no contract, none."""
    text = path.read_text(encoding="utf-8")
    if not CLAUSE.search(text):
        return
    scope = scope_of(text, Scope({}, {}))
    for name, head in FUNCTION.findall(text):
        said = clauses(head)
        hidden = [*re.findall(r"(\w+): ", CLAUSE.split(head)[0]), "result"]
        named = {word: frozenset(key for kind, clause in said if kind == word
                                 for key in references(clause, scope, hidden)) for word in ("requires", "ensures")}
        yield Contract(path, name, any(word == "requires" for word, _ in said), named["requires"], named["ensures"])


@cache
def contracts() -> list[Contract]:
    """The functions of all code, with their contracts."""
    return [each for path in sorted(CRATES.glob("*/src/**/*.rt")) for each in read_contracts(path)]
