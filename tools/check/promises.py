"""docs/PROMISES.md: does each line point to what is there, and does what it names say it, without a condition?

A line of its tables has a sentence of the papers; the definitions that say it, as `Name` (`field`) in crate: File; and
what proves them, clauses parted by semicolons: a law, as `law` in crate/proofs/File, or the contract of a function, as
contract of `fn` in crates/../file.rt, where the file may be left out after the first line that has it.

- Every definition is declared in its file, and a field in its record.
- A law has exactly the type of a definition that the line names, and stands in no module with parameters: a law with a
  condition of its own proves no theorem.
- What a function ensures mentions a definition that the line names, or leads to it by way of definitions that the line
  names, the last of the clause as "through `A`, `B`". A function that requires something is named with it, as "which
  requires `..`", word by word. A clause of `ensures` with an implication, an alternative or a negation, or with a
  word for a condition such as `OnOk`, is none of the forms and counts for nothing.
- Every definition of a line is the type of a law or met so from one, or from a contract.

The edits that the page names for what would be no delivery, as crate: edit, edit; crate: .., must be there. The law
`taken` of crates/program/specs/Reads.antt, by which a read gives the bytes that a program may answer, is cited by the
crate program alone. In docs/LIBRARY.md the contract that is named for a call must be what the exported function
ensures, and a theorem that is named must be the type of a law.
"""

import re
from collections.abc import Iterator
from pathlib import Path
from typing import NamedTuple

from tools.check import contracts, statements
from tools.check.statements import Place, contract, find, imports, law_type, mentioned, reached, read
from tools.command import TOP, crate_files

PAGE = "docs/PROMISES.md"

NAMES = r"((?:`[^`]+`(?:, | and )?)+)"
SPEC = re.compile(r"\bin ([a-z_]+): ([A-Z]\w*)")
LAWS = re.compile(NAMES + r" in ([a-z_]+/proofs/\w+)")
FUNCTIONS = re.compile(NAMES + r"(?: in (crates/[\w/]+\.rt))?")
CONTRACT = re.compile(r"contracts? of (.*)")
NAME = re.compile(r"`([^`]+)`")
STATEMENT = re.compile(r"`([^`]+)`(?: \(([^)]*)\))?")
REQUIRES = re.compile(r", which requires `([^`]+)`")
THROUGH = re.compile(r", through %s$" % NAMES)
COMMAND = re.compile(r"`python3 -m [^`]+`")
CONDITIONAL = re.compile(r"[→⊎¬]|\b(?:On|If)(?:Ok|Err|Some|None)\b")


def has_word(text: str, name: str) -> bool:
    """Whether a name stands in a text, and not as a part of a longer one."""
    return re.search(r"(?<![\w·-])%s(?![\w·-])" % re.escape(name), text) is not None


def rows(first: str = "Sentence") -> Iterator[tuple[int, list[str]]]:
    """The lines of the tables whose first column has this heading, each with its number and its three cells."""
    heading = ""
    for number, line in enumerate((TOP / PAGE).read_text(encoding="utf-8").splitlines(), 1):
        cells = [cell.strip() for cell in re.split(r"(?<!\\)\|", line)[1:-1]]
        if len(cells) != 3:
            heading = ""
        elif not heading:
            heading = cells[0]
        elif heading == first and set(cells[0]) != {"-"}:
            yield number, cells


def edit_faults(tried: str) -> Iterator[str]:
    """Edits of a cell that are not there."""
    for group in tried.split("; "):
        crate, _, edits = group.partition(": ")
        for edit in edits.split(", "):
            if not (TOP / "crates" / crate / "must-fail" / (edit + ".edit")).is_file():
                yield "crates/%s has no edit %s" % (crate, edit)


# ---------------------------------------------------------------- the second cell


def statements_of(said: str) -> Iterator[tuple[Place, list[str]]]:
    """The definitions of the second cell, each with the names that stand in brackets behind it."""
    start = 0
    for found in SPEC.finditer(said):
        for name, fields in STATEMENT.findall(said[start:found.start()]):
            yield Place(found[1], found[2], name), NAME.findall(fields)
        start = found.end()


def spec_faults(said: str) -> Iterator[str]:
    """Names in the second cell that their files do not declare."""
    for place, fields in statements_of(said):
        path, declaration = place.path.relative_to(TOP), find(place)
        if not place.path.is_file():
            yield "there is no %s" % path
        elif declaration is None:
            yield "%s has no %s" % (path, place.name)
        else:
            words = set(statements.WORD.findall(declaration.text))
            yield from ("%s of %s has no %s" % (place.name, path, name) for name in fields if name not in words)
    if not SPEC.search(said):
        yield "no definition is named with its file"
    else:
        behind = said[max(found.end() for found in SPEC.finditer(said)):]
        yield from ("%s is named without a file" % name for name in NAME.findall(behind))


# ---------------------------------------------------------------- the third cell


class Proof(NamedTuple):
    """A law or a contract: the definitions that it mentions itself, and the names by way of which one goes on."""
    name: str
    states: frozenset[Place]
    through: frozenset[str]


def law_proofs(clause: str, wrong: list[str]) -> Iterator[Proof]:
    """The laws of a clause, each of which must have the bare name of a definition as its type."""
    for names, where in LAWS.findall(clause):
        path = TOP / "crates" / (where + ".antt")
        if not path.is_file():
            wrong.append("there is no crates/%s.antt" % where)
            continue
        for law in NAME.findall(names):
            declaration = law_type(path, law)
            place = declaration and imports(read(path)).get(declaration.type)
            if declaration is None:
                wrong.append("crates/%s.antt has no law %s" % (where, law))
            elif declaration.indent or place is None:
                wrong.append("%s in crates/%s.antt is of the type %s, and not of a definition alone" % (
                    law, where, declaration.type))
            else:
                yield Proof(law, frozenset({place}), frozenset())


def functions_of(clause: str, known: dict[str, Path], wrong: list[str]) -> Iterator[tuple[str, Path]]:
    """The functions of a clause with their files; a file that is named becomes known for the lines behind."""
    named = CONTRACT.fullmatch(THROUGH.sub("", REQUIRES.sub("", clause)))
    for names, file in FUNCTIONS.findall(named[1] if named else ""):
        for name in NAME.findall(names):
            if file:
                known[name] = TOP / file
            if name in known:
                yield name, known[name]
            else:
                wrong.append("no line before says where %s is" % name)


def contract_proofs(clause: str, known: dict[str, Path], wrong: list[str]) -> Iterator[Proof]:
    """The contracts of a clause."""
    told, through = REQUIRES.findall(clause), THROUGH.search(clause)
    needed = set()
    for name, path in functions_of(clause, known, wrong):
        found = contract(read(path), name) if path.is_file() else None
        if found is None:
            wrong.append("%s has no function %s" % (path.relative_to(TOP), name))
            continue
        needed.add(found.requires)
        plain = [clause for clause in found.clauses if not CONDITIONAL.search(clause)]
        if found.clauses and not plain:
            wrong.append("%s ensures something conditional: %s" % (name, found.ensures))
        yield Proof(name, mentioned(" × ".join(plain or found.clauses), imports(read(path))),
                    frozenset(NAME.findall(through[1] if through else "")))
    for requires in needed - {""} - set(told):
        wrong.append("the contract requires, and the line does not say so: %s" % requires)
    wrong.extend("no function of the line requires %s" % text for text in told if text not in needed)


def proofs_of(holds: str, known: dict[str, Path], wrong: list[str]) -> Iterator[Proof]:
    """The laws and contracts of the third cell; what it says besides names nothing but commands."""
    for clause in holds.split("; "):
        if LAWS.search(clause):
            yield from law_proofs(clause, wrong)
        elif CONTRACT.match(clause):
            yield from contract_proofs(clause, known, wrong)
        else:
            wrong.extend("%s is neither a law nor a contract" % name for name in NAME.findall(COMMAND.sub("", clause)))


def proof_faults(said: str, holds: str, known: dict[str, Path]) -> Iterator[str]:
    """Laws and contracts of the third cell that do not prove the definitions of the second."""
    wrong: list[str] = []
    proofs, named = list(proofs_of(holds, known, wrong)), [place for place, _ in statements_of(said)]
    yield from wrong
    met = {proof: reached(proof.states, proof.through | {place.name for place in named}) for proof in proofs}
    for proof, places in met.items():
        if not places & set(named):
            yield "%s states no definition that the line names" % proof.name
    for place in named:
        if not any(place in places for places in met.values()):
            yield "%s in %s: %s is stated by no law and no contract of the line" % (place.name, place.crate, place.file)
    if not proofs and not wrong:
        yield "neither a law nor a contract is named"


# ---------------------------------------------------------------- the page


def reads_faults(path: Path, text: str) -> Iterator[str]:
    """Where a file takes the law `taken`, or the module that has it as a whole."""
    for line in statements.code_lines(text):
        names = re.search(r"\bRattle\.program\.specs\.Reads\b(.*)", line)
        if names and (has_word(names[1], "taken") or "{" not in names[1]):
            yield "%s: `taken` is for the proofs of crates/program alone: %s" % (path, line.strip())


def taken_faults() -> Iterator[str]:
    """Crates beside `program` that take its law `taken`."""
    for path in crate_files(".antt", ".rt"):
        if path.relative_to(TOP).parts[1] != "program":
            yield from reads_faults(path.relative_to(TOP), read(path))


def faults() -> list[str]:
    """What is wrong with the page, with the line."""
    found: list[str] = []
    known: dict[str, Path] = {}
    for number, (_, said, holds) in rows():
        wrong = [*spec_faults(said), *proof_faults(said, holds, known)]
        found += ["%s:%d: %s" % (PAGE, number, what) for what in wrong]
    for number, (_, tried, _) in rows("No delivery"):
        found += ["%s:%d: %s" % (PAGE, number, what) for what in edit_faults(tried)]
    return found + list(taken_faults()) + contracts.faults()
