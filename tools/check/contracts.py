"""docs/LIBRARY.md: does each call's section name the contract that the call has, and theorems that are proved?

Not a command of its own: `python3 -m tools.check promises` looks at both pages. A section of a call names its contract,
as Contract `Name`, which the exported function must ensure, and what holds of several calls together as theorem `Name`
in crate: File, of which some law of that crate's proofs must have exactly this type.
"""

import re
from collections.abc import Iterator

from tools.check.statements import Place, contract, declared, find, imports, read
from tools.command import TOP

PAGE = "docs/LIBRARY.md"
SOURCES = "crates/evaporation_c/src"

SECTION = re.compile(r"^### ((?:`evp_\w+`(?:, )?)+)$(.*?)(?=^##|\Z)", re.M | re.S)
CONTRACTS = re.compile(r"\bContracts? ((?:`\w+`(?: and )?)+)")
THEOREM = re.compile(r"\btheorem `(\w+)` in (\w+): (\w+)")
LAW = re.compile(r"\blaw `([^`]+)` in (\w+/proofs/\w+)")
NAME = re.compile(r"`([^`]+)`")


def sections(page: str) -> Iterator[tuple[list[str], str]]:
    """The calls of each section, and its text on one line."""
    for calls, text in SECTION.findall(page):
        yield NAME.findall(calls), " ".join(text.split())


def ensured(call: str) -> str:
    """What an exported function ensures; empty where there is no such function."""
    for path in sorted((TOP / SOURCES).glob("*.rt")):
        found = contract(read(path), call)
        if found:
            return found.ensures
    return ""


def is_proved(place: Place) -> bool:
    """Whether a law of the crate's proofs, in no module with parameters, has this theorem as its type."""
    for path in (TOP / "crates" / place.crate / "proofs").glob("*.antt"):
        if imports(read(path)).get(place.name) == place and any(
                law.type == place.name and not law.indent for law in declared(path).values()):
            return True
    return False


def contract_faults(calls: list[str], text: str) -> Iterator[str]:
    """Contracts of a section that its calls do not have."""
    words = {call: set(re.findall(r"\w+", ensured(call))) for call in calls}
    named = [name for names in CONTRACTS.findall(text) for name in NAME.findall(names)]
    for call in calls:
        if not words[call] & set(named):
            yield "%s ensures none of the contracts of its section" % call
    for name in named:
        if not any(name in found for found in words.values()):
            yield "no call of the section ensures %s" % name


def theorem_faults(text: str) -> Iterator[str]:
    """Theorems and laws of a section that are not there, or not proved."""
    for name, crate, file in THEOREM.findall(text):
        place = Place(crate, file, name)
        if find(place) is None:
            yield "crates/%s/specs/%s.antt has no %s" % (crate, file, name)
        elif not is_proved(place):
            yield "no law of crates/%s/proofs has the type %s" % (crate, name)
    for name, where in LAW.findall(text):
        path = TOP / "crates" / (where + ".antt")
        if not path.is_file() or name not in declared(path):
            yield "crates/%s.antt has no law %s" % (where, name)


def faults() -> list[str]:
    """What is wrong with the page, with the calls of the section."""
    found: list[str] = []
    for calls, text in sections((TOP / PAGE).read_text(encoding="utf-8")):
        wrong = [*contract_faults(calls, text), *theorem_faults(text)]
        found += ["%s, %s: %s" % (PAGE, ", ".join(calls), what) for what in wrong]
    return found
