"""Brings the names of definitions and lemmas to the spelling of today's Rattle.

python3 -m tools.respell, once, at the top of the repository, after the kit's own port.py.

A word is one part of a name: `exponentialError-most` has two. Each word that begins with a small letter and has a
capital within, in a name that specs/ or proofs/ declares, is written in snake case: `exponential_error-most`. A dot
in the middle of a number becomes `_`, and the name of a fact keeps its capital where it is part of a lemma's name.
Definitions, proofs, contracts, edits and the pages that name them are written in place; the code's own names are in
snake case already and stay as they are.
"""

import pathlib
import re
import sys

ROOT = pathlib.Path(__file__).resolve().parent.parent
WORD = re.compile(r"[A-Za-z0-9_'ᶠ·]+")
CAMEL = re.compile(r"^[a-z][A-Za-z0-9_'ᶠ·]*[A-Z]")
DECLARATION = re.compile(r"^\s*(?:(?:pub|unfoldable|abbrev|record|data)\s+)*([^\s:(){}]+)\s*(?:[({].*)?:(?!=)")
NAME = re.compile(r"[A-Za-z0-9_'ᶠ·→-]+")
# parts of a lemma's name that are a fact's name
FACTS = {"nonNegative": "NonNegative"}
PAGES = ["docs/*.md", "docs/changes/*.md", "README.md", "CONTRIBUTING.md", "tools/**/*.py"]
# local names of one letter and a hypothesis's letter
KEPT = {"hK"}


def proof_files() -> list[pathlib.Path]:
    files = sorted(ROOT.glob("crates/*/specs/**/*.antt")) + sorted(ROOT.glob("crates/*/proofs/**/*.antt"))
    return [file for file in files if "/out/" not in str(file)]


def code_files() -> list[pathlib.Path]:
    return sorted(ROOT.glob("crates/*/src/**/*.rt")) + sorted(ROOT.glob("crates/*/must-fail/*.edit"))


def declared_words(files: list[pathlib.Path]) -> set[str]:
    words = set()
    for file in files:
        for line in file.read_text(encoding="utf-8").splitlines():
            found = DECLARATION.match(line)
            if found and not line.lstrip().startswith("--"):
                words.update(word for word in WORD.findall(found.group(1)) if CAMEL.match(word))
    return words - KEPT


def snake(word: str) -> str:
    return re.sub(r"(?<=[a-z0-9])([A-Z])", lambda found: "_" + found.group(1).lower(), word.replace("·", "_"))


def respelled(text: str, words: set[str]) -> str:
    def word_of(found: re.Match[str]) -> str:
        word = found.group(0)
        if word not in words:
            return word
        beside = {text[found.start() - 1:found.start()], text[found.end():found.end() + 1]}
        fact = FACTS.get(word)
        return fact if fact and beside & {"-", "→"} else snake(word)

    return WORD.sub(word_of, text)


def undotted(text: str, names: set[str]) -> str:
    def name_of(found: re.Match[str]) -> str:
        name = found.group(0)
        return name.replace("·", "_") if name in names else name

    return NAME.sub(name_of, text)


def dotted_names(files: list[pathlib.Path]) -> set[str]:
    names = set()
    for file in files:
        for line in file.read_text(encoding="utf-8").splitlines():
            found = DECLARATION.match(line)
            if found and "·" in found.group(1) and not line.lstrip().startswith("--"):
                names.add(found.group(1))
    return names


def main() -> int:
    proofs = proof_files()
    words, names = declared_words(proofs), dotted_names(proofs)
    own = pathlib.Path(__file__).resolve()
    pages = [file for pattern in PAGES for file in sorted(ROOT.glob(pattern)) if file != own]
    changed = 0
    for file in proofs + code_files() + pages:
        before = file.read_text(encoding="utf-8")
        after = respelled(undotted(before, names), words)
        if after != before:
            file.write_text(after, encoding="utf-8")
            changed += 1
    print(f"{len(words)} words and {len(names)} names with a dot respelled in {changed} files")
    return 0


if __name__ == "__main__":
    sys.exit(main())
