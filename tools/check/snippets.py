"""docs/LIBRARY.md against the files that it shows and the header's functions.

A block behind a line <!-- PATH --> is that file, word for word, in at most ten
lines of code. Every call has its section: the header's declaration, what it
takes, answers, promises and costs. No other block of C, C++, Rust or Python is
there, so that nothing is shown that no test runs; examples/run builds and runs
the files. The document names every function of the header and no other, and a
refusal in words has the header's. `--write` puts files and declarations into
their blocks.
"""

import re
from collections.abc import Iterator

from tools.check import header
from tools.command import TOP

PAGE = "docs/LIBRARY.md"
BLOCK = re.compile(r"^<!-- (?P<path>[\w./]+) -->\n```(?P<kind>\w+)\n(?P<text>.*?)^```$", re.M | re.S)
ANY_BLOCK = re.compile(r"^```(\w+)\n", re.M)
LANGUAGES = {"c", "cpp", "rust", "python"}
CALL = re.compile(r"^### (?P<title>`evp_[^\n]*)\n\n```c\n(?P<shown>.*?)^```\n(?P<said>.*?)(?=^##)", re.M | re.S)
PARTS = ("Takes", "Answers", "Promises", "Costs")
MOST_LINES = 10
NO_CODE = re.compile(r"(?:#include|//|/\*|use |import |from |\"\"\").*|[{}();,]*")  # a line that does not count


def written(text: str, declared: str) -> str:
    """The document with the files and the declarations in their blocks."""
    def block(found: re.Match) -> str:
        shown = (TOP / found["path"]).read_text(encoding="utf-8")
        return "<!-- %s -->\n```%s\n%s```" % (found["path"], found["kind"], shown)

    def section(found: re.Match) -> str:
        return found[0].replace(found["shown"], declarations(found["title"], declared))

    return CALL.sub(section, BLOCK.sub(block, text))


def declarations(title: str, declared: str) -> str:
    """What the header declares of the calls that a title names."""
    names = re.findall(r"`(evp_\w+)`", title)
    found = (re.search(r"^(?:struct )?\w+ %s\([^)]*\);\n" % name, declared, re.M) for name in names)
    return "".join(one[0] if one else "" for one in found)


def call_faults(text: str, declared: str) -> Iterator[str]:
    """Calls without a section, and sections that are not those of their call."""
    named = []
    for found in CALL.finditer(text):
        named += re.findall(r"`(evp_\w+)`", found["title"])
        if found["shown"] != declarations(found["title"], declared):
            yield "%s does not show %s as the header declares it; --write puts it in" % (PAGE, found["title"])
        for part in PARTS:
            if found["said"].count("\n- **%s** " % part) != 1:
                yield "%s does not say what %s %s" % (PAGE, found["title"], part.lower())
    for name in sorted(set(header.header_source(declared).functions) ^ set(named)):
        yield "%s is no call with a section of its own" % name


def code_lines(text: str) -> int:
    """The lines of a file without comments, includes and lone braces."""
    return sum(not NO_CODE.fullmatch(line.strip()) for line in text.splitlines())


def snippet_faults(text: str) -> Iterator[str]:
    """Blocks that are not their file, and blocks of a language without one."""
    text = CALL.sub("", text)
    shown = list(BLOCK.finditer(text))
    for found in shown:
        if code_lines(found["text"]) > MOST_LINES:
            yield "%s: %s has more than %d lines of code" % (PAGE, found["path"], MOST_LINES)
        path = TOP / found["path"]
        if not path.exists():
            yield "%s shows %s, which is not there" % (PAGE, found["path"])
        elif path.read_text(encoding="utf-8") != found["text"]:
            yield "%s does not show %s as it is; --write puts it in" % (PAGE, found["path"])
    kinds = [kind for kind in ANY_BLOCK.findall(text) if kind in LANGUAGES]
    if len(kinds) != len(shown):
        yield "%s has %d blocks of a language, and %d of them are files" % (PAGE, len(kinds), len(shown))


def header_functions(text: str) -> set[str]:
    """The functions that a header declares or has, and its array of names."""
    plain = re.sub(r"/\*.*?\*/", "", text, flags=re.S)
    return set(re.findall(r"\b(evp_\w+)[(\[]", re.sub(r"\{[^{}]*(?:\{[^{}]*\}[^{}]*)*\}", "{}", plain)))


def name_faults(text: str, declared: set[str]) -> Iterator[str]:
    """Functions of the header that the document does not name, and names that are none."""
    named = set(re.findall(r"`(evp_\w+)(?:\(\))?`", text))
    for name in sorted(declared - named):
        yield "%s does not name %s" % (PAGE, name)
    for name in sorted(named - declared):
        yield "%s names %s, which the header has not" % (PAGE, name)


def header_texts(text: str) -> dict[int, str]:
    """What evp_number_text gives for each number."""
    codes = dict(re.findall(r"\b(EVP_\w+) = (\d+)", text))
    body = re.search(r"evp_number_text\(uint64_t number\) \{(.*?)^\}", text, re.M | re.S)
    cases = re.findall(r'case (EVP_\w+):\s*return ((?:"[^"]*"\s*)+);', body[1] if body else "")
    return {int(codes[name]): "".join(re.findall(r'"([^"]*)"', written)) for name, written in cases}


def refusal_faults(text: str, texts: dict[int, str]) -> Iterator[str]:
    """Refusals that the library tells in other words."""
    for number, said in re.findall(r"\brefused (\d+) at \d+: ([^`\n]*)", text):
        if texts.get(int(number)) != said:
            yield "%s: %s is in the header: %s" % (PAGE, number, texts.get(int(number)))


def faults(write: bool = False) -> Iterator[str]:
    page = TOP / PAGE
    text = page.read_text(encoding="utf-8")
    declared = (TOP / header.HEADER).read_text(encoding="ascii")
    if write:
        text = written(text, declared)
        page.write_text(text, encoding="utf-8")
    yield from snippet_faults(text)
    yield from call_faults(text, declared)
    yield from name_faults(text, header_functions(declared))
    yield from refusal_faults(text, header_texts(declared))


def count() -> int:
    """How many files the document shows."""
    return len(BLOCK.findall((TOP / PAGE).read_text(encoding="utf-8")))
