"""docs/pictures/layers.svg: the crates by the sections of crates.txt, the lowest layer at the bottom.

A layer is a section with its words, and says on which others its crates stand.
A crate has one of three looks: definitions and laws without code, code, or a
program. The colours follow the reader's light or dark page.
"""

import re
from collections.abc import Iterator
from html import escape

from tools import crates
from tools.command import TOP, MadeFile
from tools.crates import Crate, Section

PICTURE = "docs/pictures/layers.svg"

WIDTH, EDGE, INSET = 900, 10, 14
BOX, GAP, LETTER = 26, 8, 7.4  # a box's height, what parts two, and a letter's width in its name
HEAD, FOOT, BETWEEN = 34, 30, 10  # above the boxes of a layer, below them, and from one layer to the next
LEGEND = 34

STYLE = """
.page { fill: #ffffff } .layer { fill: #f3f5f8; stroke: #d5dae2 }
text { fill: #1b1f24; font-family: sans-serif; font-size: 13px } .title { font-weight: bold; font-size: 14px }
.words { fill: #57606a } .name { font-family: monospace; font-size: 12px }
.laws { fill: #e3edfb; stroke: #5b8def } .code { fill: #e4f3e4; stroke: #4d9a57 }
.program { fill: #fbeedb; stroke: #c98a2b }
@media (prefers-color-scheme: dark) {
  .page { fill: #0d1117 } .layer { fill: #161b22; stroke: #30363d } text { fill: #e6edf3 } .words { fill: #9aa4af }
  .laws { fill: #172b4d; stroke: #5b8def } .code { fill: #163320; stroke: #4d9a57 }
  .program { fill: #3d2c12; stroke: #c98a2b }
}
"""

LOOKS = {"laws": "definitions and laws, no code", "code": "code", "program": "program"}


def look_of(name: str) -> str:
    """What a crate is: a program, code, or definitions and laws alone."""
    source = TOP / "crates" / name / "src"
    if (source / "main.rt").exists():
        return "program"
    has_code = any(re.search(r"^ *(pub )?(extern \"C\" )?fn ", path.read_text(encoding="utf-8"), re.M)
                   for path in source.glob("*.rt"))
    return "code" if has_code else "laws"


def stands_on(section: Section, sections: list[Section]) -> list[str]:
    """The titles of the other sections that a section's crates need, lowest first."""
    needs = {need for crate in section.crates for need in crate.needs}
    return [other.title for other in sections
            if other is not section and needs & {crate.name for crate in other.crates}]


def rect(x: float, y: float, width: float, height: float, look: str, round_by: int = 4) -> str:
    return '<rect x="%.1f" y="%.1f" width="%.1f" height="%.1f" rx="%d" class="%s"/>' % (
        x, y, width, height, round_by, look)


def words(x: float, y: float, said: str, look: str, more: str = "") -> str:
    return '<text x="%.1f" y="%.1f" class="%s"%s>%s</text>' % (x, y, look, more, escape(said))


def rows_of(named: list[Crate]) -> list[list[Crate]]:
    """The boxes of a layer in rows that fit its width."""
    rows: list[list[Crate]] = [[]]
    for crate in named:
        if rows[-1] and sum(map(box_width, [*rows[-1], crate])) + GAP * len(rows[-1]) > WIDTH - 2 * (EDGE + INSET):
            rows.append([])
        rows[-1].append(crate)
    return rows


def box_width(crate: Crate) -> float:
    return LETTER * len(crate.name) + 2 * GAP


def boxes(rows: list[list[Crate]], top: float) -> Iterator[str]:
    for i, row in enumerate(rows):
        x, y = EDGE + INSET, top + i * (BOX + GAP)
        for crate in row:
            width = box_width(crate)
            yield rect(x, y, width, BOX, look_of(crate.name))
            yield words(x + width / 2, y + 17, crate.name, "name", ' text-anchor="middle"')
            x += width + GAP


def layer_height(section: Section) -> float:
    return HEAD + len(rows_of(section.crates)) * (BOX + GAP) - GAP + FOOT


def layer(section: Section, sections: list[Section], top: float) -> Iterator[str]:
    height = layer_height(section)
    yield rect(EDGE, top, WIDTH - 2 * EDGE, height, "layer", 6)
    title = '%s <tspan class="words" font-weight="normal" font-size="13">%s</tspan>' % (
        escape(section.title + ":"), escape(section.about.rstrip(".")))
    yield '<text x="%.1f" y="%.1f" class="title">%s</text>' % (EDGE + INSET, top + 22, title)
    yield from boxes(rows_of(section.crates), top + HEAD)
    below = stands_on(section, sections)
    said = "stands on " + " · ".join(below) if below else "stands on nothing of this repository"
    yield words(EDGE + INSET, top + height - 9, said, "words", ' font-size="12"')


def legend(top: float) -> Iterator[str]:
    x = EDGE + INSET
    for look, said in LOOKS.items():
        yield rect(x, top, 18, 14, look)
        yield words(x + 25, top + 12, said, "words")
        x += 50 + 7 * len(said)


def drawn(sections: list[Section]) -> str:
    """The picture of these sections."""
    parts, top = [], EDGE
    parts += legend(top)
    top += LEGEND - EDGE
    for section in reversed(sections):
        parts += layer(section, sections, top)
        top += layer_height(section) + BETWEEN
    height = top - BETWEEN + EDGE
    return "\n".join([
        '<svg xmlns="http://www.w3.org/2000/svg" width="%d" height="%d" viewBox="0 0 %d %d">' % (
            WIDTH, height, WIDTH, height),
        "<style>%s</style>" % STYLE, rect(0, 0, WIDTH, height, "page", 0), *parts, "</svg>"]) + "\n"


def files() -> Iterator[MadeFile]:
    yield MadeFile(PICTURE, drawn(crates.sections()).encode())
