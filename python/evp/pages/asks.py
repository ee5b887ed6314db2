"""The first page, and the pages that ask for files."""

from collections.abc import Callable
from typing import NamedTuple

from evp.library import HERE, TOP
from evp.pages.render import LINKS, render

SAMPLES = HERE / "samples" if (HERE / "samples").is_dir() else TOP / "samples"  # a wheel has its own
MOST_LINES = 6  # of what was wrong, on a page


class Ask(NamedTuple):
    """What a page wants: its title, a sentence, its fields (name, label, whether several), and an example."""
    title: str
    about: str
    fields: tuple[tuple[str, str, bool], ...]
    example: str
    example_words: str


SHEET = ("files", "The sheet .evp, or a workbook .xlsx or .ods", False)
ASKS = {
    "class": Ask("Mark a class", "Sheets and tables of filed masses together, as people named them: each filed mass is "
                 "compared with the band of its sheet, and what is wrong comes first.",
                 (("files", "The sheets .evp, and the tables (csv, xlsx, ods), or a zip of all", True),),
                 "course", "thirty sheets, made up"),
    "sheet": Ask("Look at a sheet", "Where its mass comes from, or why it is refused, byte by byte. With filed.csv "
                 "beside it, the filed figures with the bands on them.",
                 (("files", "The sheet .evp or a workbook; filed.csv and its .names.csv if you like", True),), "region",
                 "a region of 24 rows"),
    "day": Ask("A parking on a day", "The temperatures of each season, and which half-hours of a parking make vapour.",
               (SHEET,), "region", "a region of four seasons"),
    "parking": Ask("Parkings by end hour", "24 end hours by 24 durations, filled one after another, and what a parking "
                   "of each lets go of.", (SHEET,), "survey", "a survey of 21,108 parkings"),
    "fuels": Ask("Two fuels, or two years", "Two sheets side by side: which masses differ for certain, and which way.",
                 (("a", "A, a sheet .evp", False), ("b", "B, a sheet .evp", False)), "fuels",
                 "a region with summer fuel and with 10 kPa more"),
    "species": Ask("Species", "The 29 compounds of Table 3-14 in the total of a sheet.", (SHEET,), "region",
                   "a region"),
    "cells": Ask("Cells for the map", "Urban, rural and highway cells of each row, by where its vehicles drive.",
                 (SHEET, ("travel", "travel.csv, where vehicles drive", False)), "cells",
                 "a region with owners in town"),
    "pool": Ask("Pool two sheets", "Two sheets of version 4 with the same seasons and parking become one.",
                (("a", "The first, a sheet .evp", False), ("b", "The second, a sheet .evp", False)), "pool",
                "the districts twice"),
}
TRAVEL = b"row,town,urban_mileage,rural_mileage,highway_mileage,rural_speed,highway_speed\nall,yes,40,35,25,60,100\n"


def _sample(name: str) -> tuple[str, bytes]:
    return name + ".evp", (SAMPLES / (name + ".evp")).read_bytes()


def _course() -> dict:
    folder = SAMPLES / "course"
    paths = [*sorted(folder.glob("*.evp")), folder / "filed.csv"]
    return {"files": [(path.name, path.read_bytes()) for path in paths]}


def _fuels() -> dict:
    """The region, and the same with 10 kPa more in its third season."""
    name, data = _sample("region")
    place = 104 + 8 * 2 + 6
    pressure = int.from_bytes(data[place:place + 2], "little") + 100
    other = data[:place] + pressure.to_bytes(2, "little") + data[place + 2:]
    return {"a": [(name, data)], "b": [("region-derogation.evp", other)]}


def examples() -> dict[str, Callable[[], dict]]:
    """The examples that are there, by name: files by the names of their fields. A release may have no samples."""
    if not (SAMPLES / "region.evp").exists():
        return {}
    return {
        "course": _course, "fuels": _fuels,
        "region": lambda: {"files": [_sample("region")]}, "survey": lambda: {"files": [_sample("survey")]},
        "cells": lambda: {"files": [_sample("region")], "travel": [("travel.csv", TRAVEL)]},
        "pool": lambda: {"a": [_sample("districts")], "b": [_sample("districts")]},
    }


def _told(message: str, more: int) -> dict:
    """The first lines of what was wrong with files, and how many there are besides."""
    lines = message.split("\n") if message else []
    return {"message": lines[:MOST_LINES], "more": len(lines[MOST_LINES:]) + more}


def page_ask(what: str, message: str = "", more: int = 0) -> str:
    """The page that asks for the files of another, with what was wrong with those that came; `more` such lines are
    counted alone."""
    ask = ASKS[what]
    return render("ask.html", True, asked=what, ask=ask, example=ask.example in examples(), **_told(message, more))


def page_home(message: str = "", more: int = 0) -> str:
    words = {name: ask.about for name, ask in ASKS.items()}
    words["form"] = "Seasons, parking and fleet; what is refused is explained at its field. Save the sheet and its csv."
    titles = {name: ask.title for name, ask in ASKS.items()} | {"form": "Form to sheet"}
    return render("home.html", True, cards=[(name, titles[name], words[name]) for name, _ in LINKS],
                  **_told(message, more))
