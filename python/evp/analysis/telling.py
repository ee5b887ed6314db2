"""What changed between two sheets as text, csv, JSON and a fragment of a page."""

from collections.abc import Iterable, Iterator
from typing import Any

from evp.analysis.changes import Change, Changes, Step
from evp.library import MECHANISMS, Band, Report
from evp.masses import shown
from evp.show import aligned
from evp.tables import table_text
from evp.wording import apart, shortened

MOST_INPUTS = 6  # lines of inputs that a group has on a screen
MOST_NOTE = 240
SAME = "same band"  # where no difference is seen


def signed_mg(milligrams: int) -> str:
    return "0" if milligrams == 0 else f"{milligrams:+,}"


def signed(difference: Band) -> str:
    """The difference of two masses with its sign, to the digits that are certain."""
    low, high = difference
    if low >= 0:
        return shown(difference) if high == 0 else f"+{shown(difference)}"
    if high <= 0:
        return f"-{shown(Band(-high, -low))}"
    return f"-{shown(Band(-low, -low))} to +{shown(Band(high, high))}"


def step_words(step: Step) -> str:
    """What a step brings, to the digits that are certain."""
    return signed(step.difference) if step.low or step.high else SAME


def inputs_shown(changes: Iterable[Change], most: int = MOST_INPUTS) -> list[str]:
    """The inputs of a step, no more than a screen has room for."""
    words = [change.words for change in changes]
    return words if len(words) <= most else [*words[:most - 1], f"and {apart(len(words) - most + 1)} more"]


def changes_lines(changes: Changes) -> Iterator[str]:
    """For the screen: the steps with what they bring, then the inputs of each."""
    if not changes.steps:
        yield "No input differs."
        return
    yield "What changed, one group of inputs after another in this order:"
    yield ""
    lines = [("", "about", "lows, mg", "highs, mg"), ("A", shown(changes.a.total), *map(apart, changes.a.total))]
    lines += [(step.short, step_words(step), signed_mg(step.low), signed_mg(step.high))
              for step in changes.steps]
    lines.append(("B", shown(changes.b.total), *map(apart, changes.b.total)))
    yield from aligned(lines, 1)
    yield ""
    for step in changes.steps:
        yield f"{step.title}:"
        yield from (f"  {words}" for words in inputs_shown(step.changes))
        if step.note:
            yield f"  {shortened(step.note, MOST_NOTE)}"
    yield ""
    yield "The lows add up exactly to the low of B, the highs to its high. In another order"
    yield "a group can bring another mass; the sum stays the same."


def _mechanisms(before: Report, after: Report) -> Iterator[int]:
    """What the lows and highs of all rows change by, mechanism by mechanism."""
    for old, new in zip(before.all, after.all):
        yield new.low - old.low
        yield new.high - old.high


COLUMNS = ("order", "group", "low_mg", "high_mg", *(f"{name}_{end}_mg" for name in MECHANISMS for end in Band._fields),
           "inputs", "note")


def changes_csv(changes: Changes, semicolon: bool = False) -> str:
    """A line for sheet A, one for each step with what it brings, and one for sheet B: the sum of all above it."""
    def whole(report: Report) -> tuple[int, ...]:
        return (*report.total, *(end for band in report.all for end in band))

    lines: list[tuple[object, ...]] = [(0, "A", *whole(changes.a), "", "")]
    lines += [(i, step.title, step.low, step.high, *_mechanisms(step.before, step.after),
               "; ".join(change.words for change in step.changes), step.note)
              for i, step in enumerate(changes.steps, 1)]
    lines.append((len(changes.steps) + 1, "B", *whole(changes.b), "", ""))
    return table_text(COLUMNS, lines, semicolon)


def _step_json(step: Step) -> dict[str, Any]:
    return {
        "groups": [group.title for group in step.groups], "low_mg": step.low, "high_mg": step.high, "note": step.note,
        "inputs": [{"where": change.where, "input": change.what, "before": change.before, "after": change.after,
                    "unit": change.unit} for change in step.changes]}


def changes_json(changes: Changes) -> list[dict[str, Any]]:
    return [_step_json(step) for step in changes.steps]
