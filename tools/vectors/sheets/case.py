"""A sheet and the answer that is expected of it."""

from typing import NamedTuple

from tools.vectors.plans import Plan, Record, said

Answer = tuple[int, int]  # number and place
ACCEPTED = (0, 0)


class Case(NamedTuple):
    """A sheet in words and bytes. Its answer is None where only the reckoning tells."""
    words: str
    data: bytes
    answer: Answer | None


def of_record(plan: Plan, kind: str, i: int, change: Record, number: int) -> Case:
    """The sheet with one record changed, and its answer: number 0 passes."""
    words = "%s %d of %d: %s" % (kind[:-1], i + 1, len(getattr(plan, kind)), said(change))
    answer = (number, plan.place(kind, i)) if number else ACCEPTED
    return Case(words, plan.changed(kind, i, change).data(), answer)
