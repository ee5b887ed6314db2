"""Which rows of two sheets belong together."""

from collections import defaultdict
from collections.abc import Callable, Hashable, Sequence
from dataclasses import dataclass

from evp.analysis.values import Record


@dataclass(frozen=True)
class Pair:
    """A row of A and a row of B, counted from 0; None where the other sheet has no such row."""
    a: int | None
    b: int | None


Key = Callable[[int], Hashable]


def _by_key(key_a: Key, key_b: Key, left_a: list[int], left_b: list[int]) -> list[Pair]:
    """Rows with equal keys, in their order; what is matched leaves both lists."""
    waiting: dict[Hashable, list[int]] = defaultdict(list)
    for j in left_b:
        waiting[key_b(j)].append(j)
    pairs = [Pair(i, waiting[key_a(i)].pop(0)) for i in list(left_a) if waiting[key_a(i)]]
    for pair in pairs:
        left_a.remove(pair.a)  # type: ignore[arg-type]
        left_b.remove(pair.b)  # type: ignore[arg-type]
    return pairs


def _keys(rows: Sequence[Record], names: Sequence[str]) -> tuple[Key, Key, Key]:
    """Three keys of a row, the most exact first: all of it, all but the vehicles, and its class and technology; each
    with the row's name where there are names."""
    def name(i: int) -> str:
        return names[i] if i < len(names) else ""

    def without(i: int, *left_out: str) -> Hashable:
        return (name(i), *sorted(item for item in rows[i].items() if item[0] not in left_out))

    return (lambda i: without(i), lambda i: without(i, "vehicles"),
            lambda i: (name(i), rows[i]["class"], rows[i]["technology"]))


def matched_rows(a: Sequence[Record], b: Sequence[Record], names_a: Sequence[str] = (),
                 names_b: Sequence[str] = ()) -> list[Pair]:
    """The rows of A in their order, each with its row of B, then the rows of B that A has not. Where both sheets have
    the same classes, technologies and names in the same order, rows are matched by their number; else by class,
    technology and name. With as many rows in both, a row without a partner is matched with that of its number."""
    keys_a, keys_b = _keys(a, names_a), _keys(b, names_b)
    if len(a) == len(b) and all(keys_a[2](i) == keys_b[2](i) for i in range(len(a))):
        return [Pair(i, i) for i in range(len(a))]
    left_a, left_b = list(range(len(a))), list(range(len(b)))
    pairs: list[Pair] = []
    for key_a, key_b in zip(keys_a, keys_b):
        pairs += _by_key(key_a, key_b, left_a, left_b)
    if len(a) == len(b):
        same = set(left_a) & set(left_b)
        pairs += [Pair(i, i) for i in same]
        left_a, left_b = [i for i in left_a if i not in same], [j for j in left_b if j not in same]
    pairs += [Pair(i, None) for i in left_a]
    return sorted(pairs, key=lambda pair: pair.a or 0) + [Pair(None, j) for j in left_b]
