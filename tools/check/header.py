"""include/evaporation.h against the exported functions of crates/evaporation_c
and the #[repr(C)] structs that they take and answer; and these functions against
those of crates/evaporation, which they call.

Both sides are brought to one form. A function is its name, its parameters in
their order and what it answers; a slice is two parameters, a pointer and a
length, whose name is that of the slice with _bytes or _count, or one of these
alone. A struct is its members down to the numbers, each with its place in the
struct and the words of its name: the member `rural` of a member `mileage` may
be called rural_mileage in C. Members at the same places with the same types in
another order are told apart by these words. The numbers of a sheet stand in the
header's enum in the order in which crates/sheet/specs/Demands.antt asks them.
Every refusal is named EVP_REFUSED_.., nothing else is, the names of every other
enum share one word behind EVP_, and no two names differ by their case alone.

The pointer forms, which tools.make pointers writes, are no functions of the
crate: they are left out.

crates/evaporation_c is the static library: a crate is built as a library or as a
static library, not as both. Each of its functions has the parameters, the answer
and the clauses of the function of crates/evaporation with its name, every such
function has one, and its body is the call of that function with these parameters.
"""

import re
from collections.abc import Iterator
from pathlib import Path
from typing import NamedTuple

from tools.command import TOP

HEADER = "include/evaporation.h"
CRATE = "crates/evaporation_c/src/*.rt"
CALLED = "crates/evaporation/src"
ALL_CRATES = "crates/*/src/**/*.rt"
DEMANDS = "crates/sheet/specs/Demands.antt"
SCALARS = {"u8": "uint8_t", "u32": "uint32_t", "u64": "uint64_t", "usize": "size_t", "f64": "double", "bool": "bool"}
SIZES = {"uint8_t": 1, "bool": 1, "uint32_t": 4, "uint64_t": 8, "size_t": 8, "double": 8}
LENGTHS = ("bytes", "count")
INLINE = re.compile(r"^static inline .*?^\}$", re.M | re.S)  # a function that the header itself has
EXPORTED = re.compile(r'^#\[unsafe\(no_mangle\)\]\npub extern "C" fn (\w+)(\(.*?)^\{\n(.*?)^\}$', re.M | re.S)
FORMS_START = "/* Pointer forms: "  # the section of the header that has them
FORMS_END = "/* End of the pointer forms. */\n"
FORMS = re.compile("^%s.*?^%s" % (re.escape(FORMS_START), re.escape(FORMS_END)), re.M | re.S)
ACCEPTED, REFUSED = "EVP_ACCEPTED", "EVP_REFUSED_"


class Member(NamedTuple):
    """A parameter of a function or a member of a struct: its name, its type by
    C's name or the name of its struct, and how many there are of it."""
    name: str
    type: str
    count: int = 1


class Function(NamedTuple):
    name: str
    parameters: list[Member]
    answer: str


class Source(NamedTuple):
    """One side: functions and structs by their names; the numbers of a sheet in their order, and in the header those
    of the calls behind them."""
    functions: dict[str, Function]
    structs: dict[str, list[Member]]
    numbers: tuple[int, ...] = ()


class Number(NamedTuple):
    """A number in a struct: where it stands, the words of its name, its type."""
    place: int
    words: tuple[str, ...]
    type: str


# ------------------------------------------------------------------ the crate


def crate_text(pattern: str) -> str:
    """The files of a pattern without comments."""
    texts = [path.read_text(encoding="utf-8") for path in sorted(TOP.glob(pattern))]
    return re.sub(r"//[^\n]*", "", "\n".join(texts))


def crate_type(name: str, written: str) -> list[Member]:
    """What a parameter or member of the crate is in C."""
    slice_of = re.fullmatch(r"&(mut )?\[(\w+)\]", written)
    if slice_of:
        constant = "" if slice_of[1] else "const "
        return [Member(name, "%s%s *" % (constant, SCALARS[slice_of[2]])), Member(name + "_count", "size_t")]
    array = re.fullmatch(r"\[(\w+); (\d+)\]", written)
    if array:
        return [Member(name, SCALARS[array[1]], int(array[2]))]
    return [Member(name, SCALARS.get(written, written))]


def crate_members(text: str) -> list[Member]:
    """The members of a list such as `pub low: u64, pub high: u64`."""
    pairs = re.findall(r"(?:pub )?(\w+): (&(?:mut )?\[\w+\]|\[\w+; \d+\]|\w+)", text)
    return [member for pair in pairs for member in crate_type(*pair)]


def crate_source(exports: str, declarations: str) -> Source:
    """The functions that one text exports, and the structs that another declares."""
    functions = {
        name: Function(name, crate_members(parameters), SCALARS.get(answer, answer))
        for name, parameters, answer in re.findall(r'pub extern "C" fn (\w+)\(([^)]*)\)\s*->\s*(\w+)', exports)
    }
    structs = re.findall(r"#\[repr\(C\)\]\s*(?:#\[[^\]]*\]\s*)*pub struct (\w+) \{(.*?)\}", declarations, re.S)
    return Source(functions, {name: crate_members(members) for name, members in structs})


class Export(NamedTuple):
    """An exported function: its parameters, answer and clauses, its body, and its path in Rattle."""
    head: str
    body: str
    path: str


def exports_of(text: str, path: str = "") -> dict[str, Export]:
    """The functions that a file of a crate exports, by their names; `path` is that of the file's module."""
    plain = re.sub(r"//[^\n]*", "", text)
    return {name: Export(one_line(head), one_line(body), path + "::" + name)
            for name, head, body in EXPORTED.findall(plain)}


def one_line(text: str) -> str:
    """A text on one line, also a list that had a line for each of its words."""
    return re.sub(r",? \)", ")", " ".join(text.split())).replace("( ", "(")


def export_faults(exports: dict[str, Export], called: dict[str, Export]) -> Iterator[str]:
    """Functions of the static library that are not the calls of the library with their names."""
    for name in sorted(exports.keys() ^ called.keys()):
        yield "%s is in the %s alone" % (name, "static library" if name in exports else "library that it calls")
    for name in sorted(exports.keys() & called.keys()):
        head = called[name].head
        if exports[name].head != head:
            yield "%s: it is `%s` in the static library, and `%s` in the library" % (name, exports[name].head, head)
        words = re.findall(r"(\w+): ", head.partition(")")[0])
        body = "%s(%s)" % (called[name].path, ", ".join(words))
        if exports[name].body != body:
            yield "%s: its body is `%s`, and not `%s`" % (name, exports[name].body, body)


def own_export_faults() -> Iterator[str]:
    """The same of the crates."""
    exports: dict[str, Export] = {}
    called: dict[str, Export] = {}
    for path in sorted(TOP.glob(CRATE)):
        exports |= exports_of(path.read_text(encoding="utf-8"))
    for path in sorted((TOP / CALLED).glob("*.rt")):
        module = "evaporation" if path.stem == "lib" else "evaporation::" + path.stem
        called |= exports_of(path.read_text(encoding="utf-8"), module)
    yield from export_faults(exports, called)


def numbers_asked(demands: str) -> tuple[int, ...]:
    """The numbers of the demands on a sheet, in their order."""
    return tuple(map(int, re.findall(r"\bdemand (\d+) ", re.sub(r"--[^\n]*", "", demands))))


# ----------------------------------------------------------------- the header


def header_member(written: str) -> list[Member]:
    """The members of a declaration such as `uint64_t low, high` or `const uint8_t *sheet`."""
    kind, names = re.fullmatch(r"((?:const )?(?:struct )?\w+) ?(.*)", " ".join(written.split())).groups()
    found = []
    for name in names.split(","):
        star, plain, count = re.fullmatch(r"\s*(\*?)(\w+)(?:\[(\d+)\])?\s*", name).groups()
        found.append(Member(plain, kind.removeprefix("struct ") + (" *" if star else ""), int(count or 1)))
    return found


def header_parameters(written: str) -> list[Member]:
    if written == "void":
        return []
    return [member for one in written.split(",") for member in header_member(one)]


def header_source(text: str) -> Source:
    """What a header declares, but for its pointer forms."""
    text = FORMS.sub("", text)
    text = re.sub(r"/\*.*?\*/", "", text, flags=re.S)
    for name, value in re.findall(r"^#define (\w+) (\d+)$", text, re.M):
        text = text.replace("[%s]" % name, "[%s]" % value)  # the length of an array
    text = re.sub(r"^#(?:.*\\\n)*.*$", "", text, flags=re.M)
    text = INLINE.sub("", text)
    functions = {
        name: Function(name, header_parameters(parameters), answer.removeprefix("struct "))
        for answer, name, parameters in re.findall(r"((?:struct )?\w+) (evp_\w+)\(([^)]*)\);", text)
    }
    structs = {
        name: [member for declaration in members.split(";")[:-1] for member in header_member(declaration)]
        for name, members in re.findall(r"struct (\w+) \{(.*?)\};", text, re.S)
    }
    numbers = re.search(r"enum evp_number \{\s*EVP_ACCEPTED = 0,(.*?)\};", text, re.S)
    return Source(functions, structs, tuple(map(int, re.findall(r"= (\d+)", numbers[1]))) if numbers else ())


def header_enums(text: str) -> dict[str, list[str]]:
    """The names of each enum."""
    text = re.sub(r"/\*.*?\*/", "", text, flags=re.S)
    return {name: re.findall(r"\b(EVP_\w+) =", body) for name, body in re.findall(r"enum (\w+) \{(.*?)\};", text, re.S)}


def header_names(text: str) -> set[str]:
    """Every name that a header gives: macros, enums and their names, structs, functions."""
    text = re.sub(r"/\*.*?\*/", "", text, flags=re.S)
    return set(re.findall(r"\b(?:EVP|evp)_\w+", text))


def name_faults(text: str) -> Iterator[str]:
    """Names by which a refusal, a call and another number could be taken for one another."""
    for enum, names in header_enums(text).items():
        refusals = enum == "evp_number"
        shared = {name.split("_")[1] for name in names if name != ACCEPTED}
        if refusals and shared != {"REFUSED"}:
            yield "enum %s: not every refusal is named %s.." % (enum, REFUSED)
        elif not refusals and (len(shared) != 1 or "REFUSED" in shared):
            yield "enum %s: its names do not share one word behind EVP_, one other than REFUSED" % enum
    spelled: dict[str, str] = {}
    for name in sorted(header_names(text)):
        other = spelled.setdefault(name.lower(), name)
        if other != name:
            yield "%s and %s differ by their case alone" % (other, name)


# ------------------------------------------------------------------ both sides


def layout(source: Source, struct: str) -> tuple[list[Number], int, int]:
    """The numbers of a struct, its size and its alignment, by the rules of C."""
    numbers, at, widest = [], 0, 1
    for member in source.structs[struct]:
        if member.type in source.structs:
            inner, size, aligned = layout(source, member.type)
        else:
            size = aligned = SIZES[member.type]
            inner = [Number(0, (), member.type)]
        at = -(-at // aligned) * aligned
        widest = max(widest, aligned)
        for _ in range(member.count):
            numbers += [Number(at + n.place, tuple(sorted((*member.name.split("_"), *n.words))), n.type) for n in inner]
            at += size
    return numbers, -(-at // widest) * widest, widest


def type_faults(where: str, ours: Source, theirs: Source, pair: tuple[str, str]) -> Iterator[str]:
    """What differs between a type of the crate and one of the header."""
    rust, c = pair
    if (rust in ours.structs) != (c in theirs.structs):
        yield "%s: %s in the crate, %s in the header" % (where, rust, c)
    elif rust not in ours.structs:
        if rust != c:
            yield "%s: %s in the crate, %s in the header" % (where, rust, c)
    elif layout(ours, rust) != layout(theirs, c):
        found, expected = layout(theirs, c)[0], layout(ours, rust)[0]
        first = next((pair for pair in zip(found, expected) if pair[0] != pair[1]), (None, None))
        yield "%s: struct %s is not %s: %s in the header, %s in the crate" % (where, c, rust, *map(number_text, first))


def number_text(number: Number | None) -> str:
    if number is None:
        return "another number of members"
    return "%s %s at byte %d" % (number.type, "_".join(number.words), number.place)


def name_differs(ours: Member, theirs: Member) -> bool:
    """Whether two parameters have other names; the length of a slice has several."""
    if ours.name == theirs.name:
        return False
    base, _, last = ours.name.rpartition("_")
    return last != "count" or theirs.name not in ("%s_bytes" % base, *LENGTHS)


def function_faults(ours: Source, theirs: Source, name: str) -> Iterator[str]:
    a, b = ours.functions[name], theirs.functions[name]
    yield from type_faults("%s, what it answers" % name, ours, theirs, (a.answer, b.answer))
    if len(a.parameters) != len(b.parameters):
        yield "%s: %d parameters in the crate, %d in the header" % (name, len(a.parameters), len(b.parameters))
        return
    for position, (mine, its) in enumerate(zip(a.parameters, b.parameters), 1):
        where = "%s, parameter %d" % (name, position)
        if name_differs(mine, its):
            yield "%s: %s in the crate, %s in the header" % (where, mine.name, its.name)
        yield from type_faults(where, ours, theirs, (mine.type, its.type))


def faults(ours: Source, theirs: Source) -> Iterator[str]:
    """What differs between the crate and the header."""
    for name in sorted(ours.functions.keys() ^ theirs.functions.keys()):
        yield "%s is in the %s alone" % (name, "crate" if name in ours.functions else "header")
    both = sorted(ours.functions.keys() & theirs.functions.keys())
    for name in both:
        yield from function_faults(ours, theirs, name)
    yield from pairing_faults([pair for name in both for pair in struct_pairs(ours, theirs, name)])
    used = reached(theirs, (f.answer for f in theirs.functions.values())) | reached(
        theirs, (m.type for f in theirs.functions.values() for m in f.parameters))
    for name in sorted(theirs.structs.keys() - used):
        yield "struct %s is used by no function" % name
    first = theirs.numbers[:len(ours.numbers)]
    if first != ours.numbers:
        yield "the numbers of a sheet are asked as %s, and the header has %s" % (ours.numbers, first)


def struct_pairs(ours: Source, theirs: Source, name: str) -> list[tuple[str, str]]:
    """Which structs of the crate and of the header stand in one another's place."""
    a, b = ours.functions[name], theirs.functions[name]
    pairs = [(a.answer, b.answer), *((x.type, y.type) for x, y in zip(a.parameters, b.parameters))]
    return [(rust, c) for rust, c in pairs if rust in ours.structs]


def pairing_faults(pairs: list[tuple[str, str]]) -> Iterator[str]:
    """A struct that stands for two of the other side."""
    for side, other in ((0, 1), (1, 0)):
        partners: dict[str, set[str]] = {}
        for pair in pairs:
            partners.setdefault(pair[side], set()).add(pair[other])
        for name, found in sorted(partners.items()):
            if len(found) > 1:
                yield "%s is %s" % (name, " and ".join(sorted(found)))


def reached(source: Source, names) -> set[str]:
    """The structs among these, and those that they hold."""
    found: set[str] = set()
    for name in names:
        if name in source.structs and name not in found:
            found |= {name} | reached(source, (member.type for member in source.structs[name]))
    return found


def both_sources() -> tuple[Source, Source]:
    """The crate's, whose structs may be those of a crate below, and the header's."""
    header = Path(TOP / HEADER).read_text(encoding="ascii")
    asked = numbers_asked(Path(TOP / DEMANDS).read_text(encoding="utf-8"))
    return crate_source(crate_text(CRATE), crate_text(ALL_CRATES))._replace(numbers=asked), header_source(header)
