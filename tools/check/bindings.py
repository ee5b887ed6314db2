"""bindings/rust against include/evaporation.h: its declarations, its struct's members and its version.

Nothing else checks what a binding declares: the linker takes a function by its
name alone. The declarations of bindings/rust/src/ffi.rs are brought to the form
that the check `header` has, and held against the header's.
"""

import re
from collections.abc import Iterator

from tools.check import header
from tools.check.header import SCALARS, Function, Member, Source
from tools.command import TOP

RUST = "bindings/rust/src/ffi.rs"
CARGO = "bindings/rust/Cargo.toml"


def rust_member(name: str, written: str) -> Member:
    """What a parameter or member of the binding is in C."""
    pointer = re.fullmatch(r"\*(const|mut) (\w+)", written)
    if pointer:
        return Member(name, "%s%s *" % ("const " if pointer[1] == "const" else "", SCALARS[pointer[2]]))
    array = re.fullmatch(r"\[(\w+); (\d+)\]", written)
    if array:
        return Member(name, SCALARS[array[1]], int(array[2]))
    return Member(name, SCALARS.get(written, written))


def rust_members(text: str) -> list[Member]:
    return [rust_member(*pair) for pair in re.findall(r"(?:pub )?(\w+): (\*(?:const|mut) \w+|\[\w+; \d+\]|\w+)", text)]


def rust_source(text: str) -> Source:
    text = re.sub(r"//[^\n]*", "", text)
    functions = {
        name: Function(name, rust_members(parameters), SCALARS.get(answer, answer))
        for name, parameters, answer in re.findall(r"pub fn (evp_\w+)\(([^)]*)\)\s*->\s*(\w+);", text)
    }
    structs = re.findall(r"#\[repr\(C\)\]\s*pub struct (\w+) \{(.*?)\}", text, re.S)
    return Source(functions, {name: rust_members(members) for name, members in structs})


def version_in(text: str) -> str:
    """The library's version by the header's macros."""
    return ".".join(re.findall(r"^#define EVP_LIBRARY_(?:MAJOR|MINOR|PATCH) (\d+)", text, re.M))


def faults() -> Iterator[str]:
    declared = (TOP / header.HEADER).read_text(encoding="ascii")
    for fault in header.faults(rust_source((TOP / RUST).read_text(encoding="utf-8")), header.header_source(declared)):
        yield "%s: %s" % (RUST, fault.replace("the crate", "the binding"))
    cargo = re.search(r'^version = "(.*)"', (TOP / CARGO).read_text(encoding="utf-8"), re.M)
    if cargo[1] != version_in(declared):
        yield "%s has version %s, the header %s" % (CARGO, cargo[1], version_in(declared))


def count() -> int:
    """The functions that the binding declares."""
    return len(rust_source((TOP / RUST).read_text(encoding="utf-8")).functions)
