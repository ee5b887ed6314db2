"""The public calls and the programs: rules of their sources that no proof can state.

Three rules. The laws of crates/program by which bytes count as read and a text as
written (`taken`, `missed`, `wrote`, `stopped`) are used by the proofs of that crate
alone: a program has the facts from a function that reads or writes. No public function
in src/lib.rt of a crate with public calls has a `requires`, and no function that is
exported to C has one: every input has an answer. A program writes an answer in one
place for each stream, by a function of crates/program, calls each of its functions
that lead to standard output once and has no loop, so that it writes at most one answer
there, also to the system's streams, of which no contract says what they have; its
`main` hands its streams to the one function that does all, and is nothing else.
"""

import re
from collections.abc import Iterator
from pathlib import Path

from tools.command import TOP, crate_files

# Crates whose src/lib.rt has the public calls, in Rattle.
CALLS = (
    "inventory", "checks", "ledger_calls", "shared_ledger_calls", "pooling_calls", "marking", "explanation",
    "factor_table", "season_report", "map_cells", "map_rows", "speciation", "species_report", "report_text",
    "evaporation",
)
# public calls in another file of such a crate
BESIDE = ("map_cells/src/sums.rt", "species_report/src/composition.rt", "factor_table/src/table.rt")
EXPORTS = ("evaporation", "evaporation_c")  # the crates whose functions C calls, in any of their files
# Those that answer a sheet, and where its bytes are from; crates/NAME_run has what each does.
PROGRAMS = {"report": "OneSheet", "species": "OneSheet", "pool": "TwoSheets"}
START = "evp_run"  # where such a program starts

# The laws by which something counts as read or written, and the files that may name them.
LAWS = ("taken", "missed", "wrote", "stopped")
SHUT = ("crates/program/specs/Reads.antt", "crates/program/specs/Writes.antt")
READERS = "crates/program/proofs/"

# By itself or behind a module; behind a value, as in i.loop-test.taken, the word is a field.
LAW = re.compile(r"(?:(?<![\w'.-])|\b[A-Z]\w*\.)(%s)(?![\w'-])" % "|".join(LAWS))
LABEL = re.compile(r"\b((?:requires|ensures)\*?) \w+ \{")  # a clause with its name
USE = re.compile(r"\buse Rattle\.program((?:\.\w+)*)(\.\{)?")
WHOLE = (".specs.Reads", ".specs.Writes")
OUT = re.compile(r"\bprogram::(?:one_sheet::print_sheet|write_answer)\(")
ERROR = re.compile(r"\bprogram::write_text::<STANDARD_ERROR, E>\(")
WRITES = re.compile(r"\b(?:print_sheet|write_answer|write_text)\b")  # whatever of crates/program writes an answer
# What reads or writes by itself; a program's code has the trait Write for its bounds, and reads by Sources.
TRAITS = re.compile(r"^use std::io::Write;$", re.M)
OWN = re.compile(r"\b(?:io|fs|env|libc|os)::|\b(?:e?print(?:ln)?|write(?:ln)?)!|"
                 r"\.(?:write\w*|flush|stdout|stderr|stdin|reader)\(")
MACRO = re.compile(r"\b(?:write(?:ln)?)!\(\s*(\w+)")
PRINTING = re.compile(r"\be?print(?:ln)?!|\bstdout\(|\bstderr\(")
MAIN = """
#![tactic(auto)]
use program::Streams;
use program::sources::%(sheets)s;
use std::process::ExitCode;
fn main(rt: HostRuntime) -> ExitCode {
    let sheets = %(sheets)s::new(&rt, "%(name)s");
    let mut streams = Streams {
        out: rt.stdout(),
        err: rt.stderr(),
    };
    ExitCode::from(%(name)s_run::%(start)s(&sheets, &mut streams))
}
"""
FUNCTION = re.compile(r"^ *(?P<head>(?:pub )?(?:extern \"C\" )?)fn (?P<name>\w+)(?P<rest>.*?)(?:^ *| )\{$", re.M | re.S)
IMPL = re.compile(r"^impl\b[^{]*", re.M)
LOOP = re.compile(r"\b(?:while|for|loop)\b")


def plain(text: str, comment: str) -> str:
    """A text without its comments."""
    return "\n".join(line.split(comment)[0] for line in text.splitlines()) + "\n"


def law_faults(place: str, text: str) -> Iterator[str]:
    """Whether a file that may not do so can name a law by which something counts as read or written."""
    if place in SHUT or place.startswith(READERS):
        return
    code = LABEL.sub(r"\1 {", plain(text, "--" if place.endswith(".antt") else "//"))
    if "Rattle.program" not in code:
        return
    for name in sorted(set(LAW.findall(code))):
        yield "%s names `%s`: that is for the functions of program that read and write, and for no other" % (
            place, name)
    if any(path in ("", ".specs") or (path in WHOLE and not names) for path, names in USE.findall(code)):
        yield "%s uses the whole of program's Reads or Writes: it names what it uses of it, in braces" % place


def demanding(text: str, exported: bool) -> list[str]:
    """The functions of a source with a `requires`: the public ones, or those that are exported to C."""
    found = FUNCTION.finditer(plain(text, "//"))
    wanted = "extern" if exported else "pub "
    return [match["name"] for match in found if wanted in match["head"] and re.search(r"\brequires\b", match["rest"])]


def public(text: str) -> list[str]:
    """The public functions of a source."""
    return [match["name"] for match in FUNCTION.finditer(plain(text, "//")) if match["head"].startswith("pub ")]


def roots() -> list[Path]:
    """The files with the public calls in Rattle."""
    return [TOP / "crates" / name for name in (*("%s/src/lib.rt" % crate for crate in CALLS), *BESIDE)]


def exporting() -> list[Path]:
    """The files with functions that C calls."""
    return [file for crate in EXPORTS for file in sources(crate)]


def call_faults() -> Iterator[str]:
    """Public calls that require something of their caller."""
    for file in roots():
        for function in demanding(file.read_text(encoding="utf-8"), exported=False):
            yield "%s: `%s` is public and has a `requires`" % (file.relative_to(TOP), function)
    for file in exporting():
        for function in demanding(file.read_text(encoding="utf-8"), exported=True):
            yield "%s: `%s` is exported and has a `requires`" % (file.relative_to(TOP), function)


def bodies(code: str) -> dict[str, str]:
    """The functions of a source, each with its body."""
    parts = re.split(r"^(?:pub )?(?:extern \"C\" )?fn (\w+)", code, flags=re.M)
    return {name: part.partition("\n{\n")[2] or part.partition("{\n")[2]
            for name, part in zip(parts[1::2], parts[2::2])}


def calls_of(function: str, code: str) -> int:
    """How often a function of the same file is called in a text."""
    return len(re.findall(r"(?<![:\w])(?<!fn )%s(?:::<[^>]*>)?\(" % function, code))


def writing(found: dict[str, str]) -> set[str]:
    """The functions that write to standard output, themselves or by those that they call."""
    names = {name for name, body in found.items() if OUT.search(body)}
    while more := {name for name, body in found.items() if any(calls_of(called, body) for called in names)} - names:
        names |= more
    return names


def program_faults(name: str, text: str) -> Iterator[str]:
    """What lets a program write more than one answer to standard output, or none, as far as its source shows it."""
    code = plain(text, "//")
    for stream, write, most in (("standard output", OUT, 1), ("standard error", ERROR, 1)):
        count = len(write.findall(code))
        if count > most or (write is OUT and not count):
            yield "%s: an answer is written to %s in %d places; one is wanted" % (name, stream, count)
    if len(WRITES.findall(code)) != len(OUT.findall(code)) + len(ERROR.findall(code)):
        yield "%s: a function of crates/program that writes is named otherwise than in a call of it" % name
    if OWN.search(TRAITS.sub("", code)):
        yield "%s: it reads or writes by itself; crates/program does that" % name
    if LOOP.search(IMPL.sub("", code)):
        yield "%s: it has a loop, in which it could write twice" % name
    for function in sorted(writing(bodies(code)) | {START}):
        count = calls_of(function, code)
        if count != (function != START):
            yield "%s: `%s`, which writes, is called %d times" % (name, function, count)


def main_faults(name: str, text: str) -> Iterator[str]:
    """Whether the source with `main` is more or less than one call, to which its sheets and its streams are handed."""
    expected = MAIN % {"name": name, "sheets": PROGRAMS[name], "start": START}
    if plain(text, "//").split() != expected.split():
        yield "%s: `main` is more or less than a call of `%s_run::%s`" % (name, name, START)


def shared_faults(text: str) -> Iterator[str]:
    """Whether crates/program writes an answer elsewhere than in the one function for that; what it says besides goes
    to standard error."""
    code = plain(text, "//")
    found = bodies(code)
    for method in ("write", "flush"):
        count = len(re.findall(r"\.%s\(" % method, code))
        if count != 1 or ".%s(" % method not in found["write_text"]:
            yield "program: `%s` is called elsewhere than once in `write_text`" % method
    if set(MACRO.findall(code)) - {"err"} or PRINTING.search(code):
        yield "program: something is printed elsewhere than on standard error"
    output = "write_text::<STANDARD_OUTPUT, W>(&mut streams.out, text)"
    if len(re.findall(r"\bwrite_text\b", code)) != 2 or found["write_answer"].count(output) != 1:
        yield "program: `write_text` is called elsewhere than once in `write_answer`, for standard output"
    for function, caller in (("write_answer", "write_sheet_text"), ("write_sheet_text", "answer"),
                             ("answer", "print_sheet")):
        if calls_of(function, code) != 1 or calls_of(function, found[caller]) != 1 or LOOP.search(found[caller]):
            yield "program: `%s` is called elsewhere than once in `%s`, which has no loop" % (function, caller)


def shared() -> str:
    """The code of crates/program, all of its files."""
    return "\n".join(file.read_text(encoding="utf-8") for file in sources("program"))


def sources(crate: str) -> list[Path]:
    return sorted((TOP / "crates" / crate / "src").glob("**/*.rt"))


def faults() -> Iterator[str]:
    """What is wrong, of all three rules."""
    for file in crate_files(".antt", ".rt"):
        yield from law_faults(str(file.relative_to(TOP)), file.read_text(encoding="utf-8"))
    yield from call_faults()
    crates = TOP / "crates"
    for name in PROGRAMS:
        yield from program_faults(name, (crates / (name + "_run") / "src" / "lib.rt").read_text(encoding="utf-8"))
        yield from main_faults(name, (crates / name / "src" / "main.rt").read_text(encoding="utf-8"))
    yield from shared_faults(shared())


def count() -> int:
    """How many public and exported functions are looked at."""
    return sum(len(public(file.read_text(encoding="utf-8"))) for file in {*roots(), *exporting()})
