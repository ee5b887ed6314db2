"""The check of the public calls and of the programs' sources."""

import unittest

from tools.check import calls
from tools.command import TOP

IMPORT = "ghost use Rattle.program.specs.Reads.{Taken, taken-once};\n"
ASKED = """pub fn arrive(
    words: &mut [u64],
) -> Check
    requires { 1 ≤ row }
    ensures { row ≤ result }
{
    inner(row)
}
"""


def program(name: str) -> str:
    return (TOP / "crates" / (name + "_run") / "src" / "lib.rt").read_text(encoding="utf-8")


class Taken(unittest.TestCase):
    def told(self, place: str, text: str) -> int:
        return len(list(calls.law_faults(place, text)))

    def test_a_program_has_it_from_a_function_that_reads(self):
        self.assertEqual(self.told("crates/report_run/src/lib.rt", IMPORT + "// taken from a file\n"), 0)
        self.assertEqual(self.told("crates/pool_run/proofs/answer/Proof.antt",
                                   "use Rattle.program.specs.Reads.{taken-once}\nx = taken-more\n"), 0)
        self.assertEqual(self.told("crates/pool_run/src/lib.rt",
                                   IMPORT + "    requires taken { Taken 1 s.now }\n"), 0)
        self.assertEqual(self.told("crates/pool_run/proofs/a/Answers.antt",
                                   "use Rattle.program.specs.Reads.{taken-once}\nx c = c.loop-test.taken\n"), 0)

    def test_a_proof_of_another_crate_may_not_name_it(self):
        for line in ("use Rattle.program.specs.Reads.{taken-once, taken}",
                     "use Rattle.program.specs.Reads.{taken as t}",
                     "use Rattle.program.specs.{Reads}\nx = Reads.taken 1", "use Rattle.program as p",
                     "use Rattle.program.specs.Reads as R", "pub use Rattle.program.specs.Reads",
                     "use Rattle.program.specs.Reads.{missed}", "use Rattle.program.specs.Writes.{wrote}",
                     "use Rattle.program.specs.Writes.{stopped}", "use Rattle.program.specs.Writes as W"):
            self.assertNotEqual(self.told("crates/pool_run/proofs/evp_run/Proof.antt", line + "\n"), 0, line)

    def test_the_proofs_of_program_may(self):
        text = "use Rattle.program.specs.Reads.{taken, Reads}\n"
        self.assertEqual(self.told("crates/program/proofs/Taking.antt", text), 0)
        self.assertEqual(self.told("crates/program/specs/Other.antt", text), 1)


class Requires(unittest.TestCase):
    def test_a_public_function_is_found(self):
        self.assertEqual(calls.demanding(ASKED, exported=False), ["arrive"])

    def test_a_public_method_is_found(self):
        method = "impl A {\n" + "".join("    %s\n" % line for line in ASKED.splitlines()) + "}\n"
        self.assertEqual(calls.demanding(method, exported=False), ["arrive"])
        self.assertEqual(calls.demanding(method.replace("pub fn", "fn"), exported=False), [])

    def test_a_private_one_may_require(self):
        self.assertEqual(calls.demanding(ASKED.replace("pub fn", "fn"), exported=False), [])

    def test_that_of_the_next_function_is_not_taken_for_it(self):
        public = "pub fn a(s: &[u8]) -> u64\n    ensures { result ≡ 1 }\n{\n    1\n}\n\n"
        self.assertEqual(calls.demanding(public + ASKED.replace("pub fn", "fn"), exported=False), [])
        self.assertEqual(calls.demanding("pub fn a()\n{\n}\n// requires nothing\n" + ASKED, exported=False), ["arrive"])

    def test_a_function_without_clauses_before_it(self):
        before = "fn a(x: u64) {\n    b(x)\n}\n\n"
        self.assertEqual(calls.demanding(before + ASKED, exported=False), ["arrive"])
        self.assertEqual(calls.demanding("pub " + before + ASKED.replace("pub fn", "fn"), exported=False), [])

    def test_a_word_of_a_comment_is_no_clause(self):
        self.assertEqual(calls.demanding("pub fn a() // requires nothing\n{\n}\n", exported=False), [])

    def test_an_exported_function_is_found(self):
        exported = ASKED.replace("pub fn", 'pub extern "C" fn')
        self.assertEqual(calls.demanding(exported, exported=True), ["arrive"])
        self.assertEqual(calls.demanding(ASKED, exported=True), [])

    def test_each_crate_has_calls_that_are_looked_at(self):
        found = {file.parent.parent.name for file in calls.roots() if calls.public(file.read_text(encoding="utf-8"))}
        self.assertEqual(found, set(calls.CALLS))


class Programs(unittest.TestCase):
    def faults(self, name: str, text: str) -> list[str]:
        return list(calls.program_faults(name, text))

    def test_as_they_are(self):
        for name in calls.PROGRAMS:
            self.assertEqual(self.faults(name, program(name)), [])
            main = (TOP / "crates" / name / "src" / "main.rt").read_text(encoding="utf-8")
            self.assertEqual(list(calls.main_faults(name, main)), [])
        self.assertEqual(list(calls.shared_faults(calls.shared())), [])

    def test_which_functions_write(self):
        for name, write in (("report", set()), ("species", set()), ("pool", {"answer"})):
            self.assertEqual(calls.writing(calls.bodies(program(name))), write | {calls.START})

    def test_an_answer_more_or_less(self):
        line = "    program::one_sheet::print_sheet(&Report, sheets, &mut text, streams)\n"
        for wrong in (line.replace(")\n", ");\n") + line, "    Status::Neither\n",
                      "    while %s == Status::Neither {}\n    Status::Neither\n" % line.strip(),
                      "    let _ = streams.out.write(&bytes);\n" + line,
                      "    let _ = write!(streams.out, \"x\");\n" + line,
                      "    let _ = streams.out.flush();\n" + line, "    println!(rt; \"x\");\n" + line,
                      "    std::io::copy(&mut streams.out);\n" + line,
                      "    program::write_answer(\"report\", Status::Accepted, b\"x\", streams);\n" + line,
                      "    program::write_text::<STANDARD_OUTPUT, W>(&mut streams.out, b\"x\");\n" + line,
                      "    use program::write_text;\n    write_text::<1, W>(&mut streams.out, b\"x\");\n" + line):
            text = program("report")
            self.assertEqual(text.count(line), 1)
            self.assertNotEqual(self.faults("report", text.replace(line, wrong)), [], wrong)

    def test_a_second_refusal(self):
        line = "    if program::write_text::<STANDARD_ERROR, E>(err, put_line(&mut line, refusal)) {\n"
        text = program("pool")
        self.assertEqual(text.count(line), 1)
        for wrong in ("    program::write_text::<STANDARD_ERROR, E>(err, b\"x\");\n",
                      "    program::write_text::<2, E>(err, b\"x\");\n"):
            self.assertNotEqual(self.faults("pool", text.replace(line, wrong + line)), [], wrong)

    def test_a_function_that_calls_itself(self):
        line = "            program::write_answer(\"pool\", Status::Accepted, &pooled[..end], streams)"
        text = program("pool")
        self.assertEqual(text.count(line), 1)
        self.assertNotEqual(
            self.faults("pool", text.replace(line, "    answer(first, second, streams);\n" + line)), [])

    def test_a_main_is_one_call(self):
        text = (TOP / "crates" / "report" / "src" / "main.rt").read_text(encoding="utf-8")
        line = "    let sheets = "
        for old, new in (("report_run::", "species_run::"), ("OneSheet", "TwoSheets"),
                         ("out: rt.stdout()", "out: rt.stderr()"),
                         ("    ExitCode::from", "    report_run::evp_run(&sheets, &mut streams);\n    ExitCode::from"),
                         (line, "    let _ = rt.stdout();\n" + line),
                         ("ExitCode::from(report", "let _ = ExitCode::from(report"), ('"report"', '"species"')):
            with self.subTest(new=new):
                self.assertIn(old, text)
                self.assertNotEqual(list(calls.main_faults("report", text.replace(old, new))), [])

    def test_what_the_programs_share_writes_in_one_function(self):
        text = calls.shared()
        write = "    if write_text::<STANDARD_OUTPUT, W>(&mut streams.out, text) {"
        for old, wrong in ((write, write.replace("text) {", "&text[1..]) {")), (write, "    if true {"),
                           (write, write.replace(" {", " & write_text::<1, W>(&mut streams.out, text) {")),
                           (write, write.replace("if ", "").replace(" {", ";\n") + write),
                           (write, write.replace("OUTPUT", "ERROR")),
                           ('    let _ = write!(err, "{why}");', '    let _ = write!(out, "{why}");'),
                           ('    let _ = write!(err, "{why}");', '    let _ = err.write(why);'),
                           ("    out.flush().is_ok()\n", "    out.flush().is_ok() & out.flush().is_ok()\n"),
                           ('    let _ = write!(err, "{why}");', '    println!(rt; "x");'),
                           ("        Ok(input) => answer(made, &input, text, streams),\n",
                            "        Ok(input) => {\n            answer(made, &input, text, streams);\n"
                            "            answer(made, &input, text, streams)\n        }\n"),
                           ("    write_sheet_text::<T, W, E>(input, &text[..end], streams)\n",
                            "    for _ in 0..2 {}\n    write_sheet_text::<T, W, E>(input, &text[..end], streams)\n"),
                           ("    write_sheet_text::<T, W, E>(input, &text[..end], streams)\n",
                            "    write_sheet_text::<T, W, E>(input, &text[..end], streams);\n"
                            "    write_sheet_text::<T, W, E>(input, &text[..end], streams)\n"),
                           ("    write_answer(T::NAME, status_of(input.bytes), text, streams)\n",
                            "    for _ in 0..2 {}\n"
                            "    write_answer(T::NAME, status_of(input.bytes), text, streams)\n")):
            self.assertEqual(text.count(old), 1, old)
            self.assertNotEqual(list(calls.shared_faults(text.replace(old, wrong))), [], wrong)


if __name__ == "__main__":
    unittest.main()
