"""c/pointer_forms.c and its section of include/evaporation.h: each call with a struct once more, by pointers.

For hosts that pass no struct by value. A call evp_NAME whose parameters or
answer have a struct gets the form evp_NAME_to. Structs among its parameters
are read where pointers point. Of an answer with two members the first is
returned and the second written where the last pointer points; a larger one is
written whole where `answer` points, and its first member is returned as well.
evp_number_text, which the header itself has, gets a form that the libraries have.
"""

import textwrap
from collections.abc import Iterator

from tools.check.header import FORMS, FORMS_END, FORMS_START, HEADER, Function, Member, Source, header_source
from tools.command import TOP, MadeFile
from tools.make.error import MakeError

FILE = "c/pointer_forms.c"
WIDTH = 120
ABOUT = """\
%sfor hosts that pass no struct by value, each call that takes or answers one once more. A struct that
 * the call takes is read where a pointer points. Of an answer of two numbers the first is returned, and the second is
 * written where the last pointer points; a larger answer is written whole where `answer` points, and its first number
 * is returned too. Where the last pointer is null, that is not written. All else is as the call has it, and what is
 * written overlaps nothing else that is handed over. A host without structs hands over an array: every member has 8
 * bytes. evp_number_text_to writes the sentence of evp_number_text and a zero byte, cut to text_bytes, and returns the
 * length of the whole sentence, at most 127.
 *
 * They are thin C over the calls, c/pointer_forms.c, which is compiled into both libraries. They are tested against the
 * calls, not proved. `python3 -m tools.make pointers` writes them. */
""" % FORMS_START
TEXT = "size_t evp_number_text_to(uint64_t number, char *text, size_t text_bytes)"
BEGIN = """\
/* The pointer forms of include/evaporation.h, thin C over the calls. `python3 -m tools.make pointers` writes this file
 * from the header. */
#include "evaporation.h"
"""
TEXT_BODY = """
%s {
    const char *whole = evp_number_text(number);
    size_t length = 0;
    for (; whole[length] != 0; length++)
        if (length + 1 < text_bytes)
            text[length] = whole[length];
    if (text_bytes > 0)
        text[length < text_bytes ? length : text_bytes - 1] = 0;
    return length;
}
""" % TEXT


def is_struct(source: Source, kind: str) -> bool:
    return kind in source.structs


def typed(source: Source, member: Member) -> str:
    """A parameter of a form: what the call takes by value comes by a pointer."""
    if is_struct(source, member.type):
        return "const struct %s *%s" % member[:2][::-1]
    return "%s%s" % (member.type if member.type.endswith("*") else member.type + " ", member.name)


def written(source: Source, answer: str) -> Member:
    """What a form writes besides what it returns."""
    members = source.structs[answer]
    if len(members) == 2:
        return Member(members[1].name, "%s *" % members[1].type)
    return Member("answer", "struct %s *" % answer)


def forms(source: Source) -> Iterator[Function]:
    """The calls that get a form."""
    for call in source.functions.values():
        if is_struct(source, call.answer):
            yield call
        elif any(is_struct(source, member.type) for member in call.parameters):
            raise MakeError("%s takes a struct and answers none: there is no form for that" % call.name)


def wrapped(head: str, words: list[str], end: str) -> str:
    """A list in parentheses behind `head`, its lines one below the other."""
    whole = ", ".join(word.replace(" ", "\0") for word in words) + end.replace(" ", "\0")
    lines = textwrap.wrap(whole, WIDTH - len(head), break_long_words=False, break_on_hyphens=False)
    return head + ("\n" + " " * len(head)).join(lines).replace("\0", " ")


def declaration(source: Source, call: Function, end: str) -> str:
    """The form of a call, with what stands behind its parameters."""
    parameters = [typed(source, member) for member in (*call.parameters, written(source, call.answer))]
    return wrapped("uint64_t %s_to(" % call.name, parameters, end)


def definition(source: Source, call: Function) -> str:
    first, *_ = source.structs[call.answer]
    last = written(source, call.answer)
    found = "found" if last.name == "answer" else "answer"
    value = found if last.name == "answer" else "%s.%s" % (found, last.name)
    handed = ["*" * is_struct(source, member.type) + member.name for member in call.parameters]
    body = (
        wrapped("    const struct %s %s = %s(" % (call.answer, found, call.name), handed, ");"),
        "    if (%s != NULL)" % last.name, "        *%s = %s;" % (last.name, value),
        "    return %s.%s;" % (found, first.name), "}",
    )
    return "\n".join(("", declaration(source, call, ") {"), *body, ""))


def header_made(text: str, source: Source) -> str:
    """The header with the section of the forms written again."""
    if len(FORMS.findall(text)) != 1:
        raise MakeError("%s has no section, or several, that starts with %r" % (HEADER, FORMS_START))
    lines = "".join(declaration(source, call, ");") + "\n" for call in forms(source)) + TEXT + ";\n"
    return FORMS.sub(lambda _: ABOUT + lines + FORMS_END, text)


def file_made(source: Source) -> str:
    return BEGIN + "".join(definition(source, call) for call in forms(source)) + TEXT_BODY


def files() -> Iterator[MadeFile]:
    text = (TOP / HEADER).read_text(encoding="ascii")
    source = header_source(text)
    yield MadeFile(HEADER, header_made(text, source).encode())
    yield MadeFile(FILE, file_made(source).encode())
