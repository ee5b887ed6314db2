"""Writes the C that evaporation.dll is made of, besides the proved code, and the list of what it exports.

python3 release/thunks.py c            a thunk for each call: it has the calling convention of Windows, and calls the
                                       proved function by that of the System V ABI, for which it was compiled
python3 release/thunks.py def          evaporation.def: every call and pointer form
python3 release/thunks.py image FILE   the assembly that takes the linked image of the proved code, FILE, whose symbols
                                       `nm` lists on standard input, into the DLL, byte for byte
"""

import re
import sys
from pathlib import Path

TOP = Path(__file__).resolve().parents[1]
sys.path.insert(0, str(TOP))

from tools.check.header import FORMS, HEADER, Function, Source, header_source  # noqa: E402, behind the path to tools

PREFIX = "sysv_"  # of a proved function's name in the DLL
C = """\
/* The thunks of evaporation.dll, written by release/thunks.py from include/evaporation.h. */
#include "evaporation.h"

/* What the compiler may ask for, so that the DLL needs no other; and its entry, which has nothing to do. */
void *memcpy(void *to, const void *from, size_t count) {
    void *result = to;
    __asm__ volatile("rep movsb" : "+D"(to), "+S"(from), "+c"(count) : : "memory");
    return result;
}

void *memset(void *to, int value, size_t count) {
    void *result = to;
    __asm__ volatile("rep stosb" : "+D"(to), "+c"(count) : "a"(value) : "memory");
    return result;
}

int DllMainCRTStartup(void *module, unsigned reason, void *reserved) {
    (void)module, (void)reason, (void)reserved;
    return 1;
}
"""


def written(source: Source, kind: str) -> str:
    """A type as C writes it."""
    return "struct " + kind if kind in source.structs else kind


def thunk(source: Source, call: Function) -> str:
    answer = written(source, call.answer)
    taken = ", ".join("%s %s" % (written(source, member.type), member.name) for member in call.parameters) or "void"
    handed = ", ".join(member.name for member in call.parameters)
    return "\n__attribute__((sysv_abi)) %s %s%s(%s);\n%s %s(%s) { return %s%s(%s); }\n" % (
        answer, PREFIX, call.name, taken, answer, call.name, taken, PREFIX, call.name, handed)


def exported(text: str) -> list[str]:
    """The calls and the pointer forms."""
    forms = re.findall(r"^\w+ (evp_\w+_to)\(", "".join(FORMS.findall(text)), re.M)
    return sorted([*header_source(text).functions, *forms])


def image(calls: list[str], file: str, listed: str) -> str:
    """The assembly that has the image and a name for each call in it."""
    places = {name: int(place, 16) for place, name in re.findall(r"^(\w+) [Tt] (\w+)$", listed, re.M)}
    lines = ["    .section .text", "    .balign 64", "evaporation_image:", '    .incbin "%s"' % file]
    for name in calls:
        lines += ["    .globl %s%s" % (PREFIX, name),
                  "    .set %s%s, evaporation_image + %d" % (PREFIX, name, places[name])]
    return "\n".join(lines) + "\n"


def main(words: list[str]) -> str:
    text = (TOP / HEADER).read_text(encoding="ascii")
    source = header_source(text)
    match words:
        case ["c"]:
            return C + "".join(thunk(source, call) for call in source.functions.values())
        case ["def"]:
            return "LIBRARY evaporation.dll\nEXPORTS\n" + "".join("    %s\n" % name for name in exported(text))
        case ["image", file]:
            return image(list(source.functions), file, sys.stdin.read())
    sys.exit("usage: python3 release/thunks.py c | def | image FILE")


if __name__ == "__main__":
    print(main(sys.argv[1:]), end="")
