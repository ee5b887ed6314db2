"""Ways of filing: the mass of the cars' soak of samples/course/north.evp, 13.303 t, as people write it, beside plain
figures that must be marked whatever that cell has."""

from typing import NamedTuple

HEADER = "sheet,row,mechanism,mass,unit\n"
PLAIN = "north.evp,cars,running,5.848,t\nnorth.evp,1,diurnal,0.730,t\nnorth.evp,total,,21.951,t\n"
PLAIN_SEMICOLON = "north.evp;cars;running;5,848;t\nnorth.evp;1;diurnal;0,730;t\nnorth.evp;total;;21,951;t\n"


class Way(NamedTuple):
    """A table; `reason` is in the note where the figure cannot be read, and empty where it agrees."""
    name: str
    data: bytes
    reason: str = ""
    file: str = "filed.csv"


def _line(name: str, line: str, reason: str = "") -> Way:
    return Way(name, (HEADER + line + "\n" + PLAIN).encode(), reason)


def _semicolon(name: str, line: str, reason: str = "") -> Way:
    return Way(name, (HEADER.replace(",", ";") + line + "\n" + PLAIN_SEMICOLON).encode(), reason)


def _mass(mass: str, unit: str = "t", reason: str = "") -> Way:
    cell = '"%s"' % mass.replace('"', '""') if "," in mass or '"' in mass else mass
    return _line("mass %r %s" % (mass, unit), "north.evp,cars,soak,%s,%s" % (cell, unit), reason)


UNITS = [_mass(*pair) for pair in (
    ("13303", "kg"), ("13303", "Kg"), ("13303", "KG"), ("13303", "kgs"), ("13303", "kilograms"), ("13303", "kg/a"),
    ("13.303", "T"), ("13.303", "tonnes"), ("13.303", "tonne"), ("13.303", "Tonnes"), ("13.303", "tonne(s)"),
    ("13.303", "metric tons"), ("13.303", "Mg"), ("13.303", "Tonnen"), ("13.303", "t/yr"), ("13.303", "t per year"),
    ("13.303", "[t]"), ("13.303", "(t)"), ("13.303", "t "), ("13.303", "t NMVOC"), ("13.303", "megagrams"),
    ("0.013303", "kt"), ("0.013303", "Gg"), ("0.013303", "KT"), ("0.013303", "kilotonnes"), ("0.013303", "1000 t"),
    ("0.0133", "kt"), ("0.013303", "10^3 t"), ("13303000", "g"), ("13303", "10³ g kg".split()[0] + " g"),
)] + [
    _mass("13303", "MG", "can mean two things"), _mass("13.303", "tons", "can mean two things"),
    _mass("13.303", "MT", "can mean two things"), _mass("13.303", "", "no unit is given"),
    _mass("13.303", "lb", "none of mass"), _mass("13.303", "t/day", "is a rate"),
    _mass("13.303", "litres", "none of mass"),
]
UNITS = [way for way in UNITS if way.name != "mass '13.303' "]  # a unit left out beside others is theirs, below

NUMBERS = [_mass(*pair) for pair in (
    ("13.303",), ("13303.0", "kg"), (".013303", "kt"), ("1.3303E+04", "kg"), ("1.3303e4", "kg"), ("1.3303×10⁴", "kg"),
    ("1.3303*10^4", "kg"), ("1.3303 x 10^4", "kg"), ("13 303.0", "kg"), ("13\u00a0303,0", "kg"),
    ("13\u202f303,0", "kg"), ("13\u2009303", "kg"), ("13,303.0", "kg"), ("13.303,0", "kg"), ("13'303", "kg"),
    ("13’303", "kg"), ("13,303,000", "g"), ("13.303.000", "g"), ("13 303 000", "g"), ("+13.303",), ("013.303",),
    (" 13.303 ",), ("13.303 t",), ("13.303t",), ("13303 kg", "kg"), ("13.303*",), ("13.303¹",), ("13.303 a)",),
    ("~13.303",), ("ca. 13.303",), ("１３.303",), ("13,303", "kg"), ("13_303", "kg"), ("13303.", "kg"),
)] + [
    _mass(mass, "t", reason) for mass, reason in (
        ("", "nothing filed"), ("-", "nothing filed"), ("–", "nothing filed"), ("NE", "NE, not estimated"),
        ("NA", "NA, not applicable"), ("n/a", "NA, not applicable"), ("N.A.", "NA, not applicable"),
        ("NO", "NO, not occurring"), ("IE", "IE, included elsewhere"), ("C", "C, confidential"),
        ("ne", "NE, not estimated"),
        ("NE,IE", "IE, included elsewhere"), ("#REF!", "error of the spreadsheet"),
        ("#DIV/0!", "error of the spreadsheet"),
        ("#N/A", "not applicable"), ("#VALUE!", "error of the spreadsheet"), ("########", "too narrow"),
        ("-2", "below 0"), ("\u22122", "below 0"), ("13 %", "percentage"), ("<0.5", "limit"),
        ("13.2-13.4", "range"), ("13.3 ± 0.1", "range"), ("13. Mrz", "date"), ("13-Mar", "date"),
        ("2026-03-13", "date"),
        ("03/13", "date"), ("=B2*C2", "formula"), ("TRUE", "true or false"), ("see attachment", "is no mass"),
        ("1.2.3.4", "is no number"), ("28 34", "is no number"), ("O.730", "is no mass"), ("nan", "no number was filed"),
        ("?", "no number was filed"), ("13.303 lb", "none of mass"), ("\x1b[2J", "is no mass"),
        ("13.303 kg", "two things"),
    )
]

NAMES = [_line(line, line) for line in (
    "North.evp,cars,soak,13.303,t", "NORTH.EVP,cars,soak,13.303,t", "north,cars,soak,13.303,t",
    "north.csv,cars,soak,13.303,t", "course/north.evp,cars,soak,13.303,t", "C:\\x\\north.evp,cars,soak,13.303,t",
    " north.evp ,cars,soak,13.303,t",
    "north.evp,Cars,Soak,13.303,t", "north.evp,CARS,SOAK,13.303,t", "north.evp,car,soak,13.303,t",
    "north.evp,passenger cars,hot soak,13.303,t", "north.evp,Cars,hot-soak losses,13.303,t",
    "north.evp,cars,soak emissions,13.303,t", "north.evp,cars:,soak,13.303,t", "north.evp,carss,soack,13.303,t",
    "north.evp,cars soak,,13.303,t", "north.evp,,cars soak,13.303,t",
)] + [
    _line("no row", "north.evp,,soak,13.303,t", "the row is missing"),
    _line("a strange row", "north.evp,buses,soak,13.303,t", "is no row"),
    _line("row 0", "north.evp,0,soak,13.303,t", "counted from 1"),
    _line("a strange mechanism", "north.evp,cars,refuelling,13.303,t", "is none of diurnal"),
    _line("no mechanism", "north.evp,cars,,13.303,t", "mechanism is missing"),
    _line("all mechanisms", "north.evp,cars,total,13.303,t", "no sum of the three"),
]

_TEXT = HEADER + "north.evp,cars,soak,13.303,t\n" + PLAIN
_SEMICOLON = HEADER.replace(",", ";") + "north.evp;cars;soak;13,303;t\n" + PLAIN_SEMICOLON
TABLES = [
    Way("utf-8 with a mark", b"\xef\xbb\xbf" + _TEXT.encode()), Way("two marks", b"\xef\xbb\xbf" * 2 + _TEXT.encode()),
    Way("utf-16", _TEXT.encode("utf-16")), Way("utf-16 without a mark", _TEXT.encode("utf-16-le")),
    Way("utf-16, big end first", b"\xfe\xff" + _TEXT.encode("utf-16-be")), Way("utf-32", _TEXT.encode("utf-32")),
    Way("Windows-1252", (_TEXT + "Zürich.evp,cars,soak,1,t\n").encode("cp1252")),
    Way("Windows-1252 and a no-break space", _SEMICOLON.replace("13,303;t", "13\u00a0303,0;kg").encode("cp1252")),
    Way("CSV (Macintosh)", _SEMICOLON.replace("13,303;t", "13\u00a0303,0;kg").replace("\n", "\r").encode("mac_roman")),
    Way("CSV (MS-DOS)", (_TEXT + "Zürich.evp,cars,soak,1,t\n").encode("cp850")),
    Way("carriage returns", _TEXT.replace("\n", "\r").encode()),
    Way("both line ends", _TEXT.replace("\n", "\r\n").encode()),
    Way("no last line end", _TEXT.rstrip("\n").encode()), Way("empty lines", _TEXT.replace("\n", "\n\n").encode()),
    Way("lines of separators", (_TEXT + ",,,,\n" * 5).encode()), Way("sep=;", ("sep=;\n" + _SEMICOLON).encode()),
    Way("sep=,", ("sep=,\r\n" + _TEXT).encode()), Way("semicolons", _SEMICOLON.encode()),
    Way("semicolons and points", _TEXT.replace(",", ";").encode()), Way("tabs", _TEXT.replace(",", "\t").encode()),
    Way("tabs and commas", _SEMICOLON.replace(";", "\t").encode()), Way("bars", _TEXT.replace(",", "|").encode()),
    Way("quotes", "".join('"%s"\n' % '","'.join(line.split(",")) for line in _TEXT.splitlines()).encode()),
    Way("commas in quotes", _SEMICOLON.replace("13,303", '"13,303"').replace("5,848", '"5,848"').replace(
        "0,730", '"0,730"').replace("21,951", '"21,951"').replace(";", ",").encode()),
    Way("a further column", _TEXT.replace("\n", ",my own word\n").encode()),
    Way("a column note", (_TEXT.replace("unit\n", "unit,note\n")).encode()),
    Way("empty columns behind", _TEXT.replace("\n", ",,,\n").encode()),
    Way("empty columns before", "".join("," + line + "\n" for line in _TEXT.splitlines()).encode()),
    Way("columns in another order", "".join(
        ",".join(line.split(",")[::-1]) + "\n" for line in _TEXT.splitlines()).encode()),
    Way("other headers", _TEXT.replace("sheet,row,mechanism,mass,unit", "File,Category,Process,Value,Units").encode()),
    Way("German headers", _TEXT.replace(
        "sheet,row,mechanism,mass,unit", "Blatt,Zeile,Mechanismus,Masse,Einheit").encode()),
    Way("a header with typing errors", _TEXT.replace("mechanism", "mecanism").encode()),
    Way("capitals in the header", _TEXT.replace(
        "sheet,row,mechanism,mass,unit", "Sheet,Row,Mechanism,Mass,Unit").encode()),
    Way("a unit in the header", _TEXT.replace("mass,unit", "mass [t],remark").replace(",t\n", ",\n").encode()),
    Way("a unit behind the header", _TEXT.replace("mass,unit", "mass in t,remark").replace(",t\n", ",\n").encode()),
    Way("a unit left out", _TEXT.replace("13.303,t", "13.303,").encode()),
    Way("titles above the header", ("Results,,,,\nmy course,,,,\n,,,,\n" + _TEXT).encode()),
    Way("no header", _TEXT.split("\n", 1)[1].encode()),
    Way("a row of totals", (_TEXT + "Total,,,40.9,t\n").encode()),
    Way("a footnote", (_TEXT + "* preliminary,,,,\n").encode()),
    Way("the header again", (_TEXT + HEADER + "north.evp,all,soak,13.728,t\n").encode()),
    Way("a line twice", (_TEXT + "north.evp,cars,soak,13.303,t\n").encode()),
    Way("two figures for one place", (_TEXT + "north.evp,cars,soak,13.304,t\n").encode(), "can mean two things"),
    Way("the name once", _TEXT.replace("north.evp,cars,running", ",cars,running").encode()),
    Way("the name and the row once", _TEXT.replace("north.evp,cars,running", ",,running").encode()),
    Way("the name on a line of its own", (
        "sheet,row,mechanism,mass,unit\nnorth.evp,,,,\n" + _TEXT.split("\n", 1)[1].replace(
        "north.evp", "")).encode()),
    Way("an open quotation mark", (_TEXT + 'north.evp,cars,"diurnal,1.927,t\n').encode()),
    Way("a line break in a cell", (
        _TEXT.replace("unit\n", "unit,note\n") + 'north.evp,all,soak,13.728,t,"a\nb"\n').encode()),
    Way("a table with semicolons behind", (
        _TEXT + HEADER.replace(",", ";") + "north.evp;all;soak;13,728;t\n").encode()),
    Way("names of figures", b"sheet,figure,mass\nnorth.evp,cars soak,13.303 t\nnorth.evp,cars running,5.848 t\n"
        b"north.evp,row 1 diurnal,0.730 t\nnorth.evp,total,21.951 t\n"),
    Way("wide", b"sheet,row,diurnal,soak,running,total,unit\nnorth.evp,cars,1.927,13.303,5.848,,t\n"
        b"north.evp,1,0.730,,,,t\nnorth.evp,all,2.107,13.728,6.116,21.951,t\n"),
    Way("wide with units in the header", b"sheet;category;diurnal [t];hot soak [t];running losses [t];total [t]\n"
        b"north.evp;cars;1,927;13,303;5,848;\nnorth.evp;row 1;0,730;;;\nnorth.evp;Total;2,107;13,728;6,116;21,951\n"),
    Way("wide with units below the header", b"sheet,row,diurnal,soak,running,total\n,,t,t,t,t\n"
        b"north.evp,cars,1.927,13.303,5.848,\nnorth.evp,1,0.730,,,\nnorth.evp,all,2.107,13.728,6.116,21.951\n"),
    Way("wide the other way", b"sheet,mechanism,1,cars,all,total,unit\nnorth.evp,diurnal,0.730,1.927,2.107,,t\n"
        b"north.evp,soak,,13.303,13.728,,t\nnorth.evp,running,,5.848,6.116,,t\nnorth.evp,,,,,21.951,t\n"),
    Way("a line for a participant", b"sheet,cars soak [t],cars running [t],row 1 diurnal [t],total [t]\n"
        b"north.evp,13.303,5.848,0.730,21.951\n"),
    Way("two lines of header", b",cars,,,row 1,total\nsheet,diurnal,soak,running,diurnal,total\n"
        b"north.evp,1.927 t,13.303 t,5.848 t,0.730 t,21.951 t\n"),
    Way("no sheet, but its name",
        _TEXT.replace("north.evp,", "").replace("sheet,", "").encode(), file="North final.csv"),
    Way("no sheet, but a title", (
        "Results of north\n" + _TEXT.replace("north.evp,", "").replace("sheet,", "")).encode()),
    Way("what evp show prints", b"""\
samples/course/north.evp: version 1, 2 seasons, 7 rows, 16,410 vehicles

row  vehicle        tech.   canister  vehicles    diurnal       soak    running
1    car < 1.4 l    conv.   none         1,310   0.7304 t   8.2620 t   4.1030 t
     cars                                        1.9270 t   13.303 t    5.848 t

total 21.951 t
Every digit is certain; --unit mg shows the bands.
""", file="north.txt"),
]
WAYS = [*UNITS, *NUMBERS, *NAMES, *TABLES]
