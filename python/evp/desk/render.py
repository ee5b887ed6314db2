"""The ledger's pages: templates of their own upon the base and the style of all pages."""

from functools import cache
from pathlib import Path

import jinja2
from flask import Response
from markupsafe import Markup

from evp.desk import words
from evp.masses import shown
from evp.pages import render as pages
from evp.pages.words import canister_short, canister_words, row_name
from evp.wording import apart

TEMPLATES = Path(__file__).resolve().parent / "templates"


def signed(change: int) -> str:
    """A change of a count, with its sign."""
    return "0" if not change else "%s%s" % ("+" if change > 0 else "\u2212", apart(abs(change)))


@cache
def environment() -> jinja2.Environment:
    made = pages.environment(TEMPLATES)
    made.filters.update(
        signed=signed, sentence=lambda text: text[:1].upper() + text[1:],
        count=lambda count: "\u2013" if count is None else apart(count),
        number=lambda band: shown(band).rpartition(" ")[0], unit=lambda band: shown(band).rpartition(" ")[2])
    made.globals.update(
        css=made.globals["css"] + Markup((TEMPLATES / "ledger.css").read_text(encoding="utf-8")), row_name=row_name,
        canister_words=canister_words, canister_short=canister_short, done=words.done, why_not=words.why_not,
        opposite=words.opposite)
    return made


def render(template: str, **values) -> str:
    return pages.render(template, made=environment(), **values)


def message(status: int, heading: str, sentence: str) -> Response:
    """A page that says one thing."""
    return Response(render("turned-away.html", status=status, heading=heading, sentence=sentence), status)
