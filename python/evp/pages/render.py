"""Templates to HTML: style and scripts are put into the page, and everything else is escaped."""

import hashlib
import re
from base64 import b64encode
from functools import cache
from pathlib import Path

import jinja2
from markupsafe import Markup

from evp.library import MECHANISMS
from evp.masses import shown
from evp.pages import words
from evp.pages.kept import HOURS
from evp.wording import apart, counted

HERE = Path(__file__).resolve().parent
TEMPLATES = HERE / "templates"
LINKS = (  # of the served pages, in the order of their menu
    ("class", "Class"), ("sheet", "Sheet"), ("form", "Form"), ("day", "Day"), ("parking", "Parking"),
    ("fuels", "Fuels"), ("species", "Species"), ("cells", "Cells"), ("pool", "Pool"),
)
FORM_SCRIPTS = ("form-state", "form-answers", "form-history", "form-paste", "form")  # in this order
SCRIPTS = ("begin", "class", "day", "parking", *FORM_SCRIPTS, "drop")


@cache
def source(name: str) -> Markup:
    """A stylesheet or a script of the package, as it stands."""
    return Markup(_without_empty_lines((TEMPLATES / name).read_text(encoding="utf-8")))


def _without_empty_lines(text: str) -> str:
    return re.sub(r"\n\s*\n+", "\n", text).strip()


@cache
def policy() -> str:
    """What a browser may load for a page: its own style and scripts and nothing from elsewhere."""
    digests = (hashlib.sha256(source(name + ".js").encode()).digest() for name in SCRIPTS)
    hashes = " ".join("'sha256-%s'" % b64encode(digest).decode() for digest in digests)
    return ("default-src 'none'; style-src 'unsafe-inline'; img-src data:; connect-src 'self'; form-action 'self'; "
            "base-uri 'none'; script-src %s" % hashes)


def _script(name: str) -> Markup:
    return Markup("<script>%s</script>") % source(name + ".js")


def environment(*folders: Path) -> jinja2.Environment:
    """Where templates are found; other folders before that of the pages."""
    made = jinja2.Environment(
        loader=jinja2.FileSystemLoader([*folders, TEMPLATES]), autoescape=True, trim_blocks=True, lstrip_blocks=True,
        undefined=jinja2.StrictUndefined)
    made.filters.update(
        apart=apart, tenths=words.tenths, percent=words.percent, clock=words.clock, hours=words.hours,
        shown=shown, mg=words.band_mg, grams=words.grams, about=words.about, listed=words.listed)
    made.globals.update(
        css=source("style.css"), script=_script, policy=policy, links=LINKS, MECHANISMS=MECHANISMS, counted=counted,
        in_unit=words.in_unit, kept_hours=HOURS, form_scripts=FORM_SCRIPTS)
    return made


@cache
def _own() -> jinja2.Environment:
    return environment()


ROLES = {"table": "table", "thead": "rowgroup", "tbody": "rowgroup", "tfoot": "rowgroup", "tr": "row", "td": "cell"}


def with_roles(html: str) -> str:
    """Narrow, some tables are laid out as blocks, and a browser then forgets that they are tables: roles say it."""
    html = re.sub(r"<(table|thead|tbody|tfoot|tr|td)(?=[\s>])", lambda tag: '<%s role="%s"' % (
        tag[1], ROLES[tag[1]]), html)
    return re.sub(r"<th(?=[\s>])([^>]*)>", lambda tag: '<th role="%s"%s>' % (
        "rowheader" if 'scope="row' in tag[1] else "columnheader", tag[1]), html)


def render(template: str, served: bool = False, made: jinja2.Environment | None = None, **values) -> str:
    """A page. A served one has a menu, and what asks the server; one in a file has not."""
    page = template.removesuffix(".html")
    html = (made or _own()).get_template(template).render(page=page, served=served, **values)
    return with_roles(_without_empty_lines(html) + "\n")
