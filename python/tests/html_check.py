"""Reads a page as a browser and a reader of the screen would, and says what is wrong with it."""

import re
from html.parser import HTMLParser

VOID = {"meta", "link", "input", "br", "col", "hr", "img"}
SVG = {"svg", "path", "rect", "circle", "g", "text", "title", "desc", "defs", "pattern", "marker"}
LABELLED = {"input", "select", "textarea"}
ADDRESSES = ("src", "href", "action", "formaction", "data", "poster", "srcset")
LOCAL = re.compile(r"#|data:|[a-z]*(/[a-z]+)?$|\.?/$|each/|[A-Za-z0-9-]+\.html$|/ledger/[\w-]{22}([/?][\w.=&]*)?$")


class Page(HTMLParser):
    """A page; `faults` has a line for each thing that is wrong."""

    def __init__(self, html: str):
        super().__init__(convert_charrefs=True)
        self.faults: list[str] = []
        self.open: list[tuple[str, dict]] = []
        self.ids: list[str] = []
        self.references: list[tuple[str, str]] = []
        self.labels: set[str] = set()
        self.fields: list[dict] = []
        self.headings: list[int] = []
        self.seen: dict[str, int] = {}
        self.addresses: list[str] = []
        self.scripts: list[str] = []
        self.texts: list[tuple[str, str]] = []  # with the element that it stands in
        self.named: list[tuple[str, bool]] = []  # buttons, links and pictures, and whether they have a name
        self.handlers: list[str] = []
        self.feed(html)
        self.close()
        self._finish()

    def handle_starttag(self, tag: str, attributes: list[tuple[str, str | None]]):
        found = {name: value or "" for name, value in attributes}
        if len(found) != len(attributes):
            self.faults.append("<%s> has an attribute twice" % tag)
        self.seen[tag] = self.seen.get(tag, 0) + 1
        self.handlers += [name for name in found if name.startswith("on")]
        self.addresses += [found[name] for name in ADDRESSES if name in found]
        self._names(tag, found)
        if tag not in VOID:
            self.open.append((tag, {**found, "content": ""}))

    def _names(self, tag: str, found: dict[str, str]):
        if "id" in found:
            self.ids.append(found["id"])
        for name in ("for", "aria-labelledby", "aria-controls", "aria-describedby"):
            self.references += [(name, word) for word in found.get(name, "").split()]
        if tag == "label" and "for" in found:
            self.labels.add(found["for"])
        if tag in LABELLED and found.get("type") not in ("hidden",):
            within = any(name == "label" for name, _ in self.open)
            self.fields.append({**found, "within": within})
        if re.fullmatch("h[1-6]", tag):
            self.headings.append(int(tag[1]))
        if tag == "svg" and found.get("aria-hidden") != "true":
            self.named.append(("svg", bool(found.get("aria-labelledby") or found.get("aria-label"))))
            if found.get("role") != "img":
                self.faults.append("an svg that is shown has no role")
        if tag == "th" and "scope" not in found:
            self.faults.append("a th has no scope")

    def handle_startendtag(self, tag: str, attributes: list[tuple[str, str | None]]):
        self.handle_starttag(tag, attributes)
        if tag not in VOID:
            self.handle_endtag(tag)

    def handle_endtag(self, tag: str):
        if tag in VOID:
            return
        if not self.open or self.open[-1][0] != tag:
            inner = self.open[-1][0] if self.open else "nothing"
            self.faults.append("</%s> closes %s at %s" % (tag, inner, self.getpos()))
            return
        _, found = self.open.pop()
        if tag == "script" and found.get("type") != "application/json":
            self.scripts.append(found["content"])
        if tag in ("button", "a", "summary"):
            self.named.append((tag, bool(found["content"].strip() or found.get("aria-label"))))
        if tag == "table" and "caption" not in found:
            self.faults.append("a table has no caption")

    def handle_data(self, data: str):
        for _, found in self.open:
            if found["content"] is not None and len(found["content"]) < 100_000:
                found["content"] += data
        if self.open and data.strip():
            self.texts.append((self.open[-1][0], data))
        if self.open and self.open[-1][0] == "caption":
            for tag, found in self.open:
                if tag == "table":
                    found["caption"] = data

    def _finish(self):
        if self.open:
            self.faults.append("not closed: %s" % [tag for tag, _ in self.open])
        self.faults += ["id %s is there twice" % id for id in set(self.ids) if self.ids.count(id) > 1]
        self.faults += ["%s points to no %s" % (name, id) for name, id in self.references if id not in self.ids]
        for field in self.fields:
            if not (field["within"] or field.get("aria-label") or field.get("id") in self.labels):
                self.faults.append("a field has no label: %s" % field)
        self.faults += ["%s without a name" % tag for tag, named in self.named if not named]
        self.faults += ["a handler in an attribute: %s" % name for name in self.handlers]
        for tag in ("main", "header", "footer", "h1", "title", "html", "body"):
            if tag != "title" and self.seen.get(tag) != 1:
                self.faults.append("%s %s" % (self.seen.get(tag, 0), tag))
        if self.headings[:1] != [1] or any(b > a + 1 for a, b in zip(self.headings, self.headings[1:])):
            self.faults.append("headings leave a level out: %s" % self.headings)
        self.faults += ["leads elsewhere: %s" % word[:80] for word in self.addresses if not LOCAL.match(word)]

    @property
    def text(self) -> str:
        return " ".join(" ".join(text for tag, text in self.texts if tag not in ("script", "style")).split())
