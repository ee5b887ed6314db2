"""The documents of a release as pages: python3 release/pages.py FOLDER REPOSITORY makes NAME.html beside every NAME.md.

cmark-gfm makes the body of a page. What it leaves to its user is done here: headings get the names by which GitHub
links to them, links to NAME.md go to the page, the names of documents in a text become links, and a page has a title, a
style and a line that leads back to the start. A link to what the repository alone has becomes plain text; one to what
is nowhere is an error.
"""

import html
import re
import subprocess
import sys
from pathlib import Path

STYLE = """
:root { color-scheme: light dark; --line: #8885; --soft: #8881; }
body { font: 1rem/1.5 system-ui, sans-serif; max-width: 52rem; margin: 0 auto; padding: 1rem 1.25rem 4rem; }
nav { font-size: .9rem; border-bottom: 1px solid var(--line); padding-bottom: .5rem; }
h1, h2, h3 { line-height: 1.25; margin: 2rem 0 .75rem; }
h2 { border-bottom: 1px solid var(--line); padding-bottom: .25rem; }
code, pre { font: .875em/1.45 ui-monospace, "DejaVu Sans Mono", monospace; }
code { background: var(--soft); padding: .1em .3em; border-radius: 3px; overflow-wrap: break-word; }
pre { background: var(--soft); padding: .75rem 1rem; overflow-x: auto; border-radius: 4px; }
pre code { background: none; padding: 0; }
.wide { overflow-x: auto; }
table { border-collapse: collapse; font-size: .95rem; }
th, td { border: 1px solid var(--line); padding: .3rem .6rem; text-align: left; vertical-align: top; }
th { background: var(--soft); }
img { max-width: 100%; background: #fff; }
@media print { nav { display: none; } body { max-width: none; } }
"""

PAGE = """<!DOCTYPE html>
<html lang="en">
<head>
<meta charset="utf-8">
<meta name="viewport" content="width=device-width, initial-scale=1">
<title>{title}</title>
<style>{style}</style>
</head>
<body>
<nav><a href="{start}">Start</a></nav>
<main>
{body}</main>
</body>
</html>
"""


def plain(marked: str) -> str:
    """The text of a piece of HTML."""
    return html.unescape(re.sub(r"<[^>]*>", "", marked))


def slug(heading: str, taken: set[str]) -> str:
    """The name by which GitHub links to a heading; a second one of the same name gets a number."""
    name = re.sub(r"[^\w\- ]", "", plain(heading).lower()).replace(" ", "-")
    found, number = name, 0
    while found in taken:
        number += 1
        found = "%s-%d" % (name, number)
    taken.add(found)
    return found


def with_names(body: str) -> str:
    taken: set[str] = set()
    return re.sub(r"<(h[1-6])>(.*?)</\1>",
                  lambda found: '<%s id="%s">%s</%s>' % (found[1], slug(found[2], taken), found[2], found[1]),
                  body, flags=re.S)


def with_pages(body: str) -> str:
    """Links to a document lead to its page."""
    return re.sub(r'href="(?!\w+:)([^"#]*)\.md(#[^"]*)?"',
                  lambda found: 'href="%s.html%s"' % (found[1], found[2] or ""), body)


def with_documents(body: str, here: Path, folder: Path) -> str:
    """The names of documents in a text, docs/SHEET.md, are links, but in code and in links."""
    parts = re.split(r"(<pre>.*?</pre>|<a .*?</a>|<h1.*?</h1>)", body, flags=re.S)
    depth = "../" * (len(here.relative_to(folder).parts) - 1)

    def link(found: re.Match) -> str:
        name = Path(found[0])
        if not (folder / name).exists() or folder / name == here:
            return found[0]
        return '<a href="%s%s">%s</a>' % (depth, name.with_suffix(".html"), found[0])

    return "".join(part if i % 2 else re.sub(r"\b(?:docs/)?[A-Z]+\.md\b", link, part) for i, part in enumerate(parts))


def page(path: Path, folder: Path) -> str:
    """The page of a document."""
    made = subprocess.run(["cmark-gfm", "-e", "table", "-e", "strikethrough", path], capture_output=True, check=True)
    body = with_documents(with_pages(with_names(made.stdout.decode())), path, folder)
    body = body.replace("<table>", '<div class="wide"><table>').replace("</table>", "</table></div>")
    heading = re.search(r"<h1[^>]*>(.*?)</h1>", body, re.S)
    start = "../" * (len(path.relative_to(folder).parts) - 1) + "START-HERE.html"
    title = html.escape(plain(heading[1]) if heading else path.stem)
    return PAGE.format(title=title, style=STYLE, start=start, body=body)


def without_strangers(text: str, path: Path, folder: Path, repository: Path) -> str:
    """A page whose links to what the repository alone has are plain text."""
    def kept(found: re.Match) -> str:
        to = (path.parent / found[1].partition("#")[0]).resolve()
        inside = to.is_relative_to(folder) and not to.exists() and not to.with_suffix(".md").exists()
        return found[2] if inside and (repository / to.relative_to(folder)).exists() else found[0]

    return re.sub(r'<a href="(?!\w+:|#)([^"]*)">(.*?)</a>', kept, text, flags=re.S)


def dead_links(pages: dict[Path, str]):
    """What leads nowhere."""
    for path, text in pages.items():
        for target in re.findall(r'(?:href|src)="(?!\w+:)([^"]*)"', text):
            name, _, place = target.partition("#")
            to = (path.parent / name).resolve() if name else path
            if to not in pages and not to.exists():
                yield "%s: %s is not there" % (path.name, target)
            elif place and 'id="%s"' % place not in pages.get(to, ""):
                yield "%s: %s has no such heading" % (path.name, target)


def main(words: list[str]) -> int:
    if len(words) != 2:
        print("usage: python3 release/pages.py FOLDER REPOSITORY", file=sys.stderr)
        return 2
    folder, repository = Path(words[0]).resolve(), Path(words[1]).resolve()
    made = {path.with_suffix(".html"): page(path, folder) for path in sorted(folder.rglob("*.md"))}
    pages = {path: without_strangers(text, path, folder, repository) for path, text in made.items()}
    for path, text in pages.items():
        path.write_text(text, encoding="utf-8")
    faults = list(dead_links(pages))
    for fault in faults:
        print("release/pages.py: " + fault, file=sys.stderr)
    return 1 if faults else 0


if __name__ == "__main__":
    sys.exit(main(sys.argv[1:]))
