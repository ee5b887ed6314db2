"""The versions that the server was tested with. Another one is served with all the same, after a sentence.

The server changes methods of waitress and of Werkzeug that are no public interface (channel.py, server.py,
form_data.py). python/tests/test_service_versions.py compares the source of each with the one that was read when these
were written, and fails where it is another.
"""

from importlib.metadata import PackageNotFoundError, version

TESTED = {"waitress": "2.1.2", "Werkzeug": "2.2.2", "Flask": "2.2.2"}


def found_versions() -> dict[str, str]:
    """The versions that are here; empty where a package does not say its own."""
    found = {}
    for name in TESTED:
        try:
            found[name] = version(name)
        except PackageNotFoundError:
            found[name] = ""
    return found


def difference(found: dict[str, str]) -> str:
    """A sentence where a version is not the tested one; empty where all are."""
    other = ["%s %s" % (name, found[name] or "of an unknown version") for name in TESTED if found[name] != TESTED[name]]
    if not other:
        return ""
    tested = ["%s %s" % item for item in TESTED.items()]
    return "this server was tested with %s and %s; here is %s: try a page and a call before others use it" % (
        ", ".join(tested[:-1]), tested[-1], " and ".join(other))
