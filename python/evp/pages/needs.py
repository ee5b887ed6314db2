"""What pages and the server need besides the standard library, and what to do where it is missing: go on with Debian's
Python where that has it, else name the one command that installs it."""

import os
import subprocess
import sys
from importlib.util import find_spec

from evp.files import InputError

PACKAGES = {"flask": "python3-flask", "waitress": "python3-waitress", "jinja2": "python3-jinja2"}
BOOKS = {"openpyxl": "python3-openpyxl", "odf": "python3-odf"}  # for workbooks
INSTALL = "sudo apt install " + " ".join(PACKAGES.values())
INSTALL_BOOKS = "sudo apt install " + " ".join(BOOKS.values())
DEBIAN = "/usr/bin/python3"  # the Python that the packages are for
HAS_CHANGED = "EVP_PYTHON_CHANGED"  # in the environment: this is Debian's Python already, so that it is tried once
HAS_ALL = """
import sys
from importlib.util import find_spec
sys.exit(sys.version_info < (3, 10) or any(find_spec(name) is None for name in sys.argv[1:]))
"""

launcher: str | None = None  # the script evp, where this process was started by it


def require(*modules: str):
    """Goes on only where the modules are there: in this Python, or in Debian's, which then starts the same command
    anew. Else InputError in one line."""
    missing = [name for name in modules if find_spec(name) is None]
    if not missing:
        return
    prefer(*modules)
    raise InputError("%s %s missing: %s" % (" and ".join(missing), "is" if len(missing) == 1 else "are",
                                            INSTALL_BOOKS if set(missing) <= set(BOOKS) else INSTALL))


def prefer(*modules: str):
    """Goes on with Debian's Python where this one lacks a module and that one has all."""
    if all(find_spec(name) is not None for name in modules):
        return
    if launcher is not None and HAS_CHANGED not in os.environ and _debian_has(modules):
        _start_anew(launcher)


def _debian_has(modules: tuple[str, ...]) -> bool:
    try:
        return subprocess.run([DEBIAN, "-c", HAS_ALL, *modules], stdin=subprocess.DEVNULL,
                              capture_output=True).returncode == 0
    except OSError:  # it is not there
        return False


def _start_anew(script: str):
    """The same command with Debian's Python, in this process."""
    os.environ[HAS_CHANGED] = "1"
    sys.stdout.flush()
    options = ["-B"] if sys.dont_write_bytecode else []
    os.execv(DEBIAN, [DEBIAN, *options, script, *sys.argv[1:]])
