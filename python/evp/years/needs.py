"""Packages that some features need, and a sentence where one is missing."""

from importlib import import_module
from importlib.util import find_spec
from typing import Any

from evp.files import InputError

PACKAGES = {"openpyxl": ("python3-openpyxl", "workbooks are read and written"),
            "distributed": ("python3-distributed", "a cluster is used"), "jinja2": ("python3-jinja2", "pages are made")}


def sentence(module: str) -> str:
    package, use = PACKAGES[module]
    return "%s with %s, which is missing: sudo apt install %s" % (use, module, package)


def package(module: str) -> Any:
    """A package; InputError in one sentence where it is missing."""
    if find_spec(module) is None:
        raise InputError(sentence(module))
    return import_module(module)
