"""Libraries that only a part of the package needs, or an error that says how to install them."""
from __future__ import annotations

from importlib import import_module
from typing import Any

from ._errors import MissingLibraryError

_INSTALL = "pip install numpy pandas matplotlib"


def library(name: str) -> Any:
    """A module by its name. Raises `MissingLibraryError`, with the command that installs it, if it is not there."""
    try:
        return import_module(name)
    except ModuleNotFoundError as missing:
        raise MissingLibraryError(f"this needs {missing.name}, which is not installed: {_INSTALL}") from None
