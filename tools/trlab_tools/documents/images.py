"""Images that pages show at their own width, so that the letters of all have one size."""
import re
from os import PathLike
from typing import Optional, Union

from ..finding import match_in

# An image with its width in pixels.
SHOWN = re.compile(r'<img src="([^"]+)" width="(\d+)" alt="[^"]+">')


def content(path: Union[str, PathLike[str]]) -> Optional[bytes]:
    """The bytes of a file, or None if it is not there."""
    try:
        with open(path, "rb") as file:
            return file.read()
    except FileNotFoundError:
        return None


def width(image: bytes) -> int:
    """The width of an SVG image in pixels."""
    return int(match_in(rb'viewBox="0 0 (\d+)', image)[1])
