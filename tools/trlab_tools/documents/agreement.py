"""Do documents, scripts and sources agree where they have the same facts: features of processors, layers of crates,
excerpts of sources, and the figure of speeds?"""
import re
import subprocess

from trlab._runs.location import FEATURES_OF_V2, FEATURES_OF_V3

from .. import TOP
from ..command import Verdicts
from ..finding import match_in
from .files import content, documents, exists

ARCHITECTURE = "docs/dev/ARCHITECTURE.md"
# A layer in crates.txt: its name, and the lines of its crates.
LAYER = re.compile(r"^# (.*)\n((?:trlab_\w+:.*\n)+)", re.M)
# A block of a document that shows a file of crates/, or a part of it.
SHOWN_SOURCE = re.compile(r"^(From )?`(crates/[^`]+)`[^\n]*:\n\n```\w*\n(.*?)^```$", re.M | re.S)


def features_in_script(level: str) -> set[str]:
    """The features of a level beyond the one before, as ./trlab lists them."""
    return set(match_in(rf"(?m)^of_{level}=\((.*)\)$", content("trlab"))[1].split())


def levels_agree() -> Verdicts:
    """./trlab and the Python package need the same features of a processor for each level."""
    of_v2 = features_in_script("v2")
    of_v3 = of_v2 | features_in_script("v3")
    for level, in_script, in_package in ("v2", of_v2, FEATURES_OF_V2), ("v3", of_v3, FEATURES_OF_V3):
        differences = sorted(in_script ^ in_package)
        message = f"./trlab and python/trlab/_runs/location.py need different features for x86-64-{level}: {differences}"
        yield not differences, message


def sources_are_shown_as_they_are() -> Verdicts:
    """A block after the name of a file of crates/ is the content of this file, or after `From` a part of it."""
    for name in documents():
        for is_part, path, shown in SHOWN_SOURCE.findall(content(name)):
            source = content(path) if exists(path) else ""
            is_right = shown in source if is_part else shown == source
            yield is_right, f"{name} shows a different content of {path}"


def layers_agree() -> Verdicts:
    """Each layer of crates.txt has a table in the map of crates, with the same crates in the same order."""
    for heading, lines in LAYER.findall(content("crates.txt")):
        table = re.search(rf"^### {re.escape(heading)}$(.*?)^#", content(ARCHITECTURE), re.M | re.S)
        crates_in_table = re.findall(r"^\| `(trlab_\w+)`", table[1], re.M) if table else []
        message = f"{ARCHITECTURE} and crates.txt have different crates in the layer {heading!r}"
        yield crates_in_table == re.findall(r"^\w+", lines, re.M), message


def figure_is_of_the_table() -> Verdicts:
    """The figure of speeds is the one that the script draws from the table."""
    words = ["awk", "-f", "docs/speed.awk", "docs/speed.tsv"]
    drawn = subprocess.run(words, cwd=TOP, capture_output=True, text=True).stdout
    yield drawn == content("docs/speed.svg"), "docs/speed.svg is not the figure of the table in docs/speed.tsv"


def verdicts() -> Verdicts:
    """The verdicts of all tests of this module."""
    yield from levels_agree()
    yield from sources_are_shown_as_they_are()
    yield from layers_agree()
    yield from figure_is_of_the_table()
