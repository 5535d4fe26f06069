"""The documents as a site: mkdocs renders the pages, and linkchecker follows their links.

mkdocs.yml describes the site. Its pages and the files that they show or link to are copied into one folder first, with the
paths that they have in the repository, because mkdocs takes all pages from one folder. The site also has the reference of
the Python package, and the index of docs/PYTHON.md leads to it."""
import csv
import os
import shutil
import subprocess
from collections.abc import Iterator
from typing import NamedTuple

from .. import TOP
from . import reference
from .files import content, documents, known_files

# Beside the documents: the folders with figures and linked files, and single files.
FOLDERS = "docs/", "examples/", "node/", "studies/"
FILES = "release/trlab-lab.html", "tools/bench/python/nasch_numpy.py", "crates/trlab_rules/specs/Published.antt"
# The inputs of studies, to which no page links.
LEFT_OUT = "/texts/"
CONFIGURATION = """INHERIT: {top}/mkdocs.yml
docs_dir: pages
site_dir: {to}
"""
# linkchecker reads a page again for each anchor in it that a page cites. With the theme's navigation and tables of contents,
# this takes minutes, so the links are checked on pages that have only their own text.
PLAIN = """theme: {name: null, custom_dir: plain}
markdown_extensions: {toc: {permalink: false}}
"""
PLAIN_PAGE = """<!doctype html>
<html lang="en"><head><meta charset="utf-8"><title>trlab</title></head>
<body>{{ page.content }}</body></html>
"""
LINKCHECKER = "[checking]\nthreads=0\n[AnchorCheck]\n[output]\nstatus=0\nverbose=1\nlog=csv\n[csv]\nseparator=;\n"


class Link(NamedTuple):
    """A link of a rendered page, and the reason why it is broken, or nothing."""

    page: str
    link: str
    fault: str


def collect(pages: str) -> None:
    """Copy the documents and the files that they show or link to."""
    for name in known_files():
        if name.endswith(".md") or name in FILES or name.startswith(FOLDERS) and LEFT_OUT not in name:
            target = os.path.join(pages, name)
            os.makedirs(os.path.dirname(target), exist_ok=True)
            shutil.copyfile(TOP / name, target)
    write(os.path.join(pages, reference.PAGE), reference.page())
    write(os.path.join(pages, reference.GUIDE), reference.with_index(content(reference.GUIDE), reference.on_site))


def all_pages() -> list[str]:
    """The documents, and the page that only the site has."""
    return [*documents(), reference.PAGE]


def write(path: str, text: str) -> None:
    """Write a file, and its folder if it is not there."""
    os.makedirs(os.path.dirname(path), exist_ok=True)
    with open(path, "w", encoding="utf-8") as file:
        file.write(text)


def render(folder: str, to: str, more: str = "", *, top: object = TOP) -> tuple[bool, str]:
    """Render `pages` in a folder; mkdocs returns whether no warning was printed, and its messages."""
    configuration = os.path.join(folder, f"{os.path.basename(to)}.yml")
    write(configuration, CONFIGURATION.format(top=top, to=to) + more)
    words = ["mkdocs", "build", "--strict", "--clean", "--config-file", configuration]
    process = subprocess.run(words, stdout=subprocess.PIPE, stderr=subprocess.STDOUT, text=True, errors="replace")
    return process.returncode == 0, process.stdout


def render_plain(folder: str, to: str) -> tuple[bool, str]:
    """Render the pages with only their own text."""
    write(os.path.join(folder, "plain", "main.html"), PLAIN_PAGE)
    return render(folder, to, PLAIN)


def pages_below(folder: str) -> list[str]:
    """The HTML files in a folder, and in the folders below it."""
    return [os.path.join(path, name) for path, _, names in os.walk(folder) for name in sorted(names) if name.endswith(".html")]


def links(folder: str, site: str) -> Iterator[Link]:
    """The links of a site, each once, as linkchecker finds them: to files and anchors, but not to other servers."""
    configuration = os.path.join(folder, "linkcheckerrc")
    write(configuration, LINKCHECKER)
    words = ["linkchecker", "--config", configuration, *pages_below(site)]
    process = subprocess.run(words, stdout=subprocess.PIPE, stderr=subprocess.DEVNULL, text=True, errors="replace")
    lines = [line for line in process.stdout.splitlines() if not line.startswith("# ")]
    for row in csv.DictReader(lines, delimiter=";"):
        page = row["parentname"].partition("#")[0].removeprefix(f"file://{site}/")
        yield Link(page, row["urlname"], row["warningstring"] or ("" if row["valid"] == "True" else row["result"]))
