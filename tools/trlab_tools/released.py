"""What release.txt says of the release, and whether a checkout has the release of its sources: with their version, of which
there is no other release."""
import re
import subprocess
from pathlib import Path
from typing import Optional

from . import TOP
from .command import Verdicts
from .finding import match_in

FACTS, MODULE = "release/release.txt", "python/trlab/_version.py"
# The files that have the version, and how.
VERSIONS = {
    "crates/trlab_command_line/src/help.rt": re.compile(r'VERSION: &str = "(\S+)'),
    MODULE: re.compile(r'^__version__ = "(.*)"$', re.M),
    "node/package.json": re.compile(r'^  "version": "(.*)",$', re.M),
    "share/man/man1/trlab.1": re.compile(r'^\.TH .* "trlab (\S+)"', re.M),
    "CHANGELOG.md": re.compile(r"^## (\d\S*)$", re.M),
}
# The facts that are the same in all releases of a version. Only the page may be put together again, of other scripts or examples.
LASTING = "sources", "x86-64-v2", "x86-64-v3", "wasm"


def read(text: str) -> dict[str, str]:
    """The values of a release.txt by their names."""
    return dict(line.split() for line in text.splitlines() if line[:1] != "#")


def facts(top: Path = TOP) -> dict[str, str]:
    """The values of the release of a checkout by their names; nothing if there is no release."""
    path = top / FACTS
    return read(path.read_text("utf-8")) if path.exists() else {}


def is_of_these_sources(top: Path = TOP) -> bool:
    """Whether the release of a checkout belongs to its sources."""
    printed = subprocess.run([top / "release" / "sources"], capture_output=True, check=True, text=True).stdout
    return printed.split() == [facts(top).get("sources")]


def git(top: Path, *words: str) -> Optional[str]:
    """The output of git, or None if it fails or is not installed."""
    try:
        result = subprocess.run(["git", "-C", top, *words], capture_output=True, text=True)
    except FileNotFoundError:
        return None
    return result.stdout if result.returncode == 0 else None


def has_whole_history(top: Path = TOP) -> bool:
    """Whether a checkout has all of its history in git; an archive and a shallow clone do not."""
    return (top / ".git").exists() and git(top, "rev-parse", "--is-shallow-repository") == "false\n"


def others_of(version: str, top: Path) -> Verdicts:
    """Whether each release of a version in the history of git is the one of the checkout. The version of a release is that of
    the commit of its sources, which it names: a commit with a new version can still have the last release."""
    now = facts(top)
    for commit in (git(top, "log", "--full-history", "--format=%H", "--", FACTS) or "").split():
        before = read(git(top, "show", f"{commit}:{FACTS}") or "")
        module = git(top, "show", f"{before.get('commit', commit)}:{MODULE}")
        found = VERSIONS[MODULE].search(module or "")
        if before and found and found[1] == version:
            is_same = all(before.get(name) == now.get(name) for name in LASTING)
            yield is_same, f"commit {commit[:8]} has another release {version}: give each release a version of its own"


def verdicts(version: str, top: Path = TOP) -> Verdicts:
    """The verdicts on the release of a checkout, whose program prints this version. Those on the history are left out if the
    checkout does not have it."""
    wrong = "the release does not belong to these sources: give them a new version, and make the release (CONTRIBUTING.md)"
    yield is_of_these_sources(top), wrong
    for name, pattern in VERSIONS.items():
        found = match_in(pattern, (top / name).read_text("utf-8"))[1]
        yield found == version, f"{name} has version {found}, the released program {version}"
    if has_whole_history(top):
        yield from others_of(version, top)
