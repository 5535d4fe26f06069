"""Trials of the verdicts on a release: a small checkout with the release 1.0 is made up, and changed."""
import shutil
import subprocess
import tempfile
from collections.abc import Callable, Iterator
from functools import partial
from pathlib import Path
from typing import NamedTuple

from . import TOP, released
from .command import Verdicts

SOURCE = "crates/trlab_program/src/main.rt"
# The files with the version, each with an x in its place.
VERSIONED = {
    "crates/trlab_command_line/src/help.rt": 'pub const VERSION: &str = "x\n',
    "python/trlab/_version.py": '__version__ = "x"\n',
    "node/package.json": '{\n  "version": "x",\n',
    "share/man/man1/trlab.1": '.TH TRLAB 1 "" "trlab x" "User Commands"\n',
    "CHANGELOG.md": "# Changelog\n\n## x\n",
}


class Trial(NamedTuple):
    """A change of the checkout, a part of the message after it, which is empty if the release is right, and the version that the
    released program prints."""

    change: Callable[[Path], None]
    message: str = ""
    version: str = "1.0"


def write(top: Path, name: str, text: str) -> None:
    """Write a file of a checkout."""
    (top / name).parent.mkdir(parents=True, exist_ok=True)
    (top / name).write_text(text, "utf-8")


def release(top: Path, version: str = "1.0", **others: str) -> None:
    """Write a release of the sources with this version, and with other facts than usual."""
    for name, text in VERSIONED.items():
        write(top, name, text.replace("x", version))
    words = [top / "release" / "sources"]
    sources = subprocess.run(words, capture_output=True, check=True, text=True).stdout.strip()
    facts = {"sources": sources, "v2": "2", "v3": "3", "wasm": "4", "page": "5", **others}
    lines = [f"{name.replace('v', 'x86-64-v', name[0] == 'v')} {value}\n" for name, value in facts.items()]
    write(top, released.FACTS, "# A release.\n" + "".join(lines))


def commit(top: Path) -> None:
    """Commit all files of a checkout."""
    options = ["-c", "user.name=nobody", "-c", "user.email=nobody@localhost", "-c", "commit.gpgsign=false"]
    for words in ["init", "-q"], ["add", "-A"], [*options, "commit", "-q", "--no-verify", "-m", "A release"]:
        subprocess.run(["git", *words], cwd=top, check=True)


def made(folder: str) -> Path:
    """A new checkout in a folder."""
    top = Path(folder) / "checkout"
    write(top, "crates.txt", "trlab_program:\n")
    write(top, SOURCE, "fn main() {}\n")
    (top / "release").mkdir()
    shutil.copy2(TOP / "release" / "sources", top / "release" / "sources")
    release(top)
    return top


def change_source(top: Path) -> None:
    write(top, SOURCE, "fn main() { }\n")


def remove_release(top: Path) -> None:
    (top / released.FACTS).unlink()


def change_version(name: str, top: Path) -> None:
    """Change the version in one file."""
    write(top, name, VERSIONED[name].replace("x", "1.1"))


def release_again(top: Path, version: str = "1.0", **others: str) -> None:
    """Commit the release, and make another one."""
    commit(top)
    release(top, version, **others)


def head(top: Path) -> str:
    """The commit of a checkout."""
    words = ["git", "rev-parse", "HEAD"]
    return subprocess.run(words, cwd=top, capture_output=True, check=True, text=True).stdout.strip()


def raise_version_first(top: Path) -> None:
    """Commit a release, then a new version without one, and make its release."""
    commit(top)
    release(top, commit=head(top))
    commit(top)
    for name in VERSIONED:
        change_version(name, top)
    commit(top)
    release(top, "1.1", v2="6", commit=head(top))


TRIALS = {
    "no change": Trial(lambda top: None),
    "a release that is committed": Trial(commit),
    "a page that is put together again": Trial(partial(release_again, page="6")),
    "another release with another version": Trial(partial(release_again, version="1.1", v2="6"), version="1.1"),
    "a version that is raised before its release": Trial(raise_version_first, version="1.1"),
    "another source": Trial(change_source, "the release does not belong to these sources"),
    "no release": Trial(remove_release, "the release does not belong to these sources"),
    "another version": Trial(lambda top: None, "has version 1.0, the released program 1.1", "1.1"),
    **{f"another version in {name}": Trial(partial(change_version, name), f"{name} has version 1.1") for name in VERSIONED},
    "another release with the same version": Trial(partial(release_again, v2="6"), "has another release 1.0"),
    "the same for x86-64-v3": Trial(partial(release_again, v3="6"), "has another release 1.0"),
    "the same for WebAssembly": Trial(partial(release_again, wasm="6"), "has another release 1.0"),
    "the same for other sources": Trial(partial(release_again, sources="6"), "has another release 1.0"),
}


def of_trials() -> Verdicts:
    """Whether each change is noticed, and nothing else."""
    for name, trial in TRIALS.items():
        with tempfile.TemporaryDirectory() as folder:
            top = made(folder)
            trial.change(top)
            messages = [message for holds, message in released.verdicts(trial.version, top) if not holds]
            is_right = any(trial.message in message for message in messages) if trial.message else not messages
            yield is_right, f"the trial of a release: after {name} the messages are {messages}"


def of_histories() -> Verdicts:
    """Whether it is known if a checkout has its whole history."""
    with tempfile.TemporaryDirectory() as folder:
        top, shallow = made(folder), Path(folder) / "shallow"
        yield not released.has_whole_history(top), "a folder without git has a history"
        release_again(top, "1.1")
        commit(top)
        yield released.has_whole_history(top), "a checkout has no history"
        subprocess.run(["git", "clone", "-q", "--depth", "1", f"file://{top}", shallow], check=True)
        yield not released.has_whole_history(shallow), "a shallow clone has its whole history"


def verdicts() -> Iterator[tuple[bool, str]]:
    """All verdicts on the trials."""
    yield from of_trials()
    yield from of_histories()
