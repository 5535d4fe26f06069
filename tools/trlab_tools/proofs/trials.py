"""The verdicts of the prover on wrong bodies, kept from run to run, as rt keeps proofs.

The checksum of a trial covers everything that it reads: the copy of the crate, the toolchain, and the interfaces of the
libraries below. A trial with the same checksum is not repeated on this machine. A trial without a verdict, for example
because it was killed or ran out of memory, is not kept."""
import hashlib
import json
import os
import tempfile
import time
from collections.abc import Iterable, Iterator, Sequence
from typing import NamedTuple, Optional, Union

FOLDER = os.path.join(os.environ.get("XDG_CACHE_HOME") or os.path.expanduser("~/.cache"), "trlab", "trials")
# The seconds after which an entry that no run has used is removed.
OLDEST = 30 * 24 * 3600


class Trial(NamedTuple):
    """The lines that the prover printed, its processor seconds and exit status, and whether they come from an earlier run."""

    lines: list[str]
    seconds: float
    status: int
    is_kept: bool


def files_of(places: Iterable[str]) -> Iterator[str]:
    """The files of these places, which are files or folders, in an order of their own."""
    for place in places:
        if os.path.isfile(place):
            yield place
        for folder, folders_below, files in os.walk(place):
            # `os.walk` continues with the folders in the order of this list.
            folders_below.sort()
            yield from (os.path.join(folder, name) for name in sorted(files))


def sum_of(places: Iterable[str], top: Union[str, os.PathLike[str]]) -> str:
    """The checksum of files and of those in folders: of their paths relative to a folder, and of their contents."""
    total = hashlib.sha256()
    for path in files_of(places):
        with open(path, "rb") as file:
            total.update(f"{os.path.relpath(path, top)} {hashlib.sha256(file.read()).hexdigest()}\n".encode())
    return total.hexdigest()


def path_of(sums: Sequence[object]) -> str:
    """The path at which a trial with these checksums is kept."""
    return os.path.join(FOLDER, f"{hashlib.sha256(repr(sums).encode()).hexdigest()}.json")


def find(path: str) -> Optional[Trial]:
    """The trial that an earlier run kept there, or None."""
    try:
        with open(path, encoding="utf-8") as file:
            kept = json.load(file)
        os.utime(path)
        return Trial(**kept, is_kept=True)
    except (OSError, ValueError, TypeError):
        return None


def keep(path: str, trial: Trial) -> None:
    """Keep a trial, unless the folder cannot be written."""
    try:
        os.makedirs(FOLDER, exist_ok=True)
        with tempfile.NamedTemporaryFile("w", dir=FOLDER, delete=False, encoding="utf-8") as file:
            json.dump({"lines": trial.lines, "seconds": trial.seconds, "status": trial.status}, file)
        os.replace(file.name, path)
    except OSError:
        pass


def remove_old() -> None:
    """Remove the trials that no run has used for a month."""
    for path in files_of([FOLDER]):
        try:
            if os.stat(path).st_mtime < time.time() - OLDEST:
                os.remove(path)
        except OSError:
            pass
