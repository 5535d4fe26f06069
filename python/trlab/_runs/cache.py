"""Outputs of the program, kept in a folder: each is complete or absent, whenever a process is killed."""
from __future__ import annotations

import errno
import functools
import hashlib
import os
import warnings
from collections.abc import Iterator
from pathlib import Path
from typing import IO, NamedTuple, Optional, Union

from .._errors import IncompleteOutputError, ParameterError, ResultFilesError, TrlabWarning
from .location import find_program, printed_by, sha256_of_program
from .ownership import new_path, owned, remove_abandoned
from .processes import run
from .requests import Length, Request

_HEADING_LENGTH = len(f"trlab-output-1 {64 * '0'} {64 * '0'}\n")
_BLOCK = 1 << 20
_READ_ONLY = (errno.EACCES, errno.EPERM, errno.EROFS)


class Cache:
    """A folder with one file for each call of the program.

    A file is named after its key, the SHA-256 of the program's arguments, the input and the program. Its first line has
    the key and the SHA-256 of the output, which follows and is complete. A file that does not match its first line, its
    name or its input is never used, and is replaced. Several processes, on several machines too, can use one folder at
    the same time. If a folder cannot be written to, no new outputs are kept in it."""

    def __init__(self, folder: Union[str, Path]) -> None:
        if not isinstance(folder, (str, os.PathLike)):
            raise ParameterError(f'`cache` must be the path of a folder, for example "study/cache", not {folder!r}')
        if not str(folder):
            raise ParameterError('the cache needs the path of a folder, not "": Path(".") is the current folder')
        self.folder = Path(folder).expanduser().absolute()

    def create(self) -> None:
        """Creates the folder if it is not there, and removes everything that a killed process began in it."""
        try:
            self.folder.mkdir(parents=True, exist_ok=True)
        except (FileExistsError, NotADirectoryError):
            raise ParameterError(
                f"the cache needs the path of a folder, and {self.folder} is a file, or below one"
            ) from None
        remove_abandoned(self.folder)

    def path(self, key: str) -> Path:
        """The path of the output with this key."""
        return self.folder / f"{key}.out"

    def output_of(self, request: Request) -> Iterator[bytes]:
        """As `processes.output_of`; the output is kept if its length follows from the input."""
        if request.lines() is None:
            yield from run(request)
            return
        key = key_of(request)
        kept_file = self._kept(key, request)
        if kept_file is not None:
            with kept_file:
                yield from _rest(kept_file)
            return
        with owned(new_path(self.folder, "new")) as path:
            try:
                file = open(path, "x+b")
            except OSError as error:
                _warn_that_nothing_is_kept(self.folder, error)
                yield from run(request)
                return
            with file:
                _write(file, key, request)
                self._move(path, key)
                file.seek(_HEADING_LENGTH)
                yield from _rest(file)

    def _kept(self, key: str, request: Request) -> Optional[IO[bytes]]:
        """The output with this key, open for reading, or None if there is none or if it is damaged."""
        path = self.path(key)
        try:
            # Anything else, a pipe or a device, might have no end.
            if not path.is_file():
                return None
            file = open(path, "rb", opener=lambda name, flags: os.open(name, flags | getattr(os, "O_NONBLOCK", 0)))
        except OSError:
            return None
        if file.read(_HEADING_LENGTH) == _heading(key, _digest(file, request)):
            file.seek(_HEADING_LENGTH)
            return file
        file.close()
        return None

    def _move(self, path: Path, key: str) -> None:
        """Moves a whole output into its place, from which it replaces anything but a folder."""
        try:
            os.replace(path, self.path(key))
        except IsADirectoryError:
            raise ResultFilesError(f"{self.path(key)} is a folder, and the cache needs this name: remove it") from None
        except OSError as error:
            _warn_that_nothing_is_kept(self.folder, error)


def key_of(request: Request) -> str:
    """The key of a call: the SHA-256 of the program's version, its own SHA-256, the arguments and the input, each of
    them after its length in bytes and a colon."""
    digest = hashlib.sha256()
    for part in [*map(str.encode, program_identity()), "\0".join(request.arguments).encode(), request.content()]:
        digest.update(b"%d:" % len(part) + part)
    return digest.hexdigest()


class ProgramIdentity(NamedTuple):
    """The version of a program and its SHA-256."""

    version: str
    sha256: str


def program_identity() -> ProgramIdentity:
    """The version of the program and its SHA-256."""
    path = find_program()
    stat = os.stat(path)
    return _identity(path, stat.st_mtime_ns, stat.st_size, stat.st_ino)


@functools.lru_cache(maxsize=None)
def _identity(path: str, modified: int, size: int, inode: int) -> ProgramIdentity:
    """The identity of a program, which is read only once as long as the file does not change: the other arguments are
    those of the file, and part of the key of `lru_cache`."""
    version = (printed_by(path, "--version") or "").split("\n")[0]
    return ProgramIdentity(version, sha256_of_program(path))


def _warn_that_nothing_is_kept(folder: Path, error: OSError) -> None:
    """Warns that outputs are not kept in a folder that cannot be written to. Raises any other error."""
    if error.errno not in _READ_ONLY:
        raise error
    message = f"new outputs are not kept, because {folder} cannot be written to: {error.strerror}"
    warnings.warn(message, TrlabWarning, stacklevel=2)


def _write(file: IO[bytes], key: str, request: Request) -> None:
    """Writes the heading and the whole output of the program."""
    file.write(bytes(_HEADING_LENGTH))
    digest = hashlib.sha256()
    for block in run(request):
        file.write(block)
        digest.update(block)
    file.seek(0)
    file.write(_heading(key, digest.hexdigest()))
    file.flush()
    os.fsync(file.fileno())


def _heading(key: str, digest: str) -> bytes:
    """The first line of a file."""
    return f"trlab-output-1 {key} {digest}\n".encode()


def _rest(file: IO[bytes]) -> Iterator[bytes]:
    """The rest of a file in blocks."""
    return iter(lambda: file.read(_BLOCK), b"")


def _digest(file: IO[bytes], request: Request) -> str:
    """The SHA-256 of the rest of a file, or "" if this is not a complete output of the request."""
    digest, length = hashlib.sha256(), Length(request)
    try:
        for block in _rest(file):
            digest.update(block)
            length.add(block)
        length.end()
    except (IncompleteOutputError, OSError):
        return ""
    return digest.hexdigest()
