"""Find the program: named by `TRLAB`, packed in the installed package, in the checkout, or on the `PATH`."""
from __future__ import annotations

import atexit
import functools
import gzip
import hashlib
import os
import shutil
import subprocess
import tempfile
import threading
import zlib
from collections.abc import Iterator
from pathlib import Path
from typing import NoReturn, Optional

from .._errors import ProgramNotFoundError
from .node import command_of, is_for_node, node, of_package, sha256_of_module
from .ownership import new_path, owned, remove_abandoned
from .systems import fits_native_programs

_HERE = Path(__file__).resolve().parents[1]
_PACKED = _HERE / "programs"
_SCRIPT = _HERE.parents[1] / "trlab"
# The features of each processor level beyond the first x86-64 processors, in the words of Linux.
FEATURES_OF_V2 = set("cx16 lahf_lm pni popcnt sse4_1 sse4_2 ssse3".split())
FEATURES_OF_V3 = FEATURES_OF_V2 | set("abm avx avx2 bmi1 bmi2 f16c fma movbe xsave".split())
_MAX_OUTPUT = 65536
_TIME_LIMIT = 60.0
"""How long a program may take to print its version, in seconds."""
# Set while the command `trlab` runs a program that it found on the PATH, which may be this command again.
_ON_PATH = "TRLAB_FOUND_ON_PATH"


def find_program() -> str:
    """The path of the program `trlab`: the first of these that is there.

    1. the environment variable `TRLAB`, a path that may be relative or begin with `~`;
    2. the program of the installed package, unpacked on first use into `$XDG_CACHE_HOME/trlab` or `~/.cache/trlab`,
       and compared with its SHA-256;
    3. the program of the checkout, as `./trlab` finds it;
    4. if no native program fits the machine, the program in WebAssembly: the path is that of a script, which Node runs;
    5. `trlab` on the `PATH`.

    Raises `ProgramNotFoundError` if none is found, if it is damaged, or if `TRLAB` names another file."""
    return named() or _packed() or of_checkout() or _for_node() or _on_path() or _nowhere()


def sha256_of_program(path: str) -> str:
    """The SHA-256 of a program, 64 hexadecimal digits. For a script such as `./trlab` it is that of the program which
    the script runs, and for a script for Node that of the module of WebAssembly."""
    if is_for_node(path):
        return sha256_of_module(path)
    return hashlib.sha256(_program_behind(path).read_bytes()).hexdigest()


def _program_behind(path: str) -> Path:
    """The program that a script such as `./trlab` runs, or the file itself."""
    with open(path, "rb") as file:
        if file.read(2) != b"#!":
            return Path(path)
    named = Path((printed_by(path, "--where") or "").rstrip("\n"))
    return named if named.is_absolute() and named.is_file() else Path(path)


def printed_by(path: str, option: str) -> Optional[str]:
    """The output of a program for `--version` or `--where`, or None if it cannot be run, ends with an error or does not
    end."""
    try:
        process = subprocess.Popen(
            [*command_of(path), option], stdin=subprocess.DEVNULL, stdout=subprocess.PIPE, stderr=subprocess.DEVNULL
        )
    except OSError:
        return None
    alarm = threading.Timer(_TIME_LIMIT, process.kill)
    alarm.daemon = True
    alarm.start()
    with process:
        assert process.stdout is not None
        output = process.stdout.read(_MAX_OUTPUT + 1)
        if len(output) > _MAX_OUTPUT:
            process.kill()
        process.wait()
    alarm.cancel()
    return os.fsdecode(output) if process.returncode == 0 and len(output) <= _MAX_OUTPUT else None


def named() -> Optional[str]:
    """The program that `TRLAB` names, or None if it names none. Raises `ProgramNotFoundError` if it names another file."""
    name = os.environ.get("TRLAB")
    if not name:
        return None
    path = Path(os.path.expanduser(name)).absolute()
    if not path.is_file():
        raise ProgramNotFoundError(f"TRLAB is {name!r}, and there is no file {path}")
    if not is_for_node(name) and not os.access(path, os.X_OK):
        raise ProgramNotFoundError(f"TRLAB is {name!r}, and {path} is not executable")
    if not _is_trlab(str(path), path.stat().st_mtime_ns):
        raise ProgramNotFoundError(
            f"TRLAB is {name!r}, and {path} is not trlab: it does not answer to --version as trlab does"
        )
    return str(path)


@functools.lru_cache(maxsize=None)
def _is_trlab(path: str, modified: int) -> bool:
    """Whether a program, which was changed last at this time, prints a version of trlab."""
    return (printed_by(path, "--version") or "").startswith("trlab ")


@functools.lru_cache(maxsize=None)
def _packed() -> Optional[str]:
    """The native program of the installed package, which a checkout and a package for any machine do not have."""
    if not (fits_native_programs() and any(_PACKED.glob("trlab-x86-64-v*.gz"))):
        return None
    level = "x86-64-v3" if FEATURES_OF_V3 <= _features() else "x86-64-v2"
    lines = (_PACKED / "release.txt").read_text("utf-8").splitlines()
    sha256 = dict(line.split() for line in lines if not line.startswith("#"))[level]
    for folder in _folders():
        path = folder / f"trlab-{level}-{sha256}"
        if _has_sum(path, sha256) or _unpacked(_PACKED / f"trlab-{level}.gz", path, sha256):
            return str(path)
    raise ProgramNotFoundError(
        f"the program in {_PACKED} is damaged, or no folder can hold its copy: install trlab again"
    )


def _features() -> set[str]:
    """The features of this processor, in the words of Linux."""
    try:
        lines = Path("/proc/cpuinfo").read_text("utf-8", "replace").splitlines()
    except OSError:
        return set()
    return set(next((line for line in lines if line.startswith("flags")), "").split())


def _folders() -> Iterator[Path]:
    """The folders that may keep the unpacked program: the user's cache, or else a folder that this process removes."""
    home = os.environ.get("XDG_CACHE_HOME") or os.path.expanduser("~/.cache")
    if os.path.isabs(home):
        yield Path(home) / "trlab"
    folder = tempfile.mkdtemp(prefix="trlab-")
    atexit.register(shutil.rmtree, folder, ignore_errors=True)
    yield Path(folder)


def _has_sum(path: Path, sha256: str) -> bool:
    """Whether a file is executable and has this SHA-256."""
    try:
        return os.access(path, os.X_OK) and hashlib.sha256(path.read_bytes()).hexdigest() == sha256
    except OSError:
        return False


def _unpacked(packed: Path, path: Path, sha256: str) -> bool:
    """Whether a program was unpacked whole: it is written under another name, then moved into place."""
    try:
        content = gzip.decompress(packed.read_bytes())
    except (EOFError, OSError, zlib.error):
        return False
    if hashlib.sha256(content).hexdigest() != sha256:
        return False
    try:
        path.parent.mkdir(parents=True, exist_ok=True)
        remove_abandoned(path.parent)
        with owned(new_path(path.parent, "new")) as new:
            with open(new, "xb") as file:
                file.write(content)
                file.flush()
                os.fsync(file.fileno())
                os.fchmod(file.fileno(), 0o755)
            os.replace(new, path)
    except OSError:
        return False
    # Nothing can be run from some file systems.
    return os.access(path, os.X_OK)


@functools.lru_cache(maxsize=None)
def of_checkout() -> Optional[str]:
    """The program of the checkout, as `./trlab` finds it, or None if this is no checkout, or if no native program fits.
    Raises `ProgramNotFoundError` if the checkout has no program of its sources."""
    if not fits_native_programs() or not (_SCRIPT.parent / "release").is_dir():
        return None
    if not _SCRIPT.is_file() or not os.access(_SCRIPT, os.X_OK):
        return None
    process = subprocess.run([_SCRIPT, "--where"], stdin=subprocess.DEVNULL, capture_output=True)
    path = os.fsdecode(process.stdout).rstrip("\n")
    if process.returncode != 0 or not path:
        message = process.stderr.decode("utf-8", "replace").strip()
        raise ProgramNotFoundError(message or f"{_SCRIPT} ended with status {process.returncode}")
    return path


@functools.lru_cache(maxsize=None)
def _for_node() -> Optional[str]:
    """The script that Node runs, if the program in WebAssembly is there, is whole, and Node is on the `PATH`."""
    release = of_package()
    if release is None or node() is None:
        return None
    release.module()
    return str(release.script)


def _on_path() -> Optional[str]:
    """The program on the `PATH`, or None. A program that is asked for its version does not look there again."""
    if _ON_PATH in os.environ:
        return None
    path = shutil.which("trlab")
    if path is None or not _is_trlab_from_path(path):
        return None
    return path


def _is_trlab_from_path(path: str) -> bool:
    """Whether a program on the `PATH` is trlab."""
    os.environ[_ON_PATH] = path
    try:
        return _is_trlab(path, os.stat(path).st_mtime_ns)
    finally:
        del os.environ[_ON_PATH]


def _nowhere() -> NoReturn:
    """Raises the error of a program that was not found."""
    if of_package() is not None:
        raise ProgramNotFoundError(
            "no native program of trlab fits this machine, and the one in WebAssembly needs Node: install Node 18 or "
            "later, so that `node` is on the PATH"
        )
    raise ProgramNotFoundError(
        "trlab is not found: install it with pip, put it on the PATH, or name the program in TRLAB"
    )
