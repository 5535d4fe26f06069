"""A small checkout with ./trlab, and a substitute for rt that builds at once."""
from __future__ import annotations

import gzip
import hashlib
import os
import shutil
import subprocess
from collections.abc import Iterable
from pathlib import Path
from typing import Any, NamedTuple, Optional, Union

from trlab._runs.location import FEATURES_OF_V2, FEATURES_OF_V3

from .. import TOP, program
from ..processes import Process

# The released program and the built one: each prints its arguments and its standard input, and ends with a status of its own.
RELEASED = "#!/bin/sh\necho released \"$@\"\ncat\nexit 5\n"
BUILT = "#!/bin/sh\necho \"$@\"\ncat\nexit 3\n"
# The substitute for rt writes its calls, one per line, into the file that CALLS names. If FAILS names a crate, its proof fails;
# CHANGED is a source that is edited during the first build, SLOW the seconds of a build, and LOST means that none is built.
SUBSTITUTE = """#!/bin/sh
echo "$*" >>"$CALLS"
case $1 in
version) echo "a kit logic 0" ;;
all)
    sleep "${SLOW:-0}"
    [ "${CHANGED:-}" ] && [ ! -e "$CALLS.changed" ] && touch "$CALLS.changed" && echo "//" >>"$CHANGED"
    [ "${FAILS:-}" ] && echo "$FAILS: failed" && exit 1
    echo "== trlab_bounds"
    ;;
run)
    [ "${LOST:-}" ] || { mkdir -p out && cat "$BUILT" >out/trlab_program && chmod +x out/trlab_program; }
    ;;
esac
"""
# The crates of a small checkout; the last one is a test.
CRATES = "# Crates.\ntrlab_bounds:\ntrlab_road: trlab_bounds\ntrlab_program: trlab_road clap\ntrlab_cases: trlab_road\n"
NAMES_OF_CRATES = "trlab_bounds", "trlab_road", "trlab_program", "trlab_cases"
# The processor levels for which programs are released, and the features of each.
LEVELS = V2, V3 = ("x86-64-v2", "x86-64-v3")
OF_V2, OF_V3 = sorted(FEATURES_OF_V2), sorted(FEATURES_OF_V3)
# A substitute for grep, with which ./trlab reads the features of the processor.
GREP = "#!/bin/sh\necho flags : fpu {}\n"
# The standard input of each run.
INPUT = b"text"


class Run(NamedTuple):
    """A run of ./trlab that has ended: its output, its exit status, and its messages on standard error."""

    output: bytes
    status: int
    messages: str = ""

    def without_messages(self) -> Run:
        return self._replace(messages="")

    def last_message(self) -> str:
        return self.messages.rstrip("\n").split("\n")[-1]


class Checkout:
    """A small checkout in a path with a space. At first nothing is built, and no program is released.

    The methods that change the checkout return it, so that they can be chained."""

    def __init__(self, folder: Path) -> None:
        self.folder = folder
        self.top = folder / "a checkout"
        self.commands = folder / "bin"
        self.home = folder / "home"
        self.calls = folder / "calls"
        for new_folder in self.commands, self.home, self.release_folder:
            new_folder.mkdir(parents=True)
        for name in "trlab", "release/sources", ".gitattributes":
            shutil.copy2(TOP / name, self.top / name)
        append(self.top / "crates.txt", CRATES)
        for crate in NAMES_OF_CRATES:
            source = self.source_of(crate)
            source.parent.mkdir(parents=True)
            append(source)
        self.add_command("rt", SUBSTITUTE)
        self.add_command("built", BUILT)

    @property
    def release_folder(self) -> Path:
        return self.top / "release"

    def source_of(self, crate: str) -> Path:
        return self.top / "crates" / crate / "src" / "main.rt"

    @property
    def source(self) -> Path:
        """A source of the program."""
        return self.source_of("trlab_road")

    def add_command(self, name: str, script: str) -> Checkout:
        """Put a script on the PATH."""
        path = self.commands / name
        path.write_text(script, "utf-8")
        path.chmod(0o755)
        return self

    def packed_programs(self) -> list[Path]:
        """The packed programs of the release, in the order of the levels."""
        return [self.release_folder / f"trlab-{level}.gz" for level in LEVELS]

    def release(self, program: str = RELEASED, for_v3: Optional[str] = None) -> Checkout:
        """Release a program of the present sources; the one for x86-64-v3 may differ."""
        programs = [program.encode(), (for_v3 or program).encode()]
        process = subprocess.run([self.release_folder / "sources"], capture_output=True, check=True, text=True)
        lines = [f"sources {process.stdout}kit that-kit\n"]
        lines += [f"{level} {hashlib.sha256(content).hexdigest()}\n" for level, content in zip(LEVELS, programs)]
        (self.release_folder / "release.txt").write_text("".join(lines), "utf-8")
        for path, content in zip(self.packed_programs(), programs):
            with gzip.open(path, "w") as file:
                file.write(content)
        return self

    def on_processor(self, features: Iterable[str]) -> Checkout:
        """Continue with a processor that has these features."""
        return self.add_command("grep", GREP.format(" ".join(features)))

    def without_rt(self) -> Checkout:
        (self.commands / "rt").unlink()
        return self

    def moved_by(self, shell_commands: str) -> Checkout:
        """Continue in another checkout, `$1`, which shell commands make from this one, `$0`."""
        target = self.folder / "another checkout"
        words = ["bash", "-euo", "pipefail", "-c", shell_commands, str(self.top), str(target)]
        subprocess.run(words, check=True, capture_output=True)
        self.top = target
        return self

    def start(
        self, script: Union[Path, str, None] = None, words: Iterable[str] = ("run", "--workers", "2"), cwd: Path = Path("/"),
        shell: str = 'exec "$@"', user: Optional[int] = None, **variables: str
    ) -> Process:
        """Start ./trlab, or a link to it, with arguments and environment variables, in a shell that may set something first."""
        folders = os.environ["PATH"].split(os.pathsep)
        folders_without_rt = [folder for folder in folders if not os.path.exists(os.path.join(folder, "rt"))]
        environment = {
            **os.environ,
            "PATH": os.pathsep.join([str(self.commands), *folders_without_rt]),
            "CALLS": str(self.calls),
            "BUILT": str(self.commands / "built"),
            "HOME": str(self.home),
            "XDG_CACHE_HOME": "",
            **variables,
        }
        pipe = subprocess.PIPE
        return subprocess.Popen(
            ["bash", "-c", shell, "", str(script or self.top / "trlab"), *words],
            cwd=cwd, env=environment, stdin=pipe, stdout=pipe, stderr=pipe, user=user,
        )

    def run(self, **arguments: Any) -> Run:
        """Run ./trlab; the arguments are those of `start`."""
        return end(self.start(**arguments))

    def calls_of_rt(self) -> list[str]:
        """The arguments of each call of rt."""
        return self.calls.read_text().splitlines() if self.calls.exists() else []

    def count_of_builds(self) -> int:
        """How often rt was called for all proofs."""
        return sum(line.startswith("all ") for line in self.calls_of_rt())

    def kept_programs(self) -> list[Path]:
        """The files in out/."""
        return sorted((self.top / "out").iterdir()) if (self.top / "out").is_dir() else []

    def kept_program(self) -> Path:
        """The only file in out/."""
        program, = self.kept_programs()
        return program


def end(process: Process) -> Run:
    """Wait for ./trlab to end, after it has got its input."""
    output, messages = process.communicate(INPUT, timeout=program.SECONDS_OF_A_HANG)
    return Run(output, process.returncode, messages.decode())


def append(path: Path, text: str = "//\n") -> None:
    """Write a text at the end of a file."""
    with open(path, "a", encoding="utf-8") as file:
        file.write(text)


def sha256_of(program: str) -> str:
    return hashlib.sha256(program.encode()).hexdigest()
