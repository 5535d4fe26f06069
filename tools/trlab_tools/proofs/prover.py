"""Trials: the prover checks the functions that wrong bodies change, in a copy of their crate."""
import functools
import os
import re
import resource
import shutil
import subprocess
import tempfile
from collections.abc import Collection, Iterable, Sequence
from typing import NamedTuple

from .. import TOP
from ..finding import match_in
from . import trials
from .bodies import Body, read
from .crates import Crate, function_around, rlib_folder

# A proof that leaves its statement open.
HOLE = """use Rattle.{crate}.proofs.{path}.Statement as stated

pub {name}_spec : {{M : Type 1}} → stated.statement M
{name}_spec = ?
"""
# A line about a place of a source: the file, the number of the line, and what is not proved there.
NOTE = re.compile(r"note: (src/\S+):(\d+):\d+: ((?:it is not proved|`search` found no proof).*)")

# The processor seconds of a trial at most: a search that has no end is no verdict.
LIMIT = 1800
# The exit statuses of a check that says whether all is proved.
PROVED, NOT_PROVED = 0, 1


@functools.cache
def kit() -> str:
    """The folder of the toolchain."""
    return os.path.dirname(subprocess.run(["rt", "doc"], capture_output=True, check=True, text=True).stdout.strip())


def at_once() -> int:
    """How many trials fit at a time: each needs a processor, and up to 3 GB."""
    with open("/proc/meminfo", encoding="utf-8") as file:
        free = int(match_in(r"MemAvailable:\s+(\d+)", file.read())[1])
    return max(1, min(len(os.sched_getaffinity(0)), free // 3_000_000))


class Ended(NamedTuple):
    """The output of a command with its messages, its exit status, and its processor seconds."""

    output: str
    status: int
    seconds: float


def run_timed(words: Sequence[str], folder: str) -> Ended:
    """Run a command in a folder. If it is ended at the limit, the last line of the output says so."""
    with tempfile.TemporaryFile("w+", errors="replace") as output:
        process = subprocess.Popen(words, cwd=folder, stdin=subprocess.DEVNULL, stdout=output, stderr=subprocess.STDOUT)
        resource.prlimit(process.pid, resource.RLIMIT_CPU, (LIMIT, LIMIT))
        _, wait_status, used = os.wait4(process.pid, 0)
        status = process.returncode = os.waitstatus_to_exitcode(wait_status)
        output.seek(0)
        printed = output.read()
    if status < 0:
        printed += f"\nit was ended by signal {-status}; the limit is {LIMIT} processor seconds"
    return Ended(printed, status, used.ru_utime + used.ru_stime)


def check_words(crate: Crate) -> list[str]:
    """The command that checks a copy of a crate over the libraries here."""
    root = f"src/{'main' if crate.is_program else 'lib'}.rt"
    words = [os.path.join(kit(), "bin", "rattle"), "check", "--crate-name", crate.name, root]
    for name in ["std", *crate.libraries]:
        folder = rlib_folder(name) if name in crate.lower else f"{kit()}/rlibs"
        words += ["--extern", f"{name}={folder}/{name}.rlib"]
    for folder in [f"{kit()}/rlibs", *map(rlib_folder, crate.lower)]:
        words += ["-L", f"dependency={folder}"]
    words += ["--antt-project", f"{kit()}/rattle/logic/antt-project.json", "--logic-built", f"{kit()}/logic_built"]
    return [*words, "--links", f"{crate.name}=", "--jobs", "1", "--allow-holes"]


def write_copy(crate: Crate, target: str, bodies: Iterable[Body], changed: Iterable[str]) -> None:
    """Write a crate with these bodies into a folder, with holes for the proofs of all functions but the `changed` ones."""
    for part in "src", "specs", "proofs":
        if os.path.isdir(os.path.join(crate.folder, part)):
            shutil.copytree(os.path.join(crate.folder, part), os.path.join(target, part))
    for file, text in crate.edited(bodies).items():
        with open(os.path.join(target, file), "w", encoding="utf-8") as source:
            source.write(text)
    for function in (crate.proved_alone & crate.paths).difference(changed):
        write_hole(crate, target, function.split("::"))


def write_hole(crate: Crate, target: str, path: Sequence[str]) -> None:
    """Write a hole instead of the proof of the function with this path."""
    folder = os.path.join(target, "proofs", *path)
    os.makedirs(folder, exist_ok=True)
    for name in "Answers", "Invariants":
        by_hand = os.path.join(folder, f"{name}.antt")
        if os.path.exists(by_hand):
            os.remove(by_hand)
    with open(os.path.join(folder, "Proof.antt"), "w", encoding="utf-8") as file:
        file.write(HOLE.format(crate=crate.name, path=".".join(path), name=path[-1]))


def try_bodies(crate: Crate, bodies: Sequence[Body], work: str, bare: Collection[str] = ()) -> trials.Trial:
    """The trial of the functions that these bodies change, in the crate with these bodies; or of the `bare` functions, without
    their proofs by hand. The prover continues with the files that earlier trials left in the folder `work`."""
    changed = sorted(bare or set().union(*map(crate.changed_by, bodies)))
    with tempfile.TemporaryDirectory() as copy:
        write_copy(crate, copy, bodies, set(changed))
        for function in bare:
            os.remove(crate.answers_of(function, copy))
        sums = [crate.name, changed, crate.libraries, *sums_below(crate), trials.sum_of([copy], copy)]
        place = trials.path_of(sums)
        trial = trials.find(place) or check_functions(crate, copy, changed, work)
        if not trial.is_kept and trial.status in (PROVED, NOT_PROVED):
            trials.keep(place, trial)
        return trial._replace(lines=[line_with_function(crate, copy, line) for line in trial.lines])


def check_functions(crate: Crate, copy: str, functions: Iterable[str], work: str) -> trials.Trial:
    """The trial of functions in a copy of their crate, without the lines that show a goal, which begin with a space."""
    options = [word for path in functions for word in ("--only", path)]
    ended = run_timed([*check_words(crate), "--incremental", work, *options], copy)
    lines = [line for line in ended.output.splitlines() if line[:1].strip()]
    return trials.Trial(lines, ended.seconds, ended.status, is_kept=False)


@functools.cache
def sums_below(crate: Crate) -> list[str]:
    """The identity of the toolchain, and the checksum of all files of the libraries below that a check reads."""
    rlibs = [os.path.join(rlib_folder(name), f"{name}.rlib") for name in crate.lower]
    interfaces = [os.path.join(rlib, part) for rlib in rlibs for part in ("interface", "lang/antt")]
    # A program is also linked with their code.
    files = rlibs if crate.is_program else interfaces
    return [read(f"{kit()}/KIT-ID"), trials.sum_of(files, TOP)]


def line_with_function(crate: Crate, copy: str, line: str) -> str:
    """A line of the prover, with the path of a function instead of the place in a source that it names."""
    note = NOTE.match(line)
    if not note:
        return line
    file, number, message = note.groups()
    text = crate.text(os.path.join(copy, file))
    lines_before = text.splitlines(keepends=True)[:int(number) - 1]
    function = function_around(file, text, sum(map(len, lines_before)))
    return f"note: {function and function.path_in(crate.paths)}: {message}"
