"""The program trlab that the commands run, and its runs on inputs. Where a program can be, the package knows (location.py); the
commands prefer the one that was built here, because it is the one to be tested."""
import contextlib
import functools
import os
import select
import signal
import sys
from collections.abc import Callable, Iterable, Iterator, Sequence
from concurrent.futures import ProcessPoolExecutor
from typing import Any, Optional, Union

from trlab import ProgramNotFoundError
from trlab._runs import location

from . import TOP

BUILT = TOP / "crates" / "trlab_program" / "out" / "trlab_program"
SECONDS_OF_A_HANG = 300  # after which a run counts as a hang; this long because other work may slow everything down
NOT_FOUND = "build the program first (./trlab --prove), or name one in TRLAB"
# The exit statuses of the program.
DONE, REJECTED, WRONG_ARGUMENTS, OUT_OF_MEMORY, DEVICE_FAILED = range(5)
# The exit status if the processor lacks a feature that the program is compiled for.
PROCESSOR_LACKS_FEATURE = 127
Answer = tuple[Union[int, str], bytes]


def named_or_built() -> Optional[str]:
    """The program that TRLAB names, or the last one that was built here; None if there is none."""
    return location.named() or (str(BUILT) if os.access(BUILT, os.X_OK) else None)


@functools.cache
def find() -> str:
    """The program that TRLAB names; otherwise the last one that was built here; otherwise the released one."""
    try:
        return named_or_built() or location.of_checkout() or sys.exit(NOT_FOUND)
    except ProgramNotFoundError as error:
        sys.exit(f"{error}\n{NOT_FOUND}")


def find_fastest() -> str:
    """The program that TRLAB names; otherwise the released one, which is for this processor; otherwise the built one."""
    with contextlib.suppress(ProgramNotFoundError):
        if not os.environ.get("TRLAB"):
            return location.of_checkout() or find()
    return find()


def ended(pid: int) -> Union[int, str]:
    """The exit status of a process, or "hang" if it does not end in time."""
    ready = select.poll()
    process = os.pidfd_open(pid)
    ready.register(process, select.POLLIN)
    is_hang = not ready.poll(SECONDS_OF_A_HANG * 1000)
    os.close(process)
    if is_hang:
        os.kill(pid, signal.SIGKILL)
    _, status = os.waitpid(pid, 0)
    return "hang" if is_hang else os.waitstatus_to_exitcode(status)


def run(words: Sequence[str], text: bytes = b"", env: Optional[dict[str, str]] = None, path: Optional[str] = None) -> Answer:
    """The exit status and the output of a run of the program, or of the one with another path, on an input."""
    path = path or find()
    source, sink = os.memfd_create("input"), os.memfd_create("output")
    try:
        os.write(source, text)
        os.lseek(source, 0, os.SEEK_SET)
        streams = [(os.POSIX_SPAWN_DUP2, source, 0), (os.POSIX_SPAWN_DUP2, sink, 1)]
        silence = (os.POSIX_SPAWN_OPEN, 2, "/dev/null", os.O_WRONLY, 0)
        pid = os.posix_spawn(path, [path, *words], os.environ if env is None else env, file_actions=[*streams, silence])
        return ended(pid), os.pread(sink, os.fstat(sink).st_size, 0)
    finally:
        os.close(source)
        os.close(sink)


def side_by_side(work: Callable[[Any], Any], items: Iterable[Any], chunk: int = 50) -> Iterator[Any]:
    """The results of a function for items, in their order; as many processes as processors compute them, or only this one,
    if processes cannot share the locks of a pool, for which Python needs /dev/shm."""
    find()  # a command without a program ends here
    try:
        pool = ProcessPoolExecutor(os.cpu_count() or 1)
    except (ImportError, OSError) as error:
        print(f"one process is used, which takes longer: processes cannot share a lock in /dev/shm ({error})", flush=True)
        yield from map(work, items)
        return
    with pool:
        yield from pool.map(work, items, chunksize=chunk)


def shown(text: bytes) -> str:
    """An input or output in a message: its first bytes, on one line."""
    return repr(text[:400]) + (" .." if len(text) > 400 else "")
