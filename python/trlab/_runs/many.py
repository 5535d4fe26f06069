"""Many inputs, side by side: results as they finish, kept in a folder, with threads or any other executor."""
from __future__ import annotations

import itertools
import threading
from collections.abc import Callable, Iterable, Iterator, Mapping
from concurrent.futures import BrokenExecutor, Executor, Future, ThreadPoolExecutor, wait
from contextlib import contextmanager, nullcontext, suppress
from pathlib import Path
from queue import Empty, SimpleQueue
from typing import Any, NamedTuple, Optional, TypeVar, Union, overload

from .._errors import ParameterError, set_first_cause
from .._inputs.jobs import Job
from .._inputs.numbers import checked_int
from .._inputs.sweeps import Sweep
from .cache import Cache
from .ownership import Lease
from .processes import Processes, Setting, new_processes, set_to, setting
from .progress import Line, Progress, reporter
from .systems import SPAN, after_fork, processors

Input = TypeVar("Input")
Name = TypeVar("Name")
Result = TypeVar("Result")

# How long a task waits before it looks again whether its run has ended, in seconds.
_BETWEEN_LOOKS = 0.1

# The processes of the runs that continue in this process, by the path of their lease.
_RUNS: dict[str, Processes] = {}
after_fork(_RUNS.clear)


def table_or_snapshots(input: Union[Job, Sweep]) -> Any:
    """The table of a sweep, or the snapshots of a job."""
    return input.sweep() if isinstance(input, Sweep) else input.run()


@overload
def results(
    inputs: Mapping[Name, Input],
    call: Optional[Callable[[Input], Any]] = ...,
    cache: Union[None, str, Path] = ...,
    executor: Optional[Executor] = ...,
    progress: Progress = ...,
    errors: str = ...,
    at_once: Optional[int] = ...,
) -> Iterator[tuple[Name, Any]]: ...


@overload
def results(
    inputs: Iterable[Input],
    call: Optional[Callable[[Input], Any]] = ...,
    cache: Union[None, str, Path] = ...,
    executor: Optional[Executor] = ...,
    progress: Progress = ...,
    errors: str = ...,
    at_once: Optional[int] = ...,
) -> Iterator[tuple[int, Any]]: ...


def results(
    inputs: Any,
    call: Optional[Callable[[Any], Any]] = None,
    cache: Union[None, str, Path] = None,
    executor: Optional[Executor] = None,
    progress: Progress = None,
    errors: str = "raise",
    at_once: Optional[int] = None,
) -> Iterator[tuple[Any, Any]]:
    """Run many inputs in parallel, and yield the name and the result of each input as it finishes:

        for name, table in trlab.results(sweeps, cache="study/cache", progress=True):
            print(name, table[0].flow)

    - `inputs` maps names to jobs or sweeps, or is a list, with the numbers 0, 1, 2 and so on as names.
    - `call` is applied to each input, by default `Sweep.sweep` or `Job.run`. It should return a whole result, not an
      iterator, for example `lambda job: job.series(every=100, first=1000)`.
    - `cache` is a folder that keeps the outputs of the program. If a run is interrupted, even by `kill -9`, start it
      again with the same folder: finished outputs are read, and `call` is applied to them again. Files are named by
      the SHA-256 of arguments, input and program, so a change never gets an old result; only complete outputs are kept,
      and damaged files are not used. Several runs, also on several machines, may share a folder. A folder that cannot
      be written to is read, and a warning says that new outputs are not kept.
    - `executor` is any executor of `concurrent.futures`, which you shut down yourself; by default each thread waits
      for one process of the program. With other processes (`ProcessPoolExecutor`, dask's `client.get_executor()`,
      `mpi4py.futures.MPIPoolExecutor`, joblib's `get_reusable_executor()`), `call` must be a top-level function of a
      module, unless the executor can send others.
    - `progress=True` reports on standard error; a function is called with the numbers of finished and of all inputs.
    - `errors="raise"` raises the first exception of a call, for example `RejectedInputError`, after a line with the name
      of the input; `errors="keep"` yields it as the result and continues.
    - `at_once` is the number of inputs that run at a time, by default one per processor, or as many as the executor
      takes.

    After an exception, Ctrl-C or a `break`, no process of the program continues. If a variable holds the iterator,
    call its `.close()`; otherwise its processes end when Python exits. SIGTERM and SIGHUP, which `scancel`, systemd and
    Docker send, end the processes too before they end Python, if `results` runs in the main thread and your script does
    not handle these signals itself."""
    if errors not in ("raise", "keep"):
        raise ParameterError(f'errors must be "raise" or "keep", not {errors!r}')
    if at_once is not None:
        at_once = checked_int("at_once", at_once, 1, 10**6)
    named = dict(inputs) if isinstance(inputs, Mapping) else dict(enumerate(inputs))
    if call is None:
        for name, input in named.items():
            if not isinstance(input, (Job, Sweep)):
                raise ParameterError(f"input {name!r} is not a Job or a Sweep: {input!r}")
    report = reporter(progress)
    return _results(
        named, call or table_or_snapshots, _cache_for(cache), executor, report, errors == "keep", at_once
    )


def run_all(inputs: Iterable[Input], call: Callable[[Input], Result], at_once: Optional[int] = None) -> list[Result]:
    """Apply `call` to every input and return the results in order, for example `run_all(sweeps, Sweep.sweep)`.
    `at_once` is as in `results`. If a call raises an exception, the other calls are stopped and it is raised."""
    if callable(inputs) and not callable(call):
        raise ParameterError("the inputs come first: run_all(inputs, call)")
    results_by_place = dict(results(list(inputs), call, at_once=at_once))
    return [results_by_place[place] for place in range(len(results_by_place))]


def _cache_for(folder: Union[None, str, Path]) -> Optional[Cache]:
    """The cache in a folder; without a folder, the cache of the task in which this runs, if there is one."""
    if folder is None:
        current = setting()
        return None if current is None else current.cache
    cache = Cache(folder)
    cache.create()
    return cache


def _results(
    named: Mapping[Any, Any],
    call: Callable[[Any], Any],
    cache: Optional[Cache],
    executor: Optional[Executor],
    report: Optional[Callable[[int, int], object]],
    are_errors_kept: bool,
    at_once: Optional[int],
) -> Iterator[tuple[Any, Any]]:
    """Yield the results of `results`, whose arguments are checked."""
    finished: SimpleQueue[Future[Any]] = SimpleQueue()
    names: dict[Future[Any], Any] = {}
    inputs = iter(named.items())
    with _running(executor, cache, at_once, names) as run:

        def submit(count: Optional[int]) -> None:
            """Pass the next inputs to the executor, or all of them."""
            for name, input in itertools.islice(inputs, count):
                future = run.pool.submit(_task, call, input, cache, run.lease)
                names[future] = name
                future.add_done_callback(finished.put)

        submit(run.count_at_first)
        try:
            for done in range(1, len(named) + 1):
                future = _next_of(finished)
                name = names.pop(future)
                result = _result_of(future, name, are_errors_kept)
                submit(1)
                if report is not None:
                    report(done, len(named))
                yield name, result
        finally:
            if isinstance(report, Line):
                report.end()


class _Run(NamedTuple):
    """The executor of a run, its lease, and how many inputs the executor gets at first; None for all of them."""

    pool: Executor
    lease: Lease
    count_at_first: Optional[int]


@contextmanager
def _running(
    executor: Optional[Executor], cache: Optional[Cache], at_once: Optional[int], futures: dict[Future[Any], Any]
) -> Iterator[_Run]:
    """A run, of which nothing continues at the end of the block."""
    current = setting()
    # A run inside a task of another run leaves the other processors to the other tasks.
    count = at_once or (processors() if current is None else 1)
    lease = Lease.new(None if cache is None else cache.folder)
    with new_processes(None if current is None else current.processes) as processes:
        pool = executor or ThreadPoolExecutor(count, "trlab")
        _RUNS[lease.path] = processes
        running: list[Future[Any]] = []
        try:
            with nullcontext() if executor is None else lease.held():
                try:
                    # Threads of our own always have a next input while the caller uses a result.
                    yield _Run(pool, lease, at_once if executor is not None else 2 * count)
                finally:
                    processes.stop()
                    running += [future for future in futures if not future.cancel()]
        finally:
            lease.wait_for_tasks()
            wait(running, timeout=10)
            if executor is None:
                pool.shutdown()
            del _RUNS[lease.path]


def _next_of(finished: SimpleQueue[Future[Any]]) -> Future[Any]:
    """The next call that has ended, after waits that are short enough for signals."""
    while True:
        with suppress(Empty):
            return finished.get(timeout=SPAN)


def _result_of(future: Future[Any], name: object, are_errors_kept: bool) -> Any:
    """The result of a call, or its exception if these are kept; one of the executor itself is always raised."""
    error = future.exception()
    if isinstance(error, Exception) and not isinstance(error, BrokenExecutor):
        if are_errors_kept:
            return error
        set_first_cause(error, f"the call failed for the input {name!r}")
    return future.result()


def _task(call: Callable[[Any], Any], input: Any, cache: Optional[Cache], lease: Lease) -> Any:
    """Apply a call to an input, in the thread, process or machine that the executor chooses."""
    with _processes_for_task(lease) as processes, set_to(Setting(processes, cache)):
        return call(input)


@contextmanager
def _processes_for_task(lease: Lease) -> Iterator[Processes]:
    """The processes that a task of a run may start. They are stopped when the run ends."""
    if lease.is_of_this_process():
        # A run that has ended is no longer in the list. A task of it that begins now must not start anything.
        yield _RUNS.get(lease.path) or Processes(is_stopped=True)
        return
    with new_processes() as processes:
        if lease.is_visible():
            with lease.task(), _stopped_with_run(processes, lease):
                yield processes
        else:
            yield processes


@contextmanager
def _stopped_with_run(processes: Processes, lease: Lease) -> Iterator[None]:
    """Stops the processes if the run, which belongs to another process, ends before the block does."""
    has_block_ended = threading.Event()

    def watch() -> None:
        """Look for the end of the run, until the block ends."""
        while not lease.is_over():
            if has_block_ended.wait(_BETWEEN_LOOKS):
                return
        processes.stop()

    threading.Thread(target=watch, daemon=True).start()
    try:
        yield
    finally:
        has_block_ended.set()
