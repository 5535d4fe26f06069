"""Comparison of the program in WebAssembly, which Node runs, with a native program: exit status, output, standard error."""
import base64
import json
import shutil
import subprocess
import threading
from collections.abc import Iterable, Iterator
from os import PathLike
from typing import NamedTuple, Union

from . import TOP
from .cases import Call
from .command import Count

# The further calls for an input of a command. The native program reports the progress of several runners in any order.
MORE = {
    "check": ["explain check", "explain --json check"],
    "run": [
        "run --every 2 --from 1 --progress --workers 16", "series", "series --every 3 --from 2 --progress", "explain run",
        "explain --json run",
    ],
    "sweep": ["sweep --progress", "sweep --runners 16 --workers 16", "explain sweep", "explain --json sweep"],
}


class Ended(NamedTuple):
    """How a call ended: its exit status, its output and its standard error."""

    status: int
    output: bytes
    error: bytes


def with_more(calls: Iterable[Call]) -> Iterator[Call]:
    """The calls, and after each of a command without options the further calls for its input."""
    for call in calls:
        yield call
        if len(call.words) == 1:
            for more in MORE.get(call.words[0], []):
                yield call._replace(words=more.split())


def by_program(program: str, call: Call) -> Ended:
    """How a call ends in the native program."""
    process = subprocess.run([program, *call.words], input=call.text, capture_output=True)
    return Ended(process.returncode, process.stdout, process.stderr)


def by_node(page: Union[str, PathLike[str]], calls: Iterable[Call]) -> Iterator[Ended]:
    """How the calls end in WebAssembly, in their order."""
    words = ["node", str(TOP / "release" / "wasm" / "answers.mjs"), str(page)]
    with subprocess.Popen(words, stdin=subprocess.PIPE, stdout=subprocess.PIPE, text=True) as running:
        assert running.stdin is not None and running.stdout is not None
        questions, answers = running.stdin, running.stdout

        def send() -> None:
            """Send all calls, one JSON object per line."""
            with questions:
                for call in calls:
                    print(json.dumps({"words": call.words, "input": base64.b64encode(call.text).decode()}), file=questions)

        threading.Thread(target=send, daemon=True).start()
        for line in answers:
            answer = json.loads(line)
            yield Ended(answer["status"], *(base64.b64decode(answer[part]) for part in ("output", "error")))


def has_node() -> bool:
    """Whether Node is installed."""
    return shutil.which("node") is not None


def compare(count: Count, page: Union[str, PathLike[str]], program: str, first_calls: Iterable[Call]) -> None:
    """Note for these calls, and for the further ones of their inputs, whether both programs end in the same way."""
    calls = list(with_more(first_calls))
    answers = 0
    for call, answer in zip(calls, by_node(page, calls)):
        answers += 1
        expected = by_program(program, call)
        message = f"{call.name}: `trlab {' '.join(call.words)}` ends with {answer}, but {program} with {expected}"
        count.note(answer == expected, message[:2000])
    count.note(answers == len(calls), f"Node answered {answers} of {len(calls)} calls")
