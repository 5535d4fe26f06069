"""The functions of the page's scripts, called by Node."""
import json
import shutil
import subprocess
import tempfile
from collections.abc import Callable, Sequence
from pathlib import Path
from typing import Any

from trlab.lab.scripts import joined

NODE = shutil.which("node") or shutil.which("nodejs") or ""
MISSING = "" if NODE else "Node is not installed (nodejs)"
CALLER = Path(__file__).with_suffix(".mjs").read_text()


class Thrown(Exception):
    """An error that a script throws on purpose, with its message as the argument."""


def answers(calls: Sequence[Sequence[object]], edit: Callable[[str], str] = lambda script: script) -> list[Any]:
    """The values of calls, each (module, function, argument, ..), or `Thrown` errors. `edit` changes the scripts
    first."""
    questions = json.dumps([[module, function, arguments] for module, function, *arguments in calls])
    with tempfile.TemporaryDirectory() as folder:
        path = Path(folder) / "scripts.mjs"
        path.write_text(edit(joined("reading", "jobs", "exact")) + CALLER)
        ended = subprocess.run([NODE, path], input=questions, capture_output=True, text=True)
    if ended.returncode != 0:
        raise AssertionError(ended.stderr)
    return [Thrown(call["error"]) if "error" in call else call["value"] for call in json.loads(ended.stdout)]


def answer(*call: object) -> Any:
    """The value of one call; raises `Thrown`."""
    [result] = answers([call])
    if isinstance(result, Thrown):
        raise result
    return result
