"""Pages that play a run without a server: one file with the page's scripts, its style and the snapshots."""
from __future__ import annotations

import base64
import gzip
import json
import re
from collections.abc import Iterator, Sequence
from html import escape
from typing import TYPE_CHECKING, Optional

from .._inputs.numbers import ALWAYS, MAX_SPEED, checked_int, key_digits, parts
from .._inputs.reading import job_of
from .._inputs.states import SPEEDS
from .._runs.calls import ask_by_line
from .scripts import HERE, joined, policy_hash

if TYPE_CHECKING:
    from .._results.snapshots import Snapshots

MAX_BYTES = 256 * 1024 * 1024
"""The maximum size of the snapshots in one file, before they are compressed."""

_PAGE = """<!doctype html>
<html lang="en">
<head>
<meta charset="utf-8">
<meta name="viewport" content="width=device-width, initial-scale=1">
<meta http-equiv="Content-Security-Policy" content="default-src 'none'; script-src {script_hash}; style-src {style_hash}; img-src data:">
<title>@title@</title>
<link rel="icon" href="data:,">
<style>{style}</style>
</head>
<body class="exported">
<main>
<p class="lead">@lead@</p>
{parts}
</main>
<script type="application/json" id="job">@job@</script>
<script type="text/plain" id="run">@run@</script>
<script type="module">{script}</script>
</body>
</html>
"""
"""The page, in which `film_page` fills in the fields in braces, and each film those between `@`."""

_FORMS_OF_PARTS = (
    r'<figure class="ring">.*?</figure>',
    r'<section class="transport".*?</section>',
    r'<section class="time".*?role="status"></p>',
)
"""The parts of page.html that play a run: the ring, the controls and the space-time diagram."""


def page_of(snapshots: Snapshots, limit: Optional[int] = None, title: str = "") -> str:
    """A web page that plays these snapshots. `limit` is the maximum speed in cells per step, for the colours; None means
    the highest speed of the snapshots. Raises `ValueError` if there are no snapshots, if they do not begin at step 0,
    if they are too long, or if a car is faster than `limit`."""
    if not snapshots or snapshots[0].step != 0:
        raise ValueError("a page needs the snapshots of a run from step 0 on")
    characters = {character for snapshot in snapshots for lane in snapshot.lanes for character in set(lane)}
    fastest = max([1, *map(SPEEDS.find, characters)])
    most = fastest if limit is None else checked_int("limit", limit, fastest, MAX_SPEED)
    lines = (line + "\n" for snapshot in snapshots for line in (f"step {snapshot.step}", *snapshot.lanes))
    return _page(lines, most, title)


def exported(text: str, title: str = "") -> str:
    """A web page that plays the run of a job file. Raises `RejectedInputError` if trlab rejects it."""
    limit = re.search(r"^limit ([0-9]{1,2})$", text, re.M)
    return _page(ask_by_line(["run"], text), int(limit[1]) if limit else 1, title, text)


def film_page() -> str:
    """The page of any film, with `@title@`, `@lead@`, `@job@` and `@run@` as the places of the parts that differ."""
    script, style = joined("exported"), (HERE / "page.css").read_text("utf-8")
    return _PAGE.format(
        style=style, script=script, style_hash=policy_hash(style), script_hash=policy_hash(script), parts=_parts()
    )


def _page(lines: Iterator[str], limit: int, title: str, text: str = "") -> str:
    """The page of the snapshots in these lines, and of the job file, if its text is known. `limit` is in cells per
    step."""
    output = _short_enough(lines)
    lanes = [line.rstrip("\n") for line in output[1:3] if not line.startswith("step ")]
    steps = len(output) // (len(lanes) + 1) - 1
    job = {"length": len(lanes[0]), "lanes": len(lanes), "limit": limit, "steps": steps}
    lead = _lead(lanes, limit)
    lead = f"{_model(text)}: {lead}" if text else lead
    packed = base64.b64encode(gzip.compress("".join(output).encode(), 9, mtime=0)).decode()
    parts_of_film = {
        "title": escape(title or lead), "lead": escape(title or f"{lead}."), "job": json.dumps(job), "run": packed
    }
    return re.sub("@(title|lead|job|run)@", lambda field: parts_of_film[field[1]], film_page())


def _short_enough(lines: Iterator[str]) -> list[str]:
    """The lines, of which no more than needed are taken; raises `ValueError` if they are too long for one file."""
    output, size = [], 0
    for line in lines:
        output.append(line)
        size += len(line)
        if size > MAX_BYTES:
            raise ValueError(f"the snapshots are too long for one file: at most {MAX_BYTES} bytes are allowed")
    return output


def _lead(lanes: Sequence[str], limit: int) -> str:
    """The road in words, with its maximum speed in cells per step."""
    cars = sum(lane.count(character) for lane in lanes for character in SPEEDS)
    counted = "1 car" if cars == 1 else f"{cars} cars"
    rings = "two rings" if len(lanes) == 2 else "a ring"
    return f"{counted} on {rings} of {len(lanes[0])} cells, at most {limit} cells per step"


def _model(text: str) -> str:
    """The model, its probabilities and the random seed of a job file, as the page's `filming.js` writes them."""
    job = job_of(text)
    kind, *numbers = job["rule"].lines()[0].split(" ")[1:]
    # A rule has at most two probabilities.
    first, second = [*(f"{_decimal(number):.10g}" for number in numbers), "", ""][:2]
    models = {
        "nasch": f"Nagel and Schreckenberg (1992), p = {first}",
        "vdr": f"Barlovic et al. (1998), p = {first}, and {second} if stopped",
        "rickert": f"Rickert et al. (1996), p = {first}, lane changes with {second}",
        "own": "A rule of one's own",
    }
    later = ", later another rule" if job["at"] else ""
    return f"{models[kind]}{later}, random seed {int(key_digits(job['key']), 16)}"


def _decimal(number: str) -> float:
    """The shortest decimal of a probability in a file."""
    exact = int(number) / ALWAYS
    return next(decimal for digits in range(12) if parts(decimal := round(exact, digits)) == int(number))


def _parts() -> str:
    """The parts of the page that play a run."""
    page = (HERE / "page.html").read_text("utf-8")
    matches = [re.search(form, page, re.S) for form in _FORMS_OF_PARTS]
    return "\n".join(match[0] for match in matches if match)
