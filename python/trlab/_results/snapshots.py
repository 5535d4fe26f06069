"""The snapshots of a run."""
from __future__ import annotations

from collections.abc import Iterable, Sequence
from html import escape
from typing import TYPE_CHECKING, Any, Optional, Union

from .._errors import ParameterError, SnapshotsError
from .._inputs.numbers import checked_int
from .._renamed import IN_SNAPSHOTS, need_current_name
from .lists import ResultList
from .written import Snapshot as Snapshot, WrittenSnapshots, snapshots_in as snapshots_in, read_snapshots, speeds_in

if TYPE_CHECKING:
    import numpy
    import pandas

    from .trajectories import Trajectories

MAX_SHOWN, MAX_SHOWN_CELLS = 20, 100
"""The most snapshots, and the most cells of each, that a notebook shows."""


class Snapshots(ResultList[Snapshot]):
    """The snapshots of a run, as a list that takes one byte per cell: each access makes a `Snapshot`."""

    def __init__(self, snapshots: Iterable[Snapshot] = ()) -> None:
        self._held = snapshots if isinstance(snapshots, WrittenSnapshots) else list(snapshots)

    def _like(self, items: Sequence[Snapshot]) -> Snapshots:
        return Snapshots(items)

    def __repr__(self) -> str:
        if not self:
            return "<no snapshots>"
        lanes = self[0].lanes
        size, steps = f"{len(lanes)} x {len(lanes[0])} cells", f"steps {self[0].step} to {self[-1].step}"
        return f"<{len(self)} snapshots of {size}, {steps}>"

    def _repr_html_(self) -> str:
        """The first snapshots as characters, for notebooks."""
        lines = []
        for snapshot in self[:MAX_SHOWN]:
            lanes = "\n        ".join(lane[:MAX_SHOWN_CELLS] for lane in snapshot.lanes)
            lines.append(f"{snapshot.step:>7} {lanes}")
        return f"<pre>{escape(chr(10).join([*lines, repr(self)]))}</pre>"

    @classmethod
    def read(cls, text: Union[str, bytes]) -> Snapshots:
        """Read the output of `trlab run`. Raises `OutputFormatError` with the line if it is anything else, or cut
        off."""
        plain = text.encode("ascii", "replace") if isinstance(text, str) else text
        return cls(read_snapshots(plain.replace(b"\r\n", b"\n") if b"\r" in plain else plain))

    def text(self) -> str:
        """The snapshots as the program writes them."""
        return "".join(line + "\n" for snapshot in self for line in (f"step {snapshot.step}", *snapshot.lanes))

    def speeds(self, dtype: Any = float, empty: Optional[int] = None) -> numpy.ndarray[Any, Any]:
        """An array by snapshot, lane and cell: the speed of the car in cells per step, 0 to 35, or NaN for an empty
        cell, so that a mean over empty cells cannot pass for a mean speed: use `numpy.nanmean` for the mean speed. The
        snapshot of step 0 has the speeds of the initial state, which no car drove: leave it out of means
        (`job.run(first=1)`).

        `dtype` may be a type of floats from float32 on, or of signed whole numbers from int16 on, in which `v * v` does
        not overflow. Whole numbers need a negative number for empty cells: `speeds("int16", empty=-1)`. Raises
        `ParameterError` for any other type or number, and `SnapshotsError` if the roads have different sizes."""
        from .arrays import numpy

        number_type = numpy.dtype(dtype)
        least_size = {"f": 4, "i": 2}.get(number_type.kind)
        if least_size is None or number_type.itemsize < least_size:
            raise ParameterError(
                f"speeds need float32, float64 or a signed whole number from int16 on, not {number_type}"
            )
        if (number_type.kind == "f") != (empty is None):
            raise ParameterError("floats have NaN for an empty cell; whole numbers need `empty`, for example empty=-1")
        empty_value = numpy.nan if empty is None else checked_int("empty", empty, numpy.iinfo(number_type).min, -1)
        signed = self._signed()
        speeds = signed.astype(number_type)
        speeds[signed < 0] = empty_value
        return speeds

    def occupied(self) -> numpy.ndarray[Any, Any]:
        """An array of bools by snapshot, lane and cell: whether a car is there. Its mean is the density. Raises
        `SnapshotsError` if the roads have different sizes."""
        return self._signed() >= 0

    def __getattr__(self, name: str) -> Any:
        need_current_name("`Snapshots`", name, IN_SNAPSHOTS)
        raise AttributeError(f"Snapshots have no attribute {name!r}")

    def _signed(self) -> numpy.ndarray[Any, Any]:
        # Speeds in 8 bits, and -1 for an empty cell.
        if isinstance(self._held, WrittenSnapshots):
            return self._held.speeds()
        lanes = [len(lane) for lane in self[0].lanes] if self else []
        for snapshot in self:
            if [len(lane) for lane in snapshot.lanes] != lanes or len(set(lanes)) != 1:
                raise SnapshotsError(f"the road of step {snapshot.step} has another size")
        speeds = speeds_in("".join(lane for snapshot in self for lane in snapshot.lanes))
        return speeds.reshape(len(self), len(lanes), lanes[0] if lanes else 0)

    def to_pandas(self) -> pandas.DataFrame:
        """A frame with one row per car and snapshot: `step`, `lane` (0 or 1), `cell` (from 0) and `speed` in cells per
        step, as 64-bit integers. The order of the rows does not follow the cars from snapshot to snapshot: see
        `trajectories`."""
        from .._analysis.required import numpy, pandas

        # The step, the number and the length of each lane of all snapshots.
        lanes = [(snapshot.step, number, len(lane)) for snapshot in self for number, lane in enumerate(snapshot.lanes)]
        steps, numbers, lengths = numpy.array(lanes, dtype=numpy.int64).reshape(-1, 3).T
        speeds = speeds_in("".join(lane for snapshot in self for lane in snapshot.lanes))
        places, ends = numpy.flatnonzero(speeds >= 0), numpy.cumsum(lengths)
        counts = numpy.diff(numpy.searchsorted(places, ends), prepend=0)
        frame = numpy.empty((4, len(places)), dtype=numpy.int64)
        for row, of_lane in enumerate((steps, numbers, ends - lengths)):
            frame[row] = numpy.repeat(of_lane, counts)
        numpy.subtract(places, frame[2], out=frame[2])
        frame[3] = speeds[places]
        return pandas.DataFrame(frame.T, columns=["step", "lane", "cell", "speed"], copy=False)

    def html(self, limit: Optional[int] = None, title: str = "") -> str:
        """A web page that plays these snapshots: one file that needs no server or network. Colours range from speed 0
        to `limit`, by default the highest speed, and `title` is the title of the page. Raises `SnapshotsError` unless
        the snapshots are those of all steps from 0 on, and `ValueError` if they are longer than 256 MiB."""
        from ..lab.export import page_of

        for step, snapshot in enumerate(self):
            if snapshot.step != step:
                raise SnapshotsError(
                    f"a page plays the snapshots of all steps from 0 on, and that of step {step} is missing"
                )
        return page_of(self, limit, title)

    def trajectories(self, dtype: Any = "int64") -> Trajectories:
        """The trajectory of every car. `dtype` is the type of the arrays, for example "int32", which takes half the
        memory; `trlab.follow` needs the memory of one step. Raises `SnapshotsError` unless the snapshots are of
        consecutive steps of one run (or a part of them, such as `job.run()[1000:]`), and `ParameterError` if the type
        is too small."""
        from .trajectories import trajectories_of

        return trajectories_of(self, dtype)
