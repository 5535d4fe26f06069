"""The executor of mpi4py: `mpiexec -n 3 python3 -m mpi4py.futures with_mpi.py`."""
import sys
import tempfile
from pathlib import Path

sys.path.insert(0, str(Path(__file__).resolve().parents[1]))

from tests.expected import NEEDS_TWO_LANES  # noqa: E402
from tests.test_many import REJECTED, Executors, windows  # noqa: E402

import trlab  # noqa: E402


def main() -> None:
    from mpi4py.futures import MPIPoolExecutor

    with MPIPoolExecutor() as pool, tempfile.TemporaryDirectory() as cache:
        for _ in range(2):
            results = dict(trlab.results(Executors.JOBS, call=windows, executor=pool, cache=cache))
            assert results == {key: windows(job) for key, job in Executors.JOBS.items()}
        (error,) = dict(trlab.results([REJECTED], call=windows, executor=pool, errors="keep")).values()
        assert isinstance(error, trlab.RejectedInputError) and error.cause == NEEDS_TWO_LANES
    print("OK")


if __name__ == "__main__":
    main()
