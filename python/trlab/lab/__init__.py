"""trlab-lab: moving traffic in the browser, computed by trlab.

    trlab-lab                        serve the page on this machine and open it
    trlab-lab examples/jams.job      open it with a job file
    trlab-lab --export FILE < JOB    write one file that plays a run without a server

`python -m trlab.lab` is the same command. The page shows the snapshots that the program writes; it computes no traffic."""
from .export import page_of
from .server import Lab

__all__ = ["Lab", "page_of"]
