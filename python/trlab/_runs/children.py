"""Child processes whose exit status is not lost if several threads wait for them and kill them."""
from __future__ import annotations

import os
import signal
import subprocess
import threading
from contextlib import suppress
from typing import Any, Optional

from .._errors import ExitStatusError
from .systems import can_ask_for_ends


class Child(subprocess.Popen[bytes]):
    """A process of trlab.

    The system forgets an exit status as soon as somebody has taken it. `Popen.kill` takes it first, and notes it a
    moment later, so that a thread that asks meanwhile gets none. Here only `exit_status` takes it, under a lock."""

    def __init__(self, *arguments: Any, **options: Any) -> None:
        self._status: Optional[int] = None
        # A signal may come while the main thread holds it.
        self._lock = threading.RLock()
        super().__init__(*arguments, **options)

    def exit_status(self) -> int:
        """Waits until the process has ended, and returns its exit status, or minus the signal that ended it. Raises
        `ExitStatusError` if it is lost, which only systems with `os.waitid` report."""
        if not can_ask_for_ends():
            return super().wait()
        with suppress(ChildProcessError):
            os.waitid(os.P_PID, self.pid, os.WEXITED | os.WNOWAIT)
        with self._lock:
            if self._status is None:
                self._status = self._take()
            return self._status

    def _take(self) -> int:
        """The exit status of the ended process, which the system forgets then."""
        try:
            info = os.waitid(os.P_PID, self.pid, os.WEXITED | os.WNOWAIT)
        except ChildProcessError:
            raise ExitStatusError(
                "the exit status of trlab is lost, because something else in this process waits for all child "
                "processes: run trlab in another process"
            ) from None
        finally:
            super().wait()
        assert info is not None
        return info.si_status if info.si_code == os.CLD_EXITED else -info.si_status

    def wait(self, timeout: Optional[float] = None) -> int:
        """The same as `Popen.wait`, which takes a lost exit status for 0."""
        if timeout is None:
            with suppress(ExitStatusError):
                self.exit_status()
        return super().wait(timeout)

    def kill(self) -> None:
        """Kills the process if it still runs, and leaves its exit status to `exit_status`."""
        if not can_ask_for_ends():
            super().kill()
            return
        with self._lock, suppress(ChildProcessError):
            if self.returncode is None:
                # If something else has taken the exit status, the number may be that of another process now: then this
                # raises.
                os.waitid(os.P_PID, self.pid, os.WEXITED | os.WNOWAIT | os.WNOHANG)
                os.kill(self.pid, signal.SIGKILL)
