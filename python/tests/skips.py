"""Reasons to skip tests."""
import importlib.util
import multiprocessing
import unittest
from collections.abc import Callable
from typing import Any, TypeVar

Test = TypeVar("Test", bound=Callable[..., Any])


def needs(package: str) -> Callable[[Test], Test]:
    """Skip a test, or all tests of a class, if a package is not installed."""
    return unittest.skipUnless(importlib.util.find_spec(package), f"{package} is not installed")


def fault_of_pools() -> str:
    """The reason why pools of processes do not work here, or nothing. Python needs /dev/shm for the locks that they
    share, which may be missing in a container or a chroot."""
    try:
        multiprocessing.Lock()
    except (ImportError, OSError) as error:
        return f"processes cannot share a lock in /dev/shm ({error})"
    return ""


FAULT_OF_POOLS = fault_of_pools()
needs_pools = unittest.skipIf(FAULT_OF_POOLS, FAULT_OF_POOLS)
