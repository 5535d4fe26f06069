"""Connections that have not shown the token yet: a bounded number at a time, so that idle ones cannot shut the owner
out."""
from __future__ import annotations

import contextlib
import resource
import socket
import threading

MAX_CONNECTIONS = 64


class UnauthenticatedConnections:
    """The connections without a valid request, the oldest first: at most 64, or a quarter of the descriptors of this
    process."""

    def __init__(self) -> None:
        descriptors, _ = resource.getrlimit(resource.RLIMIT_NOFILE)
        self.maximum = MAX_CONNECTIONS
        if descriptors != resource.RLIM_INFINITY:
            self.maximum = min(MAX_CONNECTIONS, max(1, descriptors // 4))
        self.lock = threading.Lock()
        self.waiting: dict[socket.socket, None] = {}

    def add(self, connection: socket.socket) -> None:
        """A new connection, for which the oldest one has to go if there are too many."""
        with self.lock:
            self.waiting[connection] = None
            is_full = len(self.waiting) > self.maximum
        if is_full:
            self.drop_oldest()

    def remove(self, connection: socket.socket) -> None:
        """The connection has shown the token, or is closed."""
        with self.lock:
            self.waiting.pop(connection, None)

    def drop_oldest(self) -> None:
        """End a connection. The thread that reads from it finds its end, and closes it."""
        with self.lock:
            oldest = next(iter(self.waiting), None)
            if oldest is None:
                return
            del self.waiting[oldest]
        with contextlib.suppress(OSError):
            oldest.shutdown(socket.SHUT_RDWR)
