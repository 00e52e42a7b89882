"""The watcher: a thread with a connection of its own, which waits until the server has commits that the board hasn't
seen."""
from __future__ import annotations

import threading

from ..client import Client
from ..core import RowanspanError

# in seconds: how long it waits at once, after which it looks whether it is to end
PART = 5.0


class Watcher(threading.Thread):
    """Waits for commits when it is asked to, and wakes the poller when they have come, or its connection is lost."""

    def __init__(self, index: Client, wake: threading.Event) -> None:
        super().__init__(name="watcher", daemon=True)
        self._index, self._wake = index, wake
        self._asked = threading.Event()
        self._is_ending = False
        # of the poller, when it asked last
        self._commits = 0
        self._is_waiting = False

    def watch(self, commits: int) -> bool:
        """Has it wait until there are more commits than these, unless it waits already; False if it can't any more."""
        if self.is_alive() and not self._is_waiting:
            self._commits, self._is_waiting = commits, True
            self._asked.set()
        return self.is_alive()

    def end(self) -> None:
        """Has it end, at the latest after one part of a wait."""
        self._is_ending = True
        self._asked.set()

    def run(self) -> None:
        with self._index:
            try:
                while self._wait_once():
                    self._is_waiting = False
                    self._wake.set()
            except RowanspanError:
                # (it can wait no longer: the poller asks the server without it)
                self._wake.set()

    def _wait_once(self) -> bool:
        """Waits until it is asked, and then for commits; whether they came before its end."""
        self._asked.wait()
        self._asked.clear()
        while not self._is_ending:
            if self._index.wait(self._commits + 1, timeout=PART):
                return True
        return False
