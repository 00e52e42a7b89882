"""The server's side of a mirror: its rows, and the position row, which says of which position of the source they are.

A frame is no transaction, so the order of the frames makes it safe. A group of changes is: the state `MOVING`, by a
conditional put in a frame of its own; the rows; and, after the server has answered them all, `EXACT`, by a conditional
put. Each frame of rows writes `MOVING` too. So if another mirror has written in between, neither it nor a reader takes
the rows for exact.
"""
from __future__ import annotations

import os
import time
from collections import deque
from dataclasses import dataclass, replace
from typing import Deque, Iterator, List, Optional, Sequence, Tuple

from ..core import BadColumn, FeedFull, OtherVersion, prefix_end
from ..wire import Get
from .errors import BadMapping, CopyAgain, NeedsDecision, Overtaken
from .frames import CHANGES, FrameClient, change_frame, key_of_change, read_change_frame, spelled_change, spelled_mark
from .place import RESERVED, Position, State, position_key
from .source import Copy, Group

__all__ = ["Keys", "Target"]

# how many frames of a copy are on their way at once: the server has work while this process has none
AHEAD = 16
# how often the position row is looked at before it is said that another mirror writes it
LOOKS = 25
# how long it waits after the log of the server was full
PAUSE = 0.001


@dataclass(frozen=True)
class Keys:
    """The keys that a mirror owns: those with a prefix, from `low` on, before `high` (None: to the last)."""

    prefix: bytes
    low: bytes = b""
    high: Optional[bytes] = None

    def __contains__(self, key: object) -> bool:
        assert isinstance(key, bytes)
        return self.low <= key and (self.high is None or key < self.high)

    def those_of(self, changes: List[bytes]) -> List[bytes]:
        """The changes that are of these keys."""
        if not self.low and self.high is None:
            return changes
        return [change for change in changes if key_of_change(change) in self]


class Target:
    """A mirror's rows in a server. Nothing else may write the keys that it owns.

    Its calls raise `NeedsDecision`, `CopyAgain`, `Overtaken`, and what a client raises.
    """

    def __init__(self, index: FrameClient, name: str, owner: bytes, keys: Keys, columns: int) -> None:
        self._index, self._name, self._keys = index, name, keys
        self._key = position_key(name)
        self._position = Position(State.COPYING, 0, 0, owner, os.urandom(8), keys.prefix)
        # the version of the position row that this run knows, and what a frame of changes begins with
        self._version, self._head = 0, b""
        # the run that wrote the position row before this one
        self._before = b""
        self._has_written = False
        # the changes of the frames that have no reply yet, in the order of the frames
        self._waiting: Deque[Sequence[bytes]] = deque()
        self._check_columns(columns)
        self._check_prefixes()

    @property
    def at(self) -> int:
        """The position of which the rows are at least."""
        return self._position.at

    # -- before the first write

    def _check_columns(self, columns: int) -> None:
        """Raises `BadMapping` if the server's rows have fewer columns than the mapping."""
        try:
            self._index.call(Get(self._key, (max(columns, 1) - 1,)))
        except BadColumn:
            raise BadMapping(f"the mapping has {columns} columns, and the server's rows have fewer: start it with "
                             f"--columns {columns}") from None

    def _check_prefixes(self) -> None:
        """Raises `BadMapping` if a mirror of another name may own keys of this one, or this name has other keys."""
        for key, row in self._index.range(prefix=RESERVED):
            found, name = Position.read(row), key[len(RESERVED):].decode(errors="replace")
            if found is None:
                continue
            if key == self._key and not found.is_of(self._keys.prefix):
                raise BadMapping(f"the mirror {name} has the keys {found.prefix!r}: choose another name, or remove "
                                 "these rows and its position row")
            if key != self._key and found.overlaps(self._keys.prefix):
                raise BadMapping(f"the keys {found.prefix!r} are those of the mirror {name}: choose another prefix")

    def find(self, settle: float) -> Optional[Position]:
        """The position of the rows, after it was still for `settle` seconds; None if they aren't of this source and this
        mapping. A mirror that was killed may have left a last frame, which the server has yet to read."""
        found = self._read()
        for _ in range(LOOKS):
            time.sleep(settle)
            before, found = found, self._read()
            if before == found:
                return self._taken(found)
        raise NeedsDecision(f"another mirror of the name {self._name} writes to this server")

    def _taken(self, found: Optional[Position]) -> Optional[Position]:
        """Takes over from the run that wrote this position row."""
        if found is None:
            return None
        self._before, self._version = found.writer, found.version
        if found.owner != self._position.owner:
            return None
        self._position = replace(self._position, state=found.state, at=found.at, until=found.until)
        return found

    def _read(self) -> Optional[Position]:
        return Position.read(self._index.get(self._key))

    # -- the position row

    def check(self) -> None:
        """Raises if the position row isn't the one that this run wrote last, or the server is lost. It costs one round
        trip."""
        found = self._read()
        if (0 if found is None else found.version) != self._version:
            self._met(found)

    def _met(self, found: Optional[Position]) -> None:
        """Raises for a position row that another has written."""
        self._version = 0 if found is None else found.version
        if found is None:
            raise CopyAgain("the position row was removed")
        if found.writer != self._before:
            raise NeedsDecision(f"another mirror of the name {self._name} writes to this server")
        if not self._has_written:
            raise Overtaken(f"an earlier mirror of the name {self._name} still writes to this server")
        raise CopyAgain("the last frame of an earlier mirror came late")

    def _mark(self, state: State, at: int, until: int) -> None:
        """Writes the position row, if it is the one that this run knows."""
        wanted = replace(self._position, state=state, at=at, until=until)
        while True:
            try:
                self._version = self._index.put_if(self._key, wanted.spelled(), self._version)
                self._position, self._head, self._has_written = wanted, spelled_mark(self._key, wanted), True
                return
            except FeedFull:
                time.sleep(PAUSE)
            except OtherVersion:
                self._met(self._read())

    # -- rows

    def move(self, group: Group) -> None:
        """Makes the changes of a group, and moves to its position.

        A mirror before this one may have been killed inside a larger group. Until all of that is in, some rows are
        newer than the position, and it isn't called exact."""
        changes = group.changes
        if group.clears:
            changes = {**{key: None for key, _ in self._rows() if key not in changes}, **changes}
        until = max(group.at, self._position.until)
        held = self._keys.those_of([spelled_change(key, sets) for key, sets in changes.items()])
        if held:
            self._mark(State.MOVING, self.at, until)
            # (one frame at a time, so that a mirror that is killed has left at most one)
            self._write(held, 1)
        self._mark(State.EXACT if group.at == until else State.MOVING, group.at, until)

    def copy(self, copy: Copy) -> int:
        """Puts the rows of a copy, and removes all others of this mirror's keys; returns how many rows there are.
        Before it `begin_copy` has to be called."""
        begun, had_rows, count = self._version, any(True for _ in self._rows()), 0
        held: List[bytes] = []

        def take(puts: List[bytes]) -> None:
            nonlocal count, held
            own = self._keys.those_of(puts)
            count += len(own)
            held += own
            whole = len(held) // CHANGES * CHANGES
            self._send(held[:whole], AHEAD)
            held = held[whole:]

        copy.rows(take)
        self._write(held, AHEAD)
        if had_rows:
            # (each row of the copy has a later version than what was written before the first of them)
            stale = [key for key, version in self._rows() if version <= begun]
            self._write([spelled_change(key, None) for key in stale], AHEAD)
        self._mark(State.EXACT, copy.at, copy.at)
        return count

    def begin_copy(self) -> None:
        """Says that nothing is promised of the rows from now on. A copy before it may have broken off."""
        self._await(0)
        self._mark(State.COPYING, 0, 0)

    def _rows(self) -> Iterator[Tuple[bytes, int]]:
        """The keys of this mirror's rows in the server, and the versions of the rows."""
        keys = self._keys
        ends = [end for end in (keys.high, prefix_end(keys.prefix)) if end is not None]
        return self._index.versions(max(keys.low, keys.prefix), min(ends, default=None))

    # -- frames

    def _write(self, changes: Sequence[bytes], ahead: int) -> None:
        """Makes any number of changes, and waits until all are made."""
        self._send(changes, ahead)
        self._await(0)

    def _send(self, changes: Sequence[bytes], ahead: int) -> None:
        """Sends any number of changes in their order, so that at most `ahead` frames have no reply."""
        for begin in range(0, len(changes), CHANGES):
            self._await(ahead - 1)
            self._send_frame(changes[begin:begin + CHANGES])

    def _send_frame(self, changes: Sequence[bytes]) -> None:
        self._index.send_frame(change_frame(self._head, changes))
        self._waiting.append(changes)

    def _await(self, most: int) -> None:
        """Waits until at most `most` frames have no reply. If the log of the server was full, those changes of a
        frame that weren't made are sent again, after the frames that are on their way: so for the order of the changes
        there may be one."""
        while len(self._waiting) > most:
            changes = self._waiting.popleft()
            written = read_change_frame(self._index.receive_reply(), len(changes))
            if written.found is not None and written.found != self._version:
                while self._waiting:
                    self._waiting.popleft()
                    self._index.receive_reply()
                self._met(self._read())
            if written.version is not None:
                self._version = written.version
            if written.refused is not None:
                if not isinstance(written.refused, FeedFull):
                    raise written.refused
                time.sleep(PAUSE)
                self._send_frame(changes[written.done:])
