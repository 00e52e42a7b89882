"""Messages of pgoutput as groups of changes: whole transactions, merged by their keys."""
from __future__ import annotations

import time
from typing import Callable, Dict, Mapping, Optional, Tuple

from .errors import BadRow, NeedsDecision, SourceLost
from .pgoutput import UNCHANGED, Begin, Change, Commit, Message, Relation, Truncate, Values
from .rows import RowMapping
from .source import Changes, Group
from .table import Type
from .template import Texts

__all__ = ["Grouping"]

# a group takes up transactions until it has as many changes, or is as many seconds old
MOST = 4000
OLD = 0.01


class Grouping:
    """Takes the messages of a slot after a position, one by one, and returns groups."""

    def __init__(self, mapping: RowMapping, types: Mapping[str, Type], start: int,
                 clock: Callable[[], float] = time.monotonic) -> None:
        self._mapping, self._types, self._clock = mapping, types, clock
        self._columns: Dict[int, Tuple[str, ...]] = {}
        self._changes: Changes = {}
        self._clears = self._is_inside = False
        self._at = start
        # the position of the last group
        self.returned = start
        # the transaction of the last TRUNCATE that was taken
        self.truncated_by: Optional[int] = None
        self._transaction = 0
        self._since = clock()

    def take(self, message: Message) -> Optional[Group]:
        """Takes the next message; returns a group if it completes one. Raises `BadRow` and `NeedsDecision`."""
        if isinstance(message, Change):
            self._take_change(message)
        elif isinstance(message, Begin):
            self._is_inside, self._transaction = True, message.transaction
            if not self._changes:
                self._since = self._clock()
        elif isinstance(message, Commit):
            self._is_inside, self._at = False, message.end
            if len(self._changes) >= MOST or self._is_old():
                return self._group()
        elif isinstance(message, Relation):
            self._take_relation(message)
        elif isinstance(message, Truncate):
            self._changes.clear()
            self._clears, self.truncated_by = True, self._transaction
        return None

    def pause(self, reached: int) -> Optional[Group]:
        """Says that no message waits, and that the source has sent all up to `reached`. Returns a group if there are
        changes, or if the position has moved and some time has passed."""
        if self._is_inside or not self._holds() and not (reached > self._at and self._is_old()):
            return None
        self._at = max(self._at, reached)
        return self._group()

    def _is_old(self) -> bool:
        return self._clock() - self._since >= OLD

    def _holds(self) -> bool:
        return bool(self._changes) or self._clears

    def is_behind(self, reached: int) -> bool:
        """Whether the last group's position is before this one."""
        return self.returned < reached

    def _group(self) -> Group:
        self.returned = self._at
        group = Group(self._at, self._changes, self._clears)
        self._changes, self._clears, self._since = {}, False, self._clock()
        return group

    # -- rows

    def _take_relation(self, relation: Relation) -> None:
        """Takes note of the columns of the table. Raises if one is gone, or has another type."""
        types = dict(zip(relation.columns, relation.types))
        for name in self._mapping.names:
            if name not in types:
                raise NeedsDecision(f"{relation.name} has no column {name} any more: start with another mapping, which "
                                    "copies all rows again")
            if types[name] != self._types[name]:
                raise SourceLost(f"the column {name} of {relation.name} has another type: another start copies all "
                                 "rows")
        self._columns[relation.oid] = relation.columns

    def _take_change(self, change: Change) -> None:
        names = self._columns[change.oid]
        old = None if change.old is None else known(names, change.old)
        if change.new is None:
            assert old is not None
            self._changes[self._mapping.key_of(old)] = None
            return
        new = known(names, change.new)
        if old is not None and not change.old_is_key:
            # what the update left outside the row is in the old row
            new = {**old, **new}
        key = self._mapping.key_of(new)
        sets = self._mapping.sets_of(new)
        before = key if old is None else self._mapping.key_of(old)
        if before != key:
            self._changes[before] = None
            if len(sets) < len(self._mapping.columns):
                raise BadRow("a key changed beside a long column that didn't: ALTER TABLE .. REPLICA IDENTITY FULL")
        held = self._changes.pop(key, None) or {}
        self._changes[key] = {**held, **sets}


def known(names: Tuple[str, ...], values: Values) -> Texts:
    """The values of a row by their names, without those that weren't sent."""
    return {name: value for name, value in zip(names, values) if value is not UNCHANGED}
