"""What a source of a mirror is: it hands out a copy of its rows at a position, and groups of the changes after it."""
from __future__ import annotations

import abc
from dataclasses import dataclass, field
from typing import Callable, Dict, Iterator, List, Optional

__all__ = ["Sets", "Changes", "TakePuts", "Group", "Copy", "Source"]

# the columns of a row by their numbers
Sets = Dict[int, bytes]
# what became of keys; None: the row was removed
Changes = Dict[bytes, Optional[Sets]]
# takes some puts that are spelled, each of another key
TakePuts = Callable[[List[bytes]], None]


@dataclass(frozen=True)
class Group:
    """The changes of whole transactions, one after another. The source is at position `at` after them. A group without
    changes says that no row was changed up to `at`, and may repeat a position: then nothing has happened."""

    at: int
    changes: Changes = field(default_factory=dict)
    # all rows that aren't in `changes` are removed
    clears: bool = False

    def then(self, other: Group) -> Group:
        """This group and the one after it as one."""
        if other.clears:
            return other
        changes = dict(self.changes)
        for key, sets in other.changes.items():
            held = changes.pop(key, None)
            # (a row that was changed may have some columns alone)
            changes[key] = {**held, **sets} if held and sets is not None else sets
        return Group(max(self.at, other.at), changes, self.clears)


@dataclass(frozen=True)
class Copy:
    """All rows at position `at`: `rows` calls a function with the puts of all of them, some at a time."""

    at: int
    rows: Callable[[TakePuts], None]


class Source(abc.ABC):
    """A table or a range of keys in another system. Its calls raise `NeedsDecision`, `CopyAgain` and `SourceLost`."""

    @property
    @abc.abstractmethod
    def identity(self) -> str:
        """What it is. Positions of two sources with the same identity can be compared."""

    @property
    @abc.abstractmethod
    def prefix(self) -> bytes:
        """What all keys of its rows begin with."""

    @abc.abstractmethod
    def copy(self) -> Copy:
        """All rows, at a position from which `follow` can continue."""

    @abc.abstractmethod
    def follow(self, start: int) -> Iterator[Group]:
        """The groups after a position, without end, at least one in a second."""

    @abc.abstractmethod
    def confirm(self, at: int) -> None:
        """Takes note that the server has all rows up to this position, so that the source needn't keep older
        changes."""

    @abc.abstractmethod
    def close(self) -> None:
        """Ends its connections."""
