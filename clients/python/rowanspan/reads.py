"""Queries that read many rows at one moment, in version 3 of the wire: the rows of many keys, the last rows before a
key, and how many rows a range has."""
from __future__ import annotations

from dataclasses import dataclass
from typing import Any, ClassVar, List, Optional, Sequence

from .core import MAX_LIMIT, BadLimit, Pairs, Row, checked_count, checked_limit
from .fields import Reader, spelled_columns, spelled_end, spelled_key, spelled_limit, spelled_number
from .scans import bounds_of
from .wire import AnswerKind, Answers, Query

__all__ = ["MAX_COUNT", "RowsAt", "GetMany", "GetRangeBack", "CountRange"]

# the version of the wire that has these queries
READS_VERSION = 3
# the most rows that a server counts
MAX_COUNT = 1_000_000


@dataclass(frozen=True)
class RowsAt:
    """The rows of keys, or None for a key that has none, and the number of commits at which all of them were read."""

    at: int
    rows: List[Optional[Row]]


def read_found(reader: Reader) -> Optional[Row]:
    return reader.row() if reader.flag() else None


def read_rows_at(reader: Reader) -> RowsAt:
    return RowsAt(reader.number(8), [read_found(reader) for _ in range(reader.number(2))])


def read_count(reader: Reader) -> int:
    return reader.number(4)


@dataclass(frozen=True)
class GetMany(Query[RowsAt]):
    """The rows of 1000 keys at most, all of one moment. No columns means all of them."""

    answers: ClassVar[Answers[RowsAt]] = {AnswerKind.FOUND: read_rows_at}
    since: ClassVar[int] = READS_VERSION
    keys: Sequence[bytes]
    columns: Sequence[int] = ()

    def spelled(self) -> bytes:
        # (a count that fits its field is tested by the server, as a limit is)
        count = checked_limit(len(self.keys)).to_bytes(2, "big")
        return b"\x0d" + count + b"".join(map(spelled_key, self.keys)) + spelled_columns(self.columns)

    def check(self, value: RowsAt) -> None:
        if len(value.rows) != len(self.keys):
            raise ValueError(f"{len(self.keys)} keys were answered by {len(value.rows)} rows")

    def commits_in(self, value: RowsAt) -> int:
        return value.at


@dataclass(frozen=True)
class GetRangeBack(Query[Pairs]):
    """The last rows before a key (None: the last of all), the greatest key first. No columns means all of them."""

    answers: ClassVar[Answers[Pairs]] = {AnswerKind.ROWS: Reader.pairs}
    since: ClassVar[int] = READS_VERSION
    stop: Optional[bytes] = None
    limit: int = MAX_LIMIT
    columns: Sequence[int] = ()

    def spelled(self) -> bytes:
        return b"\x0e" + spelled_end(self.stop) + spelled_limit(self.limit) + spelled_columns(self.columns)


@dataclass(frozen=True)
class CountRange(Query[int]):
    """How many rows have keys from `start` on and before `stop` (None: to the last key), counted up to `most`."""

    answers: ClassVar[Answers[int]] = {AnswerKind.COUNTED: read_count}
    since: ClassVar[int] = READS_VERSION
    start: bytes = b""
    stop: Optional[bytes] = None
    most: int = MAX_COUNT

    def spelled(self) -> bytes:
        most = spelled_number(self.most, 4, "the most that is counted")
        return b"\x0f" + spelled_key(self.start) + spelled_end(self.stop) + most

    def check(self, value: int) -> None:
        if value > self.most:
            raise ValueError(f"a count up to {self.most} was answered by {value}")


def count_of(start: bytes, stop: Optional[bytes], prefix: Optional[bytes], most: Optional[int]) -> Optional[CountRange]:
    """The query that counts the rows of a range, or None if no key can be in it. Raises what wrong arguments raise."""
    begin, end = bounds_of(start, stop, prefix)
    query = CountRange(begin, end, MAX_COUNT if most is None else checked_most(most))
    return query if end is None or begin < end else None


def checked_most(most: Any) -> int:
    """The most that is counted. Raises TypeError for another type, and `BadLimit` for more than a server counts."""
    number = checked_count(most, "the most that is counted")
    if number > MAX_COUNT:
        raise BadLimit()
    return number
