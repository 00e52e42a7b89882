"""Queries and answers as bytes: the wire of docs/WIRE.md, as a client has it."""
from __future__ import annotations

import enum
from dataclasses import dataclass
from typing import Any, Callable, ClassVar, Generic, List, Mapping, Optional, Sequence, TypeVar, Union

from .core import (MAX_LIMIT, REFUSALS, BadReply, Page, Pairs, Refused, Row, Sets, Tidied, TooLong, ViewNo, ViewSpec,
                   checked_view)
from .fields import (Reader, spelled_columns, spelled_key, spelled_limit, spelled_number, spelled_sets, spelled_spec)
from .server import SERVER_REFUSALS

__all__ = [
    "MAX_QUERIES", "MAX_REQUEST_BODY", "MAX_REPLY_BODY", "AnswerKind", "Query", "Get", "Put", "PutIf", "Remove",
    "GetRange", "Tidy", "Build", "ViewRead", "ViewDrop", "Reply", "Outcome", "frame_version", "request_frame",
    "read_replies",
]

MAX_QUERIES = 64
MAX_REQUEST_BODY = 262_144
MAX_REPLY_BODY = 134_217_727

Value = TypeVar("Value")


# ---- queries

class AnswerKind(enum.IntEnum):
    """The first byte of an answer."""

    REFUSED = 0
    ABSENT = 1
    ROW = 2
    COMMITTED = 3
    ROWS = 4
    TIDIED = 5
    BUILT = 6
    VIEW = 7
    DROPPED = 8
    FOUND = 13
    COUNTED = 14
    HELLO = 16
    PING = 17
    INFO = 18
    VIEWS = 19
    WAITED = 20
    STOPPED = 21

    def has_span(self) -> bool:
        """Whether the numbers of commits at the call's begin and end follow."""
        return self.ABSENT <= self <= self.BUILT or self is self.COUNTED


# how an answer is read after its first byte and its span, for each kind that a query may have
Answers = Mapping[AnswerKind, Callable[[Reader], Value]]


class Query(Generic[Value]):
    """What a client asks: its bytes, how its answers are read, since which version the wire has it, and whether it has
    to be the only one of its frame."""

    since: ClassVar[int] = 1
    is_alone: ClassVar[bool] = False
    answers: ClassVar[Answers[Any]] = {}

    def spelled(self) -> bytes:
        raise NotImplementedError

    def check(self, value: Any) -> None:
        """Raises ValueError if this value, as it was read, can't be the answer."""

    def patience(self) -> float:
        """For how many seconds the server may wait before it answers."""
        return 0.0

    def commits_in(self, value: Any) -> int:
        """The number of commits that this value has, but for the span of its call; 0 if it has none."""
        return 0


@dataclass(frozen=True)
class Get(Query[Optional[Row]]):
    """The row of a key, or None. No columns means all of them."""

    answers: ClassVar[Answers[Optional[Row]]] = {AnswerKind.ABSENT: Reader.nothing, AnswerKind.ROW: Reader.row}
    key: bytes
    columns: Sequence[int] = ()

    def spelled(self) -> bytes:
        return b"\1" + spelled_key(self.key) + spelled_columns(self.columns)


@dataclass(frozen=True)
class Put(Query[int]):
    """Sets columns of a key's row; returns the number of the commit."""

    answers: ClassVar[Answers[int]] = {AnswerKind.COMMITTED: Reader.commit}
    key: bytes
    sets: Sets

    def spelled(self) -> bytes:
        return b"\2" + spelled_key(self.key) + spelled_sets(self.sets)


@dataclass(frozen=True)
class PutIf(Query[int]):
    """A put that is made only if the key's row is of this version (0: if there is no row); returns the number of
    the commit. Else it is refused as `OtherVersion`."""

    answers: ClassVar[Answers[int]] = {AnswerKind.COMMITTED: Reader.commit}
    since: ClassVar[int] = 2
    key: bytes
    sets: Sets
    version: int

    def spelled(self) -> bytes:
        return b"\x09" + spelled_key(self.key) + spelled_number(self.version, 8, "a version") + spelled_sets(self.sets)


@dataclass(frozen=True)
class Remove(Query[Optional[int]]):
    """Removes a key's row; returns the number of the commit, or None if there was no row."""

    answers: ClassVar[Answers[Optional[int]]] = {AnswerKind.ABSENT: Reader.nothing, AnswerKind.COMMITTED: Reader.commit}
    key: bytes

    def spelled(self) -> bytes:
        return b"\3" + spelled_key(self.key)


@dataclass(frozen=True)
class GetRange(Query[Pairs]):
    """The first rows from a key on, in the order of their keys. No columns means all of them."""

    answers: ClassVar[Answers[Pairs]] = {AnswerKind.ROWS: Reader.pairs}
    start: bytes = b""
    limit: int = MAX_LIMIT
    columns: Sequence[int] = ()

    def spelled(self) -> bytes:
        return b"\4" + spelled_key(self.start) + spelled_limit(self.limit) + spelled_columns(self.columns)


@dataclass(frozen=True)
class Tidy(Query[Tidied]):
    """Takes out at most one node that is no longer wanted, near the place of a key."""

    answers: ClassVar[Answers[Tidied]] = {AnswerKind.TIDIED: Reader.tidied}
    key: bytes

    def spelled(self) -> bytes:
        return b"\5" + spelled_key(self.key)


@dataclass(frozen=True)
class Build(Query[ViewNo]):
    """Builds a view; returns its number."""

    answers: ClassVar[Answers[ViewNo]] = {AnswerKind.BUILT: Reader.view_number}
    spec: ViewSpec

    def spelled(self) -> bytes:
        return b"\6" + spelled_spec(self.spec)


@dataclass(frozen=True)
class ViewRead(Query[Page]):
    """A page of a view that is at `floor` commits at least."""

    answers: ClassVar[Answers[Page]] = {AnswerKind.VIEW: Reader.page}
    view: int
    floor: int = 0
    start: bytes = b""
    limit: int = MAX_LIMIT

    def spelled(self) -> bytes:
        return (b"\7" + checked_view(self.view).to_bytes(8, "big") + spelled_number(self.floor, 8, "a floor")
                + spelled_key(self.start) + spelled_limit(self.limit))

    def commits_in(self, value: Page) -> int:
        return value.at


@dataclass(frozen=True)
class ViewDrop(Query[None]):
    """Ends a view."""

    answers: ClassVar[Answers[None]] = {AnswerKind.DROPPED: Reader.nothing}
    view: int

    def spelled(self) -> bytes:
        return b"\x08" + checked_view(self.view).to_bytes(8, "big")


def spelled_query(query: Query[Any]) -> bytes:
    """A query. Raises TypeError for another type."""
    if not isinstance(query, Query):
        raise TypeError(f"a query must be a Get, a Put or another Query, not {type(query).__name__}")
    return query.spelled()


# ---- frames

@dataclass(frozen=True)
class Reply(Generic[Value]):
    """The value of a query, and the numbers of commits when its call began and when it ended. Both numbers are None for
    a page, whose `at` is its view's number of commits, for a drop, and for queries of the server."""

    value: Value
    from_: Optional[int] = None
    to: Optional[int] = None


Outcome = Union[Reply[Any], Refused]


def frame_version(queries: Sequence[Query[Any]]) -> int:
    """The version of a frame of these queries, and of the reply to it: the first that has them all, which servers that
    know no later one answer too."""
    return max((query.since for query in queries), default=1)


def request_frame(messages: Sequence[bytes], version: int = 1) -> bytes:
    """The frame of queries that are spelled already, in this version."""
    if not 1 <= len(messages) <= MAX_QUERIES:
        raise TooLong(f"a frame has 1 to {MAX_QUERIES} queries, not {len(messages)}")
    body = bytes((version, len(messages))) + b"".join(messages)
    if len(body) > MAX_REQUEST_BODY:
        raise TooLong(f"the queries take {len(body)} bytes, and a frame has {MAX_REQUEST_BODY}")
    return spelled_number(len(body), 4) + body


def read_refusal(reader: Reader) -> Refused:
    """A refusal, after its first byte."""
    number, detail = reader.number(1), reader.number(8)
    kind = REFUSALS.get(number) or SERVER_REFUSALS.get(number)
    if kind is None or (detail and not kind.has_detail):
        raise ValueError(f"there is no refusal {number} with {detail}")
    return kind(detail) if kind.has_detail else kind()


def read_outcome(reader: Reader, query: Query[Any]) -> Outcome:
    """The answer to a query."""
    kind = AnswerKind(reader.number(1))
    if kind is AnswerKind.REFUSED:
        return read_refusal(reader)
    read = query.answers.get(kind)
    if read is None:
        raise ValueError(f"{kind.name} answers no {type(query).__name__}")
    from_, to = (reader.number(8), reader.number(8)) if kind.has_span() else (None, None)
    value = read(reader)
    query.check(value)
    return Reply(value, from_, to)


def read_replies(body: bytes, queries: Sequence[Query[Any]]) -> List[Outcome]:
    """The answers to these queries, of the body of a frame of replies; raises `BadReply`."""
    try:
        reader = Reader(body)
        version, count = reader.number(1), reader.number(1)
        if version != frame_version(queries) or count != len(queries):
            raise ValueError(f"{count} answers in version {version} came to {len(queries)} queries")
        outcomes = [read_outcome(reader, query) for query in queries]
        if not reader.is_at_end():
            raise ValueError("bytes are left over")
    except ValueError as fault:
        raise BadReply(str(fault)) from fault
    return outcomes
