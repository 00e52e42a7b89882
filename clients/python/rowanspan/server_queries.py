"""The queries of a server, which are not of its index: hello, ping, info, views, wait and stop, in version 3 of the
wire. Each is alone in its frame."""
from __future__ import annotations

import math
import time
from dataclasses import dataclass, field
from typing import Any, ClassVar, Dict, Iterator, Optional, Sequence, TypeVar, Union

from .core import (MAX_NUMBER, AnyRow, AtLeast, Equals, Prefix, Range, Refused, RowTest, TooLong, ViewSpec,
                   checked_view)
from .fields import Reader, spelled_number
from .server import Greeting, Listing, Pong, Role, Settled, StandingView, Waited
from .wire import AnswerKind, Answers, Outcome, Query, Reply

__all__ = ["SERVER_VERSION", "MAX_NAME_BYTES", "Token", "ServerQuery", "Hello", "Ping", "GetInfo", "ListViews", "Wait",
           "WaitDurable", "Stop"]

# the version of the wire that has these queries, and the greatest that this client knows
SERVER_VERSION = 3
MAX_NAME_BYTES = 64
MAX_TOKEN_BYTES = 65_535
# in seconds: the longest wait that is asked for at once; a longer one is asked again
LONGEST_WAIT = 30.0

Token = Union[bytes, str]
Value = TypeVar("Value")


# ---- fields

def checked_text(value: Any, what: str, most: int) -> bytes:
    """Bytes, or a text as UTF-8. Raises TypeError for another type, and `TooLong` for too many bytes."""
    if not isinstance(value, (bytes, str)):
        raise TypeError(f"{what} must be bytes or a str, not {type(value).__name__}")
    # (the message has neither, since a token is a secret)
    encoded = value.encode("utf-8", "surrogateescape") if isinstance(value, str) else value
    if len(encoded) > most:
        raise TooLong(f"{what} has at most {most:,} bytes, not {len(encoded):,}")
    return encoded


def spelled_text(value: Token, what: str, most: int) -> bytes:
    """Two bytes of length, then the bytes."""
    encoded = checked_text(value, what, most)
    return len(encoded).to_bytes(2, "big") + encoded


def spelled_wait(commit: int, milliseconds: int) -> bytes:
    """A number of commits, and a time to wait."""
    return spelled_number(commit, 8, "a number of commits") + spelled_number(milliseconds, 4, "a time to wait")


def read_test(reader: Reader) -> RowTest:
    kind = reader.number(1)
    if kind == 0:
        return AnyRow()
    if kind == 1:
        return Equals(reader.number(1), reader.short())
    if kind == 2:
        return AtLeast(reader.number(1), reader.number(8))
    raise ValueError(f"there is no test {kind}")


def read_spec(reader: Reader) -> ViewSpec:
    """What a view is of."""
    kind = reader.number(1)
    if kind == 0:
        low = reader.key()
        high = reader.key() if reader.flag() else None
        return Range(low, high, read_test(reader))
    if kind == 1:
        return Prefix(reader.key(), read_test(reader))
    raise ValueError(f"there is no specification {kind}")


# ---- answers

def read_greeting(reader: Reader) -> Greeting:
    version, role, columns = reader.number(1), Role(reader.number(1)), reader.number(1)
    return Greeting(version, role, columns, reader.take(16), reader.number(8), reader.number(8))


def read_pong(reader: Reader) -> Pong:
    return Pong(reader.number(8), reader.number(8))


def read_info(reader: Reader) -> Dict[str, int]:
    names = ((reader.key().decode("utf-8", "backslashreplace"), reader.number(8)) for _ in range(reader.number(2)))
    return dict(names)


def read_view(reader: Reader) -> StandingView:
    return StandingView(reader.view_number(), reader.number(8), reader.number(8), read_spec(reader))


def read_listing(reader: Reader) -> Listing:
    return Listing(reader.number(8), [read_view(reader) for _ in range(reader.number(1))])


def read_waited(reader: Reader) -> Waited:
    return Waited(reader.flag(), reader.number(8), reader.number(8))


def read_settled(reader: Reader) -> Settled:
    return Settled(reader.flag(), reader.number(8), reader.number(8))


# ---- queries

class ServerQuery(Query[Value]):
    """What a client asks the server itself."""

    since: ClassVar[int] = SERVER_VERSION
    is_alone: ClassVar[bool] = True


@dataclass(frozen=True)
class Hello(ServerQuery[Greeting]):
    """Says who asks. On a server with tokens it is the first query of a connection. The token is a secret; the name is
    up to 64 bytes, for people."""

    answers: ClassVar[Answers[Greeting]] = {AnswerKind.HELLO: read_greeting}
    token: Token = field(default=b"", repr=False)
    name: Token = ""
    newest: int = SERVER_VERSION

    def spelled(self) -> bytes:
        return (b"\x10" + spelled_number(self.newest, 1, "a version")
                + spelled_text(self.token, "a token", MAX_TOKEN_BYTES)
                + spelled_text(self.name, "a name", MAX_NAME_BYTES))

    def commits_in(self, value: Greeting) -> int:
        return value.commits


@dataclass(frozen=True)
class Ping(ServerQuery[Pong]):
    """Asks whether the server answers, by a number that comes back."""

    answers: ClassVar[Answers[Pong]] = {AnswerKind.PING: read_pong}
    number: int = 0

    def spelled(self) -> bytes:
        return b"\x11" + spelled_number(self.number, 8)

    def check(self, value: Pong) -> None:
        if value.number != self.number:
            raise ValueError(f"a ping of {self.number} was answered by {value.number}")

    def commits_in(self, value: Pong) -> int:
        return value.commits


@dataclass(frozen=True)
class GetInfo(ServerQuery[Dict[str, int]]):
    """What the server counts: numbers by their names."""

    answers: ClassVar[Answers[Dict[str, int]]] = {AnswerKind.INFO: read_info}

    def spelled(self) -> bytes:
        return b"\x12"

    def commits_in(self, value: Dict[str, int]) -> int:
        return value.get("commits", 0)


@dataclass(frozen=True)
class ListViews(ServerQuery[Listing]):
    """All views of the server."""

    answers: ClassVar[Answers[Listing]] = {AnswerKind.VIEWS: read_listing}

    def spelled(self) -> bytes:
        return b"\x13"

    def commits_in(self, value: Listing) -> int:
        return value.commits


@dataclass(frozen=True)
class Wait(ServerQuery[Waited]):
    """Waits until there are `commit` commits, or until a view is at this commit, but at most this time."""

    answers: ClassVar[Answers[Waited]] = {AnswerKind.WAITED: read_waited}
    commit: int
    view: Optional[int] = None
    milliseconds: int = 0

    def spelled(self) -> bytes:
        which = b"\0" if self.view is None else b"\1" + spelled_number(checked_view(self.view), 8)
        return b"\x14" + which + spelled_wait(self.commit, self.milliseconds)

    def patience(self) -> float:
        return self.milliseconds / 1000

    def commits_in(self, value: Waited) -> int:
        return value.commits


@dataclass(frozen=True)
class WaitDurable(ServerQuery[Settled]):
    """Waits until `commit` commits are durable, but at most this time. A server that keeps its rows in memory alone
    refuses it: `InMemory`."""

    answers: ClassVar[Answers[Settled]] = {AnswerKind.WAITED: read_settled}
    commit: int = 0
    milliseconds: int = 0

    def spelled(self) -> bytes:
        return b"\x14\2" + spelled_wait(self.commit, self.milliseconds)

    def patience(self) -> float:
        return self.milliseconds / 1000

    def commits_in(self, value: Settled) -> int:
        return value.commits


@dataclass(frozen=True)
class Stop(ServerQuery[int]):
    """Ends the server; returns the number of commits."""

    answers: ClassVar[Answers[int]] = {AnswerKind.STOPPED: Reader.commit}
    at_once: bool = False

    def spelled(self) -> bytes:
        return b"\x15" + (b"\1" if self.at_once else b"\0")

    def commits_in(self, value: int) -> int:
        return value


# ---- calls

def hello_of(token: Optional[Token], name: Optional[Token]) -> Optional[Hello]:
    """The hello of a client, or None if it is given neither. Raises TypeError and `TooLong`."""
    if token is None and name is None:
        return None
    hello = Hello(b"" if token is None else token, "" if name is None else name)
    hello.spelled()
    return hello


def next_of(now: Waited, view: Optional[int]) -> int:
    """The commit after those that there are now, or that the view shows."""
    return min((now.commits if view is None else now.view_commits) + 1, MAX_NUMBER)


def parts(timeout: Optional[float]) -> Iterator[int]:
    """For how many milliseconds one call waits after the other, until the time is over (None: without end); but no further
    one after an answer that came long before its time: the server stops, or its disk has failed."""
    until = None if timeout is None else time.monotonic() + timeout
    rest: Optional[float] = timeout
    while True:
        milliseconds = math.ceil(1000 * (LONGEST_WAIT if rest is None else min(rest, LONGEST_WAIT)))
        began = time.monotonic()
        yield milliseconds
        now = time.monotonic()
        rest = None if until is None else until - now
        if now - began < milliseconds / 2000 or rest is not None and rest <= 0:
            return


def commit_to_settle(commit: Optional[int], seen: Optional[int]) -> int:
    """The number of the commit that a change has made; of one that made none, that of the last commit which it saw."""
    return (seen or 0) if commit is None else commit


def next_durable(now: Settled) -> int:
    """The commit after those that are durable now."""
    return min(now.durable + 1, MAX_NUMBER)


def commits_shown(queries: Sequence[Query[Any]], outcomes: Sequence[Outcome]) -> int:
    """The greatest number of a commit that the answers to a frame have."""
    greatest = 0
    for query, outcome in zip(reversed(queries), reversed(outcomes)):
        greatest = max(greatest, commits_of(query, outcome))
        if isinstance(outcome, Reply) and outcome.to is not None:
            # (no answer before this one has a greater number)
            break
    return greatest


def commits_of(query: Query[Any], outcome: Outcome) -> int:
    if isinstance(outcome, Refused):
        return outcome.detail or 0
    return max(outcome.to or 0, query.commits_in(outcome.value))


def want_one_end(view: object, is_durable: bool) -> None:
    """Raises TypeError if a wait is for a view, and also until a commit is durable."""
    if view is not None and is_durable:
        raise TypeError("a wait is for a view, or until a commit is durable, not both")


def checked_wait(timeout: Any) -> Optional[float]:
    """How long a call of `wait` may last, in seconds. Raises TypeError for another type, and `TooLong` for no time."""
    if timeout is None:
        return None
    if not isinstance(timeout, (int, float)):
        raise TypeError(f"a timeout must be a number of seconds or None, not {type(timeout).__name__}")
    if not 0 <= timeout < float("inf"):
        raise TooLong(f"a time to wait must be 0 seconds or more, or None to wait without end, not {timeout}")
    return timeout
