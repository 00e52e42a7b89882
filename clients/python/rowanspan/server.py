"""What a server says of itself: whom it admits, its facts and its views, and why it refuses a client."""
from __future__ import annotations

import enum
from dataclasses import dataclass
from errno import EIO, ENOSPC
from typing import Dict, List, Type

from .core import ConnectionLost, Refused, ViewNo, ViewSpec

__all__ = [
    "DiskFailed", "DiskFull", "InMemory", "NotAllowed", "TooMuchAtOnce", "HelloUnanswered", "SERVER_REFUSALS", "Role",
    "Greeting", "Pong", "StandingView", "Listing", "Waited", "Settled",
]


# ---- refusals

class DiskFailed(Refused, OSError):
    """The disk of the server, or of an embedded index with a folder, has failed: rows can be read, and not changed any
    more. Nothing was changed. Its `errno` is EIO."""

    number, has_detail, cause = 19, True, "the disk has failed after commit {0}, which is durable"
    errno = EIO

    @property
    def durable(self) -> int:
        """The number of the last commit that is durable."""
        return self.detail or 0


class DiskFull(Refused, OSError):
    """The disk of the server, or of an embedded index with a folder, is full: rows can be read, and not changed until
    it has room. Nothing was changed. Its `errno` is ENOSPC."""

    number, cause = 20, "the disk is full"
    errno = ENOSPC


class InMemory(Refused):
    """The server, or the embedded index, keeps its rows in memory alone, so no commit is ever durable."""

    number, cause = 21, "the rows are in memory alone"


class NotAllowed(Refused, PermissionError):
    """The server doesn't admit the client, and ends its connection then, or the role of its token may not ask this.
    Nothing was changed."""

    number, cause = 24, "the client's token does not allow it, or the client has none"


class TooMuchAtOnce(Refused):
    """A query of the server had others in its frame. Nothing was changed by it."""

    number, cause = 25, "a query of the server is alone in its frame"


class HelloUnanswered(NotAllowed, ConnectionLost):
    """The server ended the connection before it answered hello: it has too many connections, it ends, it knows no
    version 3 of the wire, or the token has more bytes than it reads."""

    cause = "the server ended the connection before it answered hello: is it full, or older than hello?"


# those of a server, not of an index
SERVER_REFUSALS: Dict[int, Type[Refused]] = {
    kind.number: kind for kind in (DiskFailed, DiskFull, InMemory, NotAllowed, TooMuchAtOnce)}


# ---- values

class Role(enum.IntEnum):
    """What a client may ask: as a reader gets, ranges, pages of views and what the server counts; as a writer also
    changes of rows and of views; in the last role also the end of the server."""

    READ = 1
    WRITE = 2
    ALL = 3


@dataclass(frozen=True)
class Greeting:
    """The answer to hello: the version of the wire up to which both sides know it, the client's role, how many columns
    a row has, the name of this run of the server (16 bytes; a server that is started again has another), the number of
    commits, and from which number of commits on the log has all."""

    version: int
    role: Role
    columns: int
    run: bytes
    commits: int
    feed_from: int


@dataclass(frozen=True)
class Pong:
    """The answer to a ping: its number, and the number of commits."""

    number: int
    commits: int


@dataclass(frozen=True)
class StandingView:
    """A view of a server: its number, the number of commits at which it is, how many rows it has then, and what it is
    of."""

    number: ViewNo
    commits: int
    rows: int
    spec: ViewSpec


@dataclass(frozen=True)
class Listing:
    """The number of commits, and all views."""

    commits: int
    views: List[StandingView]


@dataclass(frozen=True)
class Waited:
    """Whether what was waited for was reached, the number of commits, and that at which the view is (0 if no view was
    named)."""

    is_reached: bool
    commits: int
    view_commits: int


@dataclass(frozen=True)
class Settled:
    """Whether as many commits are durable as were waited for, the number of commits, and how many of them are
    durable: no crash of the server or its machine undoes those."""

    is_reached: bool
    commits: int
    durable: int
