"""The frames by which a mirror writes: each says first, in the position row, that the rows aren't exact."""
from __future__ import annotations

import socket
from typing import Any, Callable, Iterator, List, NamedTuple, Optional, Sequence, Tuple, TypeVar

from ..client import Client, receive_body
from ..core import MAX_LIMIT, BadReply, Closed, ConnectionLost, Refused, Row, key_after
from ..wire import AnswerKind, Get, GetRange, Put, Query, Remove, Reply, read_replies, request_frame
from .place import Position
from .source import Sets

__all__ = ["CHANGES", "FrameClient", "Written", "spelled_change", "key_of_change", "change_frame", "spelled_mark",
           "read_change_frame", "read_versions"]

# how many changes a frame has room for: after the get and the put of the position row
CHANGES = 62
# the bytes of an answer to a put, or to a remove of a row that was there
COMMITTED_BYTES = 25
# at which byte the one column of the position row begins in the body of a reply
COLUMN_AT = 29
# and at which one the rows begin in the body of a reply to a range
ROWS_AT = 21

Value = TypeVar("Value")


class FrameClient(Client):
    """A client that may send frames before it has received the replies to earlier ones."""

    def __enter__(self) -> FrameClient:
        return self

    def send_frame(self, frame: bytes) -> None:
        """Sends a whole frame. The replies that weren't received have to be short, such as those to puts: while they
        aren't read, the server waits for room for them. Raises `ConnectionLost`."""
        self._guarded(lambda connection: connection.sendall(frame))

    def receive_reply(self) -> bytes:
        """The body of the reply to the first frame whose reply wasn't received yet. Raises `ConnectionLost`."""
        return self._guarded(receive_body)

    def versions(self, start: bytes, end: Optional[bytes]) -> Iterator[Tuple[bytes, int]]:
        """The keys from `start` on, before `end`, and the versions of their rows, by calls of 1000 rows. It is what
        `range` returns, but for the columns, in a fraction of the time."""
        begin: Optional[bytes] = start
        while begin is not None:
            self.send_frame(request_frame([GetRange(begin, MAX_LIMIT, (0,)).spelled()]))
            found = read_versions(self.receive_reply())
            for key, version in found:
                if end is not None and key >= end:
                    return
                yield key, version
            begin = key_after(found[-1][0]) if len(found) == MAX_LIMIT else None

    def _guarded(self, work: Callable[[socket.socket], Value]) -> Value:
        """Works with the connection, which is lost after a fault."""
        connection = self._connection
        if connection is None:
            raise ConnectionLost("the connection was lost before") if self._is_lost else Closed("the index is closed")
        try:
            return work(connection)
        except BaseException as fault:
            self._lose()
            if isinstance(fault, OSError) and not isinstance(fault, ConnectionLost):
                raise ConnectionLost(f"the connection broke: {fault}") from fault
            raise


class Written(NamedTuple):
    """What the server answered to a frame of changes."""

    # the version of the position row before the frame, 0 if there was none; None if the get was refused
    found: Optional[int]
    # the version that the frame gave it; None if that put was refused
    version: Optional[int]
    # how many changes were made before the first that was refused, and why that was
    done: int
    refused: Optional[Refused]


def spelled_change(key: bytes, sets: Optional[Sets]) -> bytes:
    """A put, or a remove if there are no sets, as the wire spells it. The key and the columns are within their
    bounds."""
    head = len(key).to_bytes(2, "big") + key
    if sets is None:
        return b"\3" + head
    columns = [bytes((number, len(value))) + value for number, value in sets.items()]
    return b"\2" + head + bytes((len(sets),)) + b"".join(columns)


def key_of_change(change: bytes) -> bytes:
    """The key of a put or a remove that is spelled."""
    return change[3:3 + int.from_bytes(change[1:3], "big")]


def change_frame(mark: bytes, changes: Sequence[bytes]) -> bytes:
    """A frame that reads the position row, writes it, as `spelled_mark` has it, and makes these changes. The server
    does it without another commit in between; but nothing depends on that if only one mirror has this name."""
    body = b"".join((bytes((1, len(changes) + 2)), mark, *changes))
    return len(body).to_bytes(4, "big") + body


def spelled_mark(key: bytes, position: Position) -> bytes:
    """The two queries that a frame of changes begins with."""
    return Get(key, (0,)).spelled() + Put(key, {0: position.spelled()}).spelled()


def read_versions(body: bytes) -> List[Tuple[bytes, int]]:
    """The keys of an answer to a range of one column, and the versions of their rows. Raises `BadReply`."""
    if body[:3] != bytes((1, 1, AnswerKind.ROWS)):
        raise BadReply(f"a range was answered by {body[:12]!r}")
    made, at = [], ROWS_AT
    try:
        for _ in range(int.from_bytes(body[ROWS_AT - 2:ROWS_AT], "big")):
            end = at + 2 + (body[at] << 8 | body[at + 1])
            made.append((body[at + 2:end], int.from_bytes(body[end:end + 8], "big")))
            # (after the version there are how many columns come, the length of the one, and its bytes)
            at = end + 10 + body[end + 9]
    except IndexError:
        at = -1
    if at != len(body):
        raise BadReply("a range was answered by rows that aren't whole")
    return made


def read_change_frame(body: bytes, count: int) -> Written:
    """What a server answered to a frame of this many changes. Raises `BadReply`."""
    quick = read_all_done(body, count)
    return read_each(body, count) if quick is None else quick


def read_all_done(body: bytes, count: int) -> Optional[Written]:
    """The usual answer: the position row was there, and each change is a commit. None for another."""
    begin = COLUMN_AT + body[COLUMN_AT - 1] if len(body) > COLUMN_AT else 0
    rest = body[begin:]
    if body[:3] != bytes((1, count + 2, AnswerKind.ROW)) or len(rest) != COMMITTED_BYTES * (count + 1):
        return None
    if rest[::COMMITTED_BYTES] != bytes((AnswerKind.COMMITTED,)) * (count + 1):
        return None
    return Written(int.from_bytes(body[19:27], "big"), int.from_bytes(rest[17:25], "big"), count, None)


def read_each(body: bytes, count: int) -> Written:
    """Any answer."""
    # (the answers to a put are among those to a remove)
    asked: List[Query[Any]] = [Get(b"", (0,)), Put(b"", {}), *[Remove(b"")] * count]
    row, put, *outcomes = read_replies(body, asked)
    if isinstance(row, Refused):
        return Written(None, None, 0, row)
    found = row.value.version if isinstance(row.value, Row) else 0
    if isinstance(put, Refused):
        return Written(found, None, 0, put)
    assert isinstance(put, Reply)
    for done, outcome in enumerate(outcomes):
        if isinstance(outcome, Refused):
            return Written(found, put.value, done, outcome)
    return Written(found, put.value, count, None)
