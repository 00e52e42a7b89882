"""The wire from the server's side, for the stand-in: queries are read from bytes, and answers are written as bytes."""
from __future__ import annotations

import socket
import struct
from typing import Any, Callable, Dict, List, Mapping, Optional, Sequence, Tuple

from rowanspan import (MAX_QUERIES, MAX_REQUEST_BODY, SERVER_VERSION, AnswerKind, Build, CountRange, Get, GetInfo,
                       GetMany, GetRange, GetRangeBack, Greeting, Hello, Listing, ListViews, Page, Pairs, Ping, Pong,
                       Put, PutIf, Query, Reader, Refused, Remove, Row, RowsAt, Settled, StandingView, Stop, Tidy,
                       ViewDrop, ViewRead, Wait, Waited, WaitDurable, spelled_bytes, spelled_key, spelled_number)
from rowanspan.fields import spelled_spec
from rowanspan.server_queries import read_spec

READ_FAILED, WRITE_FAILED, CUT, BAD_LENGTH, BAD_VERSION, BAD_BODY, NO_HELLO, DISK_FAILED = 1, 2, 3, 4, 5, 6, 8, 12
# what the server says of each fault
FAULTS = {
    1: "the input could not be read",
    2: "a reply could not be written",
    3: "the input ended inside a frame",
    4: "the length of a frame is out of its bounds",
    5: "a frame has an unknown version",
    6: "the body of a frame is not a list of queries",
    7: "out of memory",
    8: "no hello with a secret of the server",
    10: "too much output",
    12: "the disk failed while changes waited to become durable",
}


class SessionFault(Exception):
    """A session ends by the fault of this number."""

    def __init__(self, number: int) -> None:
        super().__init__(FAULTS[number])
        self.number = number


# ---- frames, as they come

def receive(connection: socket.socket, count: int, is_first: bool) -> Optional[bytes]:
    """Returns `count` bytes, or none if the stream ends before the first of a frame."""
    received = b""
    while len(received) < count:
        try:
            piece = connection.recv(count - len(received))
        except OSError as fault:
            raise SessionFault(READ_FAILED) from fault
        if not piece and is_first and not received:
            return None
        if not piece:
            raise SessionFault(CUT)
        received += piece
    return received


def next_body(connection: socket.socket) -> Optional[bytes]:
    """The body of the next frame; none at the end of the stream."""
    head = receive(connection, 4, True)
    if head is None:
        return None
    (length,) = struct.unpack(">I", head)
    if not 2 <= length <= MAX_REQUEST_BODY:
        raise SessionFault(BAD_LENGTH)
    return receive(connection, length, False)


# ---- queries as bytes, read

def read_columns(reader: Reader) -> Tuple[int, ...]:
    return tuple(reader.short())


def read_sets(reader: Reader) -> List[Tuple[int, bytes]]:
    return [(reader.number(1), reader.short()) for _ in range(reader.number(1))]


def read_put_if(reader: Reader) -> PutIf:
    key, version = reader.key(), reader.number(8)
    return PutIf(key, read_sets(reader), version)


def read_end(reader: Reader) -> Optional[bytes]:
    return reader.key() if reader.flag() else None


def read_get_many(reader: Reader) -> GetMany:
    keys = [reader.key() for _ in range(reader.number(2))]
    return GetMany(keys, read_columns(reader))


def read_hello(reader: Reader) -> Hello:
    newest, token = reader.number(1), reader.key()
    return Hello(token, reader.key(), newest)


def read_wait(reader: Reader) -> Query[Any]:
    kind = reader.number(1)
    if kind > 2:
        raise ValueError(f"there is no wait {kind}")
    view = reader.number(8) if kind == 1 else None
    commit, milliseconds = reader.number(8), reader.number(4)
    if kind == 2:
        return WaitDurable(commit, milliseconds)
    return Wait(commit, view, milliseconds)


READERS: Dict[int, Callable[[Reader], Query[Any]]] = {
    1: lambda reader: Get(reader.key(), read_columns(reader)),
    2: lambda reader: Put(reader.key(), read_sets(reader)),
    3: lambda reader: Remove(reader.key()),
    4: lambda reader: GetRange(reader.key(), reader.number(2), read_columns(reader)),
    5: lambda reader: Tidy(reader.key()),
    6: lambda reader: Build(read_spec(reader)),
    7: lambda reader: ViewRead(reader.number(8), reader.number(8), reader.key(), reader.number(2)),
    8: lambda reader: ViewDrop(reader.number(8)),
    9: read_put_if,
    13: read_get_many,
    14: lambda reader: GetRangeBack(read_end(reader), reader.number(2), read_columns(reader)),
    15: lambda reader: CountRange(reader.key(), read_end(reader), reader.number(4)),
    16: read_hello,
    17: lambda reader: Ping(reader.number(8)),
    18: lambda reader: GetInfo(),
    19: lambda reader: ListViews(),
    20: read_wait,
    21: lambda reader: Stop(reader.flag()),
}


def read_query(reader: Reader, version: int) -> Query[Any]:
    read = READERS.get(reader.number(1))
    if read is None:
        raise ValueError("this is no query")
    query = read(reader)
    if query.since > version:
        raise ValueError("this version has no such query")
    return query


def read_queries(body: bytes, newest: int = SERVER_VERSION) -> List[Query[Any]]:
    """The queries of a body, as a server reads them that knows the versions up to `newest`; raises `SessionFault`."""
    reader = Reader(body)
    version = reader.number(1)
    if not 1 <= version <= newest:
        raise SessionFault(BAD_VERSION)
    try:
        count = reader.number(1)
        queries = [read_query(reader, version) for _ in range(count)]
    except ValueError as fault:
        raise SessionFault(BAD_BODY) from fault
    if not 1 <= count <= MAX_QUERIES or not reader.is_at_end():
        raise SessionFault(BAD_BODY)
    return queries


# ---- answers as bytes, written

def spelled_row(row: Row) -> bytes:
    columns = b"".join(map(spelled_bytes, row.columns))
    return spelled_number(row.version, 8) + spelled_number(len(row.columns), 1) + columns


def spelled_pairs(pairs: Pairs) -> bytes:
    return spelled_number(len(pairs), 2) + b"".join(spelled_key(key) + spelled_row(row) for key, row in pairs)


def spelled_found(row: Optional[Row]) -> bytes:
    return b"\0" if row is None else b"\1" + spelled_row(row)


def spelled_rows_at(found: RowsAt) -> bytes:
    return (spelled_number(AnswerKind.FOUND, 1) + spelled_number(found.at, 8) + spelled_number(len(found.rows), 2)
            + b"".join(map(spelled_found, found.rows)))


def spelled_page(page: Page) -> bytes:
    sums = b"".join(spelled_number(amount, 16) for amount in page.sums)
    return (spelled_number(AnswerKind.VIEW, 1) + spelled_number(page.at, 8) + spelled_number(page.count, 8)
            + spelled_number(len(page.sums), 1) + sums + spelled_pairs(page.rows))


def spelled_refusal(refusal: Refused) -> bytes:
    return b"\0" + spelled_number(refusal.number, 1) + spelled_number(refusal.detail or 0, 8)


def spelled_done(kind: AnswerKind, from_: int, to: int, rest: bytes) -> bytes:
    return spelled_number(kind, 1) + spelled_number(from_, 8) + spelled_number(to, 8) + rest


def spelled_greeting(greeting: Greeting) -> bytes:
    return (bytes((AnswerKind.HELLO, greeting.version, greeting.role, greeting.columns)) + greeting.run
            + spelled_number(greeting.commits, 8) + spelled_number(greeting.feed_from, 8))


def spelled_pong(pong: Pong) -> bytes:
    return spelled_number(AnswerKind.PING, 1) + spelled_number(pong.number, 8) + spelled_number(pong.commits, 8)


def spelled_info(counts: Mapping[str, int]) -> bytes:
    numbers = b"".join(spelled_key(name.encode()) + spelled_number(number, 8) for name, number in counts.items())
    return spelled_number(AnswerKind.INFO, 1) + spelled_number(len(counts), 2) + numbers


def spelled_view(view: StandingView) -> bytes:
    numbers = (view.number, view.commits, view.rows)
    return b"".join(spelled_number(number, 8) for number in numbers) + spelled_spec(view.spec)


def spelled_listing(listing: Listing) -> bytes:
    return (spelled_number(AnswerKind.VIEWS, 1) + spelled_number(listing.commits, 8)
            + spelled_number(len(listing.views), 1) + b"".join(map(spelled_view, listing.views)))


def spelled_waited(waited: Waited) -> bytes:
    return (bytes((AnswerKind.WAITED, waited.is_reached)) + spelled_number(waited.commits, 8)
            + spelled_number(waited.view_commits, 8))


def spelled_settled(settled: Settled) -> bytes:
    return (bytes((AnswerKind.WAITED, settled.is_reached)) + spelled_number(settled.commits, 8)
            + spelled_number(settled.durable, 8))


def spelled_stopped(commits: int) -> bytes:
    return spelled_number(AnswerKind.STOPPED, 1) + spelled_number(commits, 8)


def reply_frame(answers: Sequence[bytes], version: int = 1) -> bytes:
    body = bytes((version, len(answers))) + b"".join(answers)
    return spelled_number(len(body), 4) + body
