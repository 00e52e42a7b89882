"""The clients of scripts/soak: each runs in a thread of its own until the soak ends, and raises `Wrong` if an answer is.

A member of `WRITERS` changes keys of its own and knows their rows. The others rest on what a writer writes: the one
column of a row is the key, a colon, and the number of the change.
"""
from __future__ import annotations

import random
import socket
import struct
import threading
import time
from collections import Counter
from typing import Any, Callable, Dict, Iterator, List, Optional, Sequence, Tuple

from rowanspan import (Client, Get, GetRange, Hello, NotAllowed, OtherVersion, Prefix, Put, Query,
                       Refused, Remove, read_replies, receive_body, request_frame)

SECONDS = 60.0
OWNER, WRITER, READER = b"owner-0123456789a", b"writer-0123456789", b"reader-0123456789"
TOKENS = b"all " + OWNER + b"\nwrite " + WRITER + b"\nread " + READER + b"\n"
# keys of a writer, and connections of a member that has many
KEYS, CROWD = 2_000, 250
# a reset is sent instead of an end
RESET = struct.pack("ii", 1, 0)


class Wrong(Exception):
    """An answer isn't right."""


def want(is_so: bool, why: str) -> None:
    if not is_so:
        raise Wrong(why)


class Soak:
    """What the members share: the server, until when they work, and what they have counted."""

    def __init__(self, port: int, seconds: float) -> None:
        self.port = port
        self.until = time.monotonic() + seconds
        self.counts: Counter[str] = Counter()
        self._lock = threading.Lock()

    def count(self, what: str, many: int = 1) -> None:
        with self._lock:
            self.counts[what] += many

    def client(self, token: bytes) -> Client:
        return Client(self.port, timeout=SECONDS, token=token)

    def raw(self, token: Optional[bytes] = None) -> socket.socket:
        """A connection without a client, admitted by this token."""
        connection = socket.create_connection(("127.0.0.1", self.port), SECONDS)
        if token is not None:
            connection.sendall(request_frame([Hello(token).spelled()], 3))
            receive_body(connection)
        return connection

    def rounds(self, pause: float = 0.0) -> Iterator[int]:
        """Numbers from 0 on, until the end."""
        number = 0
        while time.monotonic() < self.until:
            yield number
            number += 1
            time.sleep(pause)


def key_of(writer: int, number: int) -> bytes:
    return b"w%02d/%06d" % (writer, number)


def check_rows(rows: Sequence[Tuple[bytes, Any]], start: bytes) -> None:
    """The rows of a range from `start` on: in order, and each as a writer wrote it."""
    keys = [key for key, _ in rows]
    want(all(one < other for one, other in zip(keys, keys[1:])), "a range isn't in the order of keys")
    want(not keys or keys[0] >= start, "a range begins before its start")
    for key, row in rows:
        want(row.columns[0].startswith(key + b":"), f"the row of {key!r} is {row.columns!r}")


# ---- the writers

class Writer:
    """Changes keys of its own, and knows their rows."""

    def __init__(self, soak: Soak, number: int) -> None:
        self.soak, self.number = soak, number
        self.chance = random.Random(number)
        self.rows: Dict[bytes, Tuple[int, bytes]] = {}
        # of each key the value that was put last, or is on its way
        self.values: Dict[bytes, bytes] = {}
        self.changes = 0

    def run(self) -> None:
        with self.soak.client(WRITER) as index:
            for number in self.soak.rounds():
                self.change(index, [self.query() for _ in range(self.chance.randint(1, 64))])
                if number % 8 == 0:
                    self.change_if(index)
                    self.read(index)
                    self.soak.count("frames of writers")

    def value(self, key: bytes) -> bytes:
        self.changes += 1
        self.values[key] = b"%s:%d" % (key, self.changes)
        return self.values[key]

    def query(self) -> Query[Any]:
        key = key_of(self.number, self.chance.randrange(KEYS))
        return Remove(key) if self.chance.random() < 0.4 else Put(key, {0: self.value(key)})

    def change(self, index: Client, queries: Sequence[Query[Any]]) -> None:
        for query, outcome in zip(queries, index.call_all(queries)):
            if isinstance(outcome, Refused):
                raise outcome
            if isinstance(query, Put):
                self.rows[query.key] = (outcome.value, self.values[query.key])
            elif isinstance(query, Remove):
                want((outcome.value is None) == (query.key not in self.rows), f"{query} found {outcome.value}")
                self.rows.pop(query.key, None)
        self.soak.count("changes", len(queries))

    def change_if(self, index: Client) -> None:
        """A conditional put: one of the row's version is done, one of another version isn't."""
        key = key_of(self.number, self.chance.randrange(KEYS))
        version = self.rows.get(key, (0, b""))[0]
        value = self.value(key)
        self.rows[key] = (index.put_if(key, value, version), value)
        try:
            index.put_if(key, value, version)
            raise Wrong(f"a put of {key!r} if its version is {version} was done twice")
        except OtherVersion:
            pass

    def read(self, index: Client) -> None:
        keys = [key_of(self.number, self.chance.randrange(KEYS)) for _ in range(16)]
        for key, outcome in zip(keys, index.call_all([Get(key) for key in keys])):
            if isinstance(outcome, Refused):
                raise outcome
            row = outcome.value
            found = None if row is None else (row.version, row.columns[0])
            want(found == self.rows.get(key), f"the row of {key!r} is {found}, not {self.rows.get(key)}")


# ---- the readers

def read_all(soak: Soak, number: int) -> None:
    """Gets and ranges over all writers' keys: no version of a key falls in a session."""
    chance, seen = random.Random(number), dict[bytes, int]()
    with soak.client(READER) as index:
        for _ in soak.rounds():
            start = key_of(chance.randrange(10), chance.randrange(KEYS))
            rows = index.first(start, chance.randint(1, 300))
            check_rows(rows, start)
            row = index.get(start)
            for key, one in [*rows, *([] if row is None else [(start, row)])]:
                want(one.version >= seen.get(key, 0), f"the version of {key!r} falls to {one.version}")
                seen[key] = one.version
            soak.count("rows read", len(rows))


def follow_views(soak: Soak, number: int) -> None:
    """Builds views, reads pages of them, and drops them."""
    chance = random.Random(number)
    with soak.client(WRITER) as index:
        for _ in soak.rounds(0.2):
            prefix = b"w%02d/%03d" % (chance.randrange(4), chance.randrange(KEYS // 1000))
            with index.build(Prefix(prefix)) as view:
                for _ in range(10):
                    page = view.page()
                    check_rows(page.rows, prefix)
                    want(all(key.startswith(prefix) for key, _ in page.rows), "a view has a row of another prefix")
                    want(page.count == len(page.rows) or len(page.rows) == 1000, "a view's count isn't that of its rows")
            soak.count("views")


def wait_for_commits(soak: Soak, number: int) -> None:
    """Waits for commits that come, and for some that don't."""
    chance = random.Random(number)
    with soak.client(READER) as index:
        for _ in soak.rounds():
            commits = index.ping()
            want(index.wait(commits, timeout=0), f"commit {commits} isn't there")
            more = chance.choice((1, 100, 1000, 10 ** 9))
            if index.wait(commits + more, timeout=1.0):
                want(index.ping() >= commits + more, f"a wait for commit {commits + more} ended before it")
            soak.count("waits")


# ---- clients that do nothing, or harm

def stay_idle(soak: Soak, number: int) -> None:
    """Many connections that say hello, and then nothing."""
    crowd: List[socket.socket] = []
    try:
        for _ in range(CROWD):
            crowd.append(soak.raw(READER))
        for _ in soak.rounds(0.5):
            pass
        for connection in crowd:
            connection.sendall(request_frame([Get(b"no such key").spelled()]))
            want(len(read_replies(receive_body(connection), [Get(b"no such key")])) == 1, "an idle one gets no answer")
    finally:
        for connection in crowd:
            connection.close()
    soak.count("idle connections", CROWD)


def read_slowly(soak: Soak, number: int) -> None:
    """Asks for megabytes of rows, and reads them piece by piece."""
    queries = [GetRange(b"", 1000)] * 32
    for _ in soak.rounds():
        with soak.raw(READER) as connection:
            connection.setsockopt(socket.SOL_SOCKET, socket.SO_RCVBUF, 4096)
            connection.sendall(request_frame([query.spelled() for query in queries]))
            received = b""
            while len(received) < 4 or len(received) < 4 + int.from_bytes(received[:4], "big"):
                piece = connection.recv(50_000)
                want(piece != b"", "a slow reader is cut off")
                received += piece
                time.sleep(0.02)
            for outcome in read_replies(received[4:], queries):
                if isinstance(outcome, Refused):
                    raise outcome
                check_rows(outcome.value, b"")
        soak.count("bytes read slowly", len(received))


def never_read(soak: Soak, number: int) -> None:
    """Asks for much, reads nothing, and is ended by the server or ends by itself."""
    frame = request_frame([GetRange(b"", 1000).spelled()] * 16)
    for _ in soak.rounds():
        with soak.raw(READER) as connection:
            connection.settimeout(0.5)
            try:
                for _ in range(64):
                    connection.sendall(frame)
            except OSError:
                pass
            time.sleep(random.Random(number).random())
        soak.count("clients that never read")


def cut_off(soak: Soak, number: int) -> None:
    """Sessions that end in the middle of a frame, by an end or a reset."""
    chance = random.Random(number)
    frame = request_frame([Put(b"cut/%d" % number, b"never").spelled()] * 8)
    for _ in soak.rounds(0.01):
        with soak.raw(WRITER if chance.random() < 0.8 else None) as connection:
            connection.sendall(frame[:chance.randrange(len(frame))])
            if chance.random() < 0.5:
                connection.setsockopt(socket.SOL_SOCKET, socket.SO_LINGER, RESET)
        soak.count("sessions cut off")


def guess_secrets(soak: Soak, number: int) -> None:
    """Hellos with wrong secrets: refused, and the connection ends."""
    for at in soak.rounds():
        try:
            Client(soak.port, timeout=SECONDS, token=b"a wrong secret %d" % at).close()
            raise Wrong("a wrong secret is admitted")
        except NotAllowed:
            soak.count("wrong secrets")


def beg_and_go(soak: Soak, number: int) -> None:
    """Connects, asks once, and leaves."""
    for _ in soak.rounds(0.005):
        with soak.client(READER) as index:
            index.first(b"", 10)
        soak.count("short sessions")


Member = Callable[[Soak, int], None]
OTHERS: List[Tuple[Member, int]] = [(read_all, 4), (follow_views, 2), (wait_for_commits, 8), (stay_idle, 4),
                                    (read_slowly, 4), (never_read, 4), (cut_off, 2), (guess_secrets, 4), (beg_and_go, 2)]


def attempt(member: Callable[[], None], name: str, faults: List[str]) -> None:
    """Runs a member, and keeps what was wrong."""
    try:
        member()
    except Exception as fault:  # whatever went wrong is the member's fault
        faults.append(f"{name}: {type(fault).__name__}: {fault}")
