"""A connection to a server of Rowanspan: its calls, one by one or up to 64 in a frame."""
from __future__ import annotations

import abc
import select
import socket
import struct
import time
from typing import TYPE_CHECKING, Any, Dict, Iterable, List, Optional, Sequence, TypeVar, Union

from .address import Port, checked_address
from .core import (MAX_LIMIT, MAX_NUMBER, BadReply, Closed, ConnectionLost, NotDurable, Page, Pairs, Refused, Row, Sets,
                   Tidied, ViewNo, ViewSpec)
from .mapping import RowMap, View, number_of_view
from .pipeline import Pipeline
from .reads import GetMany, GetRangeBack, count_of
from .server import Greeting, HelloUnanswered, StandingView
from .server_queries import (SERVER_VERSION, GetInfo, Hello, ListViews, Ping, Stop, Token, Wait, WaitDurable,
                             checked_wait, commit_to_settle, commits_shown, hello_of, next_durable, next_of, parts, want_one_end)
from .wire import (MAX_REPLY_BODY, Build, Get, GetRange, Outcome, Put, PutIf, Query, Remove, Reply, Tidy, ViewDrop,
                   ViewRead, frame_version, read_replies, request_frame, spelled_query)

if TYPE_CHECKING:
    import ssl

__all__ = ["receive", "receive_body", "Asker", "Client"]

Value = TypeVar("Value")
# what a change returns: the number of its commit, or None if it has made none
Commit = TypeVar("Commit", bound=Optional[int])


# ---- streams

def receive(connection: socket.socket, count: int) -> bytes:
    """Returns `count` bytes of a connection; raises `ConnectionLost` if it ends before."""
    received = bytearray(count)
    rest = memoryview(received)
    while rest:
        size = connection.recv_into(rest)
        if size == 0:
            raise ConnectionLost("the server ended the connection")
        rest = rest[size:]
    return bytes(received)


def receive_body(connection: socket.socket) -> bytes:
    """The body of the next frame of replies."""
    (length,) = struct.unpack(">I", receive(connection, 4))
    if not 2 <= length <= MAX_REPLY_BODY:
        raise BadReply(f"a reply is to have {length} bytes")
    return receive(connection, length)


def has_come(connection: socket.socket) -> bool:
    """Whether bytes have come over a connection that weren't received, or its end has. It takes about a microsecond."""
    if not hasattr(select, "poll"):
        return bool(select.select([connection], [], [], 0)[0])
    poll = select.poll()
    poll.register(connection, select.POLLIN)
    return bool(poll.poll(0))


# ---- calls as queries

class Asker(RowMap):
    """The calls of a map, each as a query to a server: what a connection and a pool of them share."""

    @abc.abstractmethod
    def exchange(self, queries: Sequence[Query[Any]], messages: Sequence[bytes]) -> List[Outcome]:
        """Sends a frame of these queries, which are spelled as these messages, and reads the answers to them."""

    @abc.abstractmethod
    def _shown(self) -> int:
        """The greatest number of a commit that an answer has shown. Raises `ConnectionLost` if it isn't known whether
        the server still has this commit."""

    @abc.abstractmethod
    def _change_durably(self, query: Query[Commit]) -> Commit:
        """Makes a change, and waits until its commit is durable; if it made none, those that it saw. Both are asked by
        one connection: of another run of the server the number may be another's."""

    def _change(self, query: Query[Commit], durable: bool) -> Commit:
        return self._change_durably(query) if durable else self.call(query).value

    def call(self, query: Query[Value]) -> Reply[Value]:
        """Asks one query; returns its value, with the numbers of commits at its begin and end. Raises `Refused`."""
        outcome = self.call_all([query])[0]
        if isinstance(outcome, Refused):
            raise outcome
        return outcome

    def call_all(self, queries: Sequence[Query[Any]]) -> List[Outcome]:
        """Asks 1 to 64 queries in one frame, which the server does one after another. Returns for each its reply, or
        the `Refused`, not raised."""
        asked = list(queries)
        return self.exchange(asked, [spelled_query(query) for query in asked])

    def pipeline(self) -> Pipeline:
        """A list of queries that are sent together."""
        return Pipeline(self)

    # -- the calls of a map

    def _row(self, key: bytes, columns: Optional[Sequence[int]]) -> Optional[Row]:
        return self.call(Get(key, () if columns is None else columns)).value

    def get_many(self, keys: Iterable[bytes], columns: Optional[Sequence[int]] = None) -> List[Optional[Row]]:
        asked = list(keys)
        if not asked:
            return []
        return self.call(GetMany(asked, () if columns is None else columns)).value.rows

    def put(self, key: bytes, sets: Sets, *, durable: bool = False) -> int:
        return self._change(Put(key, sets), durable)

    def put_if(self, key: bytes, sets: Sets, version: int, *, durable: bool = False) -> int:
        return self._change(PutIf(key, sets, version), durable)

    def remove(self, key: bytes, *, durable: bool = False) -> Optional[int]:
        return self._change(Remove(key), durable)

    def first(self, start: bytes = b"", limit: int = MAX_LIMIT, columns: Optional[Sequence[int]] = None) -> Pairs:
        return self.call(GetRange(start, limit, () if columns is None else columns)).value

    def last(self, stop: Optional[bytes] = None, limit: int = MAX_LIMIT,
             columns: Optional[Sequence[int]] = None) -> Pairs:
        return self.call(GetRangeBack(stop, limit, () if columns is None else columns)).value

    def count(self, start: bytes = b"", stop: Optional[bytes] = None, *, prefix: Optional[bytes] = None,
              most: Optional[int] = None) -> int:
        query = count_of(start, stop, prefix, most)
        return 0 if query is None else self.call(query).value

    def tidy(self, key: bytes) -> Tidied:
        return self.call(Tidy(key)).value

    def _build(self, spec: ViewSpec) -> ViewNo:
        return self.call(Build(spec)).value

    def _page(self, number: int, floor: int, start: bytes, limit: int) -> Page:
        return self.call(ViewRead(number, floor, start, limit)).value

    def _drop(self, number: int) -> None:
        self.call(ViewDrop(number))

    # -- the server itself, in version 3 of the wire

    def ping(self) -> int:
        """Asks whether the server answers. Returns the number of commits."""
        return self.call(Ping(time.monotonic_ns() & MAX_NUMBER)).value.commits

    def info(self) -> Dict[str, int]:
        """What the server counts: numbers by their names, such as `commits`, `rows` and `connections`."""
        return self.call(GetInfo()).value

    def __len__(self) -> int:
        """How many rows there are. Asks for `info`, so the server has to know version 3 of the wire."""
        return self.info()["rows"]

    def __bool__(self) -> bool:
        """Always true, also if there are no rows. Asks nothing."""
        return True

    def views(self) -> List[StandingView]:
        """All views of the server, each with its number, the number of commits at which it is, how many rows it has
        then, and what it is of."""
        return self.call(ListViews()).value.views

    def wait(self, commit: Optional[int] = None, view: Union[View, int, None] = None,
             timeout: Optional[float] = None, *, durable: bool = False) -> bool:
        """Waits until there are `commit` commits; with a view of this index, or its number, until that is at this commit;
        with `durable` until no crash undoes this commit. Without `commit` it waits for the next one. Returns whether it
        was reached in `timeout` seconds (None: waits without end, unless the server stops, or its disk fails and the
        commit is to be durable). The server says so when it is reached, so nothing is asked in between. Raises
        `NoSuchView` and `InMemory`."""
        want_one_end(view, durable)
        number, time_left = None if view is None else number_of_view(self, view), checked_wait(timeout)
        if durable:
            least = next_durable(self.call(WaitDurable()).value) if commit is None else commit
            return any(self.call(WaitDurable(least, part)).value.is_reached for part in parts(time_left))
        if commit is None:
            commit = next_of(self.call(Wait(0, number)).value, number)
        return any(self.call(Wait(commit, number, part)).value.is_reached for part in parts(time_left))

    def durable(self) -> int:
        """The number of commits that are durable: no crash of the server or its machine undoes them. Raises `InMemory`
        if the server keeps its rows in memory alone."""
        return self.call(WaitDurable()).value.durable

    def settle(self, timeout: Optional[float] = None) -> bool:
        """Waits until all commits are durable that the answers so far have shown, also those of other clients. Returns
        whether they were in `timeout` seconds (None: waits without end, unless the server stops or its disk fails).
        Raises `InMemory`."""
        time_left, commit = checked_wait(timeout), self._shown()
        for part in parts(time_left):
            is_reached = self.call(WaitDurable(commit, part)).value.is_reached
            # (the server hasn't been started again in between)
            self._shown()
            if is_reached:
                return True
        return False

    def stop(self, at_once: bool = False) -> int:
        """Ends the server: frames that came are answered first, unless it is to end at once. Returns the number of
        commits. Raises `NotAllowed` if the role of the client's token isn't `Role.ALL`."""
        return self.call(Stop(at_once)).value


# ---- the connection

class Client(Asker):
    """A connection to a server, for one thread at a time: give each thread its own.

    `port` is a port of `host`, or `unix:` and the path of a Unix socket. `timeout` is for how many seconds a connect, a
    send or a receive may wait (None: without end); one that waits longer closes the connection. `tls` is how a server
    after a TLS proxy is spoken to, such as `ssl.create_default_context()`.

    `token` is the secret that a server may ask for, and `name` is for the people that look after it: up to 64 bytes. If
    one of them is given, the client says hello first, which only a server that knows version 3 of the wire answers. If
    the server doesn't admit it, it raises `NotAllowed`.

    A call sends one frame and waits for its answer: one round trip. `range` makes as many calls as it needs, each of
    which returns up to 1000 rows. `pipeline` sends up to 64 queries in one frame. A change with `durable=True` takes a
    second round trip, and the first one of a client a third.
    """

    def __init__(self, port: Port, host: str = "127.0.0.1", timeout: Optional[float] = None,
                 tls: Optional[ssl.SSLContext] = None, *, token: Optional[Token] = None,
                 name: Optional[Token] = None) -> None:
        self._connection: Optional[socket.socket] = None
        self._is_lost = False
        # the greatest number of a commit of an answer
        self._commits_shown = 0
        # the greatest number of a commit that is known to be durable (None: no change was to be durable)
        self._commits_settled: Optional[int] = None
        self._timeout = timeout
        self._address = checked_address(port, host, timeout, tls)
        own_hello = hello_of(token, name)
        self._own_hello = own_hello or Hello()
        self._greeting: Optional[Greeting] = None
        try:
            self._connection = self._address.connected(timeout)
        except (OSError, OverflowError, ValueError) as fault:
            # (a ValueError: the host is no name that can be looked up)
            self.close()
            raise ConnectionLost(f"no connection to {self._address.described()}: {fault}") from fault
        if own_hello is not None:
            self._greet_or_close()

    def __repr__(self) -> str:
        state = "" if self._connection is not None else ", lost" if self._is_lost else ", closed"
        return f"<rowanspan.Client {self._address}{state}>"

    def __enter__(self) -> Client:
        return self

    def __exit__(self, *_: object) -> None:
        self.close()

    def close(self) -> None:
        """Ends the connection, and with it the server's session. Views stay. A second close does nothing."""
        connection, self._connection = self._connection, None
        if connection is not None:
            connection.close()

    # -- frames

    def exchange(self, queries: Sequence[Query[Any]], messages: Sequence[bytes]) -> List[Outcome]:
        connection, version = self._connection, frame_version(queries)
        frame = request_frame(messages, version)
        if connection is None:
            raise (ConnectionLost("the connection was lost before; make a new client") if self._is_lost
                   else Closed("the index is closed"))
        try:
            if version < SERVER_VERSION or self._timeout is None:
                connection.sendall(frame)
                outcomes = read_replies(receive_body(connection), queries)
            else:
                outcomes = self._exchange_patiently(connection, frame, queries, self._timeout)
        except BaseException as fault:
            # a reply may still come, which would be taken for that to the next frame
            self._lose()
            if isinstance(fault, OSError) and not isinstance(fault, ConnectionLost):
                raise ConnectionLost(f"the connection broke: {fault}") from fault
            raise
        self._commits_shown = max(self._commits_shown, commits_shown(queries, outcomes))
        return outcomes

    def _shown(self) -> int:
        return self._commits_shown

    def _change_durably(self, query: Query[Commit]) -> Commit:
        if self._commits_settled is None:
            # (what can't be sent, and a server that keeps no commits, are raised before anything is changed)
            request_frame([spelled_query(query)], frame_version([query]))
            self._commits_settled = self.durable()
        reply = self.call(query)
        commit = commit_to_settle(reply.value, reply.to)
        if self._commits_settled < commit:
            self._commits_settled = self._settled(commit)
        return reply.value

    def _settled(self, commit: int) -> int:
        """Waits until a commit is durable. Returns how many are."""
        for part in parts(None):
            now = self.call(WaitDurable(commit, part)).value
            if now.is_reached:
                return now.durable
        raise NotDurable(commit)

    @staticmethod
    def _exchange_patiently(connection: socket.socket, frame: bytes, queries: Sequence[Query[Any]],
                            timeout: float) -> List[Outcome]:
        """Sends a frame and receives its answers, which may take longer than the timeout by as much as the queries
        say."""
        connection.settimeout(timeout + sum(query.patience() for query in queries))
        connection.sendall(frame)
        outcomes = read_replies(receive_body(connection), queries)
        connection.settimeout(timeout)
        return outcomes

    # -- hello

    @property
    def hello(self) -> Greeting:
        """What the server answered to hello, by which a client with a token or a name begins; one without says it when
        this is first asked for. Raises `NotAllowed` if the server doesn't admit the client; as `HelloUnanswered`, which
        is a `ConnectionLost` too, if it ends the connection, as one does that knows no version 3 of the wire."""
        if self._greeting is None:
            self._greeting = self._greet()
        return self._greeting

    def _greet(self) -> Greeting:
        try:
            return self.call(self._own_hello).value
        except ConnectionLost as fault:
            if isinstance(fault.__cause__, socket.timeout):
                raise
            raise HelloUnanswered() from fault

    def _greet_or_close(self) -> None:
        """Says hello. Without an answer that admits the client, the connection is closed."""
        try:
            self._greeting = self._greet()
        except BaseException:
            self.close()
            raise

    # -- whether it is there

    @property
    def is_lost(self) -> bool:
        """Whether the connection has broken."""
        return self._is_lost

    def is_usable(self) -> bool:
        """Whether the connection is there, so far as can be seen without asking: no end and no byte has come that
        nobody asked for."""
        return self._connection is not None and not has_come(self._connection)

    def _lose(self) -> None:
        """Ends the connection after a fault."""
        self.close()
        self._is_lost = True
