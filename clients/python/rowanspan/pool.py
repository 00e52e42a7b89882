"""A pool: up to a number of connections to one server, for any number of threads."""
from __future__ import annotations

import socket
import threading
from collections import deque
from typing import TYPE_CHECKING, Any, Deque, List, Optional, Sequence

from .address import Port, checked_address
from .client import Asker, Client, Commit
from .core import Closed, ConnectionLost, RowanspanError, checked_count
from .reads import CountRange, GetMany, GetRangeBack
from .server import Greeting
from .server_queries import GetInfo, Hello, ListViews, Ping, Token, Wait, WaitDurable, hello_of
from .wire import Get, GetRange, Outcome, Query, ViewRead, frame_version, request_frame

if TYPE_CHECKING:
    import ssl

__all__ = ["Busy", "Pool"]


class Busy(RowanspanError, TimeoutError):
    """All connections of a pool were in use for as long as the timeout. Nothing was done."""


class Pool(Asker):
    """Up to `size` connections to a server, with the calls of a `Client`, for any number of threads.

        with Pool(7070, size=4) as index:
            index.put(b"apple", b"red")

    A call uses a connection that no other call uses. It opens one if there are fewer than `size`, and otherwise waits
    for one, after the calls that came before it: at most `timeout` seconds, and then raises `Busy`. `timeout`, `tls`,
    `token` and `name` are also those of each connection. A call of `wait` uses one for as long as it waits.

    A connection that broke is replaced. Gets, ranges, counts, pages and queries of the server but stop change nothing: if their
    connection breaks, they are asked once more by a new one. A change is never asked twice: if its connection breaks,
    it raises `ConnectionLost`, and it isn't known whether it was done. A connection that its server has ended while
    nobody used it, as at a restart, is seen to have ended before it is used again.

    After a crash of the server a commit that wasn't durable may be lost, and its number another's. So a wait for a
    durable commit isn't asked twice; and if a connection ended that had shown commits which aren't known to be durable,
    `settle` raises `ConnectionLost`, once.

    The connections are opened when they are first needed. Two calls of one thread may use two connections: the second
    sees what the first has changed, as that has ended before.
    """

    def __init__(self, port: Port, host: str = "127.0.0.1", size: int = 8, timeout: Optional[float] = None,
                 tls: Optional[ssl.SSLContext] = None, *, token: Optional[Token] = None,
                 name: Optional[Token] = None) -> None:
        self._address = checked_address(port, host, timeout, tls)
        if checked_count(size, "a size") == 0:
            raise ValueError("a pool has at least one connection")
        hello_of(token, name)
        self._size, self._timeout, self._token, self._name = size, timeout, token, name
        # guards all below
        self._changed = threading.RLock()
        # the calls that wait for a connection, in the order in which they came; each is woken when it may be its turn
        self._waiting: Deque[threading.Condition] = deque()
        # those that no call uses; the one that was used last is the last
        self._idle: List[Client] = []
        self._in_use = 0
        self._is_closed = False
        # the greatest number of a commit that was shown, and that is known to be durable; and whether a connection has
        # ended that had shown a greater one
        self._commits_shown = self._commits_settled = 0
        self._has_lost = False

    def __repr__(self) -> str:
        return f"<rowanspan.Pool {self._address}{', closed' if self._is_closed else ''}>"

    def __enter__(self) -> Pool:
        return self

    def __exit__(self, *_: object) -> None:
        self.close()

    def close(self) -> None:
        """Ends the connections: those in use when their calls end. Later calls raise `Closed`. Views stay."""
        with self._changed:
            self._is_closed = True
            idle, self._idle = self._idle, []
            for turn in self._waiting:
                turn.notify()
        for client in idle:
            client.close()

    def exchange(self, queries: Sequence[Query[Any]], messages: Sequence[bytes]) -> List[Outcome]:
        # (what can't be sent is raised before a connection is used)
        request_frame(messages, frame_version(queries))
        client = self._take()
        try:
            return client.exchange(queries, messages)
        except ConnectionLost as fault:
            if isinstance(fault.__cause__, socket.timeout) or not all(map(changes_nothing, queries)):
                raise
        finally:
            self._give_back(client)
        client = self._take(is_new=True)
        try:
            return client.exchange(queries, messages)
        finally:
            self._give_back(client)

    def _change_durably(self, query: Query[Commit]) -> Commit:
        client = self._take()
        try:
            return client._change_durably(query)
        finally:
            self._give_back(client)

    def settle(self, timeout: Optional[float] = None) -> bool:
        """Waits until all commits are durable that any thread was shown, as `Client.settle`. Raises `ConnectionLost`,
        once, if a connection has ended that had shown commits which aren't known to be durable."""
        commit = self._shown()
        is_settled = super().settle(timeout)
        if is_settled:
            with self._changed:
                self._commits_settled = max(self._commits_settled, commit)
        return is_settled

    def _shown(self) -> int:
        with self._changed:
            if not self._has_lost:
                return self._commits_shown
            self._commits_shown, self._has_lost = 0, False
        raise ConnectionLost("a connection has ended: it isn't known whether the commits that it showed are durable")

    @property
    def hello(self) -> Greeting:
        """What the server answered to the hello of one of the connections, as `Client.hello`."""
        client = self._take()
        try:
            return client.hello
        finally:
            self._give_back(client)

    # -- connections

    def _take(self, is_new: bool = False) -> Client:
        """A connection for one call: one that isn't in use, unless it is to be a new one."""
        client = self._reserve(is_new)
        if client is not None:
            return client
        try:
            address = self._address
            return Client(address.port, address.host, self._timeout, address.tls, token=self._token, name=self._name)
        except BaseException:
            self._release()
            raise

    def _reserve(self, is_new: bool) -> Optional[Client]:
        """Waits until a connection may be used. Returns one that is idle, or None if it has to be opened."""
        with self._changed:
            if self._waiting or self._in_use == self._size:
                self._wait_for_turn()
            if self._is_closed:
                raise Closed("the pool is closed")
            self._in_use += 1
            self._tell_next()
            return self._unused(is_new)

    def _wait_for_turn(self) -> None:
        """Waits until the calls that came before have a connection, and one is free; or the pool is closed."""
        turn, is_there = threading.Condition(self._changed), False
        self._waiting.append(turn)
        try:
            is_there = turn.wait_for(lambda: self._is_closed or self._is_turn_of(turn), self._timeout)
        finally:
            self._waiting.remove(turn)
            if not is_there:
                self._tell_next()
        if not is_there:
            raise Busy(f"all {self._size} connections were in use for {self._timeout} seconds")

    def _is_turn_of(self, turn: threading.Condition) -> bool:
        return self._waiting[0] is turn and self._in_use < self._size

    def _tell_next(self) -> None:
        """Tells the call that waits first if a connection is free."""
        if self._waiting and self._in_use < self._size:
            self._waiting[0].notify()

    def _unused(self, is_new: bool) -> Optional[Client]:
        """An idle connection that hasn't ended, if there is one. Those that have ended are dropped; and also one that
        could be used, if a new one is to be opened in its place."""
        while self._idle:
            client = self._idle.pop()
            if not is_new and client.is_usable():
                return client
            self._note(client, has_ended=True)
            client.close()
            if is_new:
                break
        return None

    def _give_back(self, client: Client) -> None:
        """After a call: the connection is idle again, unless it was lost or the pool was closed."""
        with self._changed:
            keeps = not client.is_lost and not self._is_closed
            self._note(client, client.is_lost)
            if keeps:
                self._idle.append(client)
        if not keeps:
            client.close()
        self._release()

    def _note(self, client: Client, has_ended: bool) -> None:
        """What a connection has shown, after a call, or when it has ended."""
        self._commits_shown = max(self._commits_shown, client._shown())
        self._commits_settled = max(self._commits_settled, client._commits_settled or 0)
        if has_ended and client._shown() > self._commits_settled:
            self._has_lost = True

    def _release(self) -> None:
        with self._changed:
            self._in_use -= 1
            self._tell_next()


ASKED_AGAIN = (Get, GetRange, GetMany, GetRangeBack, CountRange, ViewRead, Hello, Ping, GetInfo, ListViews, Wait)


def changes_nothing(query: Query[Any]) -> bool:
    """Whether a query can be asked twice."""
    # (the number of a commit that wasn't durable may be another's then)
    return isinstance(query, ASKED_AGAIN) or query == WaitDurable()
