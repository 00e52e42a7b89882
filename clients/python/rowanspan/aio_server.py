"""The calls of the asyncio client that ask the server itself: hello, ping, info, views, waits and stop."""
from __future__ import annotations

import abc
import time
from typing import TYPE_CHECKING, Dict, List, Optional, TypeVar, Union

from .core import MAX_NUMBER, ConnectionLost
from .server import Greeting, StandingView
from .server_queries import (GetInfo, ListViews, Ping, Stop, Wait, WaitDurable, checked_wait, next_durable, next_of,
                             parts, want_one_end)
from .wire import Query, Reply

if TYPE_CHECKING:
    from .aio import Client, View

Value = TypeVar("Value")


class ServerCalls(abc.ABC):
    """What a client asks a server that knows version 3 of the wire."""

    # how many connections there were
    _connections = 0

    @abc.abstractmethod
    async def call(self, query: Query[Value]) -> Reply[Value]:
        """Asks one query."""

    @abc.abstractmethod
    def _shown(self) -> int:
        """The greatest number of a commit that an answer of the connection has shown. Raises `ConnectionLost`, once, if
        one was lost that had shown a commit which isn't known to be durable."""

    @abc.abstractmethod
    def _note_settled(self, commit: int) -> None:
        """So many commits are known to be durable."""

    @abc.abstractmethod
    async def hello(self) -> Greeting:
        """What the server answers to hello."""

    @abc.abstractmethod
    def _number_of(self, view: Union[View, int]) -> int:
        """The number of a view, which may be given by it. Raises `WrongIndex` for a view of another index."""

    @abc.abstractmethod
    def _another(self) -> Client:
        """Another client of the same server, which hasn't connected."""

    async def ping(self) -> int:
        """Asks whether the server answers. Returns the number of commits."""
        return (await self.call(Ping(time.monotonic_ns() & MAX_NUMBER))).value.commits

    async def info(self) -> Dict[str, int]:
        """What the server counts: numbers by their names, such as `commits`, `rows` and `connections`."""
        return (await self.call(GetInfo())).value

    async def len(self) -> int:
        """How many rows there are. Asks for `info`."""
        return (await self.info())["rows"]

    async def views(self) -> List[StandingView]:
        """All views of the server, each with its number, the number of commits at which it is, how many rows it has
        then, and what it is of."""
        return (await self.call(ListViews())).value.views

    async def wait(self, commit: Optional[int] = None, view: Union[View, int, None] = None,
                   timeout: Optional[float] = None, *, durable: bool = False) -> bool:
        """Waits until there are `commit` commits; with a view of this index, or its number, until that is at this commit;
        with `durable` until no crash undoes this commit. Without `commit` it waits for the next one. Returns whether it
        was reached in `timeout` seconds (None: waits without end, as `Client.wait`). It uses a connection of its own, so
        the other calls don't wait for it. Raises `NoSuchView` and `InMemory`."""
        want_one_end(view, durable)
        number, time_left = None if view is None else self._number_of(view), checked_wait(timeout)
        async with self._another() as waiting:
            if durable:
                return await until_durable(waiting, commit, time_left)
            if commit is None:
                commit = next_of((await waiting.call(Wait(0, number))).value, number)
            for part in parts(time_left):
                if (await waiting.call(Wait(commit, number, part))).value.is_reached:
                    return True
        return False

    async def durable(self) -> int:
        """The number of commits that are durable: no crash of the server or its machine undoes them. Raises `InMemory`
        if the server keeps its rows in memory alone."""
        return (await self.call(WaitDurable())).value.durable

    async def settle(self, timeout: Optional[float] = None) -> bool:
        """Waits until all commits are durable that the answers so far have shown, also those of other clients. Returns
        whether they were in `timeout` seconds (None: waits without end, as `Client.settle`). It uses a connection of its
        own, as `wait`. Raises `InMemory`; and `ConnectionLost`, once, if a connection was lost that had shown commits
        which aren't known to be durable."""
        time_left, commit, connections = checked_wait(timeout), self._shown(), self._connections
        async with self._another() as waiting:
            await want_same_run(self, waiting)
            is_settled = await until_durable(waiting, commit, time_left)
        # (of another connection's run the number may be another's)
        if is_settled and self._connections == connections:
            self._note_settled(commit)
        return is_settled

    async def stop(self, at_once: bool = False) -> int:
        """Ends the server: frames that came are answered first, unless it is to end at once. Returns the number of
        commits. Raises `NotAllowed` if the role of the client's token isn't `Role.ALL`."""
        return (await self.call(Stop(at_once))).value


async def want_same_run(index: ServerCalls, other: ServerCalls) -> None:
    """Raises `ConnectionLost` if two clients of a server are of different runs of it."""
    if (await other.hello()).run != (await index.hello()).run:
        raise ConnectionLost("the server was started again: its commits may be others")


async def until_durable(index: ServerCalls, commit: Optional[int], timeout: Optional[float]) -> bool:
    """Waits until `commit` commits are durable, or the next one is (None). Returns whether they were in this time."""
    least = next_durable((await index.call(WaitDurable())).value) if commit is None else commit
    for part in parts(timeout):
        if (await index.call(WaitDurable(least, part))).value.is_reached:
            return True
    return False
