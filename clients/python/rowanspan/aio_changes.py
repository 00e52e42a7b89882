"""The calls of the asyncio client that change rows."""
from __future__ import annotations

import asyncio
from typing import Any, Callable, Optional, TypeVar, Union, overload

from .aio_reads import ReadCalls
from .aio_server import ServerCalls, want_same_run
from .core import Closed, NotDurable, OtherVersion, Refused, Row, Sets, set_pairs
from .mapping import NoDefault
from .server_queries import WaitDurable, commit_to_settle, parts
from .wire import Put, PutIf, Query, Remove, frame_version, request_frame, spelled_query

Default = TypeVar("Default")
# what a change returns: the number of its commit, or None if it has made none
Commit = TypeVar("Commit", bound=Optional[int])

# how many commits are durable, before a change was to be
NOT_ASKED = -1


class ChangeCalls(ReadCalls, ServerCalls):
    """What a client changes of the rows of a server."""

    # of the connection: the greatest number of a commit that is known to be durable, and the lock of the task that
    # waits for a greater one
    _commits_settled = NOT_ASKED
    _settling: asyncio.Lock

    def _begin_changes(self) -> None:
        """There is a new connection."""
        self._commits_settled, self._settling = NOT_ASKED, asyncio.Lock()
        self._connections += 1

    def _settled_so_far(self) -> int:
        return max(self._commits_settled, 0)

    async def put(self, key: bytes, sets: Sets, *, durable: bool = False) -> int:
        """Sets columns of a key's row, by their numbers; plain bytes are column 0. Returns the number of the commit.

        With `durable` it returns only after the commit is durable: no crash undoes it. It waits for that without end,
        and isn't bound by the client's timeout. The other calls don't wait for it: if the commit isn't durable when it
        is answered, one connection more waits, for all tasks. Raises `InMemory` if the rows are in memory alone; then
        nothing was changed. If the change was made, and its commit doesn't become durable, raises `NotDurable`."""
        return await self._change(Put(key, sets), durable)

    async def put_if(self, key: bytes, sets: Sets, version: int, *, durable: bool = False) -> int:
        """Sets columns only if the key's row is of this version, or if `version` is 0 and it has none. Returns the
        number of the commit. Otherwise raises `OtherVersion`, whose detail is the version that the row has. `durable`
        is as of `put`."""
        return await self._change(PutIf(key, sets, version), durable)

    async def update(self, key: bytes, change: Callable[[Optional[Row]], Optional[Sets]], *,
                     durable: bool = False) -> Optional[int]:
        """Changes a key's row by what it is: `change` gets the row (None: there is none), and returns the columns to
        set (None: nothing is put). If another caller has changed the row meanwhile, it is called again. Returns the
        number of the commit, or None if nothing was put. `durable` is as of `put`; if nothing is put, it waits for
        nothing."""
        while True:
            row = await self.get(key)
            sets = change(row)
            if sets is None:
                return None
            try:
                return await self.put_if(key, sets, row.version if row else 0, durable=durable)
            except OtherVersion:
                pass

    async def remove(self, key: bytes, *, durable: bool = False) -> Optional[int]:
        """Removes a key's row. Returns the number of the commit, or None if there was no row. `durable` is as of `put`;
        if there was no row, it waits for the commits that the call saw, so that no crash brings the row back."""
        return await self._change(Remove(key), durable)

    @overload
    async def pop(self, key: bytes, *, durable: bool = False) -> Row:
        ...

    @overload
    async def pop(self, key: bytes, default: Default, *, durable: bool = False) -> Union[Row, Default]:
        ...

    async def pop(self, key: bytes, default: Any = NoDefault.NONE, *, durable: bool = False) -> Any:
        """Removes a key's row, and returns it, by a get and a remove: a put of another caller in between is removed
        too, and the row before it is returned. A row is returned to one caller only. If there is none, returns
        `default`, or raises KeyError without one. `durable` is as of `put`; if there is no row, it waits for
        nothing."""
        row = await self.get(key)
        if row is not None and await self.remove(key, durable=durable) is not None:
            return row
        if default is NoDefault.NONE:
            raise KeyError(key)
        return default

    async def setdefault(self, key: bytes, sets: Sets, *, durable: bool = False) -> Row:
        """The row of a key. If there is none, sets these columns first, by `put_if`: so the row of another caller is
        never changed. If another caller removes the row before it was read, it is put again. `durable` is as of `put`;
        if the row is there, it waits for nothing."""
        pairs = set_pairs(sets)
        while True:
            row = await self.get(key)
            if row is not None:
                return row
            try:
                await self.put_if(key, pairs, 0, durable=durable)
            except OtherVersion:
                pass

    # -- durable commits

    async def _change(self, query: Query[Commit], durable: bool) -> Commit:
        if not durable:
            return (await self.call(query)).value
        if self._commits_settled == NOT_ASKED:
            # (what can't be sent, and a server that keeps no commits, are raised before anything is changed)
            request_frame([spelled_query(query)], frame_version([query]))
            self._note_settled(await self.durable())
        connections = self._connections
        reply = await self.call(query)
        commit = commit_to_settle(reply.value, reply.to)
        if self._commits_settled < commit:
            # (it may be durable already: then nobody waits)
            self._note_settled((await self.call(WaitDurable(commit))).value.durable)
            await self._settled(commit)
        if self._connections != connections:
            # (of another run of the server the number may be another's)
            raise NotDurable(commit)
        return reply.value

    def _note_settled(self, commit: int) -> None:
        self._commits_settled = max(self._commits_settled, commit)

    async def _settled(self, commit: int) -> None:
        """Waits until a commit is durable, by a connection of its own. One task waits so; for those that come meanwhile
        its answer may do too."""
        async with self._settling:
            if self._commits_settled < commit:
                try:
                    async with self._another() as waiting:
                        await want_same_run(self, waiting)
                        self._note_settled(await durable_commits(waiting, commit))
                except (Refused, Closed) as fault:
                    # (each says that nothing was changed, and the change was made)
                    raise NotDurable(commit) from fault


async def durable_commits(index: ServerCalls, commit: int) -> int:
    """Waits until a commit is durable. Returns how many are."""
    for part in parts(None):
        now = (await index.call(WaitDurable(commit, part))).value
        if now.is_reached:
            return now.durable
    raise NotDurable(commit)
