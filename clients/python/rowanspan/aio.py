"""The client for asyncio: one connection, shared by any number of tasks.

    from rowanspan import aio

    async with aio.Client(7070) as index:
        commit = await index.put(b"apple", b"red")
        row = await index.get(b"apple")
        async for key, row in index.range(prefix=b"a"):
            print(key, row.columns)

The methods have the names and the arguments of `rowanspan.Client`, as coroutines. What they raise is the same.
"""
from __future__ import annotations

import asyncio
import copy
from collections import deque
from types import TracebackType
from typing import TYPE_CHECKING, Any, Deque, List, Optional, Sequence, Tuple, Type, TypeVar, Union

from .address import Port, checked_address
from .aio_asked import MAX_MESSAGES, Asked, answered
from .aio_changes import ChangeCalls
from .aio_reads import RowPairs, scanned
from .core import (MAX_LIMIT, BadReply, Closed, ConnectionLost, NoSuchView, Page, Pairs, Refused, RowanspanError,
                   Tidied, ViewNo, ViewSpec, WrongIndex, checked_key, checked_number, checked_view)
from .server import Greeting, HelloUnanswered
from .server_queries import Hello, Token, commits_shown, hello_of
from .wire import (MAX_QUERIES, MAX_REPLY_BODY, Build, Outcome, Query, Reply, Tidy, ViewDrop, ViewRead, frame_version,
                   read_replies, request_frame)

if TYPE_CHECKING:
    import ssl

__all__ = ["Client", "View"]

Value = TypeVar("Value")

# how many frames are sent whose answers haven't come; further queries wait for their turn in the client
MAX_SENT = 16


class Client(ChangeCalls):
    """A connection to a server, for all tasks of one event loop.

    Queries that tasks ask meanwhile go together, up to 64 in a frame, and are answered in the order in which they were
    asked. So tasks that ask at once are as fast as a pipeline, and there is no `pipeline`: a task that has several
    queries gives them to `call_all`. Other clients' queries may come in between.

    `timeout` is for how many seconds a call, or a connect, may wait (None: without end); after that the call raises
    `asyncio.TimeoutError`. A call that was sent and is cancelled, or has timed out, may have been done; the answer is
    dropped when it comes, and the other calls aren't affected. One that wasn't sent yet is never sent.

    A client connects at the begin of its `async with` block, or by `connect`; by TLS if it is given a context for it.
    If it has a token or a name, it says hello then, and raises `NotAllowed` if the server doesn't admit it. If its
    connection is lost, all calls raise `ConnectionLost`, until a task calls `connect` again.
    """

    def __init__(self, port: Port, host: str = "127.0.0.1", timeout: Optional[float] = None,
                 tls: Optional[ssl.SSLContext] = None, *, token: Optional[Token] = None,
                 name: Optional[Token] = None) -> None:
        self._address = checked_address(port, host, timeout, tls)
        self._timeout, self._token, self._name = timeout, token, name
        self._own_hello = hello_of(token, name)
        self._greeting: Optional[Greeting] = None
        self._writer: Optional[asyncio.StreamWriter] = None
        self._reading: Optional[asyncio.Task[None]] = None
        self._waiting: Deque[Asked] = deque()
        self._sent: Deque[List[Asked]] = deque()
        self._is_flushing = False
        # the end of the task that connects, if one does, with why there is no connection
        self._connecting: Optional[asyncio.Future[Optional[RowanspanError]]] = None
        # the greatest number of a commit of an answer; and whether a connection was lost that had shown one which isn't
        # known to be durable
        self._commits_shown = 0
        self._has_lost = False
        # why nothing can be asked
        self._ended: Optional[RowanspanError] = Closed("the client hasn't connected")

    def __repr__(self) -> str:
        return f"<rowanspan.aio.Client {self._address}{'' if self._ended is None else ', closed'}>"

    async def __aenter__(self) -> Client:
        return await self.connect()

    async def __aexit__(self, kind: Optional[Type[BaseException]], fault: Optional[BaseException],
                        trace: Optional[TracebackType]) -> None:
        await self.close()

    async def connect(self) -> Client:
        """Connects, and returns the client; also again, after its connection was lost. Tasks that call it at the same
        time share one connection. Raises `ConnectionLost` if there is no server, or the timeout is over, and
        `NotAllowed` if the server doesn't admit the client."""
        while self._connecting is not None:
            fault = await asyncio.shield(self._connecting)
            if fault is not None:
                raise again(fault)
        if self._writer is None:
            await self._connect_for_all()
        return self

    async def _connect_for_all(self) -> None:
        """Connects, while other tasks that want to wait for its end. (If it is cancelled, one of them connects.)"""
        why: Optional[RowanspanError] = None
        self._connecting = ending = asyncio.get_running_loop().create_future()
        try:
            await self._connect()
        except RowanspanError as fault:
            why = fault
            raise
        finally:
            self._connecting = None
            ending.set_result(why)

    async def _connect(self) -> None:
        try:
            reader, writer = await asyncio.wait_for(self._opened(), self._timeout)
        except (OSError, asyncio.TimeoutError, ValueError) as fault:
            raise ConnectionLost(f"no connection to {self._address.described()}: {fault}") from fault
        if not isinstance(self._ended, Closed) and self._commits_shown > self._settled_so_far():
            self._has_lost = True
        self._writer, self._ended, self._greeting, self._commits_shown = writer, None, None, 0
        self._begin_changes()
        self._reading = asyncio.ensure_future(self._read(reader))
        if self._own_hello is not None:
            await self._greet_or_close()

    async def _greet_or_close(self) -> None:
        """Says hello. Without an answer that admits the client, the connection is closed."""
        try:
            await self.hello()
        except asyncio.TimeoutError as fault:
            await self.close()
            raise ConnectionLost(f"no connection to {self._address.described()}: hello wasn't answered") from fault
        except BaseException:
            await self.close()
            raise

    async def _opened(self) -> Tuple[asyncio.StreamReader, asyncio.StreamWriter]:
        address = self._address
        if address.path is None:
            return await asyncio.open_connection(address.host, address.port, ssl=address.tls)
        name = None if address.tls is None else address.host
        return await asyncio.open_unix_connection(address.path, ssl=address.tls, server_hostname=name)

    async def hello(self) -> Greeting:
        """What the server answered to hello, by which a client with a token or a name begins; one without says it when
        this is first called. Raises `NotAllowed` if the server doesn't admit the client; as `HelloUnanswered`, which is
        a `ConnectionLost` too, if it ends the connection, as one does that knows no version 3 of the wire."""
        if self._greeting is None:
            try:
                self._greeting = (await self.call(self._own_hello or Hello())).value
            except ConnectionLost as fault:
                raise HelloUnanswered() from fault
        return self._greeting

    def _shown(self) -> int:
        if self._has_lost:
            self._has_lost = False
            raise ConnectionLost("a connection was lost: it isn't known whether the commits that it showed are durable")
        return self._commits_shown

    def _another(self) -> Client:
        if self._ended is not None:
            raise again(self._ended)
        address = self._address
        return Client(address.port, address.host, self._timeout, address.tls, token=self._token, name=self._name)

    async def close(self) -> None:
        """Ends the connection, and with it the server's session. Calls that have no answer raise `ConnectionLost`.
        Views stay. A second close does nothing."""
        reading, self._reading = self._reading, None
        if self._ended is None:
            self._end(Closed("the index is closed"), ConnectionLost("the client was closed"))
        if reading is not None:
            reading.cancel()
            await asyncio.gather(reading, return_exceptions=True)

    # -- calls

    async def call(self, query: Query[Value]) -> Reply[Value]:
        """Asks one query; returns its value, with the numbers of commits at its begin and end. Raises `Refused`."""
        outcome = (await self.call_all([query]))[0]
        if isinstance(outcome, Refused):
            raise outcome
        return outcome

    async def call_all(self, queries: Sequence[Query[Any]]) -> List[Outcome]:
        """Asks queries, any number of them, which the server does one after another. Returns for each its reply, or the
        `Refused`, not raised."""
        if self._ended is not None:
            raise again(self._ended)
        loop = asyncio.get_running_loop()
        asked = [Asked(query, loop.create_future()) for query in queries]
        if not asked:
            return []
        self._waiting.extend(asked)
        self._flush_soon()
        longer = sum(one.query.patience() for one in asked)
        return await answered([one.answer for one in asked], None if self._timeout is None else self._timeout + longer)

    # -- frames

    def _flush_soon(self) -> None:
        if not self._is_flushing:
            self._is_flushing = True
            asyncio.get_running_loop().call_soon(self._flush)

    def _flush(self) -> None:
        """Sends the queries that wait, as far as frames may be sent."""
        self._is_flushing = False
        while self._waiting and len(self._sent) < MAX_SENT and self._writer is not None:
            frame = self._next_frame()
            if frame:
                self._sent.append(frame)
                queries = [one.query for one in frame]
                self._writer.write(request_frame([one.message for one in frame], frame_version(queries)))

    def _next_frame(self) -> List[Asked]:
        """Takes the first queries that wait, as many as fit in a frame, without those that nobody waits for. A query of
        the server is alone in its frame."""
        frame: List[Asked] = []
        room = MAX_MESSAGES
        while self._waiting and len(frame) < MAX_QUERIES and len(self._waiting[0].message) <= room:
            if frame and (frame[0].query.is_alone or self._waiting[0].query.is_alone):
                break
            one = self._waiting.popleft()
            if not one.answer.done():
                frame.append(one)
                room -= len(one.message)
        return frame

    async def _read(self, reader: asyncio.StreamReader) -> None:
        """Reads the answers, frame by frame, until the connection ends."""
        try:
            while True:
                length = int.from_bytes(await reader.readexactly(4), "big")
                if not 2 <= length <= MAX_REPLY_BODY or not self._sent:
                    raise BadReply(f"a reply of {length} bytes came that nobody has asked for")
                self._answer(await reader.readexactly(length))
        except asyncio.IncompleteReadError:
            self._end(ConnectionLost("the server ended the connection"))
        except OSError as fault:
            self._end(ConnectionLost(f"the connection broke: {fault}"))
        except RowanspanError as fault:
            self._end(fault)

    def _answer(self, body: bytes) -> None:
        """Answers the queries of the frame that was sent first."""
        frame = self._sent[0]
        queries = [one.query for one in frame]
        outcomes = read_replies(body, queries)
        self._commits_shown = max(self._commits_shown, commits_shown(queries, outcomes))
        self._sent.popleft()
        for one, outcome in zip(frame, outcomes):
            if not one.answer.done():
                one.answer.set_result(outcome)
        self._flush()

    def _end(self, later: RowanspanError, now: Optional[RowanspanError] = None) -> None:
        """Ends the connection. Calls that have no answer raise `now`, and later ones `later`."""
        self._ended = later
        writer, self._writer = self._writer, None
        if writer is not None:
            writer.close()
        open_calls = [one for frame in self._sent for one in frame] + list(self._waiting)
        self._sent.clear()
        self._waiting.clear()
        for one in open_calls:
            if not one.answer.done():
                one.answer.set_exception(again(now or later))

    # -- nodes

    async def tidy(self, key: bytes) -> Tidied:
        """Takes out at most one node that is no longer wanted near the place of a key; returns which kind."""
        return (await self.call(Tidy(key))).value

    # -- views

    async def build(self, spec: ViewSpec) -> View:
        """Builds a view of a `Range` or a `Prefix`, which follows each change until it is dropped."""
        return View(self, (await self.call(Build(spec))).value)

    def view(self, number: int) -> View:
        """The view of this number. Asks nothing: if there is no such view, its calls raise `NoSuchView`."""
        return View(self, ViewNo(checked_view(number)))

    def _number_of(self, view: Union[View, int]) -> int:
        if not isinstance(view, View):
            return checked_view(view)
        if view.index is not self:
            raise WrongIndex(f"this is a view of another index: {view!r}")
        return view.number


def again(fault: RowanspanError) -> RowanspanError:
    """The same fault for another call. (One that is raised again and again notes each place.)"""
    made = copy.copy(fault)
    made.__cause__ = fault.__cause__
    return made


class View:
    """A view of an index: the rows that pass its test, their count, and the sums of their columns. It ends by `drop`, or
    at the end of its `async with` block."""

    def __init__(self, index: Client, number: ViewNo) -> None:
        self.index, self.number = index, number

    def __repr__(self) -> str:
        return f"<rowanspan.aio.View {self.number} of {self.index!r}>"

    async def page(self, floor: int = 0, start: bytes = b"", limit: int = MAX_LIMIT) -> Page:
        """Its count and sums, and its first rows from the key `start` on, 1 to 1000 of them at most, all at one commit.
        `floor` is the number of commits that it has to show at least. If it doesn't yet, raises `Behind`: ask again."""
        return (await self.index.call(ViewRead(self.number, floor, start, limit))).value

    def rows(self, floor: int = 0, start: bytes = b"") -> RowPairs:
        """Its rows from the key `start` on, page by page: an asynchronous iterator. Each page is exact at a commit of
        its own."""
        least = checked_number(floor, "a floor")

        async def read(key: bytes, count: int) -> Pairs:
            return (await self.page(least, key, count)).rows

        return scanned(read, checked_key(start), None, None)

    async def drop(self) -> None:
        """Ends it. Its number isn't used again."""
        await self.index.call(ViewDrop(self.number))

    async def __aenter__(self) -> View:
        return self

    async def __aexit__(self, kind: Optional[Type[BaseException]], fault: Optional[BaseException],
                        trace: Optional[TracebackType]) -> None:
        try:
            await self.drop()
        except NoSuchView:
            pass
        except RowanspanError:
            # if the block was left by an exception, that one is raised
            if kind is None:
                raise
