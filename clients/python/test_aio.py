"""Tests of the client for asyncio, over the stand-in: calls, tasks that share a connection, cancels, timeouts, ends."""
from __future__ import annotations

import asyncio
import inspect
import socket
import traceback
import unittest
from typing import Any, Callable, Coroutine, List, Optional, Sequence, Set, Tuple
from unittest import mock

from rowanspan import (AtLeast, BadLimit, BadReply, Behind, Client, Closed, ColumnTooLong, ConnectionLost, Get,
                       GetRange, NoSuchView, OtherVersion, Page, Prefix, Put, Range, Refused, Reply, Row, Tidied,
                       TooLong, aio)
from rowanspan.wire import MAX_REQUEST_BODY
from stand_in import Options, StandIn
from test_wire import framed

SECONDS = 20.0
Body = Callable[[aio.Client], Coroutine[Any, Any, None]]


class Silent:
    """A server that takes connections and what they send, and answers when a test says so."""

    def __init__(self) -> None:
        self.frames = 0
        self.written: List[asyncio.StreamWriter] = []

    async def __aenter__(self) -> Silent:
        self._server = await asyncio.start_server(self._serve, "127.0.0.1", 0)
        self.port: int = self._server.sockets[0].getsockname()[1]
        return self

    async def __aexit__(self, *_: object) -> None:
        self._server.close()
        for writer in self.written:
            writer.close()

    async def _serve(self, reader: asyncio.StreamReader, writer: asyncio.StreamWriter) -> None:
        self.written.append(writer)
        try:
            while True:
                length = int.from_bytes(await reader.readexactly(4), "big")
                await reader.readexactly(length)
                self.frames += 1
        except (asyncio.IncompleteReadError, ConnectionError):
            pass

    async def has(self, frames: int) -> None:
        for _ in range(2000):
            if self.frames == frames:
                return
            await asyncio.sleep(0.005)
        raise AssertionError(f"{self.frames} frames came, not {frames}")

    def send(self, piece: bytes) -> None:
        self.written[0].write(piece)


def names_of(kind: type) -> Set[str]:
    return {name for name in dir(kind) if not name.startswith("_")}


class AioTest(unittest.TestCase):
    def run_with(self, body: Body, columns: int = 2, timeout: float = SECONDS) -> None:
        async def run() -> None:
            async with aio.Client(server.port, timeout=timeout) as index:
                await body(index)

        with StandIn(Options(columns=columns)) as server:
            self.server = server
            asyncio.run(run())

    def test_rows(self) -> None:
        async def body(index: aio.Client) -> None:
            self.assertIsNone(await index.get(b"a"))
            self.assertEqual(await index.get(b"a", 5), 5)
            self.assertIsNone(await index.remove(b"a"))
            self.assertEqual(await index.put(b"a", b"v"), 1)
            self.assertEqual(await index.put(b"a", {1: b"w"}), 2)
            self.assertEqual(await index.get(b"a", columns=[1, 0]), Row(2, (b"w", b"v")))
            self.assertEqual(await index.put_if(b"b", b"x", 0), 3)
            with self.assertRaises(OtherVersion) as met:
                await index.put_if(b"b", b"x", 0)
            self.assertEqual(met.exception.detail, 3)
            self.assertEqual(await index.first(b"b"), [(b"b", Row(3, (b"x", b"")))])
            self.assertEqual(await index.update(b"b", lambda row: row and {1: row.columns[0]}), 4)
            self.assertIsNone(await index.update(b"c", lambda row: None))
            self.assertEqual(await index.remove(b"b"), 5)
            self.assertEqual(await index.tidy(b"b"), Tidied.NOTHING)
            self.assertEqual(await index.call(Get(b"b")), Reply(None, 5, 5))
            outcomes = await index.call_all([Put(b"a", b"v"), GetRange(b"", 0), Get(b"a", [0])])
            self.assertEqual((outcomes[0], outcomes[2]), (Reply(6, 5, 6), Reply(Row(6, (b"v",)), 6, 6)))
            self.assertIsInstance(outcomes[1], BadLimit)
            self.assertEqual(await index.call_all([]), [])

        self.run_with(body)

    def test_pop(self) -> None:
        async def body(index: aio.Client) -> None:
            await index.put(b"a", b"v")
            self.assertEqual((await index.pop(b"a"), await index.pop(b"a", 5), await index.pop(b"a", None)),
                             (Row(1, (b"v", b"")), 5, None))
            with self.assertRaises(KeyError) as met:
                await index.pop(b"a")
            self.assertEqual((met.exception.args, await index.ping()), ((b"a",), 2))
            # (another caller removes the row in between)
            await index.put(b"a", b"v")
            with mock.patch.object(index, "remove", return_value=None):
                self.assertIsNone(await index.pop(b"a", None))

        self.run_with(body)

    def test_setdefault(self) -> None:
        async def body(index: aio.Client) -> None:
            self.assertEqual(await index.setdefault(b"a", {1: b"w"}), Row(1, (b"", b"w")))
            self.assertEqual(await index.setdefault(b"a", b"x"), Row(1, (b"", b"w")))
            with self.assertRaises(ColumnTooLong):
                await index.setdefault(b"c", bytes(65))
            get = index.get

            async def before_another(key: bytes, columns: Optional[Sequence[int]] = None) -> Optional[Row]:
                row = await get(key)
                await index.put(key, b"other")
                return row

            with mock.patch.object(index, "get", before_another):
                self.assertEqual(await index.setdefault(b"b", b"x"), Row(2, (b"other", b"")))
            wrong: Any = index
            for sets in ("x", 5, None):
                with self.assertRaises(TypeError):
                    await wrong.setdefault(b"a", sets)

        self.run_with(body)

    def test_names_of_the_client(self) -> None:
        """What a client has, with the same parameters, but for a frame, a pipeline, and what a pool asks of it."""
        ours, theirs = names_of(aio.Client), names_of(Client)
        self.assertEqual(theirs - ours, {"exchange", "is_lost", "is_usable", "pipeline"})
        self.assertEqual(ours - theirs, {"connect", "len"})
        for name in ours & theirs - {"hello"}:
            own, other = (inspect.signature(getattr(kind, name)) for kind in (aio.Client, Client))
            self.assertEqual([(one.name, one.kind, one.default) for one in own.parameters.values()],
                             [(one.name, one.kind, one.default) for one in other.parameters.values()], name)
            self.assertTrue(inspect.getdoc(getattr(aio.Client, name)), name)

    def test_ranges(self) -> None:
        keys = [b"a"] + [b"b%04d" % number for number in range(1500)] + [b"c", b"\xff"]

        async def found(**arguments: Any) -> List[bytes]:
            return [key async for key, _ in self.index.range(**arguments)]

        async def body(index: aio.Client) -> None:
            self.index = index
            await index.call_all([Put(key, b"v") for key in keys])
            self.assertEqual(await found(), keys)
            self.assertEqual([key async for key, _ in index.items()], keys)
            self.assertEqual([key async for key in index.keys()], keys)
            self.assertEqual([row async for row in index.values()],
                             [Row(number, (b"v", b"")) for number in range(1, len(keys) + 1)])
            asked = [query for query in self.server.index.asked if isinstance(query, GetRange)]
            self.assertEqual([tuple(query.columns) for query in asked[-4:]], [(0,)] * 2 + [()] * 2)
            self.assertEqual(await found(prefix=b"b1"), keys[1001:1501])
            self.assertEqual(await found(start=b"b0998", stop=b"b1001"), keys[999:1002])
            self.assertEqual(await found(start=b"b", limit=3), keys[1:4])
            self.assertEqual(await found(prefix=b"\xff"), [b"\xff"])
            self.assertEqual(await found(limit=0), [])
            with self.assertRaises(TypeError):
                index.range(start="a")  # type: ignore[arg-type]

        self.run_with(body)

    def test_views(self) -> None:
        async def body(index: aio.Client) -> None:
            await index.put(b"a1", b"\5")
            async with await index.build(Prefix(b"a", AtLeast(0, 3))) as view:
                self.assertEqual(await view.page(), Page(1, 1, (5, 0), [(b"a1", Row(1, (b"\5", b"")))]))
                await index.put(b"a2", b"\2")
                commit = await index.put(b"a3", b"\3")
                page = await view.page(commit, b"a2", 1)
                self.assertEqual((page.count, page.sums, len(page.rows)), (2, (8, 0), 1))
                with self.assertRaises(Behind):
                    await view.page(9)
                self.assertEqual([key async for key, _ in view.rows()], [b"a1", b"a3"])
                number = view.number
            with self.assertRaises(NoSuchView):
                await index.view(number).page()
            async with index.view(number):
                pass
            with self.assertRaises(Refused):
                await index.build(Range(b"b", b"a"))

        self.run_with(body)

    def test_tasks_share_frames(self) -> None:
        async def one(index: aio.Client, number: int) -> bool:
            key = b"%d" % number
            commit = await index.put(key, b"v%d" % number)
            return await index.get(key) == Row(commit, (b"v%d" % number, b""))

        async def body(index: aio.Client) -> None:
            found = await asyncio.gather(*(one(index, number) for number in range(1000)))
            self.assertEqual(found, [True] * 1000)

        self.run_with(body)

    def test_frames_are_full_and_few(self) -> None:
        async def run() -> None:
            async with Silent() as server, aio.Client(server.port) as index:
                calls = [asyncio.ensure_future(index.put(b"a", b"v")) for _ in range(64 * 20)]
                await server.has(aio.MAX_SENT)
                await asyncio.sleep(0.05)
                self.assertEqual(server.frames, aio.MAX_SENT)
                server.send(framed(["03" + "00" * 24] * 64) * 2)
                await server.has(aio.MAX_SENT + 2)
                self.assertEqual(sum(call.done() for call in calls), 128)
                for call in calls:
                    call.cancel()

        asyncio.run(run())

    def test_a_cancel_leaves_the_others(self) -> None:
        async def run() -> None:
            async with Silent() as server, aio.Client(server.port) as index:
                first = asyncio.ensure_future(index.get(b"a"))
                await server.has(1)
                second = asyncio.ensure_future(index.remove(b"a"))
                await server.has(2)
                first.cancel()
                with self.assertRaises(asyncio.CancelledError):
                    await first
                server.send(framed(["01" + "00" * 16]) + framed(["03" + "00" * 16 + "00" * 7 + "09"]))
                self.assertEqual(await second, 9)

        asyncio.run(run())

    def test_what_was_not_sent_is_never_sent(self) -> None:
        async def run() -> None:
            async with Silent() as server, aio.Client(server.port) as index:
                calls = [asyncio.ensure_future(index.call_all([Get(b"a")] * 64)) for _ in range(aio.MAX_SENT + 1)]
                await server.has(aio.MAX_SENT)
                calls[-1].cancel()
                await asyncio.sleep(0)
                server.send(framed(["01" + "00" * 16] * 64) * aio.MAX_SENT)
                self.assertEqual(len(await calls[-2]), 64)
                await asyncio.sleep(0.05)
                self.assertEqual(server.frames, aio.MAX_SENT)

        asyncio.run(run())

    def test_a_timeout_leaves_the_others(self) -> None:
        async def run() -> None:
            async with Silent() as server, aio.Client(server.port, timeout=0.2) as index:
                with self.assertRaises(asyncio.TimeoutError):
                    await index.get(b"a")
                second = asyncio.ensure_future(index.remove(b"a"))
                await server.has(2)
                server.send(framed(["01" + "00" * 16]) + framed(["01" + "00" * 16]))
                self.assertIsNone(await second)

        asyncio.run(run())

    def test_ends(self) -> None:
        async def run(piece: bytes, ends: bool) -> Tuple[BaseException, BaseException]:
            async with Silent() as server, aio.Client(server.port) as index:
                call = asyncio.ensure_future(index.get(b"a"))
                await server.has(1)
                server.send(piece)
                if ends:
                    server.written[0].close()
                outcome = (await asyncio.gather(call, return_exceptions=True))[0]
                later = (await asyncio.gather(index.get(b"a"), return_exceptions=True))[0]
                assert isinstance(outcome, BaseException) and isinstance(later, BaseException)
                return outcome, later

        whole = framed(["01" + "00" * 16])
        for kept in range(len(whole)):
            for fault in asyncio.run(run(whole[:kept], True)):
                self.assertIsInstance(fault, ConnectionLost)
        for piece in (b"\0\0\0\1", b"\xff" * 4, framed(["09"]), framed(["01" + "00" * 16] * 2)):
            for fault in asyncio.run(run(piece, False)):
                self.assertIsInstance(fault, BadReply)

    def test_close(self) -> None:
        async def run() -> None:
            async with Silent() as server:
                index = aio.Client(server.port)
                with self.assertRaises(Closed):
                    await index.get(b"a")
                self.assertIs(await index.connect(), index)
                self.assertIs(await index.connect(), index)
                call = asyncio.ensure_future(index.get(b"a"))
                await server.has(1)
                await index.close()
                await index.close()
                with self.assertRaises(ConnectionLost):
                    await call
                with self.assertRaises(Closed):
                    await index.put(b"a", b"v")
                # it can be used again
                await index.connect()
                again = asyncio.ensure_future(index.get(b"a"))
                await server.has(2)
                server.written[1].write(framed(["01" + "00" * 16]))
                self.assertIsNone(await again)
                await index.close()

        asyncio.run(run())

    def test_tasks_that_connect_at_once(self) -> None:
        """They share a connection, or why there is none. So no answer is taken for another one's."""
        async def run(port: int) -> None:
            index = aio.Client(port, timeout=SECONDS, name="a test")
            for count in (1, 2):
                await asyncio.gather(*(index.connect() for _ in range(20)))
                self.assertEqual((await index.info())["connections_all"], count)
                values = [b"%d" % number for number in range(50)]
                await asyncio.gather(*(index.put(value, value) for value in values))
                rows = await asyncio.gather(*(index.get(value, columns=[0]) for value in values))
                self.assertEqual([row.columns for row in rows if row], [(value,) for value in values])
                await index.close()

        with StandIn(Options()) as server:
            asyncio.run(run(server.port))

    def test_tasks_that_connect_to_nothing(self) -> None:
        async def run(port: int) -> None:
            index = aio.Client(port, timeout=SECONDS)
            outcomes = await asyncio.gather(*(index.connect() for _ in range(5)), return_exceptions=True)
            self.assertEqual([type(outcome) for outcome in outcomes], [ConnectionLost] * 5)
            self.assertEqual(len({id(outcome) for outcome in outcomes}), 5)
            with self.assertRaises(Closed):
                await index.get(b"a")

        listener = socket.create_server(("127.0.0.1", 0))
        port = listener.getsockname()[1]
        listener.close()
        asyncio.run(run(port))

    def test_a_connect_that_is_cancelled(self) -> None:
        """Another task that has called it at the same time connects."""
        async def run() -> None:
            async with Silent() as server:
                index = aio.Client(server.port, name="a test")
                first, second = [asyncio.ensure_future(index.connect()) for _ in range(2)]
                await server.has(1)
                first.cancel()
                await server.has(2)
                server.written[1].write(framed(["10030301" + "00" * 32], 3))
                self.assertIs(await second, index)
                self.assertTrue(first.cancelled())
                await index.close()

        asyncio.run(run())

    def test_a_fault_that_is_raised_often(self) -> None:
        async def run() -> None:
            async with Silent() as server, aio.Client(server.port) as index:
                call = asyncio.ensure_future(index.get(b"a"))
                await server.has(1)
                server.written[0].close()
                with self.assertRaises(ConnectionLost):
                    await call
                lengths = set()
                for _ in range(10):
                    with self.assertRaises(ConnectionLost) as met:
                        await index.get(b"a")
                    lengths.add(len(traceback.extract_tb(met.exception.__traceback__)))
                self.assertEqual(len(lengths), 1)

        asyncio.run(run())

    def test_bad_arguments(self) -> None:
        async def body(index: aio.Client) -> None:
            wrong: Any = index
            for call in (lambda: wrong.get("a"), lambda: wrong.put(b"a", "v"), lambda: wrong.put_if(b"a", b"v", "0"),
                         lambda: wrong.first(b"", "1"), lambda: wrong.build(b"a"), lambda: wrong.call_all([5])):
                with self.assertRaises(TypeError):
                    await call()
            with self.assertRaises(TooLong):
                await index.put(b"a" * 60_000, [(0, b"v" * 255)] * 255 + [(0, bytes(255))] * 600)
            self.assertEqual(await index.put(b"a", b"v"), 1)

        self.run_with(body)
        self.assertGreater(MAX_REQUEST_BODY, aio.MAX_MESSAGES)

    def test_no_server(self) -> None:
        listener = socket.create_server(("127.0.0.1", 0))
        port = listener.getsockname()[1]
        listener.close()
        with self.assertRaises(ConnectionLost):
            asyncio.run(aio.Client(port, timeout=SECONDS).connect())
