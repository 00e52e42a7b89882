"""Tests of the asyncio client's calls of the server itself, over the stand-in. test_rowanspan.py runs them."""
from __future__ import annotations

import asyncio
import os
import tempfile
import time
import unittest
from typing import Any, Callable, Coroutine

from rowanspan import (AnyRow, Closed, ConnectionLost, Get, HelloUnanswered, NoSuchView, NotAllowed, Ping, Prefix,
                       Range, Role, StandingView, TooLong, WrongIndex, aio)
from server_cases import OWNER, READER, SECONDS, TOKENS
from stand_in import Options, StandIn
from test_aio import Silent
from test_wire import framed

Body = Callable[[aio.Client], Coroutine[Any, Any, None]]


class AioServerTest(unittest.TestCase):
    def run_with(self, body: Body, timeout: float = SECONDS, **given: Any) -> StandIn:
        async def run() -> None:
            async with aio.Client(server.port, timeout=timeout, **given) as index:
                await body(index)

        with StandIn(Options(workers=8, tokens=TOKENS if "token" in given else {})) as server:
            asyncio.run(run())
        return server

    def test_calls(self) -> None:
        async def body(index: aio.Client) -> None:
            self.assertEqual((await index.ping(), await index.put(b"a", b"v"), await index.ping()), (0, 1, 1))
            view = await index.build(Range(b"a", None, AnyRow()))
            self.assertEqual(await index.views(), [StandingView(view.number, 1, 1, Range(b"a"))])
            counted = await index.info()
            self.assertEqual((counted["commits"], counted["rows"], await index.len()), (1, 1, 1))
            self.assertEqual((await index.remove(b"a"), await index.len(), bool(index)), (2, 0, True))
            greeting = await index.hello()
            self.assertEqual((greeting.role, greeting.commits, greeting.columns), (Role.ALL, 0, 1))
            self.assertIs(await index.hello(), greeting)
            self.assertEqual(await index.stop(), 2)
            with self.assertRaises(ConnectionLost):
                for _ in range(100):
                    await index.get(b"a")

        server = self.run_with(body, token=OWNER, name="tasks")
        self.assertEqual(server.keeper.sessions[0].name, b"tasks")

    def test_hello_without_a_token(self) -> None:
        async def body(index: aio.Client) -> None:
            self.assertEqual(await index.put(b"a", b"v"), 1)
            self.assertEqual((await index.hello()).commits, 1)

        self.run_with(body)

    def test_queries_of_the_server_are_alone(self) -> None:
        """What tasks ask at once is in frames of its own if it has to be."""
        async def body(index: aio.Client) -> None:
            found = await asyncio.gather(*(index.put(b"%d" % number, b"v") if number % 3 else index.ping()
                                           for number in range(200)))
            self.assertEqual(sorted(found[number] for number in range(200) if number % 3), list(range(1, 134)))
            both = await index.call_all([Get(b"1"), Ping(7), Get(b"2")])
            self.assertEqual(both[1].value.number, 7)  # type: ignore[union-attr]

        self.run_with(body)

    def test_waits(self) -> None:
        async def body(index: aio.Client) -> None:
            view = await index.build(Prefix(b"a"))
            self.assertFalse(await index.wait(1, timeout=0))
            waiting = [asyncio.ensure_future(index.wait(number, view, SECONDS)) for number in (3, 1, 2)]
            began = time.monotonic()
            for number in range(1, 4):
                self.assertEqual(await index.put(b"a", b"v"), number)
            self.assertEqual(await asyncio.gather(*waiting), [True] * 3)
            self.assertLess(time.monotonic() - began, SECONDS)
            following = asyncio.ensure_future(index.wait(timeout=SECONDS))
            await asyncio.sleep(0.2)
            await index.put(b"a", b"v")
            self.assertTrue(await following)
            with self.assertRaises(NoSuchView):
                await index.wait(1, 99)

        self.run_with(body)

    def test_a_wait_leaves_the_other_calls(self) -> None:
        """It may be longer than the timeout, and may be cancelled; it has a connection of its own."""
        async def body(index: aio.Client) -> None:
            long = asyncio.ensure_future(index.wait(9, timeout=SECONDS))
            await asyncio.sleep(0.1)
            self.assertFalse(await index.wait(9, timeout=0.9))
            self.assertEqual(await index.put(b"a", b"v"), 1)
            long.cancel()
            with self.assertRaises(asyncio.CancelledError):
                await long
            self.assertEqual(await index.ping(), 1)

        self.run_with(body, timeout=0.4)

    def test_a_client_that_is_not_admitted(self) -> None:
        async def connect(port: int, **given: Any) -> None:
            await aio.Client(port, timeout=SECONDS, **given).connect()

        async def body(index: aio.Client) -> None:
            with self.assertRaises(NotAllowed) as met:
                await index.put(b"a", b"v")
            self.assertNotIsInstance(met.exception, ConnectionLost)
            self.assertIsNone(await index.get(b"a"))

        server = self.run_with(body, token=READER)
        self.assertEqual(server.index.commits, 0)
        with StandIn(Options(workers=2, tokens=TOKENS)) as server:
            with self.assertRaises(NotAllowed):
                asyncio.run(connect(server.port, token=b"wrong"))
        with StandIn(Options(workers=2, newest=2)) as server:
            with self.assertRaises(HelloUnanswered):
                asyncio.run(connect(server.port, token=OWNER))

    def test_a_server_that_does_not_answer_hello(self) -> None:
        async def run() -> None:
            async with Silent() as server:
                with self.assertRaisesRegex(ConnectionLost, "hello wasn't answered$"):
                    await aio.Client(server.port, timeout=0.1, token=OWNER).connect()
                index = aio.Client(server.port, timeout=SECONDS, token=OWNER)
                connecting = asyncio.ensure_future(index.connect())
                await server.has(2)
                server.written[1].write(framed(["00 18 0000000000000000"], 3))
                with self.assertRaises(NotAllowed):
                    await connecting
                # it is closed
                with self.assertRaises(Closed):
                    await index.get(b"a")
                with self.assertRaises(Closed):
                    await index.wait(1)

        asyncio.run(run())

    def test_bad_arguments(self) -> None:
        async def body(index: aio.Client) -> None:
            wrong: Any = index
            for call in (lambda: wrong.wait("1"), lambda: wrong.wait(1, "1"), lambda: wrong.wait(1, None, "1")):
                with self.assertRaises(TypeError):
                    await call()
            for call in (lambda: wrong.wait(-1), lambda: wrong.wait(1, None, -1)):
                with self.assertRaises(TooLong):
                    await call()
            with self.assertRaises(WrongIndex):
                await index.wait(1, aio.Client(1).view(1))
            for given in ({"token": 5}, {"name": 5}):
                with self.assertRaises(TypeError):
                    aio.Client(1, **given)  # type: ignore[arg-type]

        self.run_with(body)

    def test_a_unix_socket(self) -> None:
        async def run(path: str) -> None:
            async with aio.Client(f"unix:{path}", timeout=SECONDS, token=OWNER) as index:
                self.assertEqual(await index.put(b"a", b"v"), 1)
                self.assertTrue(await index.wait(1))
                self.assertEqual(repr(index), f"<rowanspan.aio.Client unix:{path}>")

        with tempfile.TemporaryDirectory() as folder:
            path = os.path.join(folder, "s")
            with self.assertRaisesRegex(ConnectionLost, f"^no connection to unix:{path}: "):
                asyncio.run(run(path))
            with StandIn(Options(path=path, workers=2, tokens=TOKENS)):
                asyncio.run(run(path))
