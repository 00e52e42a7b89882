"""Tests of what a client knows of durable commits: waits until they are, refusals of a disk, and connections that have
ended; over the stand-in, which makes them durable when a test says so. test_rowanspan.py runs them."""
from __future__ import annotations

import asyncio
import errno
import pickle
import socket
import threading
import unittest
from typing import Any, Callable, Coroutine, Optional
from unittest import mock

import rowanspan
from rowanspan import (Build, Client, ConnectionLost, DiskFailed, DiskFull, Get, GetInfo, InMemory, ListViews,
                       NotAllowed, OtherVersion, Ping, Pool, Prefix, Put, Refused, Remove, Row, Settled, TooLong,
                       ViewRead, Wait, WaitDurable, aio)
from server_cases import OWNER, SECONDS, TOKENS, later
from stand_in import Options, StandIn
from stand_in_log import Log, Policy

NEVER = Policy(False)


class DurableTest(unittest.TestCase):
    """Tests over a server that makes commits durable when it is told to."""

    def setUp(self) -> None:
        self.log = Log(NEVER)
        self.server = StandIn(Options(workers=8, log=self.log))
        self.addCleanup(self.server.__exit__, None, None, None)

    def client(self, timeout: Optional[float] = SECONDS) -> Client:
        index = Client(self.server.port, timeout=timeout)
        self.addCleanup(index.close)
        return index

    def sync_later(self) -> threading.Thread:
        return later(0.2, self.server.index.sync)


class ClientTest(DurableTest):
    def test_how_many_are_durable(self) -> None:
        index = self.client()
        self.assertEqual((index.durable(), index.info()["durable"]), (0, 0))
        self.assertEqual((index.put(b"a", b"v"), index.durable()), (1, 0))
        self.server.index.sync()
        self.assertEqual((index.put(b"a", b"v"), index.durable(), index.info()["durable"]), (2, 1, 1))
        self.assertEqual(index.call(WaitDurable(2)).value, Settled(False, 2, 1))

    def test_waits(self) -> None:
        index = self.client()
        self.assertTrue(index.wait(0, timeout=0, durable=True))
        index.put(b"a", b"v")
        self.assertTrue(index.wait(1, timeout=0))
        self.assertFalse(index.wait(1, timeout=0.01, durable=True))
        syncing = self.sync_later()
        self.assertTrue(index.wait(1, timeout=SECONDS, durable=True))
        syncing.join()
        # the next one that is durable, which is there already
        index.put(b"a", b"w")
        self.assertFalse(index.wait(timeout=0.01, durable=True))
        syncing = self.sync_later()
        self.assertTrue(index.wait(durable=True))
        syncing.join()
        self.assertEqual(index.durable(), 2)

    def test_a_wait_that_is_longer_than_the_timeout(self) -> None:
        index = self.client(timeout=0.3)
        index.put(b"a", b"v")
        self.assertFalse(index.settle(timeout=0.9))
        self.assertFalse(index.wait(1, timeout=0.9, durable=True))
        self.assertEqual(index.ping(), 1)

    def test_settle(self) -> None:
        index = self.client()
        self.assertTrue(index.settle(0))
        index.put(b"a", b"v")
        self.assertFalse(index.settle(timeout=0.01))
        syncing = self.sync_later()
        self.assertTrue(index.settle())
        syncing.join()
        with index.pipeline() as pipeline:
            pipeline.put(b"a", b"v")
            pipeline.get(b"a")
        self.assertFalse(index.settle(0))
        self.server.index.sync()
        self.assertTrue(index.settle(0))

    def test_what_each_answer_has_shown(self) -> None:
        """Commits of another client are waited for once an answer has shown them."""
        other = self.client()
        view = other.build(Prefix(b""))
        asks: Any = [Get(b"a"), Get(b"none"), Ping(5), GetInfo(), ListViews(), Wait(0), WaitDurable(), Remove(b"none"),
                     rowanspan.Hello(), ViewRead(view.number), Build(Prefix(b"b")), ViewRead(view.number, 1000)]
        for query in asks:
            with self.subTest(query=query), Client(self.server.port, timeout=SECONDS) as index:
                self.server.index.sync()
                commit = other.put(b"a", b"v")
                index.call_all([query])
                self.assertEqual(index._shown(), commit)
                self.assertFalse(index.settle(0))
        with Client(self.server.port, timeout=SECONDS) as index:
            self.assertEqual((index.settle(0), index._shown()), (True, self.server.index.commits))

    def test_what_a_refusal_has_shown(self) -> None:
        index, other = self.client(), self.client()
        for number in range(1, 4):
            other.put(b"a", b"v")
            with self.assertRaises(OtherVersion):
                index.put_if(b"a", b"w", 0)
            self.assertEqual(index._shown(), number)

    def test_what_a_frame_has_shown(self) -> None:
        other = self.client()
        view = other.build(Prefix(b""))
        for number, queries in enumerate(([Get(b"a")], [Get(b"a"), ViewRead(view.number)], [Put(b"a", b"v"), Get(b"a")],
                                          [ViewRead(view.number), ViewRead(view.number, 1000)],
                                          [Get(b"a", [5]), Get(b"a"), Get(b"a", [5])])):
            with self.subTest(queries=queries), Client(self.server.port, timeout=SECONDS) as index:
                other.put(b"a", b"v")
                index.call_all(queries)
                self.assertEqual(index._shown(), self.server.index.commits)

    def test_an_index_in_memory(self) -> None:
        with StandIn(Options(workers=1)) as server, Client(server.port, timeout=SECONDS) as index:
            for call in (index.durable, index.settle, lambda: index.wait(durable=True)):
                with self.assertRaisesRegex(InMemory, "^the rows are in memory alone$"):
                    call()
            self.assertEqual(index.info()["durable"], 0)

    def test_bad_arguments(self) -> None:
        index: Any = self.client()
        for call in (lambda: index.wait(1, 1, durable=True), lambda: index.wait("1", durable=True),
                     lambda: index.settle("1"), lambda: index.wait(1, None, None, True)):
            with self.assertRaises(TypeError):
                call()
        for call in (lambda: index.settle(-1), lambda: index.wait(-1, durable=True)):
            with self.assertRaises(TooLong):
                call()

    def test_the_end_of_the_server(self) -> None:
        index = self.client()
        index.put(b"a", b"v")
        stopping = later(0.2, self.client().stop)
        try:
            self.assertFalse(index.settle(timeout=SECONDS))
        except ConnectionLost:
            pass
        stopping.join()


class RefusalTest(DurableTest):
    def test_kinds_of_faults(self) -> None:
        for fault, number in ((DiskFailed(7), errno.EIO), (DiskFull(), errno.ENOSPC)):
            for kind in (Refused, OSError):
                self.assertIsInstance(fault, kind)
            again = pickle.loads(pickle.dumps(fault))
            self.assertEqual((type(again), str(again), again.errno), (type(fault), str(fault), number))
        self.assertEqual(str(DiskFailed(7)), "the disk has failed after commit 7, which is durable")
        self.assertEqual((DiskFailed(7).durable, DiskFailed(0).durable), (7, 0))
        self.assertNotIsInstance(DiskFailed(7), (PermissionError, ConnectionError))
        self.assertNotIsInstance(InMemory(), OSError)

    def refused(self, refusal: Refused) -> None:
        """Each query of a frame with a change is refused, and what was there can be read."""
        index = self.client()
        index.put(b"a", b"v")
        self.log.refusal, kind = refusal, type(refusal)
        for change in (lambda: index.put(b"a", b"w"), lambda: index.remove(b"a"), lambda: index.put_if(b"a", b"w", 1),
                       lambda: index.update(b"a", lambda row: b"w")):
            with self.assertRaises(kind):
                change()
        outcomes = index.call_all([Get(b"a"), Put(b"b", b"v"), Get(b"b")])
        self.assertEqual([type(outcome) for outcome in outcomes], [kind] * 3)
        self.assertEqual((index.get(b"a"), index.ping(), index.put), (Row(1, (b"v",)), 1, index.put))
        self.assertFalse(index.settle(timeout=0.01))
        with index.build(Prefix(b"")) as view:
            self.assertEqual(view.count, 1)

    def test_a_disk_that_has_failed(self) -> None:
        self.refused(DiskFailed(0))
        with self.assertRaises(OSError) as met:
            self.client().put(b"a", b"v")
        assert isinstance(met.exception, DiskFailed)
        self.assertEqual((met.exception.durable, met.exception.detail), (0, 0))

    def test_a_full_disk(self) -> None:
        self.refused(DiskFull())
        index = self.client()
        self.log.refusal = None
        self.assertEqual(index.put(b"a", b"w"), 2)

    def test_whom_the_server_admits_comes_first(self) -> None:
        log = Log()
        log.refusal = DiskFull()
        with StandIn(Options(workers=2, tokens=TOKENS, log=log)) as server:
            with Client(server.port, timeout=SECONDS, token=OWNER) as index, self.assertRaises(DiskFull):
                index.put(b"a", b"v")
            with Client(server.port, timeout=SECONDS) as index, self.assertRaises(NotAllowed):
                index.put(b"a", b"v")

    def test_a_disk_that_fails_while_changes_wait(self) -> None:
        class Failing(Log):
            def sync(self) -> None:
                self.refusal = DiskFailed(self.durable)

        with StandIn(Options(workers=2, log=Failing())) as server:
            with Client(server.port, timeout=SECONDS) as index, self.assertRaises(ConnectionLost):
                index.put(b"a", b"v")
            with Client(server.port, timeout=SECONDS) as index, self.assertRaises(DiskFailed):
                index.put(b"a", b"v")
            self.assertEqual(server.faults, [12])


class PoolCases(DurableTest):
    def pool(self, size: int = 2) -> Pool:
        pool = Pool(self.server.port, size=size, timeout=SECONDS)
        self.addCleanup(pool.close)
        return pool

    def break_idle(self, pool: Pool, is_seen: bool = False) -> None:
        """Ends the connections that no call uses, with or without that it can be seen before."""
        for client in pool._idle:
            assert client._connection is not None
            client._connection.shutdown(socket.SHUT_RDWR)
            if not is_seen:
                hidden = mock.patch.object(client, "is_usable", return_value=True)
                hidden.start()
                self.addCleanup(hidden.stop)


class PoolTest(PoolCases):
    def test_calls(self) -> None:
        pool = self.pool()
        self.assertEqual((pool.put(b"a", b"v"), pool.durable()), (1, 0))
        self.assertFalse(pool.settle(timeout=0.01))
        self.assertFalse(pool.wait(1, timeout=0, durable=True))
        syncing = self.sync_later()
        self.assertTrue(pool.settle(timeout=SECONDS))
        syncing.join()
        self.assertTrue(pool.wait(1, durable=True))

    def test_what_other_threads_were_shown(self) -> None:
        pool = self.pool()
        client = pool._take()
        putting = threading.Thread(target=lambda: pool.put(b"a", b"v"))
        putting.start()
        putting.join()
        pool._give_back(client)
        self.assertFalse(pool.settle(0))

    def test_a_connection_that_has_ended(self) -> None:
        """What it showed may be lost, and its numbers another's: this is said once."""
        for is_seen in (False, True):
            with self.subTest(is_seen=is_seen):
                pool = self.pool()
                pool.put(b"a", b"v")
                self.break_idle(pool, is_seen)
                # (a read is asked again, by a new connection)
                self.assertIsNotNone(pool.get(b"a"))
                self.server.index.sync()
                with self.assertRaisesRegex(ConnectionLost, "^a connection has ended: "):
                    pool.settle(timeout=SECONDS)
                self.assertTrue(pool.settle(timeout=SECONDS))

    def test_a_connection_that_ends_while_it_is_waited(self) -> None:
        pool = self.pool()
        pool.put(b"a", b"v")
        self.break_idle(pool)
        for call in (lambda: pool.settle(timeout=SECONDS), lambda: pool.settle(timeout=SECONDS)):
            with self.assertRaises(ConnectionLost):
                call()
        self.break_idle(pool)
        self.assertEqual(pool.durable(), 0)

    def test_a_connection_that_has_shown_nothing_else(self) -> None:
        """What is known to be durable stays."""
        pool = self.pool()
        pool.put(b"a", b"v")
        self.server.index.sync()
        self.assertTrue(pool.settle())
        self.break_idle(pool)
        self.assertIsNotNone(pool.get(b"a"))
        self.assertTrue(pool.settle(timeout=SECONDS))

    def test_a_wait_is_not_asked_again(self) -> None:
        pool = self.pool()
        pool.durable()
        self.break_idle(pool)
        with self.assertRaises(ConnectionLost):
            pool.wait(1, durable=True)


Body = Callable[[aio.Client], Coroutine[Any, Any, None]]


class AioCases(DurableTest):
    def run_with(self, body: Body, port: Optional[int] = None) -> None:
        async def run() -> None:
            async with aio.Client(self.server.port if port is None else port, timeout=SECONDS) as index:
                await body(index)

        asyncio.run(run())


class AioTest(AioCases):
    def test_calls(self) -> None:
        async def body(index: aio.Client) -> None:
            self.assertEqual((await index.durable(), await index.put(b"a", b"v")), (0, 1))
            self.assertFalse(await index.wait(1, timeout=0, durable=True))
            self.assertFalse(await index.settle(timeout=0.01))
            settling = asyncio.ensure_future(index.settle(timeout=SECONDS))
            following = asyncio.ensure_future(index.wait(durable=True))
            await asyncio.sleep(0.2)
            self.assertEqual((await index.put(b"a", b"w"), settling.done(), following.done()), (2, False, False))
            self.server.index.sync()
            self.assertEqual((await settling, await following, await index.durable()), (True, True, 2))
            self.assertTrue(await index.settle(0))
            with self.assertRaises(TypeError):
                await index.wait(1, 1, durable=True)

        self.run_with(body)

    def test_a_server_that_was_started_again(self) -> None:
        async def body(index: aio.Client) -> None:
            await index.put(b"a", b"v")
            await index.hello()
            self.server.keeper.run = bytes(16)
            with self.assertRaisesRegex(ConnectionLost, "^the server was started again: "):
                await index.settle(timeout=SECONDS)

        self.run_with(body)

    def test_refusals(self) -> None:
        async def in_memory(index: aio.Client) -> None:
            for call in (index.durable, index.settle, lambda: index.wait(durable=True)):
                with self.assertRaises(InMemory):
                    await call()

        async def full(index: aio.Client) -> None:
            self.log.refusal = DiskFull()
            with self.assertRaises(DiskFull):
                await index.put(b"a", b"v")
            self.assertIsNone(await index.get(b"a"))

        with StandIn(Options(workers=2)) as server:
            self.run_with(in_memory, server.port)
        self.run_with(full)
