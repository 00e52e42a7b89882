"""Tests of changes that return only after their commit is durable: of clients over the stand-in, which makes commits
durable when a test says so, and of an index in this process, without its library. test_rowanspan.py runs them."""
from __future__ import annotations

import asyncio
import pickle
import socket
import threading
import time
import unittest
from contextlib import contextmanager
from typing import Any, Callable, Coroutine, Iterator, List, Optional, Tuple
from unittest import mock

import rowanspan
from rowanspan import (BadColumn, Client, Closed, ConnectionLost, DiskFailed, DiskFull, InMemory, NotAllowed,
                       NotDurable, NotWritten, OtherVersion, Pool, Put, PutIf, Query, Refused, Remove, Row, Settled,
                       TooLong, WaitDurable, aio)
from rowanspan.folder import CommitLog
from server_cases import SECONDS, later
from stand_in import Options, StandIn
from stand_in_log import Log
from test_durable import AioCases, DurableTest, PoolCases


@contextmanager
def asked_by(index: Client) -> Iterator[List[Query[Any]]]:
    """The queries that a client asks, but for the times of its waits."""
    asked: List[Query[Any]] = []
    with mock.patch.object(index, "call", wraps=index.call) as call:
        yield asked
    asked += [WaitDurable(query.commit) if isinstance(query, WaitDurable) else query
              for query in (given.args[0] for given in call.call_args_list)]


class Waits(DurableTest):
    @contextmanager
    def syncs(self, seconds: float = 0.1) -> Iterator[None]:
        """The server syncs after this time, and again and again until the end of the block."""
        ended = threading.Event()

        def work() -> None:
            while not ended.wait(seconds):
                self.server.index.sync()

        syncing = threading.Thread(target=work)
        syncing.start()
        try:
            yield
        finally:
            ended.set()
            syncing.join()

    def want_after_sync(self, call: Callable[[], Any]) -> Any:
        """What a call returns, which has to end after a sync."""
        with self.syncs():
            found = call()
            self.assertEqual(self.log.durable, self.server.index.commits)
        return found

    async def ended_by_syncs(self, *tasks: asyncio.Future[Any]) -> List[Any]:
        """What tasks return, or raise, which have to end after a sync."""
        self.assertEqual([one for one in tasks if one.done()], [])
        while not all(one.done() for one in tasks):
            self.server.index.sync()
            await asyncio.sleep(0.02)
        return await asyncio.gather(*tasks, return_exceptions=True)

    async def has(self, commits: int) -> None:
        """Waits until there are this many commits."""
        while self.server.index.commits < commits:
            await asyncio.sleep(0.02)

    def no_wait_lasts(self) -> Any:
        """The server answers each wait at once, and nothing becomes durable, as after a fault of the disk."""
        return mock.patch.object(self.server.index, "settled", return_value=Settled(False, 0, 0))


class ClientTest(Waits):
    """Changes that return only after their commit is durable."""

    def test_each_waits(self) -> None:
        index = self.client()
        calls: List[Tuple[Callable[[], Any], Any]] = [
            (lambda: index.put(b"a", b"v", durable=True), 1), (lambda: index.put_if(b"a", b"w", 1, durable=True), 2),
            (lambda: index.update(b"a", lambda row: b"x", durable=True), 3),
            (lambda: index.remove(b"a", durable=True), 4),
            (lambda: index.setdefault(b"a", b"v", durable=True), Row(5, (b"v",))),
            (lambda: index.pop(b"a", durable=True), Row(5, (b"v",)))]
        for call, wanted in calls:
            self.assertEqual(self.want_after_sync(call), wanted)
        self.assertEqual((self.log.durable, index.put(b"a", b"v"), self.log.durable), (6, 7, 6))

    def test_what_each_asks(self) -> None:
        """First whether the server keeps commits, once; then the change, and a wait for its commit alone."""
        with StandIn(Options(workers=2, log=Log())) as server, Client(server.port, timeout=SECONDS) as index:
            index.put(b"b", b"v")
            with asked_by(index) as asked:
                self.assertEqual(index.put(b"a", b"v", durable=True), 2)
                self.assertEqual(index.put_if(b"a", b"w", 2, durable=True), 3)
                self.assertEqual(index.remove(b"a", durable=True), 4)
            self.assertEqual(asked, [WaitDurable(), Put(b"a", b"v"), WaitDurable(2), PutIf(b"a", b"w", 2),
                                     WaitDurable(3), Remove(b"a"), WaitDurable(4)])
            with asked_by(index) as asked:
                self.assertEqual((index.setdefault(b"b", b"w", durable=True), index.pop(b"a", 5, durable=True),
                                  index.update(b"b", lambda row: None, durable=True)), (Row(1, (b"v",)), 5, None))
                for call in (lambda: index.put_if(b"b", b"w", 9, durable=True),
                             lambda: index.put(b"b", {5: b""}, durable=True)):
                    self.assertRaises((OtherVersion, BadColumn), call)
            self.assertEqual([query for query in asked if isinstance(query, WaitDurable)], [])

    def test_a_remove_that_finds_no_row(self) -> None:
        """It waits for the commits that it saw, and no other."""
        index, other = self.client(), self.client()
        with asked_by(index) as asked:
            self.assertIsNone(index.remove(b"a", durable=True))
        self.assertEqual(asked, [WaitDurable(), Remove(b"a")])
        for number in (1, 2):
            other.put(b"b", b"v")
            with asked_by(index) as asked:
                self.assertIsNone(self.want_after_sync(lambda: index.remove(b"a", durable=True)))
            self.assertEqual(asked, [Remove(b"a"), WaitDurable(number)])
            with asked_by(index) as asked:
                self.assertIsNone(index.remove(b"a", durable=True))
            self.assertEqual(asked, [Remove(b"a")])

    def test_a_wait_that_is_longer_than_the_timeout(self) -> None:
        index = self.client(timeout=0.3)
        with self.syncs(0.9):
            self.assertEqual(index.put(b"a", b"v", durable=True), 1)
        self.assertEqual(index.ping(), 1)

    def test_a_wait_that_is_asked_again(self) -> None:
        index = self.client()
        with mock.patch("rowanspan.server_queries.LONGEST_WAIT", 0.2), self.syncs(1.0), asked_by(index) as asked:
            self.assertEqual(index.put(b"a", b"v", durable=True), 1)
        self.assertGreater(asked.count(WaitDurable(1)), 2)

    def test_nothing_is_changed_by_a_refusal(self) -> None:
        with StandIn(Options(workers=2)) as server, Client(server.port, timeout=SECONDS) as index:
            server.index.answer(Put(b"a", b"v"))
            with Pool(server.port, timeout=SECONDS) as pool:
                for own in (index, pool):
                    for call in (lambda: own.put(b"a", b"w", durable=True), lambda: own.remove(b"a", durable=True),
                                 lambda: own.put_if(b"a", b"w", 1, durable=True), lambda: own.pop(b"a", durable=True),
                                 lambda: own.update(b"a", lambda row: b"w", durable=True),
                                 lambda: own.setdefault(b"b", b"w", durable=True)):
                        with self.assertRaisesRegex(InMemory, "^the rows are in memory alone$"):
                            call()
            self.assertEqual((server.index.commits, index.get(b"a")), (1, Row(1, (b"v",))))

    def test_nothing_is_asked_with_wrong_arguments(self) -> None:
        index: Any = self.client()
        for kind, key, sets in ((TypeError, "a", b"v"), (TypeError, b"a", "v"), (TooLong, b"a", bytes(256)),
                                (TooLong, b"a" * 60_000, [(0, bytes(255))] * 1000)):
            with self.subTest(kind=kind), self.assertRaises(kind):
                index.put(key, sets, durable=True)
        self.assertEqual(self.server.keeper.frames, 0)

    def test_what_does_not_become_durable(self) -> None:
        index = self.client()
        with self.no_wait_lasts():
            for number, call in enumerate((lambda: index.put(b"a", b"v", durable=True),
                                           lambda: index.remove(b"a", durable=True)), 1):
                with self.assertRaisesRegex(NotDurable, f"^commit {number} is made, and isn't known to be durable$"):
                    call()
            with self.assertRaises(NotDurable) as met:
                index.remove(b"a", durable=True)
        self.assertEqual((met.exception.commit, met.exception.__cause__, index.ping()), (2, None, 2))
        again = pickle.loads(pickle.dumps(met.exception))
        self.assertEqual((type(again), again.commit, str(again)), (NotDurable, 2, str(met.exception)))
        self.assertIsInstance(again, OSError)
        self.assertNotIsInstance(again, (Refused, ConnectionError))

    def test_the_end_of_the_server(self) -> None:
        index = self.client()
        stopping = later(0.2, self.client().stop)
        with self.assertRaises((NotDurable, ConnectionLost)):
            index.put(b"a", b"v", durable=True)
        stopping.join()

    def test_a_full_disk(self) -> None:
        index = self.client()
        self.log.refusal = DiskFull()
        with self.assertRaises(DiskFull):
            index.put(b"a", b"v", durable=True)
        self.assertEqual(index.ping(), 0)


class PoolTest(PoolCases, Waits):
    def test_changes(self) -> None:
        pool = self.pool()
        calls: List[Tuple[Callable[[], Any], Any]] = [
            (lambda: pool.put(b"a", b"v", durable=True), 1), (lambda: pool.put_if(b"a", b"w", 1, durable=True), 2),
            (lambda: pool.update(b"a", lambda row: b"x", durable=True), 3),
            (lambda: pool.pop(b"a", durable=True), Row(3, (b"x",)))]
        for call, wanted in calls:
            self.assertEqual(self.want_after_sync(call), wanted)
        self.assertEqual((pool.remove(b"a", durable=True), len(self.server.keeper.sessions)), (None, 1))

    def test_threads(self) -> None:
        """Each change and its wait have a connection of their own."""
        with StandIn(Options(workers=8, log=Log())) as server, Pool(server.port, size=4, timeout=SECONDS) as pool:
            commits: List[int] = []

            def work(own: int) -> None:
                for number in range(20):
                    commit = pool.put(b"%d/%d" % (own, number), b"v", durable=True)
                    assert server.index.log is not None and commit <= server.index.log.durable
                    commits.append(commit)

            threads = [threading.Thread(target=work, args=(own,)) for own in range(8)]
            for thread in threads:
                thread.start()
            for thread in threads:
                thread.join()
            self.assertEqual((sorted(commits), pool._in_use), (list(range(1, 161)), 0))

    def test_a_connection_that_ends_while_it_is_waited(self) -> None:
        """The change isn't asked again, nor the wait of another connection."""
        pool = self.pool()

        def ends() -> None:
            while self.server.index.commits == 0:
                time.sleep(0.02)
            self.server._open[0].shutdown(socket.SHUT_RDWR)

        ending = later(0.2, ends)
        with self.assertRaises(ConnectionLost):
            pool.put(b"a", b"v", durable=True)
        ending.join()
        self.assertEqual(pool.ping(), 1)
        with self.assertRaisesRegex(ConnectionLost, "^a connection has ended: "):
            pool.settle(timeout=SECONDS)

    def test_what_is_known_to_be_durable(self) -> None:
        pool = self.pool()
        self.assertEqual(self.want_after_sync(lambda: pool.put(b"a", b"v", durable=True)), 1)
        self.break_idle(pool)
        self.assertIsNotNone(pool.get(b"a"))
        self.assertTrue(pool.settle(timeout=SECONDS))


class AioTest(AioCases, Waits):
    def test_changes(self) -> None:
        async def body(index: aio.Client) -> None:
            calls: List[Tuple[Callable[[], Coroutine[Any, Any, Any]], Any]] = [
                (lambda: index.put(b"a", b"v", durable=True), 1),
                (lambda: index.put_if(b"a", b"w", 1, durable=True), 2),
                (lambda: index.update(b"a", lambda row: b"x", durable=True), 3),
                (lambda: index.remove(b"a", durable=True), 4),
                (lambda: index.setdefault(b"a", b"v", durable=True), Row(5, (b"v",))),
                (lambda: index.pop(b"a", durable=True), Row(5, (b"v",)))]
            for number, (call, wanted) in enumerate(calls, 1):
                changing = asyncio.ensure_future(call())
                await self.has(number)
                await asyncio.sleep(0.05)
                # (the other calls don't wait for it)
                self.assertEqual(await index.ping(), number)
                self.assertEqual((await self.ended_by_syncs(changing), self.log.durable), ([wanted], number))
            self.assertEqual((await index.remove(b"a", durable=True), await index.pop(b"a", 5, durable=True),
                              await index.update(b"a", lambda row: None, durable=True)), (None, 5, None))

        self.run_with(body)

    def test_commits_that_are_durable_at_once(self) -> None:
        """No other connection is opened."""
        async def body(index: aio.Client) -> None:
            found = await asyncio.gather(*(index.put(b"%d" % number, b"v", durable=True) for number in range(100)))
            self.assertEqual(sorted(found), list(range(1, 101)))

        with StandIn(Options(workers=2, log=Log())) as server:
            self.run_with(body, server.port)
        self.assertEqual(len(server.keeper.sessions), 1)

    def test_one_connection_waits_for_all(self) -> None:
        async def body(index: aio.Client) -> None:
            putting = [asyncio.ensure_future(index.put(b"%d" % number, b"v", durable=True)) for number in range(100)]
            await self.has(100)
            await asyncio.sleep(0.2)
            # (one that is cancelled leaves the others)
            putting[0].cancel()
            with self.assertRaises(asyncio.CancelledError):
                await putting[0]
            self.assertEqual(sorted(await self.ended_by_syncs(*putting[1:])), list(range(2, 101)))
            self.assertLessEqual(len(self.server.keeper.sessions), 3)

        self.run_with(body)

    def test_refusals_and_faults(self) -> None:
        async def in_memory(index: aio.Client) -> None:
            for call in (lambda: index.put(b"a", b"v", durable=True), lambda: index.remove(b"a", durable=True),
                         lambda: index.setdefault(b"a", b"v", durable=True)):
                with self.assertRaises(InMemory):
                    await call()
            self.assertEqual(await index.ping(), 0)

        async def failing(index: aio.Client) -> None:
            wrong: Any = index
            with self.assertRaises(TypeError):
                await wrong.put("a", b"v", durable=True)
            self.assertEqual(self.server.keeper.frames, 0)
            with self.no_wait_lasts():
                with self.assertRaises(NotDurable) as met:
                    await index.put(b"a", b"v", durable=True)
            self.assertEqual((met.exception.commit, met.exception.__cause__), (1, None))
            with self.assertRaises(OtherVersion):
                await index.put_if(b"a", b"v", 9, durable=True)
            # (the one more connection isn't admitted, or the client is closed before)
            for number, kind in enumerate((NotAllowed, Closed), 2):
                with mock.patch.object(index, "_another", side_effect=kind()):
                    with self.assertRaises(NotDurable) as met:
                        await index.put(b"a", b"v", durable=True)
                self.assertEqual((met.exception.commit, type(met.exception.__cause__)), (number, kind))
            self.server.keeper.run = bytes(16)
            await index.hello()
            self.server.keeper.run = bytes(15) + b"\1"
            with self.assertRaisesRegex(ConnectionLost, "^the server was started again: "):
                await asyncio.wait_for(index.put(b"a", b"v", durable=True), SECONDS)

        with StandIn(Options(workers=2)) as server:
            self.run_with(in_memory, server.port)
        self.run_with(failing)

    def test_another_connection_of_the_client(self) -> None:
        """What is known of one connection isn't taken for the next one."""
        async def run() -> None:
            index = aio.Client(self.server.port, timeout=SECONDS)
            with self.assertRaises(Closed):
                await index.put(b"a", b"v", durable=True)
            for number in (1, 2):
                await index.connect()
                putting = asyncio.ensure_future(index.put(b"a", b"v", durable=True))
                self.assertEqual((await self.ended_by_syncs(putting), index._commits_settled), ([number], number))
                await index.close()
            await index.connect()
            self.assertEqual(index._commits_settled, -1)
            await index.close()

        asyncio.run(run())

    def test_a_connection_that_is_lost(self) -> None:
        """The next one doesn't answer for what it has shown: the server may have been started again."""
        async def connected_again(index: aio.Client) -> None:
            assert index._writer is not None
            index._writer.transport.abort()
            while index._writer is not None:
                await asyncio.sleep(0.01)
            with self.assertRaises(ConnectionLost):
                await index.settle()
            await index.connect()

        async def run() -> None:
            async with aio.Client(self.server.port, timeout=SECONDS) as index:
                await index.put(b"a", b"v")
                await connected_again(index)
                with self.assertRaisesRegex(ConnectionLost, "^a connection was lost: "):
                    await index.settle()
                self.server.index.sync()
                self.assertTrue(await index.settle(SECONDS))
                await index.put(b"a", b"w")
                self.server.index.sync()
                self.assertTrue(await index.settle(SECONDS))
                await connected_again(index)
                self.assertTrue(await index.settle(SECONDS))
                putting = asyncio.ensure_future(index.put(b"a", b"x", durable=True))
                await self.has(3)
                await connected_again(index)
                (fault,) = await self.ended_by_syncs(putting)
                self.assertIsInstance(fault, (NotDurable, ConnectionLost))

        asyncio.run(run())


class ListedLog(CommitLog):
    """The log of an index in this process whose calls of the library are listed instead of made."""

    def __init__(self, is_open: bool = True) -> None:
        self._handle = mock.Mock(is_open=True)
        self.calls: List[str] = []
        self.opened, self.written, self.synced = is_open, 0, 0
        self.fault: Optional[Exception] = None

    @property
    def is_open(self) -> bool:
        return self.opened

    def close(self) -> None:
        self.opened = False

    def durable(self) -> int:
        return self.synced

    def sync(self) -> int:
        self.calls.append("sync")
        if self.fault is not None:
            raise self.fault
        self.synced = self.written
        return self.synced


class ListedIndex(rowanspan.Index):
    """An index without the library: it puts and removes the keys of a set."""

    def __init__(self, log: ListedLog) -> None:
        self._log, self._handle, self._lock = log, mock.Mock(), threading.RLock()
        self._library = mock.Mock()
        self._keys = {b"there"}
        self._native: Any = mock.Mock(put=self._put, put_if=self._put, remove=self._remove, get=self._get)

    def _put(self, index: object, key: bytes, *_: object) -> int:
        assert isinstance(self._log, ListedLog)
        self._keys.add(key)
        self._log.written += 1
        self._log.calls.append("change")
        return self._log.written

    def _remove(self, index: object, key: bytes) -> Optional[int]:
        if key not in self._keys:
            return None
        commit = self._put(index, key)
        self._keys.remove(key)
        return commit

    def _get(self, key: bytes, columns: object) -> Optional[Row]:
        return Row(1, (b"v",)) if key in self._keys else None

    def commits(self) -> int:
        assert isinstance(self._log, ListedLog)
        return self._log.written


class EmbeddedTest(unittest.TestCase):
    """What an index in this process does for a durable change, without the library (test_embedded_folder.py has it)."""

    def setUp(self) -> None:
        self.log = ListedLog()
        self.index = ListedIndex(self.log)

    def test_changes(self) -> None:
        index = self.index
        calls: List[Tuple[Callable[[], Any], Any]] = [
            (lambda: index.put(b"a", b"v", durable=True), 1), (lambda: index.put_if(b"a", b"w", 1, durable=True), 2),
            (lambda: index.update(b"a", lambda row: b"x", durable=True), 3),
            (lambda: index.remove(b"a", durable=True), 4),
            (lambda: index.setdefault(b"a", b"v", durable=True), Row(1, (b"v",))),
            (lambda: index.pop(b"a", durable=True), Row(1, (b"v",)))]
        for number, (call, wanted) in enumerate(calls, 1):
            self.assertEqual((call(), self.log.synced, self.log.calls), (wanted, number, ["change", "sync"]))
            self.log.calls.clear()

    def test_what_is_durable_already(self) -> None:
        index = self.index
        self.assertEqual((index.remove(b"none", durable=True), self.log.calls), (None, []))
        index.put(b"a", b"v")
        self.assertEqual((index.remove(b"none", durable=True), self.log.calls), (None, ["change", "sync"]))
        self.assertEqual((index.remove(b"none", durable=True), self.log.calls), (None, ["change", "sync"]))
        for call in (lambda: index.pop(b"none", None, durable=True), lambda: index.setdefault(b"a", b"w", durable=True),
                     lambda: index.update(b"a", lambda row: None, durable=True)):
            call()
        self.log.synced = 9
        self.assertEqual((index.put(b"a", b"v", durable=True), self.log.calls), (2, ["change", "sync", "change"]))

    def test_faults(self) -> None:
        index = self.index
        self.log.fault = DiskFailed(0)
        for number, call in enumerate((lambda: index.put(b"a", b"v", durable=True),
                                       lambda: index.remove(b"a", durable=True)), 1):
            with self.assertRaises(NotDurable) as met:
                call()
            self.assertEqual((met.exception.commit, met.exception.__cause__), (number, self.log.fault))
        # (a change that isn't written is said as it is without `durable`)
        with mock.patch.object(index._native, "put", side_effect=NotWritten(3)), self.assertRaises(NotWritten):
            index.put(b"a", b"v", durable=True)
        self.log.calls.clear()
        self.log.opened = False
        for change in (lambda: index.put(b"a", b"v", durable=True), lambda: index.remove(b"a", durable=True),
                       lambda: index.put_if(b"a", b"v", 1, durable=True)):
            with self.assertRaises(InMemory):
                change()
        self.log._handle.is_open = False
        with self.assertRaises(Closed):
            index.put(b"a", b"v", durable=True)
        self.assertEqual(self.log.calls, [])
