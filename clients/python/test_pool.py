"""Tests of a pool of connections, over the stand-in: the calls of a map, threads, connections that break, and timeouts."""
from __future__ import annotations

import socket
import threading
import time
import unittest
from typing import Any
from unittest import mock

import map_cases
from rowanspan import Busy, Closed, ConnectionLost, Get, Pool, Prefix, Put, Row
from stand_in import Options, StandIn
from test_wire import framed

SECONDS = 20.0


class PoolMapTest(map_cases.MapCases, unittest.TestCase):
    """What a pool shares with a client."""

    def setUp(self) -> None:
        server = StandIn(Options(columns=2, workers=3))
        self.addCleanup(server.__exit__, None, None, None)
        pool = Pool(server.port, size=2, timeout=SECONDS)
        self.addCleanup(pool.close)
        self.index = pool


class PoolTest(unittest.TestCase):
    def pool(self, size: int = 4, workers: int = 8, timeout: float = SECONDS) -> Pool:
        server = StandIn(Options(workers=workers))
        self.addCleanup(server.__exit__, None, None, None)
        pool = Pool(server.port, size=size, timeout=timeout)
        self.addCleanup(pool.close)
        return pool

    def test_threads(self) -> None:
        pool, found = self.pool(), []

        def work(number: int) -> None:
            for at in range(50):
                key = b"%d/%d" % (number, at)
                commit = pool.put(key, b"v")
                found.append(pool.get(key) == Row(commit, (b"v",)))

        threads = [threading.Thread(target=work, args=(number,)) for number in range(12)]
        for thread in threads:
            thread.start()
        for thread in threads:
            thread.join()
        self.assertEqual(found, [True] * 600)
        self.assertEqual(len(list(pool.range())), 600)
        self.assertLessEqual(len(pool._idle), 4)
        self.assertEqual(pool._in_use, 0)

    def test_calls_that_wait_have_turns(self) -> None:
        """A call that comes later isn't before one that waits for a connection."""
        pool, order = self.pool(size=1), []

        def take(name: str) -> None:
            client = pool._take()
            order.append(name)
            pool._give_back(client)

        client, names, threads = pool._take(), ["first", "second", "third"], []
        for count, name in enumerate(names, 1):
            threads.append(threading.Thread(target=take, args=(name,)))
            threads[-1].start()
            while len(pool._waiting) < count:
                time.sleep(0.01)
        pool._give_back(client)
        take("last")
        for thread in threads:
            thread.join()
        self.assertEqual(order, [*names, "last"])
        self.assertEqual((pool._in_use, len(pool._waiting)), (0, 0))

    def test_calls_that_wait_when_it_is_closed(self) -> None:
        pool = self.pool(size=1)
        client = pool._take()
        threads = [threading.Thread(target=lambda: self.assertRaises(Closed, pool.get, b"a")) for _ in range(3)]
        for thread in threads:
            thread.start()
        while len(pool._waiting) < len(threads):
            time.sleep(0.01)
        pool.close()
        for thread in threads:
            thread.join(SECONDS)
        self.assertEqual(len(pool._waiting), 0)
        pool._give_back(client)

    def test_a_pipeline_and_a_view(self) -> None:
        pool = self.pool(size=2)
        with pool.pipeline() as pipeline:
            puts = [pipeline.put(b"a%d" % number, b"\1") for number in range(10)]
            built = pipeline.build(Prefix(b"a"))
        self.assertEqual(puts[9].value, 10)
        with built.value as view:
            self.assertEqual((view.count, view.sums), (10, (10,)))

    def test_a_connection_that_ended_while_it_was_idle(self) -> None:
        pool = self.pool()
        self.assertEqual(pool.put(b"a", b"v"), 1)
        client = pool._idle.pop()
        ours, theirs = socket.socketpair()
        theirs.close()
        client._connection, old = ours, client._connection
        pool._idle.append(client)
        # a change isn't sent by it, so it isn't lost
        self.assertEqual(pool.put(b"a", b"w"), 2)
        self.assertEqual(len(pool._idle), 1)
        assert old is not None
        old.close()

    def test_a_connection_that_has_just_ended(self) -> None:
        """It is seen to have ended, however short the time since its last use is: so no change is lost by it."""
        pool = self.pool(size=1)
        for number in range(1, 4):
            self.assertEqual(pool.put(b"a", b"v"), number)
            client = pool._idle[0]
            assert client._connection is not None
            client._connection.shutdown(socket.SHUT_RDWR)
        self.assertEqual(pool.put(b"a", b"v"), 4)

    def test_reads_are_asked_again(self) -> None:
        pool = self.pool()
        for read in (lambda: pool.get(b"a"), lambda: pool.first(), lambda: pool.call_all([Get(b"a"), Get(b"b")])):
            pool.put(b"a", b"v")
            self.break_idle(pool)
            read()
        self.break_idle(pool)
        with self.assertRaises(ConnectionLost):
            pool.put(b"a", b"w")
        self.break_idle(pool)
        with self.assertRaises(ConnectionLost):
            pool.call_all([Get(b"a"), Put(b"a", b"w")])
        self.assertEqual(pool.get(b"a").columns, (b"v",))  # type: ignore[union-attr]

    def test_len(self) -> None:
        """It is asked again, as a read is. A pool is always true, and opens no connection for that."""
        pool = self.pool()
        self.assertEqual((bool(pool), pool._idle), (True, []))
        self.assertEqual(len(pool), 0)
        pool.put(b"a", b"v")
        self.break_idle(pool)
        self.assertEqual(len(pool), 1)
        pool.close()
        self.assertTrue(pool)
        with self.assertRaises(Closed):
            len(pool)

    def break_idle(self, pool: Pool) -> None:
        """Breaks the connection that the next call uses, without that it can be seen before."""
        if not pool._idle:
            pool.get(b"")
        client = pool._idle[-1]
        assert client._connection is not None
        client._connection.shutdown(socket.SHUT_WR)
        time.sleep(0.05)
        hidden = mock.patch.object(client, "is_usable", return_value=True)
        hidden.start()
        self.addCleanup(hidden.stop)

    def test_a_server_that_is_gone(self) -> None:
        server = StandIn(Options(workers=1, sessions=1))
        pool = Pool(server.port, timeout=SECONDS)
        pool.put(b"a", b"v")
        server.__exit__(None, None, None)
        self.break_idle(pool)
        with self.assertRaisesRegex(ConnectionLost, "no connection to 127.0.0.1"):
            pool.get(b"a")
        self.assertEqual((pool._in_use, len(pool._idle)), (0, 0))
        pool.close()

    def test_busy(self) -> None:
        listener = socket.create_server(("127.0.0.1", 0))
        self.addCleanup(listener.close)
        pool = Pool(listener.getsockname()[1], size=1, timeout=0.3)
        self.addCleanup(pool.close)
        taken = threading.Thread(target=lambda: self.assertRaises(ConnectionLost, pool.get, b"a"))
        taken.start()
        time.sleep(0.1)
        with self.assertRaises((Busy, ConnectionLost)):
            pool.put(b"a", b"v")
        taken.join()
        client = pool._take()
        with self.assertRaisesRegex(Busy, "^all 1 connections were in use for 0.3 seconds$"):
            pool.put(b"a", b"v")
        pool._give_back(client)

    def test_a_timeout_is_not_asked_again(self) -> None:
        listener = socket.create_server(("127.0.0.1", 0))
        self.addCleanup(listener.close)
        with Pool(listener.getsockname()[1], timeout=0.2) as pool:
            began = time.monotonic()
            with self.assertRaises(ConnectionLost):
                pool.get(b"a")
            self.assertLess(time.monotonic() - began, 15)
        listener.settimeout(SECONDS)
        connection, _ = listener.accept()
        connection.close()
        listener.settimeout(0.1)
        with self.assertRaises(OSError):
            listener.accept()

    def test_bad_arguments_and_a_closed_pool(self) -> None:
        wrong: Any = Pool
        for arguments in (("7070",), (7070, 5), (7070, "h", "2")):
            with self.assertRaises(TypeError):
                wrong(*arguments)
        with self.assertRaises(ValueError):
            Pool(7070, size=0)
        pool = self.pool()
        pool.put(b"a", b"v")
        pool.close()
        pool.close()
        with self.assertRaises(Closed):
            pool.get(b"a")

    def test_a_call_that_ends_after_the_close(self) -> None:
        pool = self.pool()
        client = pool._take()
        pool.close()
        pool._give_back(client)
        self.assertFalse(client.is_usable())
        self.assertEqual(pool._idle, [])

    def test_usable(self) -> None:
        ours, theirs = socket.socketpair()
        client = self.pool()._take()
        assert client._connection is not None
        client._connection.close()
        client._connection = ours
        self.assertTrue(client.is_usable())
        theirs.sendall(framed(["08"]))
        self.assertFalse(client.is_usable())
        theirs.close()
        client.close()
        self.assertFalse(client.is_usable())
