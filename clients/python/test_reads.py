"""Tests of reads of one moment over the stand-in: gets of many keys, ranges against the order of keys, and counts, by a
client, a pool, a pipeline and the client for asyncio. test_rowanspan.py runs them."""
from __future__ import annotations

import asyncio
import random
import unittest
from bisect import bisect_left
from typing import Any, Callable, List, Optional, Tuple

from back_cases import LONG, BackCases
from map_cases import KEYS, PREFIXES, STARTS, STOPS, is_wanted, keys_of
from rowanspan import (MAX_COUNT, BadColumn, BadLimit, BadReply, Client, ConnectionLost, CountRange, Get, GetMany,
                       GetRangeBack, KeyTooLong, Pool, Put, Query, Refused, Reply, Row, RowsAt, TooLong, aio,
                       frame_version, read_replies)
from rowanspan.pool import changes_nothing
from rowanspan.server_queries import commits_shown
from stand_in import Options, StandIn
from stand_in_wire import read_queries
from test_wire import ROW, SPAN, body_of, frame_of

SECONDS = 20.0

# queries, and their bytes
SPELLINGS: List[Tuple[Query[Any], str]] = [
    (GetMany([b"a", b""]), "0d 0002 0001 61 0000 00"),
    (GetMany([], (1, 0)), "0d 0000 02 01 00"),
    (GetRangeBack(), "0e 00 03e8 00"),
    (GetRangeBack(b"ab", 258, (1,)), "0e 01 0002 6162 0102 01 01"),
    (GetRangeBack(b"", 0), "0e 01 0000 0000 00"),
    (CountRange(), "0f 0000 00 000f4240"),
    (CountRange(b"a", b"b", 2 ** 32 - 1), "0f 0001 61 01 0001 62 ffffffff"),
]

# answers: what asks, their bytes, and what is read
ANSWERS: List[Tuple[Query[Any], str, Reply[Any]]] = [
    (GetMany([b"a", b"b"]), "0d 0000000000000102 0002 01 0000000000000102 02 01 76 00 00",
     Reply(RowsAt(258, [ROW, None]))),
    (GetMany([]), "0d 0000000000000005 0000", Reply(RowsAt(5, []))),
    (GetRangeBack(), f"04 {SPAN} 0000", Reply([], 1, 258)),
    (CountRange(), f"0e {SPAN} 000f4240", Reply(MAX_COUNT, 1, 258)),
]

# bytes that are no answer to these queries
BAD_ANSWERS: List[Tuple[Query[Any], str]] = [
    (GetMany([b"a"]), "0d 0000000000000005 0000"), (GetMany([b"a"]), "0d 0000000000000005 0002 00 00"),
    (GetMany([b"a"]), "0d 0000000000000005 0001 02"), (GetMany([b"a"]), "0d 0000000000000005 0001"),
    (GetMany([b"a"]), f"01 {SPAN}"), (CountRange(most=5), f"0e {SPAN} 00000006"), (CountRange(), f"0e {SPAN} 0000"),
    (CountRange(), f"04 {SPAN} 0000"), (GetRangeBack(), f"0e {SPAN} 00000000"), (Get(b"a"), f"0e {SPAN} 00000000"),
]


class SpellingTest(unittest.TestCase):
    def test_queries_both_ways(self) -> None:
        for query, spelled in SPELLINGS:
            with self.subTest(query=query):
                self.assertEqual(query.spelled(), bytes.fromhex(spelled))
                (read,) = read_queries(frame_of([query])[4:])
                self.assertEqual((type(read), read.spelled()), (type(query), query.spelled()))
                self.assertEqual(frame_version([Get(b"a"), query]), 3)

    def test_answers(self) -> None:
        for query, spelled, reply in ANSWERS:
            with self.subTest(answer=spelled):
                self.assertEqual(read_replies(body_of(spelled, 3), [query]), [reply])
        self.assertEqual([commits_shown([query], [reply]) for query, _, reply in ANSWERS], [258, 5, 258, 258])

    def test_bad_answers(self) -> None:
        for query, spelled in BAD_ANSWERS:
            with self.subTest(answer=spelled), self.assertRaises(BadReply):
                read_replies(body_of(spelled, query.since), [query])

    def test_they_change_nothing(self) -> None:
        self.assertTrue(all(changes_nothing(query) for query, _ in SPELLINGS))


class ClientBackTest(BackCases, unittest.TestCase):
    changes = 2400

    def setUp(self) -> None:
        self.server = StandIn(Options(columns=2))
        self.addCleanup(self.server.__exit__, None, None, None)
        self.index = Client(self.server.port, timeout=SECONDS)
        self.addCleanup(self.index.close)


class PoolBackTest(BackCases, unittest.TestCase):
    changes = 480

    def setUp(self) -> None:
        server = StandIn(Options(columns=2, workers=3))
        self.addCleanup(server.__exit__, None, None, None)
        self.index = Pool(server.port, size=2, timeout=SECONDS)
        self.addCleanup(self.index.close)


class ReadTest(unittest.TestCase):
    def setUp(self) -> None:
        self.server = StandIn(Options(columns=2, workers=2))
        self.addCleanup(self.server.__exit__, None, None, None)
        self.index = Client(self.server.port, timeout=SECONDS)
        self.addCleanup(self.index.close)

    # -- gets of many keys

    def test_get_many(self) -> None:
        index = self.index
        self.assertEqual((index.get_many([]), self.server.index.events), ([], 0))
        commit = index.put(b"a", {0: b"v", 1: b"w"})
        self.assertEqual(index.call(GetMany([b"a", b"b"], (1, 0))), Reply(RowsAt(1, [Row(commit, (b"w", b"v")), None])))
        self.assertEqual(index.get_many({b"a": 1}), index.get_many([b"a"]))

    def test_a_thousand_keys(self) -> None:
        index = self.index
        with index.pipeline() as pipeline:
            commits = [pipeline.put(b"%04d" % number, b"v") for number in range(0, 64)]
        keys = [b"%04d" % number for number in range(1000)]
        found = index.get_many(keys)
        self.assertEqual(found, [Row(commit.value, (b"v", b"")) for commit in commits] + [None] * 936)
        with self.assertRaises(BadLimit):
            index.get_many(keys + [b""])
        before = self.server.index.events
        with self.assertRaises(BadLimit):
            index.get_many([b""] * 70_000)
        with self.assertRaises(TooLong):
            index.get_many([bytes(300)] * 1000)
        self.assertEqual(self.server.index.events, before)
        self.assertEqual(index.get_many(keys[:2])[1], found[1])

    def test_refusals_of_get_many(self) -> None:
        index: Any = self.index
        wrong: List[Tuple[type, Tuple[Any, ...]]] = [
            (KeyTooLong, ([bytes(256 ** 2)],)), (BadColumn, ([b"a"], [0, 0])), (BadColumn, ([b"a"], [256])),
            (KeyTooLong, ([LONG] + [b""] * 1000, [2])), (BadColumn, ([b"a"] * 1001, [2])), (TypeError, (None,))]
        for kind, arguments in wrong:
            with self.subTest(arguments=arguments[1:]), self.assertRaises(kind):
                index.get_many(*arguments)
        self.assertEqual(index.get_many([LONG[1:]]), [None])

    # -- counts

    def test_count(self) -> None:
        index = self.index
        self.assertEqual((index.count(), index.count(b"a", b"b", most=5)), (0, 0))
        for key in KEYS:
            index.put(key, b"v")
        for prefix in PREFIXES:
            for start in STARTS:
                for stop in STOPS:
                    wanted = sum(is_wanted(key, start, stop, prefix) for key in KEYS)
                    with self.subTest(prefix=prefix, start=start, stop=stop):
                        self.assertEqual(index.count(start, stop, prefix=prefix), wanted)
                        self.assertEqual(index.count(start, stop, prefix=prefix, most=2), min(wanted, 2))
        self.assertEqual([index.count(most=most) for most in (0, 1, len(KEYS), MAX_COUNT)],
                         [0, 1, len(KEYS), len(KEYS)])
        self.assertEqual(index.call(CountRange(b"", b"", 5)).value, 0)

    def test_what_a_count_asks(self) -> None:
        index, server = self.index, self.server.index
        calls: List[Tuple[Callable[[], int], Optional[CountRange]]] = [
            (index.count, CountRange(b"", None, MAX_COUNT)), (lambda: index.count(prefix=b"a"), CountRange(b"a", b"b")),
            (lambda: index.count(b"b", b"a"), None), (lambda: index.count(b"b", prefix=b"a"), None),
            (lambda: index.count(b"a", b"b", most=7), CountRange(b"a", b"b", 7))]
        for call, query in calls:
            del server.asked[:]
            self.assertEqual(call(), 0)
            self.assertEqual(server.asked, [] if query is None else [query])

    def test_refusals_of_count(self) -> None:
        index: Any = self.index
        wrong: List[Tuple[type, Tuple[Any, ...], Any]] = [
            (KeyTooLong, (LONG,), {}), (KeyTooLong, (b"", LONG), {}), (KeyTooLong, (), {"prefix": LONG}),
            (BadLimit, (), {"most": MAX_COUNT + 1}), (BadLimit, (b"b", b"a"), {"most": 2 ** 70}),
            (TooLong, (), {"most": -1}), (TypeError, (), {"most": "1"}), (TypeError, (), {"most": 1.0}),
            (TypeError, ("a",), {}), (TypeError, (b"", 5), {}), (TypeError, (b"", b"b", b"a"), {})]
        for kind, words, named in wrong:
            with self.subTest(named=named), self.assertRaises(kind):
                index.count(*words, **named)
        self.assertEqual(self.server.index.events, 0)
        with self.assertRaises(BadLimit):
            index.call(CountRange(most=MAX_COUNT + 1))

    # -- all of them

    def test_by_chance(self) -> None:
        """Calls against a sorted list."""
        index, chance = self.index, random.Random(12)
        keys: List[bytes] = []
        rows = {}

        def key_by_chance() -> bytes:
            return bytes(chance.choice(b"ab\0\xff") for _ in range(chance.randrange(5)))

        for number in range(1500):
            key = key_by_chance()
            at = bisect_left(keys, key)
            is_there = key in rows
            if chance.randrange(100) < 30:
                self.assertEqual(index.remove(key) is not None, is_there)
                rows.pop(key, None)
                del keys[at:at + is_there]
            else:
                rows[key] = Row(index.put(key, {0: key, 1: b"%d" % number}), (key, b"%d" % number))
                keys[at:at + is_there] = [key]
            low, high = sorted([key_by_chance(), key_by_chance()])
            between = keys[bisect_left(keys, low):bisect_left(keys, high)]
            asked = [key_by_chance() for _ in range(chance.randrange(20))]
            self.assertEqual(index.get_many(asked), [rows.get(one) for one in asked])
            self.assertEqual(index.count(low, high), len(between))
            self.assertEqual(list(index.range(low, high, reverse=True)), [(one, rows[one]) for one in between[::-1]])
        self.assertTrue(len(keys) > 100)

    def test_a_pipeline(self) -> None:
        index = self.index
        with self.assertRaises(BadLimit), index.pipeline() as pipeline:
            put, rows = pipeline.put(b"a", b"v"), pipeline.get_many([b"b", b"a"], [0])
            last, count = pipeline.last(b"b", 5, [1]), pipeline.count(b"a", b"b", 9)
            many, far = pipeline.count(most=MAX_COUNT + 1), pipeline.last()
        self.assertEqual((put.value, rows.value, last.value, count.value), (
            1, [None, Row(1, (b"v",))], [(b"a", Row(1, (b"",)))], 1))
        self.assertEqual((rows.reply, far.value), (Reply([None, Row(1, (b"v",))]), [(b"a", Row(1, (b"v", b"")))]))
        with self.assertRaises(BadLimit):
            many.value
        with self.assertRaises(BadLimit):
            pipeline.get_many([b""] * 70_000)
        self.assertEqual(len(pipeline), 0)

    def test_what_they_show(self) -> None:
        """A read shows the commits of other clients, for `settle`."""
        for call in (lambda index: index.get_many([b"a"]), lambda index: index.count(), lambda index: index.last()):
            self.index.put(b"a", b"v")
            with Client(self.server.port, timeout=SECONDS) as other:
                call(other)
                self.assertEqual(other._shown(), self.server.index.commits)

    def test_an_older_server(self) -> None:
        with StandIn(Options(newest=2)) as server:
            for call in (lambda index: index.get_many([b"a"]), lambda index: index.count(), lambda index: index.last(),
                         lambda index: index.last_item()):
                with Client(server.port, timeout=SECONDS) as index:
                    index.put(b"a", b"v")
                    with self.assertRaises(ConnectionLost):
                        call(index)
            self.assertEqual(server.index.commits, 4)

    def test_a_pool(self) -> None:
        with Pool(self.server.port, size=1, timeout=SECONDS) as pool:
            commit = pool.put(b"a", b"v")
            self.assertEqual(pool.get_many([b"a", b"b"]), [Row(commit, (b"v", b"")), None])
            self.assertEqual((pool.count(prefix=b"a"), pool.last_item()), (1, (b"a", Row(commit, (b"v", b"")))))


class AioTest(unittest.TestCase):
    def test_reads(self) -> None:
        keys = [b"a"] + [b"b%04d" % number for number in range(1500)] + [b"c", b"\xff"]

        async def found(index: aio.Client, **arguments: Any) -> List[bytes]:
            return [key async for key, _ in index.range(**arguments, reverse=True)]

        async def body(index: aio.Client) -> None:
            self.assertEqual(await index.get_many([]), [])
            self.assertEqual((await index.first_item(), await index.last_item(), await index.count()), (None, None, 0))
            await index.call_all([Put(key, b"v") for key in keys])
            self.assertEqual(await index.get_many([b"c", b"d"], [0]), [Row(1502, (b"v",)), None])
            self.assertEqual(keys_of(await index.last(b"b1", 2)), [b"b0999", b"b0998"])
            self.assertEqual(await found(index), keys[::-1])
            self.assertEqual(await found(index, prefix=b"b1"), keys[1001:1501][::-1])
            self.assertEqual(await found(index, start=b"b0998", stop=b"b1001"), keys[999:1002][::-1])
            self.assertEqual(await found(index, stop=b"b", limit=3), [b"a"])
            self.assertEqual(await found(index, prefix=b"b", limit=1001), keys[500:1501][::-1])
            self.assertEqual(await found(index, limit=0), [])
            self.assertEqual(await found(index, start=b"c", stop=b"b"), [])
            for prefix in (b"", b"b", b"b1", b"c", b"d", b"\xff"):
                wanted = [key for key in keys if key.startswith(prefix)] or [None]
                items = (await index.first_item(prefix), await index.last_item(prefix))
                self.assertEqual([item and item[0] for item in items], [wanted[0], wanted[-1]])
                self.assertEqual(await index.count(prefix=prefix), len(wanted) if wanted[0] else 0)
            self.assertEqual((await index.count(b"b", b"c", most=9), await index.count(b"c", b"b")), (9, 0))
            rows, count = await asyncio.gather(index.get_many([b"a"]), index.count())
            self.assertEqual((rows, count), ([Row(1, (b"v", b""))], len(keys)))

        self.run_with(body)

    def test_refusals(self) -> None:
        async def body(index: Any) -> None:
            with self.assertRaises(BadLimit):
                await index.get_many([b""] * 1001)
            with self.assertRaises(BadLimit):
                await index.count(most=MAX_COUNT + 1)
            with self.assertRaises(KeyTooLong):
                await index.get_many([LONG])
            with self.assertRaises(Refused):
                await index.last(None, 1001)
            with self.assertRaises(TypeError):
                index.range(stop="a", reverse=True)
            with self.assertRaises(TypeError):
                await index.count("a")
            self.assertEqual(await index.get_many([b"a"]), [None])

        self.run_with(body)

    def run_with(self, body: Callable[[aio.Client], Any]) -> None:
        async def run() -> None:
            async with aio.Client(server.port, timeout=SECONDS) as index:
                await body(index)

        with StandIn(Options(columns=2)) as server:
            asyncio.run(run())
