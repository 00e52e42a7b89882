"""Tests of the client as a map over the stand-in, and of what a range asks of it. test_rowanspan.py runs them."""
from __future__ import annotations

import unittest
from typing import List, Sequence

from map_cases import MapCases, keys_of
from rowanspan import MAX_KEY_BYTES, Client, Closed, GetRange, Pairs, Prefix, Put, Row, ViewRead, key_after
from rowanspan.scans import scanned
from stand_in import Options, StandIn

SECONDS = 20.0


class ClientMapTest(MapCases, unittest.TestCase):
    def setUp(self) -> None:
        self.server = StandIn(Options(columns=2))
        self.addCleanup(self.server.__exit__, None, None, None)
        self.index = Client(self.server.port, timeout=SECONDS)
        self.addCleanup(self.index.close)

    def limits(self) -> List[int]:
        """The limits of the ranges that were asked since this was called before."""
        asked = [query.limit for query in self.server.index.asked if isinstance(query, (GetRange, ViewRead))]
        del self.server.index.asked[:]
        return asked

    def test_how_much_a_range_reads(self) -> None:
        self.fill([b"a%04d" % number for number in range(3000)])
        self.assertEqual(self.limits(), [])
        for arguments, count, limits in (
                ({}, 3000, [1000, 1000, 1000, 1000]), ({"limit": 1000}, 1000, [1000]), ({"limit": 0}, 0, []),
                ({"limit": 2500}, 2500, [1000, 1000, 500]), ({"limit": 5}, 5, [5]),
                ({"prefix": b"a000"}, 10, [60]), ({"prefix": b"a"}, 3000, [60, 240, 960, 1000, 1000]),
                ({"prefix": b"a", "limit": 100}, 100, [60, 40]), ({"start": b"a0100", "stop": b"a0110"}, 10, [60]),
                ({"start": b"b", "stop": b"a"}, 0, []), ({"start": b"b", "prefix": b"a"}, 0, []),
                ({"start": b"a", "stop": b"a"}, 0, [])):
            with self.subTest(arguments=arguments):
                self.assertEqual(len(list(self.index.range(**arguments))), count)  # type: ignore[arg-type]
                self.assertEqual(self.limits(), limits)

    def test_what_a_map_asks(self) -> None:
        """How many queries each call makes, and that a listing of keys reads one column."""
        index, server = self.index, self.server.index
        self.fill([b"a%04d" % number for number in range(1500)])
        before = server.events
        for call, count in ((lambda: index.__setitem__(b"b", b""), 1), (lambda: index.__delitem__(b"b"), 1),
                            (lambda: index.setdefault(b"b", b"v"), 3), (lambda: index.setdefault(b"b", b"w"), 1),
                            (lambda: index.pop(b"b"), 2), (lambda: index.pop(b"b", None), 1), (index.keys, 0),
                            (lambda: next(index.keys()), 1), (lambda: list(index.items()), 2)):
            call()
            self.assertEqual(server.events - before, count)
            before = server.events
        del server.asked[:]
        self.assertEqual((len(list(index.keys())), len(list(index.values()))), (1500, 1500))
        ranges = [query for query in server.asked if isinstance(query, GetRange)]
        self.assertEqual([(query.limit, tuple(query.columns)) for query in ranges],
                         [(1000, (0,))] * 2 + [(1000, ())] * 2)

    def test_what_a_length_asks(self) -> None:
        """One query of the server. Whether a client is true asks nothing, and a list of its rows asks no length."""
        index, keeper = self.index, self.server.keeper
        for count in (0, 2):
            before = keeper.frames
            self.assertEqual((bool(index), keeper.frames), (True, before))
            self.assertEqual((len(index), keeper.frames), (count, before + 1))
            self.fill([b"a", b"b"])
        before = keeper.frames
        for rows in (index.items(), index.keys(), index.values()):
            self.assertEqual(len(list(rows)), 2)
        self.assertEqual(keeper.frames, before + 3)
        for wrong in (iter, reversed, list, sorted):
            with self.assertRaises(TypeError):
                wrong(index)  # type: ignore[operator]
        self.assertEqual(keeper.frames, before + 3)
        index.close()
        self.assertTrue(index)
        with self.assertRaises(Closed):
            len(index)

    def test_a_range_asks_as_it_is_read(self) -> None:
        self.fill([b"a%04d" % number for number in range(100)])
        pairs = self.index.range(prefix=b"a")
        self.assertEqual(self.limits(), [])
        self.assertEqual((next(pairs)[0], self.limits()), (b"a0000", [60]))

    def test_what_a_view_asks(self) -> None:
        view = self.index.view(1)
        self.assertEqual(self.server.index.events, 0)
        view = self.index.build(Prefix(b"a"))
        for asked in (lambda: view.at, lambda: view.count, lambda: view.sums):
            asked()
        self.assertEqual(self.limits(), [1, 1, 1])

    def test_nothing_is_asked_with_wrong_types(self) -> None:
        super().test_arguments_of_a_range()
        self.assertEqual(self.server.index.events, 0)

    def test_a_view_after_its_client(self) -> None:
        with self.assertRaises(Closed), self.index.build(Prefix(b"a")):
            self.index.close()
        with self.assertRaises(KeyError), self.index_again().build(Prefix(b"a")) as view:
            view.index.close()  # type: ignore[attr-defined]
            raise KeyError
        self.assertRegex(repr(view), "^<rowanspan.View 2 of <rowanspan.Client 127.0.0.1:[0-9]+, closed>>$")

    def index_again(self) -> Client:
        return Client(self.server.port, timeout=SECONDS)

    def test_a_view_by_another_client(self) -> None:
        view = self.index.build(Prefix(b"a"))
        self.index.put(b"a", b"")
        self.index.close()
        with self.index_again() as other:
            same = other.view(view.number)
            self.assertEqual((same.count, same == view), (1, False))
            same.drop()


class RangeTest(unittest.TestCase):
    def test_keys_after(self) -> None:
        short = MAX_KEY_BYTES - 1
        self.assertEqual(key_after(b""), b"\0")
        self.assertEqual(key_after(b"a" * short), b"a" * short + b"\0")
        self.assertEqual(key_after(b"a" * MAX_KEY_BYTES), b"a" * short + b"b")
        self.assertEqual(key_after(b"a" + b"\xff" * short), b"b")
        self.assertIsNone(key_after(b"\xff" * MAX_KEY_BYTES))

    def scanned(self, keys: Sequence[bytes], start: bytes = b"") -> List[bytes]:
        with StandIn() as server, Client(server.port, timeout=SECONDS) as index:
            for key in keys:
                server.index.answer(Put(key, b"v"))
            return [key for key, row in index.range(start) if row.columns == (b"v",)]

    def test_lengths(self) -> None:
        for count in (0, 1, 999, 1000, 1001, 2000, 2001):
            keys = [number.to_bytes(2, "big") for number in range(count)]
            with self.subTest(count=count):
                self.assertEqual(self.scanned(keys), keys)

    def test_from_a_key_on(self) -> None:
        keys = [number.to_bytes(2, "big") for number in range(1100)]
        self.assertEqual(self.scanned(keys, keys[7]), keys[7:])
        self.assertEqual(self.scanned(keys, keys[7] + b"\0"), keys[8:])

    def test_pages_that_end_at_long_keys(self) -> None:
        first, short = [number.to_bytes(2, "big") for number in range(999)], MAX_KEY_BYTES - 1
        for last, after in ((b"a" * MAX_KEY_BYTES, [b"a" * short + b"b", b"b"]),
                            (b"a" + b"\xff" * short, [b"b", b"b\0"]), (b"\xff" * MAX_KEY_BYTES, []),
                            (b"a" * short, [b"a" * short + b"\0"])):
            keys = first + [last] + after
            with self.subTest(last=last[:2]):
                self.assertEqual(self.scanned(keys), keys)

    def test_pages_that_end_at_the_stop(self) -> None:
        asked: List[bytes] = []

        def read(start: bytes, limit: int) -> Pairs:
            asked.append(start)
            return [(key, Row(1, (b"",))) for key in keys if key >= start][:limit]

        keys = [b"%03d" % number for number in range(100)]
        self.assertEqual(keys_of(scanned(read, b"", b"059\0")), keys[:60])
        self.assertEqual(asked, [b""])
        self.assertEqual(keys_of(scanned(read, b"", b"060\0")), keys[:61])
        self.assertEqual(asked[1:], [b"", b"059\0"])
