"""Cases of ranges against the order of keys, and of the first and the last row, of a client and of an embedded index:
test_reads.py and test_embedded_back.py run them."""
from __future__ import annotations

import inspect
import random
from bisect import bisect_left
from typing import Any, Callable, Dict, List, Optional, Sequence, Tuple

from map_cases import KEYS, LIMITS, PREFIXES, STARTS, STOPS, is_wanted, keys_of
from rowanspan import MAX_KEY_BYTES, BadColumn, BadLimit, Closed, KeyTooLong, Pairs, Row, RowMap, TooLong

LONG = bytes(MAX_KEY_BYTES + 1)


def outcome(call: Callable[[], Any]) -> Any:
    """What a call returns, or raises."""
    try:
        return call()
    except Exception as fault:
        return type(fault), str(fault)


class BackCases:
    """The cases, for a `unittest.TestCase` whose `index` is new for each test and has two columns. `changes` is the
    number of changes by chance."""

    index: RowMap
    changes = 12000
    assertEqual: Callable[..., None]
    assertRaises: Callable[..., Any]
    assertRaisesRegex: Callable[..., Any]
    assertTrue: Callable[..., None]
    subTest: Callable[..., Any]

    def fill(self, keys: Sequence[bytes]) -> None:
        for key in keys:
            self.index.put(key, key[:8])

    def asked(self) -> List[Tuple[Optional[bytes], int]]:
        """A list of the keys and limits of the calls of `last` from now on."""
        calls: List[Tuple[Optional[bytes], int]] = []
        last = self.index.last

        def noted(stop: Optional[bytes], limit: int, columns: Optional[Sequence[int]]) -> Pairs:
            calls.append((stop, limit))
            return last(stop, limit, columns)

        self.index.last = noted  # type: ignore[assignment, method-assign]
        return calls

    # -- one call

    def test_last(self) -> None:
        index = self.index
        self.assertEqual((index.last(), index.last(b"a"), index.last(b"")), ([], [], []))
        self.fill([b"b", b"a", b"ab", b"c"])
        a, ab, b, c = [(key, Row(number, (key, b""))) for key, number in ((b"a", 2), (b"ab", 3), (b"b", 1), (b"c", 4))]
        for arguments, wanted in (
                ((), [c, b, ab, a]), ((None,), [c, b, ab, a]), ((None, 2), [c, b]), ((b"c",), [b, ab, a]),
                ((b"bb", 1), [b]), ((b"ab\0",), [ab, a]), ((b"ab",), [a]), ((b"a",), []), ((b"",), []),
                ((b"d", 1), [c])):
            with self.subTest(arguments=arguments):
                self.assertEqual(index.last(*arguments), wanted)
        self.assertEqual(index.last(bytearray(b"b"), 1), [ab])
        index.put(b"", {1: b"w"})
        self.assertEqual((index.last(b""), index.last(b"a")), ([], [(b"", Row(5, (b"", b"w")))]))
        self.assertEqual(index.last(b"a", 1, [1, 0]), [(b"", Row(5, (b"w", b"")))])
        self.assertEqual(index.last(None, 1, [0]), [(b"c", Row(4, (b"c",)))])

    def test_many_rows_in_one_call(self) -> None:
        keys = [b"%04d" % number for number in range(1500)]
        for key in keys:
            self.index.put(key, {0: b"x" * 64, 1: key})
        self.assertEqual(keys_of(self.index.last()), keys[:499:-1])
        self.assertEqual(self.index.last(keys[1200], 1000), self.index.first(keys[200])[::-1])

    def test_refusals_of_last(self) -> None:
        index: Any = self.index
        self.fill([b"a"])
        wrong: List[Tuple[type, Tuple[Any, ...]]] = [
            (KeyTooLong, (LONG,)), (KeyTooLong, (LONG, 0, [7])), (BadColumn, (None, 0, [7])),
            (BadColumn, (None, 1, [2])), (BadColumn, (None, 1, [0, 0])), (BadColumn, (None, 1, [256])),
            (BadLimit, (None, 0)), (BadLimit, (None, 1001)), (BadLimit, (None, 65536)), (BadLimit, (None, -1)),
            (TypeError, ("a",)), (TypeError, (5,)), (TypeError, (b"a", "1")), (TypeError, (b"a", None)),
            (TypeError, (b"a", 1, 0)), (TypeError, (b"a", 1, "0"))]
        for kind, arguments in wrong:
            with self.subTest(arguments=arguments[1:]), self.assertRaises(kind):
                index.last(*arguments)
        self.assertEqual((index.last(LONG[1:]), keys_of(index.last(b"b", 1000))), ([], [b"a"]))
        index.close()
        for call in (index.last, index.first_item, index.last_item, lambda: next(index.range(reverse=True))):
            with self.assertRaises(Closed):
                call()

    # -- ranges

    def test_ranges(self) -> None:
        """They have the rows of the same range in the order of keys; a limit keeps the last ones."""
        self.fill(KEYS)
        keys = sorted(KEYS, reverse=True)
        for prefix in PREFIXES:
            for start in STARTS:
                for stop in STOPS:
                    wanted = [key for key in keys if is_wanted(key, start, stop, prefix)]
                    with self.subTest(prefix=prefix, start=start, stop=stop):
                        self.assertEqual(keys_of(self.index.range(start, stop, prefix=prefix, reverse=True)), wanted)
            for limit in LIMITS:
                wanted = [key for key in keys if is_wanted(key, b"", None, prefix)][:limit]
                with self.subTest(prefix=prefix, limit=limit):
                    self.assertEqual(keys_of(self.index.range(prefix=prefix, limit=limit, reverse=True)), wanted)
        self.assertEqual(list(self.index.range(reverse=True)), list(self.index.range())[::-1])
        self.assertEqual(list(self.index.range(reverse=False)), list(self.index.range()))

    def test_ranges_of_many_rows(self) -> None:
        keys = [b"%04d" % number for number in range(2500)]
        self.fill(keys)
        for arguments, named, wanted in (
                ((), {}, keys), ((keys[7], keys[2400]), {}, keys[7:2400]), ((b"", keys[2400]), {"limit": 1001},
                                                                            keys[1399:2400]),
                ((b"", b"2"), {"prefix": b"1", "limit": 999}, keys[1001:2000]), ((), {"limit": 2 ** 70}, keys),
                ((keys[5],), {"limit": 2495}, keys[5:]), ((keys[5],), {"limit": 2494}, keys[6:])):
            with self.subTest(arguments=arguments, named=named):
                got = self.index.range(*arguments, **named, reverse=True)  # type: ignore[arg-type]
                self.assertEqual(keys_of(got), wanted[::-1])

    def test_what_a_range_asks(self) -> None:
        keys = [b"a%04d" % number for number in range(3000)]
        self.fill(keys)
        calls = self.asked()
        for named, count, limits in (
                ({}, 3000, [1000] * 4), ({"limit": 1000}, 1000, [1000]), ({"limit": 0}, 0, []),
                ({"limit": 2500}, 2500, [1000, 1000, 500]), ({"limit": 5}, 5, [5]), ({"stop": b"a0010"}, 10, [1000]),
                ({"prefix": b"a000"}, 10, [60]), ({"prefix": b"a"}, 3000, [60, 240, 960, 1000, 1000]),
                ({"start": b"a0000", "stop": b"a1000"}, 1000, [60, 240, 960]), ({"start": b"a0000"}, 3000,
                                                                               [60, 240, 960, 1000, 1000]),
                ({"prefix": b"a", "limit": 100}, 100, [60, 40]), ({"start": b"a0100", "stop": b"a0110"}, 10, [60]),
                ({"start": b"b", "stop": b"a"}, 0, []), ({"start": b"b", "prefix": b"a"}, 0, []),
                ({"start": b"a", "stop": b"a"}, 0, []), ({"stop": b""}, 0, [])):
            with self.subTest(named=named):
                self.assertEqual(len(list(self.index.range(**named, reverse=True))), count)  # type: ignore[arg-type]
                self.assertEqual([limit for _, limit in calls], limits)
            calls.clear()
        pairs = self.index.range(prefix=b"a1", reverse=True)
        self.assertEqual(calls, [])
        self.assertEqual((next(pairs)[0], calls), (b"a1999", [(b"a2", 60)]))

    def test_columns(self) -> None:
        self.index.put(b"a", {0: b"v", 1: b"w"})
        columns = [1]
        pairs = self.index.range(columns=columns, reverse=True)
        columns.append(0)
        self.assertEqual(list(pairs), [(b"a", Row(1, (b"w",)))])
        pairs = self.index.range(columns=[2], reverse=True)
        with self.assertRaises(BadColumn):
            next(pairs)

    def test_a_range_among_changes(self) -> None:
        index, seen = self.index, []
        self.fill([b"%04d" % number for number in range(300)])
        for key, row in index.range(b"0", reverse=True):
            seen.append(key)
            index.remove(key)
            index.put(key + b"+", b"")
        self.assertEqual(seen, [b"%04d" % number for number in range(299, -1, -1)])
        self.assertEqual(keys_of(index.range()), [b"%04d+" % number for number in range(300)])

    def test_arguments_of_a_range(self) -> None:
        """What is refused, and what is raised, is what it is in the order of keys."""
        index: Any = self.index
        self.fill([b"a", b"b"])
        self.assertTrue(inspect.isgenerator(index.range(reverse=True)))
        cases: List[Tuple[Tuple[Any, ...], Dict[str, Any]]] = [
            (("a",), {}), ((None,), {}), ((b"", "b"), {}), ((b"", 5), {}), ((), {"prefix": "a"}), ((), {"limit": "1"}),
            ((), {"limit": 1.0}), ((), {"columns": 0}), ((), {"columns": "0"}), ((), {"limit": -1}),
            ((LONG,), {}), ((b"", LONG), {}), ((), {"prefix": LONG}), ((), {"columns": [256]})]
        for words, named in cases:
            on = outcome(lambda: index.range(*words, **named))
            back = outcome(lambda: index.range(*words, **named, reverse=True))
            self.assertEqual((on, type(on)), (back, tuple))
        with self.assertRaises(TypeError):
            index.range(b"", None, None, None, None, True)
        with self.assertRaisesRegex(TooLong, "^a limit must be 0 or more, not -1$"):
            index.range(limit=-1, reverse=True)
        self.assertEqual(keys_of(index.range(bytearray(b"a"), memoryview(b"b"), prefix=b"", reverse=True)), [b"a"])

    # -- the first and the last row

    def test_first_and_last_item(self) -> None:
        index: Any = self.index
        self.assertEqual((index.first_item(), index.last_item(), index.last_item(b"a")), (None, None, None))
        self.fill(KEYS)
        for prefix in (b"", *PREFIXES[1:], bytes((255,)) * MAX_KEY_BYTES):
            wanted = [key for key in sorted(KEYS) if key.startswith(prefix)] or [None]
            got = [None if item is None else item[0] for item in (index.first_item(prefix), index.last_item(prefix))]
            self.assertEqual(got, [wanted[0], wanted[-1]])
        commit = index.put(b"b~", {1: b"w"})
        self.assertEqual(index.last_item(b"b~"), (b"b~", Row(commit, (b"", b"w"))))
        self.assertEqual((index.first_item(), index.last_item()), (index.first()[0], index.last()[0]))
        for call in (index.first_item, index.last_item):
            with self.assertRaises(TypeError):
                call("a")
            with self.assertRaises(KeyTooLong):
                call(LONG)
        calls = self.asked()
        self.assertEqual((index.last_item(b"c")[0], calls), (b"c", [(b"d", 1)]))

    def test_it_is_no_sequence(self) -> None:
        index: Any = self.index
        with self.assertRaises(TypeError):
            reversed(index)

    def test_by_chance(self) -> None:
        """Calls against a sorted list, over keys of 1 to 40 bytes that begin alike, and removes."""
        index, chance = self.index, random.Random(11)
        keys: List[bytes] = []

        def key_by_chance() -> bytes:
            front = (b"a" * 8 + b"\0" * 8 + b"\xff" * 8 + b"b" * 16)[:8 * chance.randrange(6)]
            return (front + bytes(chance.choice(b"ab\0\xff") for _ in range(chance.randint(1, 40))))[:40]

        for number in range(self.changes):
            key, at = key_by_chance(), 0
            at = bisect_left(keys, key)
            is_there = at < len(keys) and keys[at] == key
            if chance.randrange(100) < (60 if number // 3000 % 2 else 25):
                self.assertEqual(index.remove(key) is not None, is_there)
                del keys[at:at + is_there]
            else:
                index.put(key, b"")
                keys[at:at + is_there] = [key]
            if number % 10 == 0:
                stop, limit = key_by_chance(), chance.randint(1, 70)
                self.assertEqual(keys_of(index.last(stop, limit)), keys[:bisect_left(keys, stop)][::-1][:limit])
            if number % 100 == 0:
                ends, prefix, most = [key_by_chance(), key_by_chance()], key_by_chance()[:8], chance.choice(LIMITS)
                start, stop = sorted(ends) if chance.randrange(2) else (b"", ends[0])
                front = chance.choice((None, prefix))
                wanted = [one for one in keys if is_wanted(one, start, stop, front)][::-1][:most]
                got = index.range(start, stop, prefix=front, limit=most, reverse=True)
                self.assertEqual(keys_of(got), wanted)
        self.assertTrue(len(keys) > self.changes // 24)
