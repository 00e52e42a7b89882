"""Tests of the number of rows of an embedded index, and of the count of a range, over the built library: by an index
that uses the extension module, if it is there, and by ctypes alone. test_embedded.py runs them."""
from __future__ import annotations

import random
import threading
import unittest
from bisect import bisect_left
from typing import Any, Callable, Dict, List, Optional, Sequence, Tuple

from map_cases import KEYS, LIMITS, PREFIXES, STARTS, STOPS, is_wanted
from rowanspan import native
from rowanspan.embedded import MAX_KEY_BYTES, Closed, Index, KeyTooLong, NoMemory, TooLong
from test_embedded_views import RefusingLibrary

LONG = bytes(MAX_KEY_BYTES + 1)
SECONDS = 60.0
# the extension module counts fewer rows
COUNTED_ROWS = 256
# among them those at which ctypes takes over, and those beyond what the library is asked for
MOSTS = (0, 1, COUNTED_ROWS - 1, COUNTED_ROWS, COUNTED_ROWS + 1, 1000, 2 ** 32 - 1, 2 ** 32, 2 ** 70)


class Number(int):
    """A number of a class of its own."""


def outcome(call: Callable[[], Any]) -> Any:
    """What a call returns, or raises."""
    try:
        return call()
    except Exception as fault:
        return type(fault), str(fault)


class CountCases:
    """The cases, for a `unittest.TestCase` whose `index` is new for each test and has two columns."""

    index: Index
    assertEqual: Callable[..., None]
    assertIs: Callable[..., None]
    assertRaises: Callable[..., Any]
    assertRaisesRegex: Callable[..., Any]
    assertTrue: Callable[..., None]
    subTest: Callable[..., Any]

    def fill(self, keys: Sequence[bytes]) -> None:
        for key in keys:
            self.index.put(key, key[:8])

    def want(self, wanted: int, *words: Any, **named: Any) -> None:
        """Asserts that a range has `wanted` rows: counted without a limit, and up to 0, 1, one fewer, exactly as many,
        one more, and others."""
        self.assertEqual(self.index.count(*words, **named), wanted)
        self.assertEqual(self.index.count(*words, **named, most=None), wanted)
        for most in (*MOSTS, max(0, wanted - 1), wanted, wanted + 1):
            self.assertEqual(self.index.count(*words, **named, most=most), min(wanted, most), most)

    def test_by_example(self) -> None:
        self.want(0)
        self.want(0, b"a", b"b")
        self.fill([b"b", b"a", b"ab", b"c"])
        self.want(4)
        self.want(3, b"ab")
        self.want(2, b"a", b"b")
        self.want(2, prefix=b"a")
        self.want(1, b"aa", b"c", prefix=b"a")
        self.want(0, b"", b"")
        self.want(0, b"c", b"a")
        self.want(0, b"b", b"b")
        self.want(0, b"d")
        self.index.put(b"", b"")
        self.want(1, b"", b"a")
        self.index.put(b"ab", b"again")
        self.want(5)
        self.index.remove(b"ab")
        self.want(4)
        self.want(1, prefix=b"a")
        self.assertIs(type(self.index.count()), int)

    def test_counts(self) -> None:
        """They are the numbers of rows of the same ranges."""
        self.fill(KEYS)
        for prefix in PREFIXES:
            for start in STARTS:
                for stop in STOPS:
                    wanted = sum(is_wanted(key, start, stop, prefix) for key in KEYS)
                    with self.subTest(prefix=prefix, start=start, stop=stop):
                        self.want(wanted, start, stop, prefix=prefix)
                        self.assertEqual(len(list(self.index.range(start, stop, prefix=prefix))), wanted)
            for limit in LIMITS:
                with self.subTest(prefix=prefix, limit=limit):
                    self.assertEqual(self.index.count(prefix=prefix, most=limit),
                                     len(list(self.index.range(prefix=prefix, limit=limit))))

    def test_many_rows(self) -> None:
        keys = [b"%04d" % number for number in range(2500)]
        self.fill(keys[::-1])
        for first, last in ((0, 255), (0, 256), (0, 257), (7, 1007), (7, 2400), (1500, 2500), (0, 2500), (3, 3)):
            with self.subTest(first=first, last=last):
                self.want(last - first, keys[first], keys[last] if last < len(keys) else None)
        self.want(1000, prefix=b"1")
        self.want(10, prefix=b"123")
        for key in keys[::2]:
            self.index.remove(key)
        self.want(1250)
        self.want(500, prefix=b"1")

    def test_layers(self) -> None:
        """Keys that begin alike with a multiple of eight bytes, and that end in bytes of the greatest value."""
        keys = [bytes((byte,)) * length for byte in (0, 97, 255) for length in (*range(1, 34), 64, MAX_KEY_BYTES)]
        self.fill(keys)
        for prefix in keys:
            self.want(sum(key.startswith(prefix) for key in keys), prefix=prefix)
            self.want(sum(key >= prefix for key in keys), prefix)
            self.want(sum(key < prefix for key in keys), b"", prefix)
        self.want(len(keys))

    def test_arguments(self) -> None:
        """What is refused of a range is refused of its count."""
        index: Any = self.index
        self.fill([b"a", b"b"])
        cases: List[Tuple[Tuple[Any, ...], Dict[str, Any]]] = [
            (("a",), {}), ((None,), {}), ((1,), {}), ((b"", "b"), {}), ((b"", 5), {}), ((), {"prefix": "a"}),
            ((), {"prefix": 5}), ((LONG,), {}), ((b"", LONG), {}), ((b"b", LONG), {}), ((LONG, b""), {}),
            ((), {"prefix": LONG})]
        for words, named in cases:
            with self.subTest(words=words, named=named):
                raised = outcome(lambda: index.count(*words, **named))
                self.assertEqual(raised, outcome(lambda: index.range(*words, **named)))
                self.assertTrue(issubclass(raised[0], (TypeError, KeyTooLong)))
                self.assertEqual(outcome(lambda: index.count(*words, **named, most=0)), raised)
        for most in ("1", 1.0, b"1", [1]):
            with self.subTest(most=most), self.assertRaises(TypeError):
                index.count(most=most)
        with self.assertRaisesRegex(TooLong, "^the most that is counted must be 0 or more, not -1$"):
            index.count(most=-1)
        with self.assertRaises(TypeError):
            index.count(b"", None, None)
        self.assertEqual(index.count(bytearray(b"a"), memoryview(b"b"), prefix=b"", most=Number(1)), 1)
        self.assertEqual((index.count(most=True), index.count(most=Number(2 ** 40))), (1, 2))

    def test_a_closed_index(self) -> None:
        index = self.index
        self.fill([b"a"])
        index.close()
        for call in (index.count, lambda: index.count(b"b", b"a"), lambda: index.count(most=0)):
            with self.assertRaisesRegex(Closed, "^the index is closed$"):
                call()

    def test_all_rows(self) -> None:
        """An index without rows is false. One that is closed is neither true nor false."""
        index = self.index
        self.assertEqual((len(index), bool(index)), (0, False))
        keys = [b"%04d" % number for number in range(1200)]
        self.fill(keys + keys[::2])
        self.assertEqual((len(index), bool(index)), (1200, True))
        for rest, key in reversed([*enumerate(keys)]):
            index.remove(key)
            self.assertEqual((len(index), bool(index)), (rest, rest > 0))
        index.close()
        for call in (len, bool):
            with self.assertRaisesRegex(Closed, "^the index is closed$"):
                call(index)

    def test_by_chance(self) -> None:
        """Counts against a sorted list, over keys of 1 to 40 bytes that begin alike, and removes."""
        index, chance = self.index, random.Random(12)
        keys: List[bytes] = []

        def key_by_chance() -> bytes:
            front = (b"a" * 8 + b"\0" * 8 + b"\xff" * 8 + b"b" * 16)[:8 * chance.randrange(6)]
            return (front + bytes(chance.choice(b"ab\0\xff") for _ in range(chance.randint(1, 40))))[:40]

        for number in range(12000):
            key = key_by_chance()
            at = bisect_left(keys, key)
            is_there = at < len(keys) and keys[at] == key
            if chance.randrange(100) < (60 if number // 3000 % 2 else 25):
                self.assertEqual(index.remove(key) is not None, is_there)
                del keys[at:at + is_there]
            else:
                index.put(key, b"")
                keys[at:at + is_there] = [key]
            self.assertEqual(len(index), len(keys))
            if number % 10 == 0:
                start, stop = key_by_chance(), key_by_chance()
                wanted = max(0, bisect_left(keys, stop) - bisect_left(keys, start))
                most = chance.choice((None, 0, 1, wanted, chance.randint(0, 2 * wanted + 1)))
                self.assertEqual(index.count(start, stop, most=most), wanted if most is None else min(wanted, most))
            if number % 200 == 0:
                front: Optional[bytes] = key_by_chance()[:8]
                wanted = sum(is_wanted(one, start, stop, front) for one in keys)
                self.assertEqual(index.count(start, stop, prefix=front), wanted)
        self.assertTrue(len(keys) > 500)
        self.assertEqual(index.count(), len(keys))


class CountTest(CountCases, unittest.TestCase):
    def setUp(self) -> None:
        self.index = Index(columns=2)
        self.addCleanup(self.index.close)

    def test_which_calls_are_made(self) -> None:
        """The extension module counts fewer rows than 256; ctypes makes the other counts. No rows are read."""
        calls, names = self.index._native, []

        class Watched:
            def __init__(self, library: Any) -> None:
                self._library = library

            def __getattr__(self, name: str) -> Any:
                names.append(name)
                return getattr(self._library, name)

        self.fill([b"%04d" % number for number in range(COUNTED_ROWS + 1)])
        self.index._library = Watched(self.index._library)  # type: ignore[assignment]
        is_native = not isinstance(calls, native.NoCalls)
        for words, most, wanted, is_by_module in (
                ((b"",), None, 257, False), ((b"0001",), None, 256, False), ((b"0002",), None, 255, True),
                ((b"",), 255, 255, True), ((b"",), 256, 256, False), ((b"0200",), 2 ** 40, 57, True),
                ((b"", b"0100"), None, 100, True), ((bytearray(b"0200"),), None, 57, True)):
            with self.subTest(words=words, most=most):
                self.assertEqual(self.index.count(*words, most=most), wanted)
                self.assertEqual(names, [] if is_native and is_by_module else ["count"])
            names.clear()
        self.assertEqual((len(self.index), bool(self.index), names), (257, True, [] if is_native else ["len"] * 2))

    def test_out_of_memory(self) -> None:
        self.fill([b"a", b"b"])
        library = RefusingLibrary(self.index._library, "count")
        self.index._library, self.index._native = library, native.NoCalls()  # type: ignore[assignment]
        library.refusals = 1
        with self.assertRaises(NoMemory):
            self.index.count()
        self.assertEqual(self.index.count(), 2)

    def test_counts_of_threads(self) -> None:
        """Each thread counts its own rows, and all rows while others come and go two by two."""
        raised: List[BaseException] = []

        def work(own: bytes) -> None:
            try:
                for number in range(150):
                    with self.index._lock:
                        self.index.put(own + b"%04d" % number, b"")
                        self.index.put(own + b"%04d+" % number, b"")
                    self.assertEqual(self.index.count(prefix=own), 2 * (number + 1))
                    self.assertEqual((self.index.count() % 2, len(self.index) % 2), (0, 0))
            except BaseException as fault:
                raised.append(fault)

        threads = [threading.Thread(target=work, args=(b"%d" % own,), daemon=True) for own in range(8)]
        for thread in threads:
            thread.start()
        for thread in threads:
            thread.join(SECONDS)
        self.assertEqual((raised, self.index.count(), len(self.index)), ([], 2400, 2400))


class CountByCtypesTest(CountCases, unittest.TestCase):
    def setUp(self) -> None:
        self.index = Index(columns=2)
        self.addCleanup(self.index.close)
        self.index._native = native.NoCalls()
