"""Tests of the rows of many keys of an embedded index, over the built library: by an index that uses the extension
module, if it is there, and by ctypes alone. test_embedded.py runs them."""
from __future__ import annotations

import random
import threading
import unittest
from typing import Any, Dict, List, Optional, Tuple

from rowanspan import native
from rowanspan.embedded import MAX_KEY_BYTES, BadColumn, BadLimit, Closed, Index, KeyTooLong, NoMemory, Row
from test_embedded_views import RefusingLibrary

LONG = bytes(MAX_KEY_BYTES + 1)
SECONDS = 60.0


class Key(bytes):
    """Bytes of a class of their own."""


class ManyTest(unittest.TestCase):
    def setUp(self) -> None:
        self.index = Index(columns=2)
        self.addCleanup(self.index.close)

    def test_by_example(self) -> None:
        index = self.index
        self.assertEqual((index.get_many([]), index.get_many([b"a", b""])), ([], [None, None]))
        a, empty = index.put(b"a\0b", {0: b"v\0w", 1: b"x"}), index.put(b"", b"y")
        self.assertEqual(index.get_many([b"a", b"a\0b", b"", b"a\0b"]), [
            None, Row(a, (b"v\0w", b"x")), Row(empty, (b"y", b"")), Row(a, (b"v\0w", b"x"))])
        self.assertEqual(index.get_many([b"a\0b", b"b"], (1, 0)), [Row(a, (b"x", b"v\0w")), None])
        self.assertEqual(index.get_many(iter((Key(b""), bytearray(b"a\0b"), memoryview(b"a"))), [1]), [
            Row(empty, (b"",)), Row(a, (b"x",)), None])
        index.remove(b"")
        self.assertEqual(index.get_many([b"", LONG[1:]]), [None, None])

    def test_large_answers(self) -> None:
        keys = [b"%04d" % number for number in range(1000)]
        rows = [Row(self.index.put(key, {0: key * 16, 1: bytes(64)}), (key * 16, bytes(64))) for key in keys]
        self.assertEqual(self.index.get_many(keys), rows)
        self.assertEqual(self.index.get_many(keys[::-1]), rows[::-1])
        self.assertEqual(self.index.get_many(keys[:500] * 2), rows[:500] * 2)

    def test_refusals(self) -> None:
        """The first limit that is broken: of keys, of columns, of their number."""
        index: Any = self.index
        wrong: List[Tuple[type, Tuple[Any, ...]]] = [
            (KeyTooLong, ([b"a", LONG],)), (KeyTooLong, ([b"a", LONG], [2])),
            (KeyTooLong, ([LONG] + [b""] * 1000, [2])), (BadColumn, ([b"a"], [2])), (BadColumn, ([b"a"], [0, 0])),
            (BadColumn, ([b"a"] * 1001, [2])), (BadColumn, ([b"a"], [256])), (BadColumn, ([], [2])),
            (BadLimit, ([b"a"] * 1001,)), (BadLimit, ([b""] * 70_000,)), (TypeError, (["a"],)), (TypeError, (None,)),
            (TypeError, (b"ab",)), (TypeError, ([b"a"], 1)), (TypeError, ([b"a"], ["0"]))]
        for kind, arguments in wrong:
            with self.subTest(arguments=arguments[1:], kind=kind), self.assertRaises(kind):
                index.get_many(*arguments)
        index.close()
        for keys in ([], [b"a"], [b"a"] * 1001):
            with self.assertRaises(Closed):
                index.get_many(keys)

    def test_out_of_memory(self) -> None:
        commit = self.index.put(b"a", b"v")
        library = RefusingLibrary(self.index._library, "get_many")
        self.index._library, self.index._native = library, native.NoCalls()  # type: ignore[assignment]
        library.refusals = 1
        with self.assertRaises(NoMemory):
            self.index.get_many([b"a"])
        self.assertEqual(self.index.get_many([b"a"]), [Row(commit, (b"v", b""))])

    def test_by_chance(self) -> None:
        index, chance = self.index, random.Random(7)
        plain: Dict[bytes, Row] = {}

        def key_by_chance() -> bytes:
            return (b"a" * 8 * chance.randrange(4) + bytes(chance.choice(b"ab\0\xff") for _ in range(3)))

        for number in range(4000):
            key, value = key_by_chance(), b"%d" % number
            if chance.randrange(3):
                plain[key] = Row(index.put(key, value), (value, b""))
            else:
                self.assertEqual(index.remove(key) is None, plain.pop(key, None) is None)
            if number % 10 == 0:
                asked = [key_by_chance() for _ in range(chance.randrange(70))]
                self.assertEqual(index.get_many(asked), [plain.get(one) for one in asked])

    def test_one_moment(self) -> None:
        """A thread puts the same value under two keys, and others get both rows at once."""
        index, ended, met = self.index, threading.Event(), []

        def values() -> List[Optional[bytes]]:
            return [row.columns[0] if row else None for row in index.get_many([b"a"] + [b"-"] * 20 + [b"b"])]

        def read() -> None:
            while not ended.is_set():
                found = values()
                met.append(found[0] == found[-1])

        readers = [threading.Thread(target=read, daemon=True) for _ in range(4)]
        for reader in readers:
            reader.start()
        for number in range(2000):
            with index._lock:
                index.put(b"a", b"%d" % number)
                index.put(b"b", b"%d" % number)
        ended.set()
        for reader in readers:
            reader.join(SECONDS)
        self.assertTrue(met and all(met))


class ManyByCtypesTest(ManyTest):
    def setUp(self) -> None:
        super().setUp()
        self.index._native = native.NoCalls()
