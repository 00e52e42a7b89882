"""Tests of batches of an embedded index, over the built library: by an index that uses the extension
module, if it is there, and by ctypes alone. test_embedded.py runs them."""
from __future__ import annotations

import copy
import pickle
import random
import tempfile
import unittest
from typing import Any, Callable, Dict, List, Tuple

from rowanspan.embedded import (MAX_BATCH, MAX_KEY_BYTES, BadBatch, BadColumn, Batch, BatchEnded, Closed, ColumnTooLong,
                                FeedFull, Index, InFolder, KeyTooLong, NoMemory, Prefix, Row, TooLong, Unmet)
from rowanspan.native import NoCalls
from test_embedded_views import RefusingLibrary, refusing

LONG = bytes(MAX_KEY_BYTES + 1)


class BatchTest(unittest.TestCase):
    def setUp(self) -> None:
        self.index = Index(columns=2)
        self.addCleanup(self.index.close)

    def refused(self, kind: type, fill: Callable[[Any], object]) -> Any:
        """What the end of a batch raises. Nothing has changed then."""
        before = self.index.first(), self.index.commits()
        batch = self.index.batch()
        with self.assertRaises(kind) as met, batch:
            fill(batch)
        self.assertEqual((self.index.first(), self.index.commits()), before)
        self.assertEqual((batch.commit, batch.numbers), (None, []))
        return met.exception

    def test_by_example(self) -> None:
        index = self.index
        index.put(b"apple", {0: b"red", 1: b"sweet"})
        index[b"fig"] = b""
        with index.batch() as batch:
            batch.require(b"apple", 1)
            batch.require_absent(bytearray(b"pear"))
            batch.remove(b"fig")
            batch.put(b"apple", b"green")
            batch.remove(memoryview(b"none"))
            batch.put(b"pear", [(1, b"soft"), (0, b"\0")])
            batch.put(b"", {})
            self.assertEqual((index.commits(), batch.commit, batch.numbers), (2, None, []))
        self.assertEqual((batch.commit, batch.numbers), (6, [6, 3, None, 4, 5]))
        self.assertEqual(index.first(), [(b"", Row(5, (b"", b""))), (b"apple", Row(3, (b"green", b"sweet"))),
                                         (b"pear", Row(4, (b"\0", b"soft")))])
        self.assertEqual((len(index), index.commits(), index.put(b"fig", b"")), (3, 6, 7))

    def test_no_changes(self) -> None:
        with self.index.batch() as batch:
            pass
        self.assertEqual((batch.commit, batch.numbers), (0, []))
        self.index.put(b"a", b"")
        with self.index.batch() as batch:
            batch.require(b"a", 1)
            batch.remove(b"none")
        self.assertEqual((batch.commit, batch.numbers, self.index.commits()), (1, [None], 1))

    def test_unmet(self) -> None:
        self.index.put(b"a", b"v")
        for key, version, found in ((b"a", 2, 1), (b"a", 0, 1), (b"none", 1, 0), (b"", 2 ** 64 - 1, 0)):
            def fill(batch: Batch) -> None:
                batch.put(b"b", b"")
                batch.require(b"a", 1)
                batch.require(key, version)
                batch.require(b"a", 9)
                batch.remove(b"a")

            with self.subTest(key=key, version=version):
                fault = self.refused(Unmet, fill)
                self.assertEqual((fault.place, fault.key, fault.found), (1, key, found))
                for other in (pickle.loads(pickle.dumps(fault)), copy.copy(fault)):
                    self.assertEqual((other.place, other.key, other.found, str(other)), (1, key, found, str(fault)))

    def test_bad_batches(self) -> None:
        index, numbers = self.index, range(MAX_BATCH)
        index.put(b"b", b"")

        def fill_with(*changes: Tuple[str, bytes]) -> Callable[[Batch], None]:
            def fill(batch: Batch) -> None:
                for name, key in changes:
                    batch.put(key, b"") if name == "put" else batch.remove(key)
            return fill

        for first in ("put", "remove"):
            for second in ("put", "remove"):
                fault = self.refused(BadBatch, fill_with((first, b"a"), ("put", b"c"), (second, b"a")))
                self.assertEqual((fault.number, fault.detail), (17, None))
        self.assertEqual(str(fault), "a batch has more than 1,000 conditions or changes, or changes a key twice")
        self.refused(BadBatch, fill_with(*[("put", b"%d" % number) for number in range(MAX_BATCH + 1)]))
        self.refused(BadBatch, lambda batch: [batch.require(LONG, 1) for _ in range(MAX_BATCH + 1)])
        with index.batch() as batch:
            for number in numbers:
                batch.require_absent(b"%d" % number)
                batch.put(b"%d" % number, b"%d" % number)
        self.assertEqual((batch.numbers, batch.commit), (list(range(2, MAX_BATCH + 2)), MAX_BATCH + 1))
        self.assertEqual(index[b"999"], Row(MAX_BATCH + 1, (b"999", b"")))

    def test_refusals(self) -> None:
        """What the library refuses is raised by the end of the block, and what has a wrong type at once."""
        wrong: List[Tuple[type, Callable[[Any], object]]] = [
            (KeyTooLong, lambda batch: batch.require(LONG, 0)), (KeyTooLong, lambda batch: batch.put(LONG, b"")),
            (KeyTooLong, lambda batch: batch.remove(LONG)), (BadColumn, lambda batch: batch.put(b"a", {2: b""})),
            (BadColumn, lambda batch: batch.put(b"a", [(0, b""), (0, b"")])),
            (BadColumn, lambda batch: batch.put(b"a", {256: b""})),
            (ColumnTooLong, lambda batch: batch.put(b"a", bytes(65))),
            (TypeError, lambda batch: batch.put("a", b"")), (TypeError, lambda batch: batch.put(b"a", "b")),
            (TypeError, lambda batch: batch.remove(None)), (TypeError, lambda batch: batch.require("a", 0)),
            (TypeError, lambda batch: batch.require(b"a", "0")), (TooLong, lambda batch: batch.require(b"a", -1)),
            (TooLong, lambda batch: batch.require(b"a", 2 ** 64))]
        for number, (kind, fill) in enumerate(wrong):
            with self.subTest(number=number):
                self.refused(kind, fill)

    def test_an_exception_in_the_block(self) -> None:
        def fill(batch: Batch) -> None:
            batch.put(b"a", b"v")
            raise LookupError("not now")

        self.assertEqual(str(self.refused(LookupError, fill)), "not now")

    def test_a_batch_that_has_ended(self) -> None:
        with self.index.batch() as batch:
            batch.put(b"a", b"")
        again: List[Callable[[], object]] = [
            lambda: batch.put(b"b", b""), lambda: batch.remove(b"a"), lambda: batch.require(b"a", 1), batch.__enter__,
            lambda: batch.require_absent(b"a"), lambda: batch.__exit__(None)]
        for call in again:
            with self.assertRaisesRegex(BatchEnded, "^the batch has ended$"):
                call()
        self.assertEqual((batch.numbers, self.index.commits()), ([1], 1))

    def test_closed(self) -> None:
        batch = self.index.batch()
        batch.put(b"a", b"")
        self.index.close()
        with self.assertRaises(Closed), batch:
            pass

    def test_in_a_folder(self) -> None:
        with tempfile.TemporaryDirectory(prefix="rowanspan-") as place, Index(folder=place) as index:
            index.put(b"a", b"v")
            for key in (b"a", LONG):
                with self.assertRaises(InFolder), index.batch() as batch:
                    batch.put(key, b"")
            with self.assertRaises(InFolder):
                index.transact(lambda transaction: transaction.put(b"b", b""))
            self.assertEqual((index.first(), index.commits()), ([(b"a", Row(1, (b"v",)))], 1))

    def test_out_of_memory(self) -> None:
        library = RefusingLibrary(self.index._library, "batch")
        self.index._library = library  # type: ignore[assignment]
        library.refusals = 1
        self.refused(NoMemory, lambda batch: batch.put(b"a", b""))
        with self.index.batch() as batch:
            batch.put(b"a", b"")
        self.assertEqual(batch.commit, 1)

    def test_views(self) -> None:
        """They follow each batch. If they can't, they do so with the next one."""
        index = self.index
        view, library = index.build(Prefix(b"a")), refusing(index)
        for number in range(4):
            library.refusals = number % 2
            with index.batch() as batch:
                batch.put(b"a%d" % number, b"\1")
                batch.put(b"b%d" % number, b"\1")
            totals = view.totals()
            self.assertEqual(totals.at == batch.commit, number % 2 == 0)
        index.keep_views()
        self.assertEqual((view.totals(8).count, view.sums), (4, (4, 0)))

    def test_a_full_log(self) -> None:
        with Index(log_capacity=2, keep_views=False) as index:
            view = index.build(Prefix(b""))
            with self.assertRaises(FeedFull) as met, index.batch() as batch:
                for key in (b"a", b"b", b"c"):
                    batch.put(key, b"")
            self.assertEqual((met.exception.detail, index.commits(), len(index)), (0, 0, 0))
            with index.batch() as batch:
                batch.put(b"a", b"")
                batch.put(b"b", b"")
            self.assertEqual((batch.commit, view.at), (2, 0))
            index.keep_views()
            self.assertEqual((view.at, view.count), (2, 2))

    def test_by_chance(self) -> None:
        index, chance = self.index, random.Random(7)
        plain: Dict[bytes, Row] = {}

        def key_by_chance() -> bytes:
            return b"a" * 8 * chance.randrange(4) + bytes(chance.choice(b"ab\0\xff") for _ in range(3))

        for number in range(400):
            keys = [key_by_chance() for _ in range(chance.randrange(20))]
            changes = {key: b"%d" % number if chance.randrange(3) else None for key in keys}
            with index.batch() as batch:
                for key in keys[:3]:
                    batch.require(key, plain[key].version if key in plain else 0)
                for key, value in changes.items():
                    batch.remove(key) if value is None else batch.put(key, {number % 2: value})
            commit = index.commits() - len([one for one in batch.numbers if one])
            for is_remove in (False, True):
                for (key, value), made in zip(changes.items(), batch.numbers):
                    if (value is None) != is_remove:
                        continue
                    if value is None and plain.pop(key, None) is None:
                        self.assertIsNone(made)
                        continue
                    commit += 1
                    self.assertEqual(made, commit)
                    if value is not None:
                        columns = list(plain[key].columns if key in plain else (b"", b""))
                        columns[number % 2] = value
                        plain[key] = Row(commit, tuple(columns))
            self.assertEqual((batch.commit, index.commits()), (commit, commit))
        self.assertEqual(dict(index.range()), plain)


class BatchByCtypesTest(BatchTest):
    def setUp(self) -> None:
        super().setUp()
        self.index._native = NoCalls()
