"""Tests of transactions of an embedded index, over the built library: by an index that uses the extension module, if it
is there, and by ctypes alone. test_embedded.py runs them."""
from __future__ import annotations

import random
import threading
import unittest
from typing import Any, Callable, List, Optional, Set, Tuple

from rowanspan.embedded import (MAX_BATCH, MAX_KEY_BYTES, BadBatch, BadColumn, BatchEnded, ColumnTooLong, Index,
                                KeyTooLong, Prefix, Row, TooLong, Transaction, Unmet)
from rowanspan.native import NoCalls
from test_embedded_threads import in_threads

LONG = bytes(MAX_KEY_BYTES + 1)
SECONDS = 60.0
ACCOUNTS = [b"a", b"b", b"c", b"d"]
WHOLE = 100


class Case(unittest.TestCase):
    def setUp(self) -> None:
        self.index = Index(columns=2)
        self.addCleanup(self.index.close)


class TransactionTest(Case):
    def test_reads_and_changes(self) -> None:
        index = self.index
        index.put(b"a", {0: b"v", 1: b"w"})
        index.put(b"b", b"x")
        with index.transaction() as transaction:
            self.assertEqual(transaction.get(b"a"), Row(1, (b"v", b"w")))
            self.assertIsNone(transaction.get(bytearray(b"c")))
            transaction.put(b"a", b"new")
            transaction.put(b"c", {1: b"y"})
            transaction.remove(b"b")
            transaction.remove(b"none")
            self.assertEqual((transaction.get(b"a"), transaction.get(b"b"), transaction.get(b"c")),
                             (Row(1, (b"new", b"w")), None, Row(0, (b"", b"y"))))
            self.assertEqual((index.commits(), transaction.commit, transaction.numbers), (2, None, {}))
        self.assertEqual((transaction.commit, transaction.numbers), (5, {b"a": 3, b"c": 4, b"b": 5, b"none": None}))
        self.assertEqual(index.first(), [(b"a", Row(3, (b"new", b"w"))), (b"c", Row(4, (b"", b"y")))])

    def test_changes_that_are_joined(self) -> None:
        """A key has one commit, of all its changes."""
        index = self.index
        for key in (b"a", b"b", b"c", b"d", b"e"):
            index.put(key, {0: key, 1: b"old"})
        with index.transaction() as transaction:
            transaction.put(b"a", b"1")
            transaction.put(b"a", {1: b"2"})
            transaction.put(b"a", {})
            transaction.put(b"b", {0: b"1"})
            transaction.put(b"b", {0: b"2"})
            transaction.put(b"c", b"1")
            transaction.remove(b"c")
            transaction.remove(b"d")
            transaction.put(b"d", {1: b"1"})
            transaction.remove(b"e")
            transaction.put(b"e", b"1")
            transaction.remove(b"e")
            transaction.put(b"f", b"1")
            transaction.remove(b"f")
            transaction.put(b"f", {})
            shown = [transaction.get(key) for key in (b"a", b"b", b"c", b"d", b"e", b"f")]
        columns = [(b"1", b"2"), (b"2", b"old"), None, (b"", b"1"), None, (b"", b"")]
        self.assertEqual([row and row.columns for row in shown], columns)
        rows = index.get_many([b"a", b"b", b"c", b"d", b"e", b"f"])
        self.assertEqual([row and row.columns for row in rows], columns)
        self.assertEqual((transaction.commit, len(transaction.numbers), index.commits()), (11, 6, 11))
        self.assertEqual([row.version for row in rows if row],
                         [transaction.numbers[key] for key in (b"a", b"b", b"d", b"f")])

    def test_a_row_that_was_changed_meanwhile(self) -> None:
        index = self.index
        index.put(b"a", b"v")
        between: List[Callable[[], object]] = [lambda: index.put(b"a", b"v"), lambda: index.put(b"none", b""),
                                               lambda: index.remove(b"a")]
        for change, (place, key) in zip(between, ((0, b"a"), (1, b"none"), (0, b"a"))):
            with self.assertRaises(Unmet) as met:
                with index.transaction() as transaction:
                    read = transaction.get(b"a"), transaction.get(b"none")
                    transaction.put(b"b", b"")
                    change()
                    # what was read stays
                    self.assertEqual((transaction.get(b"a"), transaction.get(b"none")), read)
            row = index.get(key)
            self.assertEqual((met.exception.place, met.exception.key, met.exception.found),
                             (place, key, row.version if row else 0))
            self.assertNotIn(b"b", index)
            index.remove(b"none")

    def test_reads_alone(self) -> None:
        self.index.put(b"a", b"v")
        with self.index.transaction() as transaction:
            transaction.get(b"a")
        self.assertEqual((transaction.commit, transaction.numbers, self.index.commits()), (1, {}, 1))
        with self.assertRaises(Unmet), self.index.transaction() as transaction:
            transaction.get(b"a")
            self.index.put(b"a", b"v")

    def test_changes_without_reads(self) -> None:
        with self.index.transaction() as transaction:
            transaction.put(b"a", b"v")
            self.index.put(b"a", b"w")
        self.assertEqual(self.index[b"a"], Row(2, (b"v", b"")))

    def test_refusals(self) -> None:
        index = self.index
        index.put(b"a", b"v")
        before = index.first()
        wrong: List[Tuple[type, Callable[[Any], object]]] = [
            (KeyTooLong, lambda it: it.get(LONG)), (KeyTooLong, lambda it: it.put(LONG, b"")),
            (KeyTooLong, lambda it: it.remove(LONG)), (BadColumn, lambda it: it.put(b"b", [(0, b""), (0, b"")])),
            (BadColumn, lambda it: it.put(b"b", {2: b""})), (ColumnTooLong, lambda it: it.put(b"b", bytes(65))),
            (BadColumn, lambda it: (it.put(b"a", {2: b""}), it.get(b"a"))),
            (BadColumn, lambda it: (it.remove(b"a"), it.put(b"a", {2: b""}))),
            (BadBatch, lambda it: [it.get(b"%d" % number) for number in range(MAX_BATCH + 1)]),
            (BadBatch, lambda it: [it.remove(b"%d" % number) for number in range(MAX_BATCH + 1)]),
            (TypeError, lambda it: it.get("a")), (TypeError, lambda it: it.put(b"a", 1)),
            (TypeError, lambda it: it.remove("a"))]
        for number, (kind, work) in enumerate(wrong):
            with self.subTest(number=number), self.assertRaises(kind), index.transaction() as transaction:
                transaction.put(b"c", b"")
                work(transaction)
            self.assertEqual(index.first(), before)

    def test_a_transaction_that_has_ended(self) -> None:
        with self.assertRaises(LookupError), self.index.transaction() as transaction:
            transaction.put(b"a", b"v")
            raise LookupError
        again: List[Callable[[], object]] = [
            lambda: transaction.get(b"a"), lambda: transaction.put(b"a", b""), lambda: transaction.remove(b"a"),
            transaction.__enter__]
        for call in again:
            with self.assertRaises(BatchEnded):
                call()
        self.assertEqual((len(self.index), self.index.commits()), (0, 0))


class TransactTest(Case):
    def test_tries(self) -> None:
        index, calls = self.index, []

        def change(transaction: Transaction) -> int:
            calls.append(transaction.get(b"a"))
            if len(calls) < 3:
                index.put(b"a", b"%d" % len(calls))
            transaction.put(b"a", b"last")
            return len(calls)

        self.assertEqual(index.transact(change), 3)
        self.assertEqual(calls, [None, Row(1, (b"1", b"")), Row(2, (b"2", b""))])
        self.assertEqual(index[b"a"], Row(3, (b"last", b"")))
        for tries in (1, 2):
            calls.clear()
            with self.assertRaises(Unmet):
                index.transact(change, tries=tries)
            self.assertEqual(len(calls), tries)
        self.assertEqual(index.transact(lambda transaction: transaction.get(b"a")), index[b"a"])

    def test_what_is_wrong(self) -> None:
        index: Any = self.index
        for kind, arguments in ((TypeError, (None,)), (TypeError, (len, "1")), (TooLong, (len, 0)),
                                (TooLong, (len, -1)), (TypeError, (len,))):
            with self.subTest(arguments=arguments), self.assertRaises(kind):
                index.transact(*arguments)

        def fail(transaction: Transaction) -> None:
            transaction.put(b"a", b"")
            raise LookupError("not now")

        def meet_another(transaction: Transaction) -> None:
            """An `Unmet` of another batch isn't one of the transaction."""
            calls.append(transaction)
            with index.batch() as batch:
                batch.require(b"a", 1)

        calls: List[Transaction] = []
        with self.assertRaisesRegex(LookupError, "^not now$"):
            index.transact(fail)
        with self.assertRaises(Unmet):
            index.transact(meet_another)
        self.assertEqual((index.first(), len(calls)), ([], 1))

    def fill(self) -> None:
        with self.index.batch() as batch:
            for key in ACCOUNTS:
                batch.put(key, WHOLE.to_bytes(8, "big"))

    def amounts(self) -> List[int]:
        return [int.from_bytes(row.columns[0], "big") for row in self.index.get_many(ACCOUNTS) if row]

    def test_threads_that_move_amounts(self) -> None:
        """The total never moves, as readers of rows and of a view see it."""
        self.fill()
        view, ended, totals, tries = self.index.build(Prefix(b"")), threading.Event(), set(), [0, 0]

        def move(source: bytes, target: bytes, transaction: Transaction) -> None:
            less, more = transaction.get(source), transaction.get(target)
            assert less and more
            amount = int.from_bytes(less.columns[0], "big")
            if amount:
                transaction.put(source, (amount - 1).to_bytes(8, "big"))
                transaction.put(target, (int.from_bytes(more.columns[0], "big") + 1).to_bytes(8, "big"))

        def work(own: int) -> None:
            chance = random.Random(own)
            for _ in range(400):
                source, target = chance.sample(ACCOUNTS, 2)

                def change(transaction: Transaction) -> None:
                    tries[own] += 1
                    move(source, target, transaction)

                self.index.transact(change, 10_000)

        def watch(seen: Set[int]) -> None:
            while not ended.is_set():
                seen.update((sum(self.amounts()), view.sums[0]))

        watching = threading.Thread(target=watch, args=(totals,), daemon=True)
        watching.start()
        try:
            in_threads([lambda: work(0), lambda: work(1)])
        finally:
            ended.set()
            watching.join(SECONDS)
        self.assertEqual((totals, sum(self.amounts()), view.sums[0]), ({4 * WHOLE}, 4 * WHOLE, 4 * WHOLE))
        self.assertTrue(min(tries) >= 400)

    def test_threads_that_count(self) -> None:
        """No change of another thread is lost."""
        def one_more(transaction: Transaction) -> Optional[int]:
            row = transaction.get(b"n")
            number = 1 + (int.from_bytes(row.columns[0], "big") if row else 0)
            transaction.put(b"n", number.to_bytes(8, "big"))
            return number

        returned: List[Optional[int]] = []

        def work() -> None:
            for _ in range(100):
                returned.append(self.index.transact(one_more, 10_000))

        in_threads([work] * 4)
        self.assertEqual(self.index[b"n"].columns[0], (400).to_bytes(8, "big"))
        self.assertEqual(sorted(number or 0 for number in returned), list(range(1, 401)))


class TransactionByCtypesTest(TransactionTest):
    def setUp(self) -> None:
        super().setUp()
        self.index._native = NoCalls()


class TransactByCtypesTest(TransactTest):
    def setUp(self) -> None:
        super().setUp()
        self.index._native = NoCalls()
