"""Tests of an embedded index that several threads call, over the built library. test_embedded.py runs them."""
from __future__ import annotations

import gc
import threading
import time
import unittest
from _ctypes import FUNCFLAG_PYTHONAPI
from typing import Any, Callable, List, Optional, Sequence, Set

from rowanspan.embedded import Closed, Index, Prefix, Range, Row, Sets
from rowanspan.native import NoCalls

SECONDS = 60.0
THREADS = 8


class Watched:
    """The library of an index, each of whose calls is made by `around(name, call)`, none by the extension module."""

    def __init__(self, index: Index, around: Callable[[str, Callable[[], int]], int]) -> None:
        self._library: Any = index._library
        self._around = around
        index._library, index._native = self, NoCalls()  # type: ignore[assignment]

    def __getattr__(self, name: str) -> Callable[..., int]:
        symbol: Callable[..., int] = getattr(self._library, name)
        return lambda *arguments: self._around(name, lambda: symbol(*arguments))


def in_threads(parts: Sequence[Callable[[], None]]) -> None:
    """Runs all parts at once, each in a thread of its own; raises what the first of them raised."""
    raised: List[BaseException] = []

    def run(part: Callable[[], None]) -> None:
        try:
            part()
        except BaseException as fault:
            raised.append(fault)

    threads = [threading.Thread(target=run, args=(part,), daemon=True) for part in parts]
    for thread in threads:
        thread.start()
    for thread in threads:
        thread.join(SECONDS)
        assert not thread.is_alive(), "a thread doesn't end"
    if raised:
        raise raised[0]


def numbered(number: int, row: Optional[Row]) -> Sets:
    """A row's number, increased."""
    return (number + (int.from_bytes(row.columns[0], "big") if row else 0)).to_bytes(8, "big")


class ThreadTest(unittest.TestCase):
    def setUp(self) -> None:
        self.index = Index()
        self.addCleanup(self.index.close)

    def test_puts_and_reads(self) -> None:
        commits: Set[int] = set()
        view = self.index.build(Prefix(b""))

        def work(own: int) -> None:
            for number in range(300):
                key = b"%d%04d" % (own, number)
                commit = self.index.put(key, key)
                commits.add(commit)
                self.assertEqual(self.index.get(key), Row(commit, (key,)))
                self.assertGreaterEqual(view.page(commit, key, 1).at, commit)
                totals = view.totals(commit)
                self.assertGreaterEqual(totals.at, commit)
                self.assertEqual(totals.count, totals.at)
                if number % 50 == 0:
                    keys = [at for at, _ in self.index.range(prefix=b"%d" % own)]
                    self.assertEqual(keys, [b"%d%04d" % (own, before) for before in range(number + 1)])

        in_threads([lambda own=own: work(own) for own in range(THREADS)])  # type: ignore[misc]
        self.assertEqual(commits, set(range(1, 300 * THREADS + 1)))
        rows = dict(self.index.range())
        self.assertEqual(({row.version for row in rows.values()}, view.count), (commits, len(commits)))
        self.assertTrue(all(row.columns == (key,) for key, row in rows.items()))

    def test_answers_of_many_sizes(self) -> None:
        """The room for answers is one for all threads: no thread sees another's."""
        for number in range(500):
            self.index.put(b"%04d" % number, b"x" * (number % 65))

        def work(own: int) -> None:
            for number in range(own, 300, THREADS):
                self.assertEqual(len(self.index.first(b"", 1 + number)), 1 + number)
                self.assertEqual(self.index[b"%04d" % number].columns, (b"x" * (number % 65),))

        in_threads([lambda own=own: work(own) for own in range(THREADS)])  # type: ignore[misc]

    def test_updates(self) -> None:
        def work() -> None:
            for _ in range(100):
                self.assertIsNotNone(self.index.update(b"n", lambda row: numbered(1, row)))

        in_threads([work] * THREADS)
        self.assertEqual(self.index[b"n"], Row(100 * THREADS, ((100 * THREADS).to_bytes(8, "big"),)))

    def test_a_pop_is_one_call(self) -> None:
        """A put of another thread, which comes after the pop has read the row, waits until it has removed it."""
        index, read, others = self.index, self.index._row, []

        def read_slowly(key: bytes, columns: Optional[Sequence[int]]) -> Optional[Row]:
            row = read(key, columns)
            others.append(threading.Thread(target=index.put, args=(b"a", b"w"), daemon=True))
            others[-1].start()
            others[-1].join(0.1)
            return row

        index.put(b"a", b"v")
        index._row = read_slowly  # type: ignore[method-assign]
        self.assertEqual(index.pop(b"a"), Row(1, (b"v",)))
        others[0].join(SECONDS)
        self.assertEqual(index.first(), [(b"a", Row(3, (b"w",)))])

    def test_one_call_at_a_time(self) -> None:
        inside: List[str] = []
        crowds: List[List[str]] = []

        def around(name: str, call: Callable[[], int]) -> int:
            inside.append(name)
            time.sleep(0.0002)
            if len(inside) > 1:
                crowds.append(list(inside))
            status = call()
            inside.remove(name)
            return status

        Watched(self.index, around)

        def work(own: int) -> None:
            for number in range(20):
                key = b"%d%d" % (own, number)
                self.index.put(key, b"v")
                self.index.get(key)
                self.index.first(key, 5)
                self.index.commits()

        in_threads([lambda own=own: work(own) for own in range(THREADS)])  # type: ignore[misc]
        self.assertEqual((crowds, self.index.commits()), ([], 20 * THREADS))

    def test_other_threads_run_during_a_call(self) -> None:
        for name in ("put", "get", "build_prefix"):
            self.assertFalse(type(getattr(self.index._library, name))._flags_ & FUNCFLAG_PYTHONAPI)

    def test_close_during_a_call(self) -> None:
        begun, may_end = threading.Event(), threading.Event()
        said: List[object] = []

        def around(name: str, call: Callable[[], int]) -> int:
            if name == "put":
                begun.set()
                self.assertTrue(may_end.wait(SECONDS))
            return call()

        Watched(self.index, around)
        putting = threading.Thread(target=lambda: said.append(self.index.put(b"a", b"v")), daemon=True)
        putting.start()
        self.assertTrue(begun.wait(SECONDS))
        closing = threading.Thread(target=lambda: said.append(self.index.close()), daemon=True)  # type: ignore
        closing.start()
        closing.join(0.1)
        self.assertTrue(closing.is_alive() and not said)
        may_end.set()
        putting.join(SECONDS)
        closing.join(SECONDS)
        self.assertEqual(said, [1, None])
        with self.assertRaisesRegex(Closed, "^the index is closed$"):
            self.index.get(b"a")

    def test_close_among_calls(self) -> None:
        counts: List[int] = []

        def work() -> None:
            count = 0
            try:
                while True:
                    self.index.put(b"%d" % count, b"v")
                    count += self.index.get(b"%d" % count) is not None
            except Closed:
                counts.append(count)

        def close() -> None:
            time.sleep(0.05)
            self.index.close()

        in_threads([work, work, close])
        self.assertEqual(len(counts), 2)
        self.assertIn(", closed", repr(self.index))

    def test_calls_inside_a_call(self) -> None:
        """A finalizer may run in the middle of a call, in its thread."""
        self.index.put(b"a", b"v" * 60)
        self.index.put(b"b", b"w")
        nested: List[Any] = []

        def around(name: str, call: Callable[[], int]) -> int:
            status = call()
            if name == "get" and not nested:
                nested.append(None)
                nested.extend([self.index.get(b"a"), self.index.put(b"c", b""), self.index.first(b"b")])
            return status

        Watched(self.index, around)
        in_threads([lambda: self.assertEqual(self.index.get(b"b"), Row(2, (b"w",)))])
        self.assertEqual(nested[1:], [Row(1, (b"v" * 60,)), 3, [(b"b", Row(2, (b"w",))), (b"c", Row(3, (b"",)))]])


class FinalizerTest(unittest.TestCase):
    def test_an_index_that_is_dropped_while_its_lock_is_held(self) -> None:
        """The garbage collector may drop an index in any thread: that waits for no lock."""
        index = Index()
        names: List[str] = []

        def around(name: str, call: Callable[[], int]) -> int:
            names.append(name)
            return call()

        Watched(index, around)
        lock, held, may_end = index._lock, threading.Event(), threading.Event()

        def hold() -> None:
            with lock:
                held.set()
                may_end.wait(2 * SECONDS)

        holding = threading.Thread(target=hold, daemon=True)
        holding.start()
        self.assertTrue(held.wait(SECONDS))
        dropping = [index]
        del index

        def drop() -> None:
            dropping.clear()
            gc.collect()

        in_threads([drop])
        self.assertEqual(names, ["close"])
        may_end.set()
        holding.join(SECONDS)

    def test_what_a_view_and_a_range_keep(self) -> None:
        """An index lives as long as a view of it, or a range that isn't at its end."""
        with Index() as index:
            index.put(b"a", b"v")
            view, pairs = index.build(Range()), index.range()
            self.assertIs(view.index, index)
        with self.assertRaises(Closed):
            view.page()
        with self.assertRaises(Closed):
            next(pairs)
        view, pairs = Index().build(Range()), Index().range()
        gc.collect()
        self.assertEqual((view.count, list(pairs)), (0, []))
