"""Tests of the extension module of the embedded index: that its calls are those of ctypes, also for unusual arguments,
in threads and in finalizers, and that it leaks nothing. test_embedded.py runs them, with the module and without it."""
from __future__ import annotations

import gc
import os
import signal
import subprocess
import sys
import threading
import unittest
from pathlib import Path
from typing import Any, Callable, Dict, List, Sequence, Tuple

from rowanspan import native
from rowanspan.embedded import AtLeast, Closed, Index, Page, Prefix, Range, Row
from test_bad_input import WRONG_TYPES

HERE = Path(__file__).resolve().parent
SECONDS = 60.0
IS_USED = not os.environ.get("ROWANSPAN_NO_NATIVE") and native.module() is not None
WHICH = "from rowanspan.embedded import Index; print(type(Index()._native).__name__)"
# a hundred thousand calls of each kind, and how many kilobytes more the process has after as many more
LEAKING = """import resource, sys
sys.path.insert(0, sys.argv[1])
from rowanspan.embedded import Index, OtherVersion, Prefix
def peak():
    return resource.getrusage(resource.RUSAGE_SELF).ru_maxrss
def calls(index, view, times):
    for number in range(times):
        key = b"%06d" % (number % 500)
        index.put(key, {0: key, 1: b"\\xff" * 8})
        index.get(key), index.get(key, None, [1, 0]), index.get(b"none"), b"none" in index
        view.sums, view.totals(), view.page(0, key, 2)
        try:
            index.put_if(key, b"", 1)
        except OtherVersion as fault:
            index.put_if(key, b"x", fault.detail)
        if number % 10 == 0:
            index.remove(key), index.remove(key), index.first(key, 20), list(index.range(prefix=b"0000"))
            index.last(key, 20), index.last(), list(index.range(prefix=b"0000", reverse=True))
            index.count(key, most=20), index.count(prefix=b"0000"), index.count(), len(index), bool(index)
with Index(columns=2) as index:
    view = index.build(Prefix(b""))
    calls(index, view, 20000)
    before, counts = peak(), [sys.getrefcount(it) for it in (None, True, NotImplemented, b"", ())]
    calls(index, view, 100000)
    print(peak() - before)
    print(max(sys.getrefcount(it) - count for it, count in zip((None, True, NotImplemented, b"", ()), counts)))
"""


class Key(bytes):
    """Bytes of a class of their own."""


class Number(int):
    """A number of a class of its own."""


def outcome(call: Callable[[], Any]) -> Any:
    """What a call returns, or raises."""
    try:
        return call()
    except Exception as fault:
        return type(fault), str(fault), getattr(fault, "detail", None)


# calls of each kind, with arguments that are usual, unusual, out of bounds and refused
CALLS: List[Tuple[str, Sequence[Any]]] = [
    *[("put", (key, sets)) for key in (b"a", Key(b"b"), bytearray(b"c"), bytes(1025), "d") for sets in (
        b"v", Key(b"w"), bytearray(b"x"), bytes(64), bytes(65), {}, {0: b"y"}, {1: b"z", 0: b"\xff" * 8}, {2: b""},
        {-1: b""}, {256: b""}, {2 ** 70: b""}, {True: b"t"}, {Number(1): b"n"}, {0: Key(b"k")}, {0: "s"}, {"0": b""},
        [(0, b"1"), (1, b"2")], [(0, b"1"), (0, b"2")], {number: b"" for number in range(17)})],
    *[("put_if", (b"a", b"v", version)) for version in (0, 1, True, Number(2), -1, 2 ** 64 - 1, 2 ** 64, "1", None)],
    *[("get", (key, None, columns)) for key in (b"a", b"none", Key(b"b"), bytes(1025), "a", None) for columns in (
        None, (), [], (0,), [1, 0], b"\0", range(2), (0, 0), (2,), (256,), (-1,), (2 ** 70,), (True,), [Number(1)],
        ["0"], 0, tuple(range(17)), (0,) * 16)],
    *[("first", (start, limit, columns)) for start in (b"", b"b", Key(b"b"), bytes(1025), 5) for limit in (
        0, 1, 1000, 1001, 65535, 65536, -1, 2 ** 70, True, Number(2), "1", None) for columns in (None, [1], (2,), "0")],
    *[("last", (stop, limit, columns)) for stop in (None, b"", b"b", Key(b"b"), bytearray(b"c"), bytes(1025), 5)
      for limit in (0, 1, 1000, 1001, 65535, 65536, -1, 2 ** 70, True, Number(2), "1", None)
      for columns in (None, [1], (2,), "0")],
    *[("get_many", (keys, columns)) for keys in ((), [b"a"], [Key(b"b"), b"a", bytearray(b"c")], [b"a", bytes(1025)],
                                                 [b"a"] * 1000, [b"a"] * 1001, ["a"], b"a", None)
      for columns in (None, (), [1, 0], (2,), (256,), 0)],
    *[("count", (start, stop)) for start in (b"", b"b", Key(b"b"), bytearray(b"c"), bytes(1025), "a", None)
      for stop in (None, b"", b"b", Key(b"c"), bytearray(b"c"), bytes(1025), 5)],
    *[("_page", (number, floor, start, limit)) for number in (1, 2, 0, -1, 2 ** 64, True, "1")
      for floor in (0, 5, 2 ** 64 - 1, 2 ** 64, Number(3)) for start in (b"", Key(b"b"), bytes(1025))
      for limit in (1, 1000, 0, "1")],
    *[("_totals", (number, floor)) for number in (1, 2, 0, -1, 2 ** 64, True, Number(1), "1", None)
      for floor in (0, 5, 2 ** 64 - 1, 2 ** 64, Number(3), -1, "0")],
    *[("remove", (key,)) for key in (b"a", b"a", Key(b"b"), bytearray(b"c"), bytes(1025), "a", None)], ("__len__", ()),
]


class NativeTest(unittest.TestCase):
    def setUp(self) -> None:
        self.index = Index(columns=2)
        self.addCleanup(self.index.close)

    def by_ctypes(self) -> Index:
        """An index whose calls are all made by ctypes."""
        index = Index(columns=2)
        self.addCleanup(index.close)
        index._native = native.NoCalls()
        return index

    def test_when_it_is_used(self) -> None:
        self.assertEqual(type(self.index._native).__name__, "Calls" if IS_USED else "NoCalls")
        self.assertIs(type(self.by_ctypes()._native), native.NoCalls)
        for turned_off, wanted in (("1", "NoCalls"), ("", "Calls" if native.module() else "NoCalls")):
            done = subprocess.run([sys.executable, "-c", WHICH], cwd=HERE, capture_output=True, text=True, check=True,
                                  env={**os.environ, "ROWANSPAN_NO_NATIVE": turned_off}, timeout=SECONDS)
            self.assertEqual(done.stdout, wanted + "\n")

    def test_same_calls(self) -> None:
        """Each call returns and raises what it does by ctypes."""
        indexes = self.index, self.by_ctypes()
        for index in indexes:
            index.build(Prefix(b""))
        wrong = [(name, words) for name, words in WRONG_TYPES if name in {name for name, _ in CALLS}]
        for _ in range(2):
            for name, words in CALLS + wrong:
                ours, theirs = (outcome(lambda: getattr(index, name)(*words)) for index in indexes)
                self.assertEqual((name, words, ours), (name, words, theirs))
                self.assertIs(type(ours), type(theirs))
            self.assertEqual(*(index.first() for index in indexes))
            self.assertEqual(*(index.commits() for index in indexes))
        for index in indexes:
            index.close()
        for name, words in CALLS:
            ours, theirs = (outcome(lambda: getattr(index, name)(*words)) for index in indexes)
            self.assertEqual((name, words, ours), (name, words, theirs))
        self.assertEqual(outcome(lambda: self.index.get(b"a")), (Closed, "the index is closed", None))

    def test_what_is_read(self) -> None:
        index = self.index
        for number in range(3):
            index.put(b"%d" % number, {1: b"\xff" * 8})
        view, sum_ = index.build(Range(b"", None, AtLeast(1, 1))), 3 * (2 ** 64 - 1)
        row = index[b"0"]
        self.assertEqual((row, hash(row), repr(row), vars(row)), (
            Row(1, (b"", b"\xff" * 8)), hash(Row(1, (b"", b"\xff" * 8))), repr(Row(1, (b"", b"\xff" * 8))),
            {"version": 1, "columns": (b"", b"\xff" * 8)}))
        with self.assertRaises(AttributeError):
            row.version = 2  # type: ignore[misc]
        page = view.page(limit=1)
        self.assertEqual(page, Page(3, 3, (0, sum_), [(b"0", row)]))
        self.assertEqual((view.at, view.count, view.sums), (3, 3, (0, sum_)))
        self.assertEqual(index.first(b"1", 5, (1,)), [(b"%d" % number, Row(number + 1, (b"\xff" * 8,)))
                                                      for number in (1, 2)])

    def test_answers_that_grow(self) -> None:
        for number in range(1200):
            self.index.put(b"%04d" % number + bytes(number % 500), {0: b"x" * 64, 1: b"y" * (number % 65)})
        limits = (1, 1000, 3, 500)
        theirs = [(self.index.first(b"", limit), self.index.last(None, limit)) for limit in limits]
        self.index._native = native.NoCalls()
        self.assertEqual(theirs, [(self.index.first(b"", limit), self.index.last(None, limit)) for limit in limits])

    def test_calls_in_finalizers(self) -> None:
        """The collector runs inside a call, when its answer becomes objects, and finalizers call the same index."""
        index, nested, inside, rows = self.index, [], [False], {}
        for number in range(200):
            rows[b"%03d" % number] = Row(index.put(b"%03d" % number, b"v" * (number % 64)), (b"v" * (number % 64), b""))

        class Caller:
            def __init__(self) -> None:
                self.itself = self

            def __del__(self) -> None:
                inside[0] = inside[0] or is_reading
                nested.append(index.first(b"", 150) == list(rows.items())[:150] and index[b"007"] == rows[b"007"])

        before, is_reading = gc.get_threshold(), False
        gc.set_threshold(5, 1, 1)
        try:
            for number in range(100):
                Caller()
                is_reading = True
                read = index.first(b"%03d" % number, 100)
                is_reading = False
                self.assertEqual(read, list(rows.items())[number:number + 100])
        finally:
            gc.set_threshold(*before)
        gc.collect()
        self.assertEqual((nested, inside), ([True] * 100, [True]))

    def test_the_lock(self) -> None:
        """While a thread holds the lock, a call of another one waits, and a signal interrupts it."""
        held, may_end = threading.Event(), threading.Event()

        def hold() -> None:
            with self.index._lock, self.index._lock:
                self.index.put(b"a", b"v")
                held.set()
                may_end.wait(SECONDS)

        def handler(*_: object) -> None:
            raise InterruptedError

        holding = threading.Thread(target=hold, daemon=True)
        holding.start()
        self.assertTrue(held.wait(SECONDS))
        for call in (lambda: self.index._native.get(b"a", None), lambda: self.index._native.range(b"", 1, None),
                     lambda: self.index._native.range_back(None, 1, None),
                     lambda: self.index._native.count(b"", None, 1), self.index._native.len,
                     lambda: self.index._native.put(self.index, b"a", b"w"), lambda: self.index._native.totals(1, 0)):
            self.assertIs(call(), NotImplemented)
        before = signal.signal(signal.SIGALRM, handler)
        try:
            for call in (lambda: self.index.get(b"a"), self.index.commits):
                signal.setitimer(signal.ITIMER_REAL, 0.05)
                with self.assertRaises(InterruptedError):
                    call()
        finally:
            signal.setitimer(signal.ITIMER_REAL, 0)
            signal.signal(signal.SIGALRM, before)
            may_end.set()
            holding.join(SECONDS)
        self.assertEqual((self.index[b"a"].version, self.index.commits()), (1, 1))
        with self.assertRaises(RuntimeError):
            self.index._lock.__exit__(None, None, None)

    @unittest.skipUnless(IS_USED, "the extension module isn't used")
    def test_it_leaks_nothing(self) -> None:
        done = subprocess.run([sys.executable, "-c", LEAKING, str(HERE)], capture_output=True, text=True, check=True,
                              timeout=10 * SECONDS)
        grown, references = map(int, done.stdout.split())
        self.assertLess(grown, 2048, f"{grown} KiB more")
        self.assertLess(references, 1000)

    @unittest.skipUnless(IS_USED, "the extension module isn't used")
    def test_unfit_calls(self) -> None:
        """Nothing but the package calls the module. What it can't use is an exception there too."""
        index: Any = self.index
        made, calls = type(index._native), index._native
        for call in (calls.get, lambda: calls.get(b"a"), lambda: calls.range(b"", 1), lambda: calls.view(1),
                     lambda: calls.range_back(b"", 1), lambda: calls.count(b"", None), lambda: calls.len(1),
                     lambda: calls.put(b"a", b"v"), lambda: calls.totals(), lambda: calls.remove(b"a"),
                     lambda: calls.put_if(b"a", b"v", 0), made, lambda: made(handle=1)):
            with self.assertRaises(TypeError):
                call()
        handle, log, addresses = index._handle, index._log.state, {name: 1 for name in native.FUNCTIONS}
        for missing in native.FUNCTIONS:
            some: Dict[str, int] = {name: 1 for name in addresses if name != missing}
            with self.assertRaisesRegex(ValueError, f"^there is no address of {missing}$"):
                made(handle, 1, log, 1, some, True, Row, Page)
        with self.assertRaises(TypeError):
            made(handle, 1, log, 1, {**addresses, "get": "1"}, True, Row, Page)
