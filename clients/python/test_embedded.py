#!/usr/bin/env python3
"""Tests of the embedded index, over the built library: also those of map_cases, test_embedded_views,
test_embedded_back, test_embedded_batches, test_embedded_transactions, test_embedded_count, test_embedded_many,
test_embedded_threads, test_embedded_native and test_embedded_folder. Prints 'N passed, M failed' last."""
from __future__ import annotations

import ctypes
import inspect
import os
import random
import re
import subprocess
import sys
import unittest
from bisect import bisect_left
from pathlib import Path
from typing import Dict, List, Optional, Tuple

import rowanspan
import rowanspan.core
import rowanspan.embedded
import rowanspan.mapping
import test_embedded_back
import test_embedded_batches
import test_embedded_count
import test_embedded_folder
import test_embedded_many
import test_embedded_native
import test_embedded_threads
import test_embedded_transactions
import test_embedded_views
from counting import run_counted
from map_cases import MapCases
from rowanspan.embedded import (MAX_KEY_BYTES, AtLeast, BadColumn, BadLimit, BadRange, Behind, Closed, ColumnTooLong,
                                Delta, Equals, Index, KeyTooLong, NoLibrary, NoSuchView, OtherVersion, Page, Prefix,
                                Range, Row, RowMap, Tidied, TooLong, TooManyViews, Totals, WrongIndex)
from rowanspan.library import column_sets
from test_bad_input import WRONG_TYPES
from test_embedded_views import raises
from test_shell import example_of

HERE = Path(__file__).resolve().parent


def rows() -> None:
    with Index() as index:
        assert index.get(b"apple") is None and not index
        assert index.put(b"apple", b"red") == 1 and index
        assert index.get(b"apple") == Row(1, (b"red",))
        assert index.put(b"fig", {0: b""}) == 2
        assert index.first() == [(b"apple", Row(1, (b"red",))), (b"fig", Row(2, (b"",)))]
        assert index.first(b"b", 1) == [(b"fig", Row(2, (b"",)))]
        assert index.remove(b"apple") == 3 and index.remove(b"apple") is None
        assert index.commits() == 3 and index.columns() == 1 and index.nodes() == 2 and len(index) == 1
        assert index.tidy(b"apple") is Tidied.NOTHING
        assert index.put(b"\0\0", b"\0") == 4 and index.get(b"\0\0") == Row(4, (b"\0",))
        assert index.put(b"", b"") == 5 and index.first(limit=1) == [(b"", Row(5, (b"",)))]


def built_library() -> Path:
    named = os.environ.get("ROWANSPAN_LIBRARY")
    return Path(named).absolute() if named else HERE.parents[1] / "dist" / "librowanspan.so"


def a_library_named_without_its_folder() -> None:
    """It is looked for in the present folder, and not where the loader looks. The link to it is a library too."""
    built, before = built_library(), os.getcwd()
    os.chdir(built.parent)
    try:
        for name in (built.name, built.resolve().name):
            with Index(library=name) as index:
                assert index.put(b"a", b"") == 1
    finally:
        os.chdir(before)


def functions_of_the_header() -> None:
    """The functions of the library that the package doesn't use: what can't fail returns its value, the pointer to a
    number may be null, and a get of a column writes its bytes alone."""
    library, size, u64 = ctypes.CDLL(str(built_library())), ctypes.c_size_t, ctypes.c_uint64
    names = ("commits", "len", "nodes", "columns", "collect")
    for name in names:
        getattr(library, f"rowanspan_{name}").restype = u64
    index, length, room = ctypes.c_void_p(), u64(9), ctypes.create_string_buffer(64)
    sets, count = column_sets({1: b"red"})
    assert library.rowanspan_open(ctypes.byref(index), u64(2), u64(16), u64(0)) == 0
    assert library.rowanspan_put(index, b"apple", size(5), sets, size(count), None) == 0
    for column, status, wanted in ((1, 0, b"red"), (0, 0, b""), (2, BadColumn.number, b"")):
        got = library.rowanspan_get_column(index, b"apple", size(5), ctypes.c_uint8(column), room, size(64),
                                           ctypes.byref(length))
        assert (got, room.raw[:length.value]) == (status, wanted)
    assert [getattr(library, f"rowanspan_{name}")(index) for name in names] == [1, 1, 2, 2, 0]
    library.rowanspan_close(index)


def columns() -> None:
    with Index(columns=3) as index:
        index.put(b"k", [(2, b"c"), (0, b"a")])
        assert index.get(b"k") == Row(1, (b"a", b"", b"c"))
        assert index.get(b"k", columns=[2, 0]) == Row(1, (b"c", b"a"))
        assert index.first(columns=[1]) == [(b"k", Row(1, (b"",)))]
        raises(BadColumn, lambda: index.get(b"k", columns=[3]))
        raises(BadColumn, lambda: index.put(b"k", {3: b""}))
        raises(ColumnTooLong, lambda: index.put(b"k", bytes(65)))
        raises(KeyTooLong, lambda: index.put(bytes(MAX_KEY_BYTES + 1), b""))
        assert index.put(bytes(MAX_KEY_BYTES), b"") == 2
        assert index.get(bytes(MAX_KEY_BYTES), columns=[0]) == Row(2, (b"",))
        raises(BadLimit, lambda: index.first(limit=0))
        raises(BadLimit, lambda: index.first(limit=65536))
        raises(BadColumn, lambda: index.put(b"k", {256: b""}))
        raises(BadColumn, lambda: Index(columns=17))
        raises(BadLimit, lambda: Index(log_capacity=0))


def found_by_put_if(index: Index, key: bytes, version: int) -> Optional[int]:
    """The version of the row by which a conditional put is refused."""
    fault = raises(OtherVersion, lambda: index.put_if(key, b"if", version))
    assert isinstance(fault, OtherVersion)
    return fault.detail


def conditional_puts() -> None:
    with Index() as index:
        assert found_by_put_if(index, b"apple", 1) == 0
        assert index.put_if(b"apple", b"red", 0) == 1
        assert found_by_put_if(index, b"apple", 0) == 1
        assert index.put_if(b"apple", {0: b"green"}, 1) == 2
        assert index.get(b"apple") == Row(2, (b"green",))
        view = index.build(Prefix(b"a"))
        assert index.put_if(b"apricot", b"", 0) == 3 and view.page(3).count == 2
        assert index.remove(b"apple") == 4
        assert found_by_put_if(index, b"apple", 2) == 0
        raises(BadColumn, lambda: index.put_if(b"apple", {1: b""}, 9))
        raises(TooLong, lambda: index.put_if(b"apple", b"", -1))
        assert index.commits() == 4


def views() -> None:
    with Index() as index:
        index.put(b"a1", b"\5")
        view = index.build(Prefix(b"a"))
        large = index.build(Range(b"a", b"c", AtLeast(0, 6)))
        same = index.build(Range(test=Equals(0, b"\7")))
        index.put(b"a2", b"\7")
        index.put(b"b", b"\x09")
        assert view.page() == Page(3, 2, (12,), [(b"a1", Row(1, (b"\5",))), (b"a2", Row(2, (b"\7",)))])
        assert large.page(start=b"b").rows == [(b"b", Row(3, (b"\x09",)))]
        assert large.sums == (16,) and same.count == 1
        assert view.totals(3) == Totals(3, 2, (12,)) and large.totals().sums == (16,)
        fault = raises(Behind, lambda: view.totals(4))
        assert isinstance(fault, Behind) and fault.detail == 3
        fault = raises(Behind, lambda: view.page(floor=4))
        assert isinstance(fault, Behind) and fault.detail == 3
        view.drop()
        raises(NoSuchView, view.page)
        raises(NoSuchView, view.drop)
        raises(NoSuchView, lambda: index.apply(view))
        with Index() as other:
            raises(WrongIndex, lambda: other.apply(view))
        raises(BadRange, lambda: index.build(Range(b"b", b"a")))
        for _ in range(62):
            index.build(Prefix(b"z"))
        raises(TooManyViews, lambda: index.build(Prefix(b"z")))


def feeds() -> None:
    with Index(log_retention=2) as index:
        assert index.feed() == []
        index.put(b"k", b"one")
        index.put(b"k", b"two")
        index.remove(b"k")
        one, two = Row(1, (b"one",)), Row(2, (b"two",))
        assert index.feed(1) == [Delta(2, b"k", one, two), Delta(3, b"k", two, None)]
        assert index.feed(2, 1) == [Delta(3, b"k", two, None)]
        fault = raises(Behind, lambda: index.feed(0))
        assert isinstance(fault, Behind) and fault.detail == 1
        raises(BadLimit, lambda: index.feed(1, 1001))


def large_answers() -> None:
    with Index() as index:
        for number in range(1500):
            index.put(b"%08d" % number, b"x" * 60)
        assert len(index.first(b"00000400")) == 1000 and len(index.first(b"00000600")) == 900
        assert index[b"00001499"] == Row(1500, (b"x" * 60,))


def epochs() -> None:
    with Index() as index:
        keys = [b"k" * 40 + bytes((last,)) for last in range(20)]
        for key in keys:
            index.put(key, b"")
        for key in keys:
            index.remove(key)
        nodes = index.nodes()
        while any([index.tidy(key) is not Tidied.NOTHING for key in keys]):
            pass
        assert index.advance() == 1 and index.collect() == nodes - 2 and index.nodes() == 2


def closed() -> None:
    index = Index()
    index.close()
    index.close()
    raises(Closed, lambda: index.put(b"a", b""))
    raises(Closed, lambda: index.get(b"a"))
    raises(Closed, index.commits)
    raises(Closed, lambda: len(index))
    raises(Closed, lambda: bool(index))
    raises(Closed, lambda: next(index.range()))
    raises(Closed, lambda: index.build(Prefix(b"")))
    raises(Closed, lambda: index.view(1).count)
    assert re.fullmatch("<rowanspan.Index at 0x[0-9a-f]+, closed>", repr(index))
    raises(NoLibrary, lambda: Index(library="/nowhere/librowanspan.so"))
    raises(NoLibrary, lambda: Index(library="/dev/null"))


def wrong_types() -> None:
    """What the client raises a TypeError for, the index does too, and nothing is done."""
    with Index() as index:
        index.put(b"a", b"v")
        tried = 0
        for name, arguments in WRONG_TYPES:
            if hasattr(index, name):
                raises(TypeError, lambda: getattr(index, name)(*arguments))
                tried += 1
        for name in ("feed", "apply"):
            raises(TypeError, lambda: getattr(index, name)("1"))
            raises(TypeError, lambda: getattr(index, name)(None))
        for wrong in ("1", 1.0, None):
            raises(TypeError, lambda: Index(columns=wrong))
        assert tried > 60 and index.commits() == 1 and index.first() == [(b"a", Row(1, (b"v",)))]
        assert index.put(bytearray(b"b"), {0: memoryview(b"w")}) == 2 and index.get(memoryview(b"b")) == Row(2, (b"w",))


def names_of_the_client() -> None:
    """Each method of a map has the same parameters for the client and here, with the same defaults and a text. Rows,
    views and what is raised are the same classes."""
    methods = [name for name in vars(RowMap)
               if not name.startswith("__") or name.endswith(("item__", "contains__", "len__"))]
    assert {"get", "get_many", "put", "put_if", "update", "remove", "first", "last", "range", "count", "tidy", "build",
            "view", "pop", "setdefault", "items", "keys", "values", "__getitem__", "__setitem__", "__delitem__",
            "__contains__", "__len__"} <= set(methods)
    for name in [name for name in methods if callable(getattr(RowMap, name))]:
        client, own = getattr(rowanspan.Client, name), getattr(Index, name)
        assert inspect.signature(own) == inspect.signature(client) == inspect.signature(getattr(RowMap, name)), name
        assert inspect.getdoc(own) and inspect.getdoc(client), name
    for name in (*rowanspan.core.__all__, *rowanspan.mapping.__all__):
        assert getattr(rowanspan.embedded, name) is getattr(rowanspan, name), name


def the_examples_of_the_pages() -> None:
    for path, said in ((HERE.parents[1] / "docs" / "EMBEDDING.md",
                        "b'apple' 2\nTotals(at=2, count=1, sums=(444300879214,))\n"),
                       (HERE / "README.md", "Row(version=1, columns=(b'red',))\nb'apple' (b'green',)\n1\n")):
        done = subprocess.run([sys.executable, "-c", example_of(path)], cwd=HERE, check=True, capture_output=True,
                              text=True)
        assert done.stdout == said, done.stdout


def the_shell() -> None:
    lines = "put 61 0=76,1=05\nputif 61 2 0=77\nget 61 1,0\nget 62 all\nrange - 10 all\nbuild prefix 61 any\n" \
            "put 62 -\nview 1 2 - 10\nview 1 3 - 10\nremove 62\nremove 62\ntidy 62\ndrop 1\ndrop 1\n" \
            f"put 61 2=76\nnonsense\nput 61 0={'00' * 65}\nput 61 0={'00' * 256}\n"
    said = "done 0 1 put 1\nrefused 16 1\ndone 1 1 row 1 05,76\ndone 1 1 absent\ndone 1 1 rows 1 61:1:76,05\n" \
           "done 1 1 built 1\ndone 1 2 put 2\nview 2 1 118,5 1 61:1:76,05\nrefused 12 2\ndone 2 3 removed 3\n" \
           "done 3 3 absent\ndone 3 3 tidied none\ndropped\nrefused 11\nrefused 3\nbad line\nrefused 4\nbad line\n"

    def run(*words: str) -> Tuple[int, str, int]:
        done = subprocess.run([sys.executable, str(HERE / "rowan"), *words], input=lines, capture_output=True,
                              text=True, check=False)
        return done.returncode, done.stdout, done.stderr.count("\n")

    assert run("--embedded", "--columns", "2") == (1, said, 2), run("--embedded", "--columns", "2")
    assert run("--embedded", "--text", "put", "a", "0=b") == (0, "done 0 1 put 1\n", 0)
    assert run("--embedded", "--columns", "17")[:2] == run("--embedded", "--columns", "0")[:2] == (2, "")


class PlainMap:
    """A plain map with a view, and calls by chance of an index that has to be the same."""

    def __init__(self, index: Index) -> None:
        self.index, self.chance = index, random.Random(7)
        self.rows: Dict[bytes, Row] = {}
        self.commits = 0
        self.view = index.build(Prefix(b"a", AtLeast(1, 100)))

    def key(self) -> bytes:
        front = b"a" * self.chance.choice((0, 0, 0, 8, 16))
        return front + bytes(self.chance.choice(b"abc") for _ in range(self.chance.randrange(5)))

    def from_key(self, key: bytes, limit: int) -> List[Tuple[bytes, Row]]:
        keys = sorted(self.rows)
        return [(at, self.rows[at]) for at in keys[bisect_left(keys, key):][:limit]]

    def set(self, key: bytes, sets: Dict[int, bytes]) -> int:
        """Puts into the plain map; returns the number of the commit."""
        self.commits += 1
        old = self.rows[key].columns if key in self.rows else (b"", b"")
        self.rows[key] = Row(self.commits, tuple(sets.get(column, old[column]) for column in (0, 1)))
        return self.commits

    def put(self, key: bytes) -> None:
        numbers = self.chance.sample((0, 1), self.chance.randrange(3))
        sets = {column: self.chance.randbytes(self.chance.randrange(5)) for column in numbers}
        assert self.index.put(key, sets) == self.set(key, sets)

    def put_if(self, key: bytes) -> None:
        version = self.rows[key].version if key in self.rows else 0
        assert found_by_put_if(self.index, key, version + 1) == version
        assert self.index.put_if(key, b"if", version) == self.set(key, {0: b"if"})

    def remove(self, key: bytes) -> None:
        self.commits += key in self.rows
        assert self.index.remove(key) == (self.commits if self.rows.pop(key, None) else None)

    def get(self, key: bytes) -> None:
        assert self.index.get(key) == self.rows.get(key)

    def first(self, key: bytes) -> None:
        limit = self.chance.randrange(1, 30)
        assert self.index.first(key, limit) == self.from_key(key, limit)

    def page(self, key: bytes) -> None:
        shown = [(at, row) for at, row in self.from_key(b"a", 1000) if at.startswith(b"a")
                 and int.from_bytes(row.columns[1], "big") >= 100]
        sums = tuple(sum(int.from_bytes(row.columns[column], "big") for _, row in shown) for column in (0, 1))
        assert self.view.page(self.commits) == Page(self.commits, len(shown), sums, shown)
        assert self.view.totals(self.commits) == Totals(self.commits, len(shown), sums)


def random_calls() -> None:
    """20,000 calls by chance against a plain map."""
    with Index(columns=2) as index:
        plain = PlainMap(index)
        calls = (plain.put_if, *[plain.put] * 3, *[plain.remove] * 2, *[plain.get] * 2, plain.first, plain.page)
        for _ in range(20000):
            plain.chance.choice(calls)(plain.key())
            assert len(index) == len(plain.rows)
        assert index.commits() == plain.commits > 10000


def memory_is_flat() -> None:
    """A thousand times opened, filled and closed, in a process of its own."""
    code = ("import resource, sys; sys.path.insert(0, sys.argv[1]); from rowanspan.embedded import Index\n"
            "def once():\n"
            "    with Index() as index:\n"
            "        for number in range(100): index.put(b'%05d' % number, b'x' * 60)\n"
            "for _ in range(200): once()\n"
            "before = resource.getrusage(resource.RUSAGE_SELF).ru_maxrss\n"
            "for _ in range(1000): once()\n"
            "print(resource.getrusage(resource.RUSAGE_SELF).ru_maxrss - before)\n")
    grown = subprocess.run([sys.executable, "-c", code, str(HERE)], check=True,
                           capture_output=True, text=True).stdout
    assert int(grown) < 4096, f"{grown.strip()} KiB more after a thousand times"


CASES = (rows, a_library_named_without_its_folder, functions_of_the_header, columns, conditional_puts, views,
         *test_embedded_views.CASES, feeds, large_answers, epochs, closed, wrong_types, names_of_the_client,
         the_examples_of_the_pages, the_shell, random_calls, memory_is_flat)


class EmbeddedMapTest(MapCases, unittest.TestCase):
    def setUp(self) -> None:
        self.index = Index(columns=2)
        self.addCleanup(self.index.close)


def main() -> int:
    load = unittest.defaultTestLoader
    cases = unittest.TestSuite(unittest.FunctionTestCase(case) for case in CASES)
    return run_counted(unittest.TestSuite([cases, load.loadTestsFromTestCase(EmbeddedMapTest),
                                           load.loadTestsFromModule(test_embedded_back),
                                           load.loadTestsFromModule(test_embedded_batches),
                                           load.loadTestsFromModule(test_embedded_transactions),
                                           load.loadTestsFromModule(test_embedded_count),
                                           load.loadTestsFromModule(test_embedded_many),
                                           load.loadTestsFromModule(test_embedded_threads),
                                           load.loadTestsFromModule(test_embedded_native),
                                           load.loadTestsFromModule(test_embedded_folder)]))


if __name__ == "__main__":
    sys.exit(main())
