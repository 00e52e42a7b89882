"""Tests of what the client and the embedded index share: ranges, updates and views. test_mapping.py runs them over the
stand-in, and test_embedded.py over the library."""
from __future__ import annotations

import inspect
import operator
from typing import Any, Callable, Iterable, List, Optional, Sequence, Tuple

from rowanspan import (MAX_KEY_BYTES, AtLeast, BadColumn, BadLimit, BadRange, Behind, ColumnTooLong, KeyTooLong,
                       NoSuchView, OtherVersion, Page, Prefix, Range, Row, RowMap, Sets, TooLong, Totals,
                       View)

KEYS = [b"", b"\0", b"a", b"b", b"b\0", *[b"ba%03d" % number for number in range(150)], b"b\xff", b"b\xff\xff", b"c",
        b"\xff", b"\xff\xff", bytes((255,)) * MAX_KEY_BYTES]
STARTS = (b"", b"b", b"ba007", b"ba007\0", b"bb", b"c", b"d", b"\xff\xff\xff")
STOPS = (None, b"", b"a", b"b", b"ba1", b"bb", b"c", b"\xff", bytes((255,)) * MAX_KEY_BYTES)
PREFIXES = (None, b"", b"b", b"ba", b"ba0", b"ba149", b"bb", b"b\xff", b"\xff", bytes(MAX_KEY_BYTES))
LIMITS = (None, 0, 1, 60, 61, 5000)


def keys_of(pairs: Iterable[Tuple[bytes, Row]]) -> List[bytes]:
    return [key for key, _ in pairs]


def is_wanted(key: bytes, start: bytes, stop: Optional[bytes], prefix: Optional[bytes]) -> bool:
    return key >= start and (stop is None or key < stop) and key.startswith(prefix or b"")


class MapCases:
    """The cases, for a `unittest.TestCase` whose `index` is new for each test and has two columns."""

    index: RowMap
    assertEqual: Callable[..., None]
    assertRaises: Callable[..., Any]
    assertRaisesRegex: Callable[..., Any]
    assertIs: Callable[..., None]
    assertIsNone: Callable[..., None]
    assertTrue: Callable[..., None]
    assertFalse: Callable[..., None]
    subTest: Callable[..., Any]

    def fill(self, keys: Sequence[bytes]) -> None:
        for key in keys:
            self.index.put(key, key[:8])

    # -- rows

    def test_as_a_map(self) -> None:
        index = self.index
        index.put(b"a", {0: b"v", 1: b"w"})
        self.assertEqual((index[b"a"], b"a" in index, b"b" in index), (Row(1, (b"v", b"w")), True, False))
        with self.assertRaises(KeyError) as met:
            index[b"b"]
        self.assertEqual(met.exception.args, (b"b",))
        self.assertEqual((index.get(b"b", 5), index.get(b"a", 5)), (5, Row(1, (b"v", b"w"))))
        self.assertEqual(index.get(b"a", None, [1]), Row(1, (b"w",)))
        wrong: Any = index
        for call in (lambda: wrong["a"], lambda: "a" in wrong, lambda: iter(wrong), lambda: wrong[b"a":b"b"],
                     lambda: reversed(wrong), lambda: list(wrong)):
            with self.assertRaises(TypeError):
                call()

    def test_len(self) -> None:
        """A put over a row adds none, and what is refused or finds no row leaves the number as it is."""
        index = self.index
        self.assertEqual((len(index), index.remove(b"a"), len(index)), (0, None, 0))
        self.fill([b"a", b"", b"a" * 20, b"a", b"a" * 20])
        self.assertEqual(len(index), 3)
        with self.assertRaises(OtherVersion):
            index.put_if(b"b", b"", 9)
        with self.assertRaises(BadColumn):
            index.put(b"b", {2: b""})
        self.assertEqual((len(index), index.put_if(b"b", b"", 0), len(index)), (3, 6, 4))
        calls: List[Tuple[Callable[[], object], int]] = [
            (lambda: index.remove(b"a"), 3), (lambda: index.remove(b"a"), 3), (lambda: index.pop(b""), 2),
            (lambda: index.setdefault(b"", b"v"), 3), (lambda: index.setdefault(b"", b"w"), 3),
            (lambda: index.tidy(b"a"), 3), (lambda: index.build(Prefix(b"")), 3)]
        for call, count in calls:
            call()
            self.assertEqual((len(index), len(list(index.keys()))), (count, count))

    def test_get_many(self) -> None:
        index = self.index
        self.assertEqual((index.get_many([]), index.get_many([b"a", b""])), ([], [None, None]))
        a, b = index.put(b"a", {0: b"v", 1: b"w"}), index.put(b"", b"x")
        self.assertEqual(index.get_many([b"b", b"a", b"", b"a"]), [
            None, Row(a, (b"v", b"w")), Row(b, (b"x", b"")), Row(a, (b"v", b"w"))])
        self.assertEqual(index.get_many((key for key in (b"a", bytearray(b"a"))), [1]), [Row(a, (b"w",))] * 2)
        self.assertEqual(index.get_many([b"a"] * 1000), [Row(a, (b"v", b"w"))] * 1000)
        for kind, arguments in (
                (KeyTooLong, ([b"a", bytes(MAX_KEY_BYTES + 1)],)), (BadColumn, ([b"a"], [2])), (TypeError, (b"ab",)),
                (BadLimit, ([b"a"] * 1001,)), (TypeError, (["a"],)), (TypeError, (5,)), (TypeError, ([b"a"], 1))):
            with self.subTest(kind=kind), self.assertRaises(kind):
                index.get_many(*arguments)  # type: ignore[arg-type]

    def test_changes_by_brackets(self) -> None:
        index = self.index
        index[b"a"] = b"v"
        index[b"a"] = {1: b"w"}
        self.assertEqual(index[b"a"], Row(2, (b"v", b"w")))
        del index[b"a"]
        with self.assertRaises(KeyError) as met:
            del index[b"a"]
        self.assertEqual((met.exception.args, index.first()), ((b"a",), []))
        index[b"b"] = [(0, b"x"), (1, b"y")]
        with self.assertRaises(BadColumn):
            index[b"b"] = {2: b""}
        wrong: Any = index
        for call in (lambda: wrong.__setitem__(b"b", "v"), lambda: wrong.__setitem__(slice(b"a", b"c"), b"v"),
                     lambda: wrong.__delitem__("b"), lambda: wrong.__delitem__(slice(b"a", b"c"))):
            with self.assertRaises(TypeError):
                call()
        self.assertEqual(index.first(), [(b"b", Row(4, (b"x", b"y")))])

    def test_pop(self) -> None:
        index = self.index
        self.fill([b"a", b"b"])
        self.assertEqual((index.pop(b"a"), index.pop(b"b", 5)), (Row(1, (b"a", b"")), Row(2, (b"b", b""))))
        self.assertEqual((index.pop(b"a", 5), index.pop(b"a", None), index.first()), (5, None, []))
        with self.assertRaises(KeyError) as met:
            index.pop(b"a")
        self.assertEqual(met.exception.args, (b"a",))

    def test_pop_of_a_row_that_another_caller_removes(self) -> None:
        index, read = self.index, self.index._row

        def removed(key: bytes, columns: Optional[Sequence[int]]) -> Optional[Row]:
            row = read(key, columns)
            index.remove(key)
            return row

        index.put(b"a", b"v")
        index._row = removed  # type: ignore[method-assign]
        self.assertIsNone(index.pop(b"a", None))
        self.assertEqual(index.put(b"a", b"w"), 3)

    def test_setdefault(self) -> None:
        index, put_if = self.index, self.index.put_if
        self.assertEqual(index.setdefault(b"a", {1: b"w"}), Row(1, (b"", b"w")))
        self.assertEqual(index.setdefault(b"a", b"x"), Row(1, (b"", b"w")))
        with self.assertRaises(ColumnTooLong):
            index.setdefault(b"c", bytes(65))

        def after_another(key: bytes, sets: Sets, version: int, *, durable: bool = False) -> int:
            index.put(key, b"other")
            return put_if(key, sets, version, durable=durable)

        def before_a_remove(key: bytes, sets: Sets, version: int, *, durable: bool = False) -> int:
            commit = put_if(key, sets, version, durable=durable)
            if commit == 3:
                index.remove(key)
            return commit

        index.put_if = after_another  # type: ignore[method-assign]
        self.assertEqual(index.setdefault(b"b", b"x"), Row(2, (b"other", b"")))
        index.put_if = before_a_remove  # type: ignore[method-assign]
        self.assertEqual(index.setdefault(b"c", b"x"), Row(5, (b"x", b"")))

    def test_items(self) -> None:
        index = self.index
        self.assertEqual((list(index.items()), list(index.keys()), list(index.values())), ([], [], []))
        keys = [b"%04d" % number for number in range(1100)]
        self.fill(keys[::-1])
        rows = [Row(1100 - number, (key, b"")) for number, key in enumerate(keys)]
        self.assertEqual((list(index.items()), list(index.keys()), list(index.values())),
                         (list(zip(keys, rows)), keys, rows))
        for pairs in (index.items(), index.keys(), index.values(), index.range(), index.build(Prefix(b""))):
            self.assertEqual(operator.length_hint(pairs, 7), 7)
        index.remove(keys[7])
        self.assertEqual(dict(index.items()), dict(zip(keys[:7] + keys[8:], rows[:7] + rows[8:])))

    def test_first(self) -> None:
        self.fill([b"a", b"b", b"c"])
        self.assertEqual(keys_of(self.index.first()), [b"a", b"b", b"c"])
        self.assertEqual(self.index.first(b"b", 1, [1, 0]), [(b"b", Row(2, (b"", b"b")))])
        for limit in (0, 1001):
            with self.assertRaises(BadLimit):
                self.index.first(limit=limit)

    def test_update(self) -> None:
        seen: List[Optional[Row]] = []

        def change(row: Optional[Row]) -> Optional[Sets]:
            seen.append(row)
            if len(seen) == 1:
                # another caller is faster
                self.index.put(b"a", {1: b"w"})
            return b"x"

        self.assertEqual(self.index.update(b"a", change), 2)
        self.assertEqual(seen, [None, Row(1, (b"", b"w"))])
        self.assertEqual(self.index.get(b"a"), Row(2, (b"x", b"w")))
        self.assertIsNone(self.index.update(b"a", lambda row: None))
        self.assertEqual(self.index.update(b"a", lambda row: {1: row.columns[0]} if row else None), 3)
        with self.assertRaises(OtherVersion):
            self.index.put_if(b"a", b"x", 2)
        self.assertEqual(self.index[b"a"], Row(3, (b"x", b"x")))

    # -- ranges

    def test_ranges(self) -> None:
        self.fill(KEYS)
        keys = sorted(KEYS)
        for prefix in PREFIXES:
            for start in STARTS:
                for stop in STOPS:
                    wanted = [key for key in keys if is_wanted(key, start, stop, prefix)]
                    with self.subTest(prefix=prefix, start=start, stop=stop):
                        self.assertEqual(keys_of(self.index.range(start, stop, prefix=prefix)), wanted)
            for limit in LIMITS:
                wanted = [key for key in keys if is_wanted(key, b"", None, prefix)][:limit]
                with self.subTest(prefix=prefix, limit=limit):
                    self.assertEqual(keys_of(self.index.range(prefix=prefix, limit=limit)), wanted)

    def test_ranges_of_many_rows(self) -> None:
        keys = [b"%04d" % number for number in range(2500)]
        self.fill(keys)
        self.assertEqual(keys_of(self.index.range()), keys)
        self.assertEqual(keys_of(self.index.range(keys[7], keys[2400])), keys[7:2400])
        self.assertEqual(keys_of(self.index.range(keys[7] + b"\0", limit=1001)), keys[8:1009])
        self.assertEqual(keys_of(self.index.range(b"", b"2", prefix=b"1", limit=999)), keys[1000:1999])
        self.assertEqual(keys_of(self.index.range(limit=2 ** 70)), keys)

    def test_range_of_columns(self) -> None:
        self.index.put(b"a", {0: b"v", 1: b"w"})
        columns = [1]
        pairs = self.index.range(columns=columns)
        columns.append(0)
        self.assertEqual(list(pairs), [(b"a", Row(1, (b"w",)))])
        self.assertEqual(list(self.index.range(columns=[1, 0])), [(b"a", Row(1, (b"w", b"v")))])
        pairs = self.index.range(columns=[2])
        with self.assertRaises(BadColumn):
            next(pairs)

    def test_a_range_among_changes(self) -> None:
        self.fill([b"a", b"b", b"c"])
        keys = []
        for key, row in self.index.range(stop=b"z"):
            keys.append(key)
            self.index.remove(key)
            self.index.put(b"\0" + key, b"")
        self.assertEqual(keys, [b"a", b"b", b"c"])
        self.assertEqual(keys_of(self.index.range()), [b"\0a", b"\0b", b"\0c"])

    def test_arguments_of_a_range(self) -> None:
        index: Any = self.index
        self.assertTrue(inspect.isgenerator(index.range()))
        for arguments, named in (
                (("a",), {}), ((None,), {}), ((1,), {}), ((b"", "b"), {}), ((b"", 5), {}), ((), {"prefix": "a"}),
                ((), {"prefix": 5}), ((), {"limit": "1"}), ((), {"limit": 1.0}), ((), {"limit": b"1"}),
                ((), {"columns": 0}), ((), {"columns": "0"}), ((), {"columns": [b"0"]}), ((b"", None, b"a"), {})):
            with self.subTest(arguments=arguments, named=named), self.assertRaises(TypeError):
                index.range(*arguments, **named)
        for kind, named in ((TooLong, {"limit": -1}), (KeyTooLong, {"start": bytes(MAX_KEY_BYTES + 1)}),
                            (KeyTooLong, {"stop": bytes(MAX_KEY_BYTES + 1)}), (BadColumn, {"columns": [256]}),
                            (KeyTooLong, {"prefix": bytes(MAX_KEY_BYTES + 1)})):
            with self.subTest(named=named), self.assertRaises(kind) as met:
                index.range(**named)
            self.assertTrue(isinstance(met.exception, ValueError))
        with self.assertRaisesRegex(TooLong, "^a limit must be 0 or more, not -1$"):
            index.range(limit=-1)

    # -- views

    def test_views(self) -> None:
        view = self.index.build(Prefix(b"a", AtLeast(0, 5)))
        for key, value in ((b"a", b"\4"), (b"ab", b"\6"), (b"b", b"\7")):
            self.index.put(key, value)
        page = Page(3, 1, (6, 0), [(b"ab", Row(2, (b"\6", b"")))])
        self.assertEqual((view.page(3), view.page()), (page, page))
        self.assertEqual((view.at, view.count, view.sums), (3, 1, (6, 0)))
        self.assertEqual((view.totals(), view.totals(3)), (Totals(3, 1, (6, 0)),) * 2)
        self.assertEqual((list(view), list(view.rows(3, b"ab\0"))), (page.rows, []))
        with self.assertRaises(Behind) as met:
            view.page(4)
        with self.assertRaises(Behind) as met:
            view.totals(4)
        self.assertEqual(met.exception.detail, 3)
        self.assertEqual((met.exception.number, met.exception.detail), (12, 3))
        view.drop()
        for call in (view.page, view.totals, view.drop, lambda: view.count, lambda: list(view)):
            with self.assertRaises(NoSuchView) as gone:
                call()
            self.assertTrue(isinstance(gone.exception, LookupError))

    def test_rows_of_a_view_by_pages(self) -> None:
        keys = [b"%04d" % number for number in range(2100)]
        self.fill(keys)
        view = self.index.build(Range(b"0010"))
        self.assertEqual((keys_of(view), view.count), (keys[10:], 2090))
        self.assertEqual(keys_of(view.rows(2100, b"1000")), keys[1000:])
        self.assertEqual(keys_of(view.page(0, b"2000", 5).rows), keys[2000:2005])
        with self.assertRaises(Behind):
            next(view.rows(2101))

    def test_a_view_in_a_block(self) -> None:
        self.fill([b"a", b"b"])
        with self.index.build(Range(b"a", b"b")) as view:
            self.assertEqual(view.count, 1)
        with self.assertRaises(NoSuchView):
            view.page()
        with self.index.build(Prefix(b"a")) as view:
            view.drop()
        with self.assertRaisesRegex(ZeroDivisionError, "of the block"), self.index.build(Prefix(b"a")) as view:
            raise ZeroDivisionError("of the block")
        with self.assertRaises(NoSuchView):
            view.drop()
        with self.assertRaises(BadRange):
            self.index.build(Range(b"b", b"a"))

    def test_views_as_values(self) -> None:
        view, other = self.index.build(Prefix(b"a")), self.index.build(Prefix(b"a"))
        same = self.index.view(view.number)
        self.assertTrue(isinstance(view, View) and view.index is self.index)
        self.assertEqual((view, {view: 5}[same], len({view, same, other})), (same, 5, 2))
        self.assertFalse(view == other or view != same or view == view.number)
        self.assertEqual((view.number, other.number), (1, 2))
        self.assertEqual(repr(view), f"<rowanspan.View 1 of {self.index!r}>")
        with self.assertRaises(NoSuchView):
            self.index.view(7).page()
        for wrong in ("1", None, 1.0, view):
            with self.assertRaises(TypeError):
                self.index.view(wrong)  # type: ignore[arg-type]
        with self.assertRaises(TooLong):
            self.index.view(-1)

    def test_arguments_of_a_view(self) -> None:
        view: Any = self.index.build(Prefix(b"a"))
        for arguments in (("0",), (None,), (0, "a"), (0, b"", "1"), (0, b"", 1.0)):
            with self.subTest(arguments=arguments), self.assertRaises(TypeError):
                view.page(*arguments)
            with self.subTest(arguments=arguments), self.assertRaises(TypeError):
                view.rows(*arguments)
        for limit in (0, 1001):
            with self.assertRaises(BadLimit):
                view.page(limit=limit)
        with self.assertRaises(KeyTooLong):
            view.rows(0, bytes(MAX_KEY_BYTES + 1))
        with self.assertRaises(TypeError):
            b"a" in view
