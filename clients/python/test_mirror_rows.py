"""Tests of what a mirror makes of a source's rows: keys, kinds, messages, groups, tables. test_rowanspan.py runs
them."""
from __future__ import annotations

import json
import re
import struct
import sys
import unittest
from base64 import b64encode
from typing import Any, Dict, List, Optional, Tuple

from rowanspan import MAX_KEY_BYTES
from rowanspan.mirror.copying import copied_values, copy_rows
from rowanspan.mirror.errors import BadMapping, BadRow, CopyAgain, NeedsDecision, SourceLost
from rowanspan.mirror.etcd import EtcdSource, Events, value_reader
from rowanspan.mirror.frames import spelled_change
from rowanspan.mirror.grouping import MOST, Grouping
from rowanspan.mirror.kinds import read_kind
from rowanspan.mirror.pgoutput import UNCHANGED, Begin, Change, Commit, Relation, Truncate, read_message
from rowanspan.mirror.rows import RowMapping
from rowanspan.mirror.source import Group
from rowanspan.mirror.spelling import spelled_rows
from rowanspan.mirror.table import DESCRIBE, Table, find_table
from rowanspan.mirror.template import KeyTemplate

MIDDLE = 2 ** 63
INT, TEXT, FLOAT = (20, -1), (25, -1), (701, -1)


def in_eight(number: int) -> bytes:
    return (number + MIDDLE).to_bytes(8, "big")


class KindTest(unittest.TestCase):
    def test_values(self) -> None:
        for word, text, wanted in (
                ("uint", "0", b""), ("uint", "258", b"\1\2"), ("", "7", b"\7"), ("uint", str(2 ** 64 - 1), b"\xff" * 8),
                ("int", "-5", in_eight(-5)), ("int", str(-MIDDLE), bytes(8)), ("dec2", "12.34", b"\4\xd2"),
                ("dec2", "12", b"\4\xb0"), ("sdec1", "-0.5", in_eight(-5)), ("bool", "t", b"\1"),
                ("bool", "false", b""),
                ("text", "é", b"\xc3\xa9"), ("cut", "x" * 70, b"x" * 64), ("cut", "x" * 63 + "é", b"x" * 63),
                ("cut", "\udcff" * 70, b"\xff" * 64)):
            with self.subTest(word=word, text=text):
                self.assertEqual(read_kind(word).bytes_of(text), wanted)

    def test_what_no_kind_holds(self) -> None:
        for word, text in (("uint", "-1"), ("uint", str(2 ** 64)), ("int", str(MIDDLE)), ("dec2", "1.234"),
                           ("dec2", "-0.01"), ("dec2", f"1.{'0' * 40}1"), ("uint", "1.5"), ("uint", "many"),
                           ("dec2", "NaN"), ("sdec2", "Infinity"), ("sdec2", ""), ("bool", "yes"), ("text", "x" * 65)):
            with self.subTest(word=word, text=text), self.assertRaises(BadRow):
                RowMapping.read("t/{id}", [f"a:{word}"]).sets_of({"a": text})

    def test_no_kind(self) -> None:
        for word in ("float", "dec", "dec10", "UINT", "int8"):
            with self.subTest(word=word), self.assertRaisesRegex(BadMapping, "is no kind of column"):
                read_kind(word)

    def test_null(self) -> None:
        sets = RowMapping.read("t/{id}", ["a", "b:int", "c:text", "d:sdec2"]).sets_of(dict.fromkeys("abcd"))
        self.assertEqual(sets, {0: b"", 1: in_eight(0), 2: b"", 3: in_eight(0)})


class TemplateTest(unittest.TestCase):
    def test_keys(self) -> None:
        for template, row, wanted in (
                ("o/{state}/{id:04}", {"state": "open", "id": "7"}, b"o/open/0007"),
                ("o/{a}", {"a": "x/y%z"}, b"o/x%2Fy%25z"), ("o/{a}/", {"a": None}, b"o/%N/"),
                ("o/{a:int}{b:02}", {"a": "-1", "b": "5"}, b"o/" + in_eight(-1) + b"05"),
                ("o/{a b}", {"a b": "é"}, b"o/\xc3\xa9")):
            with self.subTest(template=template):
                self.assertEqual(KeyTemplate.read(template).key_of(row), wanted)

    def test_keys_that_run_together(self) -> None:
        """No two rows have one key, whatever is in them."""
        template, texts = KeyTemplate.read("o/{a}/{b}/{c:02}{d}"), ("", "/", "%", "%2F", "N", None, "a/b", "%N")
        keys = {template.key_of({"a": a, "b": b, "c": c, "d": d})
                for a in texts for b in texts for c in ("1", "01", "11") for d in texts}
        self.assertEqual(len(keys), len(texts) ** 3 * 2)

    def test_bad_templates(self) -> None:
        for template, why in (("{id}", "begin with text"), ("", "begin with text"), ("o/{a}{b}", "followed by '/'"),
                              ("o/{a}-{b}", "followed by '/'"), ("o/{a:x}", "no kind of a part"),
                              ("o/{a:0}", "no kind of a part"), ("o/{a", "a brace"), ("o/{}", "a brace"),
                              ("o/}{a}", "a brace")):
            with self.subTest(template=template), self.assertRaisesRegex(BadMapping, why):
                KeyTemplate.read(template)

    def test_bad_values(self) -> None:
        for kind, text in (("02", "100"), ("02", "-1"), ("02", "x"), ("02", None), ("02", "²"), ("int", "1.5"),
                           ("int", None), ("int", str(MIDDLE))):
            with self.subTest(kind=kind, text=text), self.assertRaises(BadRow):
                KeyTemplate.read(f"o/{{a:{kind}}}").key_of({"a": text})
        with self.assertRaisesRegex(BadRow, "has 1025 bytes, and at most 1024"):
            KeyTemplate.read("o/{a}").key_of({"a": "x" * (MAX_KEY_BYTES - 1)})

    def test_too_many_columns(self) -> None:
        with self.assertRaisesRegex(BadMapping, "there are 17 columns"):
            RowMapping.read("o/{a}", ["a"] * 17)


# ---- messages of pgoutput

def spelled_text(text: str) -> bytes:
    return text.encode() + b"\0"


def spelled_values(values: Tuple[Any, ...]) -> bytes:
    made = struct.pack(">H", len(values))
    for value in values:
        made += (b"n" if value is None else b"u" if value is UNCHANGED else
                 b"t" + struct.pack(">I", len(value.encode())) + value.encode())
    return made


class MessageTest(unittest.TestCase):
    def test_messages(self) -> None:
        row: Tuple[Any, ...] = ("1", None, "é", UNCHANGED)
        relation = (b"R\0\0\0\7" + spelled_text("public") + spelled_text("t") + b"f\0\2" + b"\1" + spelled_text("id")
                    + struct.pack(">Ii", 20, -1) + b"\0" + spelled_text("a") + struct.pack(">Ii", 1700, 786438))
        for body, wanted in (
                (b"B" + bytes(16) + b"\0\0\1\2", Begin(258)), (b"C\0" + struct.pack(">QQQ", 5, 9, 0), Commit(9)),
                (relation, Relation(7, "public.t", ("id", "a"), ((20, -1), (1700, 786438)))),
                (b"I\0\0\0\7N" + spelled_values(row), Change(7, None, False, row)),
                (b"U\0\0\0\7N" + spelled_values(row), Change(7, None, False, row)),
                (b"U\0\0\0\7K" + spelled_values(("2", None)) + b"N" + spelled_values(row),
                 Change(7, ("2", None), True, row)),
                (b"U\0\0\0\7O" + spelled_values(row) + b"N" + spelled_values(row), Change(7, row, False, row)),
                (b"D\0\0\0\7K" + spelled_values(("2", None)), Change(7, ("2", None), True, None)),
                (b"T\0\0\0\2\0" + struct.pack(">II", 7, 8), Truncate((7, 8))), (b"Y\0\0", None), (b"O\0", None)):
            with self.subTest(body=body):
                self.assertEqual(read_message(body), wanted)

    def test_cut_messages(self) -> None:
        whole = b"I\0\0\0\7N" + spelled_values(("12", None))
        for kept in range(1, len(whole) - 1):
            with self.subTest(kept=kept), self.assertRaises((ValueError, struct.error)):
                body = whole[:kept]
                self.assertEqual(read_message(body), read_message(whole))
                raise ValueError


class GroupingTest(unittest.TestCase):
    def setUp(self) -> None:
        self.now = 0.0
        self.mapping = RowMapping.read("o/{id}", ["a:uint", "b:text"])
        self.types = {"id": INT, "a": INT, "b": TEXT}
        self.grouping = self.made()

    def made(self) -> Grouping:
        grouping = Grouping(self.mapping, self.types, 100, lambda: self.now)
        grouping.take(Relation(1, "public.o", ("id", "a", "b"), (INT, INT, TEXT)))
        return grouping

    def transaction(self, end: int, *messages: Any) -> Optional[Group]:
        for message in (Begin(9), *messages):
            self.assertIsNone(self.grouping.take(message))
        return self.grouping.take(Commit(end))

    def insert(self, number: str, a: str, b: str = "x") -> Change:
        return Change(1, None, False, (number, a, b))

    def test_whole_transactions(self) -> None:
        self.assertIsNone(self.transaction(110, self.insert("1", "5"), self.insert("2", "6")))
        self.assertIsNone(self.transaction(120, Change(1, ("1", None, None), True, None)))
        self.grouping.take(Begin(9))
        self.grouping.take(self.insert("3", "7"))
        self.assertIsNone(self.grouping.pause(125))
        self.assertEqual(self.grouping.returned, 100)
        self.now = 1.0
        self.assertEqual(self.grouping.take(Commit(130)), Group(130, {
            b"o/2": {0: b"\6", 1: b"x"}, b"o/1": None, b"o/3": {0: b"\7", 1: b"x"}}))
        self.assertEqual(self.grouping.returned, 130)

    def test_a_full_group(self) -> None:
        group = self.transaction(110, *(self.insert(str(number), "1") for number in range(MOST)))
        self.assertEqual((group and group.at, group and len(group.changes)), (110, MOST))

    def test_pauses(self) -> None:
        self.assertIsNone(self.grouping.pause(100))
        self.assertIsNone(self.grouping.pause(140))
        self.transaction(150, self.insert("1", "5"))
        self.assertEqual(self.grouping.pause(140), Group(150, {b"o/1": {0: b"\5", 1: b"x"}}))
        self.now = 1.0
        self.assertEqual(self.grouping.pause(160), Group(160))
        self.assertIsNone(self.grouping.pause(160))

    def test_merged_changes(self) -> None:
        """A value that an update left outside its row stays; a key that moves is removed under its old name."""
        self.transaction(
            110, self.insert("1", "5", "long"), Change(1, None, False, ("1", "6", UNCHANGED)),
            Change(1, ("2", None, None), True, ("3", "7", "y")),
            Change(1, ("4", "1", "z"), False, ("5", "2", UNCHANGED)))
        self.assertEqual(self.grouping.pause(110), Group(110, {
            b"o/1": {0: b"\6", 1: b"long"}, b"o/2": None, b"o/3": {0: b"\7", 1: b"y"}, b"o/4": None,
            b"o/5": {0: b"\2", 1: b"z"}}))
        self.transaction(120, Change(1, None, False, ("1", "7", UNCHANGED)))
        self.assertEqual(self.grouping.pause(120), Group(120, {b"o/1": {0: b"\7"}}))

    def test_a_key_that_moves_without_a_long_value(self) -> None:
        self.grouping.take(Begin(9))
        with self.assertRaisesRegex(BadRow, "REPLICA IDENTITY FULL"):
            self.grouping.take(Change(1, ("2", None, None), True, ("3", "7", UNCHANGED)))

    def test_truncate(self) -> None:
        self.transaction(110, self.insert("1", "5"), Truncate((1,)), self.insert("2", "6"))
        self.assertEqual(self.grouping.pause(110), Group(110, {b"o/2": {0: b"\6", 1: b"x"}}, True))
        self.assertEqual(self.grouping.truncated_by, 9)

    def test_groups_as_one(self) -> None:
        first = Group(5, {b"a": {0: b"1", 1: b"long"}, b"b": None, b"c": {0: b"1"}})
        second = Group(7, {b"a": {0: b"2"}, b"b": {0: b"3"}, b"c": None})
        self.assertEqual(first.then(second), Group(7, {b"a": {0: b"2", 1: b"long"}, b"b": {0: b"3"}, b"c": None}))
        self.assertEqual(first.then(Group(8, {b"d": None}, True)), Group(8, {b"d": None}, True))
        self.assertEqual(Group(4, {}, True).then(second), Group(7, second.changes, True))

    def test_other_columns(self) -> None:
        added = Relation(1, "public.o", ("id", "c", "a", "b"), (INT, INT, INT, TEXT))
        self.grouping.take(added)
        self.grouping.take(Begin(9))
        self.grouping.take(Change(1, None, False, ("1", "9", "5", "x")))
        self.now = 1.0
        self.assertEqual(self.grouping.take(Commit(110)), Group(110, {b"o/1": {0: b"\5", 1: b"x"}}))
        with self.assertRaisesRegex(NeedsDecision, "has no column b any more"):
            self.grouping.take(Relation(1, "public.o", ("id", "a", "d"), (INT, INT, TEXT)))
        with self.assertRaisesRegex(SourceLost, "the column a of public.o has another type"):
            self.grouping.take(Relation(1, "public.o", ("id", "a", "b"), (INT, TEXT, TEXT)))


class Catalog:
    """Answers the queries by which a table is found, as PostgreSQL does for one table."""

    def __init__(self, **changed: Any) -> None:
        self.version, self.level, self.identity = "150018", "logical", "f"
        self.has_log, self.has_parts, self.is_there = True, False, True
        self.columns: Dict[str, Tuple[int, int]] = {"id": INT, "state": TEXT, "a": INT, "f": FLOAT}
        self.key: List[str] = ["id"]
        self.__dict__.update(changed)

    def ask(self, query: str, *_: Any) -> List[Tuple[Any, ...]]:
        return {"SHOW server_version_num": [(self.version,)], "SHOW wal_level": [(self.level,)],
                DESCRIBE: [(7, self.identity, self.has_log, "public.o", self.has_parts, name, *kind, name in self.key)
                           for name, kind in self.columns.items()] if self.is_there else []}[query]


class TableTest(unittest.TestCase):
    def found(self, template: str = "o/{state}/{id}", *columns: str, **changed: Any) -> Table:
        return find_table(Catalog(**changed).ask, "o", RowMapping.read(template, columns or ["a:int"]))

    def test_a_table(self) -> None:
        self.assertEqual(self.found(), Table(7, "public.o", True, {"id": INT, "state": TEXT, "a": INT}))
        self.assertEqual(self.found("o/{id}", identity="d"), Table(7, "public.o", False, {"id": INT, "a": INT}))
        self.assertEqual(self.found("o/{id}", "f:text").types, {"id": INT, "f": FLOAT})

    def test_refused(self) -> None:
        for why, template, column, changed in (
                ("PostgreSQL 15 or later", "o/{id}", "a", {"version": "140009"}),
                ("wal_level = logical", "o/{id}", "a", {"level": "replica"}),
                ("no table o", "o/{id}", "a", {"is_there": False}),
                ("has partitions", "o/{id}", "a", {"has_parts": True}),
                ("no log of its changes", "o/{id}", "a", {"has_log": False}),
                ("no column c", "o/{id}", "c", {}), ("no column c", "o/{id}/{c}", "a", {}),
                ("f is double precision", "o/{id}", "f:dec2", {}), ("f is double precision", "o/{id}/{f}", "a", {}),
                ("no primary key", "o/{id}", "a", {"key": []}), ("no primary key", "o/{id}", "a", {"identity": "n"}),
                ("the key needs {state}", "o/{id}", "a", {"key": ["id", "state"]}),
                ("REPLICA IDENTITY FULL", "o/{state}/{id}", "a", {"identity": "d"})):
            with self.subTest(why=why, template=template), self.assertRaisesRegex(BadMapping, why):
                self.found(template, column, **changed)


# ---- the copy

class Copying:
    """A cursor of PostgreSQL for one table: of which rows it spells the puts itself (None: NULL)."""

    def __init__(self, encoding: str, spelled: List[Optional[bytes]], lines: List[bytes]) -> None:
        self._encoding, self._lines = encoding, lines
        rows = [b"\0\1" + (b"\xff" * 4 if put is None else len(put).to_bytes(4, "big") + put) for put in spelled]
        rows[:1] = [b"PGCOPY\n\xff\r\n\0" + bytes(8) + row for row in rows[:1] or [b""]]
        self._rows = [*rows, b"\xff\xff"] if spelled else [rows[0] + b"\xff\xff"]
        self.asked: List[str] = []

    def execute(self, query: str) -> None:
        self.asked.append(query)

    def fetchone(self) -> Tuple[str]:
        return self._encoding,

    def copy_expert(self, query: str, file: Any) -> None:
        self.asked.append(query)
        for row in self._rows if query.endswith("(FORMAT binary)") else self._lines:
            file.write(row)


class CopyTest(unittest.TestCase):
    def copied(self, encoding: str, spelled: List[Optional[bytes]], lines: List[bytes]) -> Tuple[List[bytes], int]:
        mapping, table = RowMapping.read("o/{id}", ["a"]), Table(7, "public.o", False, {"id": INT, "a": INT})
        cursor, taken = Copying(encoding, spelled, lines), []  # type: Tuple[Copying, List[bytes]]
        copy_rows(cursor, table, mapping, taken.extend)
        return taken, len(cursor.asked)

    def test_copies(self) -> None:
        """The rows that have no put in SQL come from Python, and all of them in another encoding."""
        puts: List[bytes] = [spelled_change(b"o/%d" % number, {0: b"\5"}) for number in range(200)]
        line, put = b"200\t5\n", spelled_change(b"o/200", {0: b"\5"})
        self.assertEqual(self.copied("UTF8", [], []), ([], 2))
        self.assertEqual(self.copied("UTF8", [*puts], []), (puts, 2))
        self.assertEqual(self.copied("UTF8", [None, *puts], [line]), ([*puts, put], 3))
        self.assertEqual(self.copied("UTF8", [None], [line]), ([put], 3))
        self.assertEqual(self.copied("LATIN1", [*puts], [line] * 100), ([put] * 100, 2))
        with self.assertRaisesRegex(BadRow, "-1 isn't from 0"):
            self.copied("UTF8", [*puts, None], [b"200\t-1\n"])

    def test_values(self) -> None:
        self.assertEqual(copied_values(b"1\t\\N\ta\\tb\\\\N\\n\n"), ["1", None, "a\tb\\N\n"])
        self.assertEqual(copied_values(b"\n"), [""])

    def test_names_in_sql(self) -> None:
        """Whatever a name or a text of the mapping has, it stays inside its quotes."""
        mapping = RowMapping.read("o'\\/{a\"b}/'{id:04}", ["n%:cut", "a\"b:sdec2"])
        rows = spelled_rows("public.o", mapping, {"a\"b": (1700, -1), "id": INT, "n%": TEXT})
        bare = re.sub(r"E'(?:[^'\\]|''|\\\\)*'|'[^']*'|\"(?:[^\"]|\"\")*\"", "", rows.puts + rows.others + rows.values)
        self.assertRegex(bare, "^[a-zA-Z0-9_.,()|<>=&#*:~ -]+$")
        self.assertIn("E'o''\\\\/'", rows.puts)


# ---- etcd

def event(key: bytes, revision: int, value: Optional[bytes]) -> Dict[str, Any]:
    pair = {"key": b64encode(key).decode(), "mod_revision": str(revision)}
    if value is None:
        return {"type": "DELETE", "kv": pair}
    return {"kv": {**pair, "value": b64encode(value).decode()}}


def line(**said: Any) -> bytes:
    return json.dumps({"result": {"header": {"revision": "90"}, **said}}).encode()


class EtcdTest(unittest.TestCase):
    def setUp(self) -> None:
        self.events = Events(value_reader("uint", []))

    def test_events(self) -> None:
        self.assertIsNone(self.events.group(line(created=True)))
        self.assertEqual(self.events.group(line()), Group(90))
        first = self.events.group(line(events=[event(b"a", 7, b"5"), event(b"b", 8, b"0"), event(b"a", 8, None)]))
        self.assertEqual(first, Group(8, {b"a": None, b"b": {0: b""}}))
        second = self.events.group(line(events=[event(b"a", 9, b"6")]))
        assert first is not None and second is not None
        self.assertEqual(first.then(second).then(Group(9)), Group(9, {b"a": {0: b"\6"}, b"b": {0: b""}}))

    def test_ends(self) -> None:
        with self.assertRaisesRegex(CopyAgain, "compacted the revisions before 12"):
            self.events.group(line(canceled=True, compact_revision="12"))
        with self.assertRaisesRegex(SourceLost, "cancelled the watch: why"):
            self.events.group(line(canceled=True, cancel_reason="why"))
        with self.assertRaisesRegex(SourceLost, "the source: no leader"):
            self.events.group(json.dumps({"error": "no leader"}).encode())

    def test_values(self) -> None:
        self.assertEqual(value_reader("text", [])(b"\xff\x00"), {0: b"\xff\x00"})
        self.assertEqual(value_reader("cut", [])(b"\xff" * 70), {0: b"\xff" * 64})
        read = value_reader("json", ["cents", "price:dec2", "name:text", "is_paid:bool"])
        self.assertEqual(read(b'{"cents": 258, "price": 0.07, "name": "x", "is_paid": true, "more": []}'),
                         {0: b"\1\2", 1: b"\7", 2: b"x", 3: b"\1"})
        self.assertEqual(read(b'{"name": null}'), {0: b"", 1: b"", 2: b"", 3: b""})
        for value in (b"5", b"[]", b"{", b'{"cents": "x"}', b'{"cents": -1}', b'{"price": 0.071}', b'{"cents": []}'):
            with self.subTest(value=value), self.assertRaises(BadRow):
                read(value)
        for value in (b"x", b"-1", b"1.5", b"\xff"):
            with self.subTest(value=value), self.assertRaises(BadRow):
                value_reader("uint", [])(value)
        with self.assertRaisesRegex(BadRow, "has 65 bytes, and at most 64"):
            value_reader("text", [])(bytes(65))

    def test_bad_options(self) -> None:
        for kind, words in (("json", []), ("text", ["a"]), ("float", []), ("json", ["a:float"])):
            with self.subTest(kind=kind), self.assertRaises(BadMapping):
                value_reader(kind, words)
        for url, prefix in (("127.0.0.1:2379", "a"), ("https://127.0.0.1:2379", "a"), ("http://127.0.0.1", "")):
            with self.subTest(url=url), self.assertRaises(BadMapping):
                EtcdSource(url, prefix, value_reader("text", []))


if __name__ == "__main__":
    sys.exit(unittest.main())
