"""Tests of what the client and the shell say of bad input: arguments of a wrong type or out of their bounds, and lines
that don't read. test_rowanspan.py runs them."""
from __future__ import annotations

import copy
import pickle
import subprocess
import sys
import unittest
from pathlib import Path
from typing import Any, Dict, List, Sequence, Tuple, Type

import rowanspan
import rowanspan.embedded
from rowanspan import (MAX_KEY_BYTES, AnyRow, AtLeast, Build, Client, Equals, Get, GetRange, NoLibrary, Prefix, Put,
                       PutIf, Query, Range, Row, TooLong, ViewDrop, ViewRead)
from rowanspan.text import HEX, TEXT, BadLine, read_query
from stand_in import StandIn

SHELL = Path(__file__).resolve().parent / "rowan"
SECONDS = 20.0

# of each method of the client, arguments of a wrong type
WRONG_TYPES: List[Tuple[str, Sequence[Any]]] = [
    *[(name, (key, *rest)) for key in ("a", None, 1, [97]) for name, rest in (
        ("get", ()), ("put", (b"v",)), ("put_if", (b"v", 0)), ("remove", ()), ("first", ()), ("range", ()),
        ("tidy", ()), ("update", (lambda row: b"v",)), ("__setitem__", (b"v",)), ("__delitem__", ()), ("pop", ()),
        ("pop", (None,)), ("setdefault", (b"v",)))],
    *[(name, (b"a", sets, *rest)) for name, rest in (
        ("put", ()), ("put_if", (0,)), ("__setitem__", ()), ("setdefault", ())) for sets in (
        "v", "", None, 1, ["v"], ["ab"], [b"v"], [(0, b"v", 1)], {0: "v"}, {"0": b"v"}, [(0.0, b"v")], {None: b""})],
    *[("put_if", (b"a", b"v", version)) for version in ("1", None, 1.0, b"1")],
    *[("get", (b"a", None, columns)) for columns in (0, "0", [b"0"], [0.0], [None])],
    *[("first", (b"a", limit)) for limit in ("1", None, 1.5)],
    *[("first", (b"a", 1, columns)) for columns in (0, "0", [b"0"])],
    *[("range", (b"a", stop)) for stop in ("b", 5)],
    *[("build", (spec,)) for spec in (
        b"a", None, AnyRow(), Prefix, Prefix("a"), Prefix(b"a", None), Range("a"), Range(b"", "b"),
        Range(b"", None, b"v"), Prefix(b"", Equals(0, "v")), Prefix(b"", Equals("0", b"v")),
        Prefix(b"", AtLeast(0, b"\1")), Prefix(b"", AtLeast(0, 1.5)))],
    *[("view", (number,)) for number in (None, "1", 1.0)],
    *[("call", (query,)) for query in (
        b"a", Get, ViewRead(None), ViewRead("1"), ViewRead(1, "0"), ViewRead(1, 0, "a"), ViewRead(1, 0, b"", "1"),
        ViewDrop("1"), ViewDrop(None))],
    ("update", (b"a", b"v")), ("update", (b"a", None)),
    ("call_all", ([Get(b"a"), None],)), ("call_all", (5,)),
]


class ArgumentTest(unittest.TestCase):
    def test_wrong_types(self) -> None:
        with StandIn() as server, Client(server.port, timeout=SECONDS) as index:
            for name, arguments in WRONG_TYPES:
                with self.subTest(name=name, arguments=arguments), self.assertRaises(TypeError):
                    getattr(index, name)(*arguments)
            with self.assertRaises(TypeError):
                index.pipeline().add(b"a")  # type: ignore[arg-type]
            self.assertEqual((server.index.events, index.get(b"a")), (0, None))

    def test_what_a_wrong_type_says(self) -> None:
        for query, why in ((Get("a"), "a key must be bytes, not str"),  # type: ignore[arg-type]
                           (Put(b"a", {0: 5}), "a column must be bytes, not int"),  # type: ignore[dict-item]
                           (GetRange(b"a", "1"), "a limit must be an int, not str"),  # type: ignore[arg-type]
                           (ViewRead(1, 1.0), "a floor must be an int, not float")):  # type: ignore[arg-type]
            with self.assertRaisesRegex(TypeError, f"^{why}$"):
                query.spelled()

    def test_wrong_addresses(self) -> None:
        for arguments in (("7070",), (None,), (7070, b"localhost"), (7070, 5), (7070, "127.0.0.1", "1")):
            with self.subTest(arguments=arguments), self.assertRaises(TypeError):
                Client(*arguments)

    def test_ports_that_there_are_not(self) -> None:
        for port in (-1, 65_536, 65_536 + 7070):
            with self.subTest(port=port), self.assertRaises(rowanspan.TooLong):
                Client(port)

    def test_queries_by_an_iterator(self) -> None:
        """They are asked once each, and a conditional put among them makes the frame one of version 2."""
        with StandIn() as server, Client(server.port, timeout=SECONDS) as index:
            queries = [Put(b"a", b"1"), PutIf(b"a", b"2", 1)]
            replies = index.call_all(iter(queries))  # type: ignore[arg-type]
            self.assertEqual([reply.value for reply in replies], [1, 2])  # type: ignore[union-attr]
            self.assertEqual(index.get(b"a"), Row(2, (b"2",)))

    def test_copies(self) -> None:
        """A refusal can be copied, and an index can't."""
        for fault in (rowanspan.KeyTooLong(), rowanspan.OtherVersion(5)):
            again = pickle.loads(pickle.dumps(fault))
            self.assertEqual((type(again), str(again), again.detail), (type(fault), str(fault), fault.detail))
        with StandIn() as server, Client(server.port, timeout=SECONDS) as index:
            for copying in (copy.copy, copy.deepcopy, pickle.dumps):
                with self.assertRaisesRegex(TypeError, "Client objects can't be copied"):
                    copying(index)
            self.assertIsNone(index.get(b"a"))

    def test_an_embedded_index(self) -> None:
        """Arguments of a wrong type are found before the library is."""
        missing = "/nowhere/librowanspan.so"
        wrong: List[Dict[str, Any]] = [{"columns": "1"}, {"columns": 1.0}, {"columns": None},
                                       {"log_capacity": b"1"}, {"log_retention": "0"}]
        for named in wrong:
            with self.subTest(named=named), self.assertRaises(TypeError):
                rowanspan.embedded.Index(library=missing, **named)
        with self.assertRaises(TypeError):
            rowanspan.embedded.Index(library=5)  # type: ignore[arg-type]
        with self.assertRaises(TooLong):
            rowanspan.embedded.Index(columns=-1, library=missing)
        with self.assertRaisesRegex(NoLibrary, f"^there is no library at {missing}$"):
            rowanspan.embedded.Index(library=missing)

    def test_timeouts(self) -> None:
        for timeout in (0, -1, 0.0, float("nan"), float("inf")):
            with self.subTest(timeout=timeout), self.assertRaisesRegex(TooLong, "^a timeout must be more than 0"):
                Client(7070, timeout=timeout)
            words = [sys.executable, str(SHELL), "-p", "7070", "--timeout", str(timeout), "get", "61", "all"]
            done = subprocess.run(words, capture_output=True, timeout=SECONDS, check=False)
            self.assertEqual((done.returncode, done.stdout), (2, b""))

    def test_bytes_of_other_types(self) -> None:
        with StandIn() as server, Client(server.port, timeout=SECONDS) as index:
            self.assertEqual(index.put(bytearray(b"a"), memoryview(b"v")), 1)
            self.assertEqual(index.get(memoryview(b"a"), columns=b"\0"), Row(1, (b"v",)))

    def test_out_of_bounds(self) -> None:
        """One class for each, whether the server refuses it, or it doesn't fit the wire."""
        wrong: List[Tuple[Query[Any], Any]] = [
            *[(Get(bytes(count)), rowanspan.KeyTooLong) for count in (MAX_KEY_BYTES + 1, 65_535, 65_536)],
            *[(Put(b"a", bytes(count)), rowanspan.ColumnTooLong) for count in (65, 255, 256)],
            *[(GetRange(b"", limit), rowanspan.BadLimit) for limit in (-1, 0, 1001, 65_535, 65_536)],
            *[(ViewRead(1, 0, b"", limit), rowanspan.BadLimit) for limit in (-1, 0, 1001, 65_536)],
            *[(Get(b"a", [column]), rowanspan.BadColumn) for column in (-1, 1, 255, 256)],
            *[(Put(b"a", {column: b""}), rowanspan.BadColumn) for column in (-1, 1, 256)],
            *[(Build(Prefix(b"", Equals(column, b""))), rowanspan.BadColumn) for column in (-1, 1, 256)]]
        with StandIn() as server, Client(server.port, timeout=SECONDS) as index:
            for query, kind in wrong:
                with self.subTest(query=str(query)[:40]), self.assertRaises(kind) as met:
                    index.call(query)
                self.assertEqual((met.exception.number, met.exception.detail, str(met.exception)),
                                 (kind.number, None, kind.cause))
                self.assertIsInstance(met.exception, ValueError)
                self.assertEqual(isinstance(met.exception, TooLong), kind.__name__.endswith("TooLong"))
            self.assertIsNone(index.get(b"a"))

    def test_kinds(self) -> None:
        """Some classes are of a kind of the standard library too, by which they are caught, and keep their texts."""
        kinds: List[Tuple[rowanspan.RowanspanError, Type[Exception], str]] = [
            (rowanspan.NoMemory(), MemoryError, "out of memory"),
            (rowanspan.NoSuchView(), LookupError, "no view has this number"),
            (rowanspan.ConnectionLost("it ended"), ConnectionError, "it ended"),
            (rowanspan.BadColumn(), ValueError, rowanspan.BadColumn.cause),
            (rowanspan.BadLimit(), ValueError, rowanspan.BadLimit.cause)]
        for fault, kind, text in kinds:
            with self.subTest(kind=kind), self.assertRaises(kind) as met:
                raise fault
            again = pickle.loads(pickle.dumps(met.exception))
            self.assertEqual((type(again), str(again), str(fault)), (type(fault), text, text))
            self.assertFalse(isinstance(fault, (TooLong, KeyError)))


class BadLineTest(unittest.TestCase):
    def test_why_a_line_is_bad(self) -> None:
        for line, why in (
                ("", "^the line is empty: expected get, .* or build$"), (" get 61 all", "^word 1, '': expected get, "),
                ("GET 61 all", "^word 1, 'GET': expected get, "),
                ("get 61", "^expected 3 words, get KEY COLS, and found 2$"),
                ("get 61  all", "^word 3 is empty: expected one space between words$"),
                ("get 6g all", "^word 2, '6g': expected bytes in hex, "),
                ("get 61 256", "^word 3, '256': expected all, or "), ("put 61 0", "^word 3, '0': expected COL=BYTES "),
                ("put 61 0=76,1=7", "^word 3, .*: expected bytes in hex"),
                ("putif 61 x -", "^word 3, 'x': expected a number from 0 to 18446744073709551615$"),
                ("range - 1\t all", r"^word 3, '1\\t': expected a number from 0 to 65535$"),
                ("build", "^expected build range .* or build prefix "),
                ("build all", "^word 2, 'all': expected range or "),
                ("build prefix 61", "^expected build prefix KEY TEST, and found 3 words only$"),
                ("build prefix 61 above 1", "^word 4, 'above': expected any, equals or atleast$"),
                ("build range - - equals 0", "^expected 7 words, build range LO HI equals COL BYTES, and found 6$"),
                ("build range - x any", "^word 4, 'x': expected bytes in hex"),
                ("drop " + "9" * 5000, "^word 2, '9{40}'...: expected a number ")):
            with self.subTest(line=line[:40]), self.assertRaisesRegex(BadLine, why):
                read_query(line, HEX)
        with self.assertRaisesRegex(BadLine, "^word 2, .*: expected text in which each backslash begins"):
            read_query("get a\\n all", TEXT)

    def test_the_shell_says_why(self) -> None:
        lines = b"get 61 all\nget 61\nput 61 0=" + b"00" * 256 + b"\nget \xff all\nget 61 all\n"
        with StandIn() as server:
            done = subprocess.run([sys.executable, str(SHELL), "-p", str(server.port)], input=lines,
                                  capture_output=True, timeout=SECONDS, check=False)
        self.assertEqual((done.returncode, done.stdout),
                         (1, b"done 0 0 absent\nbad line\nbad line\nbad line\ndone 0 0 absent\n"))
        self.assertEqual(done.stderr.decode().splitlines(), [
            "rowan: line 2: expected 3 words, get KEY COLS, and found 2",
            "rowan: line 3: a column has more than 64 bytes",
            "rowan: line 4: word 2, '\\udcff': expected bytes in hex, two digits for each, or - for no bytes"])

    def test_a_bad_line_without_standard_error(self) -> None:
        with StandIn() as server, open("/dev/full", "wb") as full:
            done = subprocess.run([sys.executable, str(SHELL), "-p", str(server.port)], input=b"get\nget 61 all\n",
                                  stdout=subprocess.PIPE, stderr=full, timeout=SECONDS, check=False)
        self.assertEqual((done.returncode, done.stdout), (1, b"bad line\ndone 0 0 absent\n"))
