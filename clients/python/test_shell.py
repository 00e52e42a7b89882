"""Tests of the shell, of queries and answers as lines, and of the documents' examples. test_rowanspan.py runs them."""
from __future__ import annotations

import os
import re
import signal
import socket
import subprocess
import sys
import textwrap
import unittest
from pathlib import Path
from typing import Any, List, Sequence, Tuple

import rowanspan
from rowanspan import (MAX_KEY_BYTES, AtLeast, Behind, Build, CountRange, Equals, Get, GetMany, GetRange, GetRangeBack,
                       OtherVersion, Page, Prefix, Put, PutIf, Query, Range, Remove, Reply, Row, RowsAt, Tidied, Tidy,
                       ViewDrop, ViewRead)
from rowanspan.text import HEX, TEXT, BadLine, outcome_line, page_receipt_line, read_query, receipt_line, spec_text
from stand_in import Options, StandIn

SHELL = Path(__file__).resolve().parent / "rowan"
SECONDS = 20.0
ROW = Row(258, (b"v", b""))


class TextTest(unittest.TestCase):
    BAD = ["", "get", "get 61", "get 61  all", " get 61 all", "get 61 all ", "GET 61 all", "get 6 all", "get 6g all",
           "get 61 1,", "get 61 256", "get 61 -1", "get 61 ", "put 61", "put 61 0", "put 61 0=", "put 61 0=7",
           "put 61 0=76,", "put 61 256=76", "putif 61 0", "putif 61 -1 -", "putif 61 18446744073709551616 -",
           "putif 61 0=76 0", "range - 65536 all", "range - +1 all", "range - \u0661 all", "remove",
           "remove 61 61", "build", "build range - none", "build range - none any any", "build prefix 61 equals 0",
           "build prefix 61 atleast 0 18446744073709551616", "view 1 0 -", "view 1 0 - 65536", "drop", "drop x",
           "get 61 all\r", "step 1", "view " + "9" * 5000 + " 0 - 1", "gets all", "gets 61, all", "gets 61,6 all",
           "gets " + "-," * 65535 + "- all", "back 61 10", "back 61 65536 all", "back nothing 1 all", "count 61 62",
           "count none 62 1", "count 61 62 4294967296"]

    def test_bad_lines(self) -> None:
        for line in self.BAD:
            with self.subTest(line=line[:40]), self.assertRaises(BadLine):
                read_query(line, HEX)

    def test_lines(self) -> None:
        lines: List[Tuple[str, Query[Any]]] = [
            ("get - 2,0", Get(b"", (2, 0))), ("put aB 0=-,15=00fF", Put(b"\xab", [(0, b""), (15, b"\0\xff")])),
            ("put 61 -", Put(b"a", [])), ("putif 61 007 0=76", PutIf(b"a", [(0, b"v")], 7)),
            ("range 61 007 all", GetRange(b"a", 7)), ("remove 61", Remove(b"a")),
            ("tidy -", Tidy(b"")), ("drop 18446744073709551615", ViewDrop(2 ** 64 - 1)),
            ("view 1 2 61 3", ViewRead(1, 2, b"a", 3)), ("build range - none any", Build(Range())),
            ("build range 61 62 equals 1 -", Build(Range(b"a", b"b", Equals(1, b"")))),
            ("build prefix - atleast 0 5", Build(Prefix(b"", AtLeast(0, 5)))),
            ("gets 61,-,6162 1", GetMany([b"a", b"", b"ab"], (1,))), ("back none 10 all", GetRangeBack(None, 10)),
            ("back 61 0 1,0", GetRangeBack(b"a", 0, (1, 0))), ("count - none 5", CountRange(b"", None, 5)),
            ("count 61 62 4294967295", CountRange(b"a", b"b", 2 ** 32 - 1))]
        for line, query in lines:
            with self.subTest(line=line):
                self.assertEqual(read_query(line, HEX), query)
                if isinstance(query, Build):
                    self.assertEqual("build " + spec_text(query.spec), line)

    def test_outcomes(self) -> None:
        rows = [(b"a", ROW), (b"", Row(3, (b"\xab",)))]
        lines: List[Tuple[Query[Any], Any, str]] = [
            (Get(b"a"), Reply(None, 1, 2), "done 1 2 absent"), (Get(b"a"), Reply(ROW, 1, 2), "done 1 2 row 258 76,-"),
            (Put(b"a", b"v"), Reply(2, 1, 2), "done 1 2 put 2"),
            (PutIf(b"a", b"v", 1), Reply(2, 1, 2), "done 1 2 put 2"),
            (PutIf(b"a", b"v", 1), OtherVersion(0), "refused 16 0"),
            (Remove(b"a"), Reply(2, 1, 2), "done 1 2 removed 2"),
            (GetRange(), Reply([], 1, 2), "done 1 2 rows 0"), (Remove(b"a"), Reply(None, 1, 2), "done 1 2 absent"),
            (GetRange(), Reply(rows, 1, 2), "done 1 2 rows 2 61:258:76,- -:3:ab"),
            (Tidy(b"a"), Reply(Tidied.NOTHING, 1, 2), "done 1 2 tidied none"),
            (Tidy(b"a"), Reply(Tidied.EMPTY_LAYER, 1, 2), "done 1 2 tidied d"),
            (Build(Range()), Reply(7, 1, 2), "done 1 2 built 7"), (ViewDrop(7), Reply(None), "dropped"),
            (ViewRead(7), Reply(Page(1, 2, (3, 4), rows[1:])), "view 1 2 3,4 1 -:3:ab"),
            (ViewRead(7), Reply(Page(1, 0, (0,), [])), "view 1 0 0 0"),
            (GetMany([b"a", b"b"]), Reply(RowsAt(5, [ROW, None])), "found 5 2 258:76,- none"),
            (GetMany([]), Reply(RowsAt(0, [])), "found 0 0"), (CountRange(), Reply(3, 1, 2), "done 1 2 count 3"),
            (GetRangeBack(), Reply(rows[:1], 1, 2), "done 1 2 rows 1 61:258:76,-"),
            (ViewRead(7), Behind(5), "refused 12 5"), (Get(b"a"), rowanspan.KeyTooLong(), "refused 2")]
        for query, outcome, line in lines:
            with self.subTest(line=line):
                self.assertEqual(outcome_line(query, outcome, HEX), line)

    def test_receipts(self) -> None:
        self.assertEqual(receipt_line(Put(b"a", b"v"), Reply(1, 0, 1)), "receipt 0 1 put 61 0=76 => put 1")
        self.assertEqual(receipt_line(PutIf(b"a", b"v", 0), Reply(1, 0, 1)), "receipt 0 1 putif 61 0 0=76 => put 1")
        self.assertEqual(receipt_line(Get(b"a"), Reply(Row(1, (b"v",)), 1, 1)), "receipt 1 1 get 61 all => row 1 76")
        self.assertEqual(page_receipt_line(Prefix(b"a"), ViewRead(1, 2, b"", 3), Page(4, 0, (0,), [])),
                         "receipt 4 4 view prefix 61 any 2 - 3 => view 4 0 0 0")

    def test_text_both_ways(self) -> None:
        for value in (b"", b"-", b"--", b"none", b"a b", b"a,b:c\\d=e", b"\xff\x00\n", "größe".encode(), b"\xc3",
                      bytes(range(256))):
            with self.subTest(value=value):
                word = TEXT.write(value)
                self.assertEqual(TEXT.read(word), value)
                self.assertFalse(set(word) & set(" ,:\n"))
        self.assertEqual(TEXT.write("größe=1".encode()), "größe=1")
        for word in ("", "\\", "\\x", "\\xg0", "a\\n"):
            with self.assertRaises(BadLine):
                TEXT.read(word)


class ShellTest(unittest.TestCase):
    def run_shell(self, words: Sequence[str], lines: bytes = b"") -> Tuple[int, str]:
        with StandIn(Options(columns=1)) as server:
            server.index.answer(Put(b"a", b"v"))
            done = subprocess.run([sys.executable, str(SHELL), "-p", str(server.port), *words], input=lines,
                                  stdout=subprocess.PIPE, stderr=subprocess.DEVNULL, timeout=SECONDS, check=False)
        return done.returncode, done.stdout.decode()

    def test_one_line(self) -> None:
        self.assertEqual(self.run_shell(["get", "61", "all"]), (0, "done 1 1 row 1 76\n"))
        self.assertEqual(self.run_shell(["range", "-", "10", "all"]), (0, "done 1 1 rows 1 61:1:76\n"))
        self.assertEqual(self.run_shell(["get", "61"]), (1, "bad line\n"))
        self.assertEqual(self.run_shell(["get", "61" * (MAX_KEY_BYTES + 1), "all"]), (0, "refused 2\n"))
        self.assertEqual(self.run_shell(["get", "61" * MAX_KEY_BYTES, "all"]), (0, "done 1 1 absent\n"))
        self.assertEqual(self.run_shell(["put", "61", "0=" + "00" * 256]), (1, "bad line\n"))

    def test_lines(self) -> None:
        lines = b"put 62 0=77\nputif 62 2 0=77\nputif 62 2 -\nputif 63 1 -\nnonsense\n\n\xff\nbuild prefix - any\n" \
                b"view 1 3 - 10\ndrop 1\nremove 61"
        said = "done 1 2 put 2\ndone 2 3 put 3\nrefused 16 3\nrefused 16 0\nbad line\nbad line\nbad line\n" \
               "done 3 3 built 1\nview 3 2 237 2 61:1:76 62:3:77\ndropped\ndone 3 4 removed 4\n"
        self.assertEqual(self.run_shell([], lines), (1, said))
        self.assertEqual(self.run_shell([], b""), (0, ""))

    def test_reads_of_one_moment(self) -> None:
        lines = b"put - 0=77\nback none 5 all\nback 61 5 0\ngets 61,62,- all\ngets 61 1\ncount - none 9\n" \
                b"count 61 62 1000001\nback - 0 all\n"
        said = "done 1 2 put 2\ndone 2 2 rows 2 61:1:76 -:2:77\ndone 2 2 rows 1 -:2:77\nfound 2 3 1:76 none 2:77\n" \
               "refused 3\ndone 2 2 count 2\nrefused 5\nrefused 5\n"
        self.assertEqual(self.run_shell([], lines), (0, said))
        self.assertEqual(self.run_shell(["--text", "gets", "a,none all"]), (0, "found 1 2 1:v none\n"))

    def test_text(self) -> None:
        lines = "put größe 0=a\\x20b\nrange - 10 all\n".encode()
        said = "done 1 2 put 2\ndone 2 2 rows 2 a:1:v größe:2:a\\x20b\n"
        self.assertEqual(self.run_shell(["--text"], lines), (0, said))

    def test_a_line_that_is_too_long(self) -> None:
        lines = b"put 62 0=" + b"7" * 3_000_000 + b"\nget 61 all\n" + b"8" * 2_000_000
        self.assertEqual(self.run_shell([], lines), (1, "bad line\ndone 1 1 row 1 76\nbad line\n"))

    def test_a_line_after_the_options(self) -> None:
        self.assertEqual(self.run_shell(["--", "get", "61", "all"]), (0, "done 1 1 row 1 76\n"))

    def status_of(self, words: Sequence[str]) -> int:
        return subprocess.run([sys.executable, str(SHELL), *words], input=b"", stdout=subprocess.DEVNULL,
                              stderr=subprocess.DEVNULL, timeout=SECONDS, check=False).returncode

    def test_statuses(self) -> None:
        with socket.create_server(("127.0.0.1", 0)) as listener:
            port = str(listener.getsockname()[1])
        self.assertEqual(self.status_of(["--help"]), 0)
        self.assertEqual(self.status_of(["get", "61", "all"]), 2)
        for wrong in ("x", "-1", "65536"):
            self.assertEqual(self.status_of(["-p", wrong, "get", "61", "all"]), 2)
        for words in (["-p", port, "--embedded"], ["-p", port, "--columns", "2"], ["--embedded", "--timeout", "1"],
                      ["--embedded", "--host", "localhost"], ["--embedded", "--columns", "x"], ["--embedded", "--tls"],
                      ["-p", port, "--ca", "/nowhere"]):
            with self.subTest(words=words):
                self.assertEqual(self.status_of([*words, "get", "61", "all"]), 2)
        self.assertEqual(self.status_of(["-p", port, "get", "61", "all"]), 3)

    def test_an_index_without_a_library(self) -> None:
        environment = {**os.environ, "ROWANSPAN_LIBRARY": "/nowhere/librowanspan.so"}
        done = subprocess.run([sys.executable, str(SHELL), "--embedded", "get", "61", "all"], env=environment,
                              capture_output=True, timeout=SECONDS, check=False)
        self.assertEqual((done.returncode, done.stdout), (3, b""))
        self.assertEqual(done.stderr, b"rowan: there is no library at /nowhere/librowanspan.so\n")

    def test_licences(self) -> None:
        done = subprocess.run([sys.executable, str(SHELL), "--licenses"], input=b"", capture_output=True,
                              timeout=SECONDS, check=False)
        made = SHELL.parents[2] / "dist" / "THIRD-PARTY"
        notices = b"\n" + made.read_bytes() if made.exists() else b"THIRD-PARTY isn't here: scripts/release makes it\n"
        self.assertEqual((done.returncode, done.stdout, done.stderr),
                         (0, b"Rowanspan: MIT OR Apache-2.0\n" + notices, b""))
        with open("/dev/full", "wb") as full:
            done = subprocess.run([sys.executable, str(SHELL), "--licenses"], stdout=full, stderr=subprocess.PIPE,
                                  timeout=SECONDS, check=False)
        self.assertEqual((done.returncode, done.stderr.count(b"\n")), (3, 1))

    def test_an_interrupt(self) -> None:
        with StandIn() as server:
            # (these tests may run in the background of a shell, which ignores interrupts there)
            with subprocess.Popen([sys.executable, str(SHELL), "-p", str(server.port)], stdin=subprocess.PIPE,
                                  stdout=subprocess.PIPE, stderr=subprocess.PIPE,
                                  preexec_fn=lambda: signal.signal(signal.SIGINT, signal.SIG_DFL)) as shell:
                assert shell.stdin is not None and shell.stdout is not None and shell.stderr is not None
                shell.stdin.write(b"put 61 0=76\n")
                shell.stdin.flush()
                self.assertEqual(shell.stdout.readline(), b"done 0 1 put 1\n")
                shell.send_signal(signal.SIGINT)
                self.assertEqual((shell.wait(SECONDS), shell.stderr.read()), (130, b""))

    def test_output_that_is_full(self) -> None:
        with StandIn() as server, open("/dev/full", "wb") as full:
            done = subprocess.run([sys.executable, str(SHELL), "-p", str(server.port), "get", "61", "all"], stdout=full,
                                  stderr=subprocess.PIPE, timeout=SECONDS, check=False)
        self.assertEqual((done.returncode, done.stderr.count(b"\n")), (3, 1))

    def test_output_that_is_closed(self) -> None:
        with StandIn() as server:
            line = f"exec {sys.executable} {SHELL} -p {server.port} get 61 all >&-"
            done = subprocess.run(["sh", "-c", line], stderr=subprocess.PIPE, timeout=SECONDS, check=False)
            self.assertEqual((done.returncode, done.stderr.count(b"\n")), (3, 1))
            self.assertEqual(server.faults, [])


def example_of(path: Path) -> str:
    """The one example of a page that imports an index or a client."""
    page = path.read_text(encoding="utf-8")
    (block,) = (part for part in re.findall(r"(?:^(?:    .*)?\n)+", page, re.M) if "from rowanspan import" in part)
    return textwrap.dedent(block)


class DocumentTest(unittest.TestCase):
    def test_the_longest_key_of_the_page(self) -> None:
        page = SHELL.parents[2].joinpath("docs", "WIRE.md").read_text(encoding="utf-8")
        (most,) = re.findall("A key of more than ([0-9,]+) bytes", page)
        self.assertEqual(int(most.replace(",", "")), MAX_KEY_BYTES)

    def test_the_example_of_the_page(self) -> None:
        page = SHELL.parents[2] / "docs" / "SERVING.md"
        with StandIn() as server:
            example = example_of(page).replace("7070", str(server.port))
            done = subprocess.run([sys.executable, "-c", example], cwd=SHELL.parent, stdout=subprocess.PIPE,
                                  timeout=SECONDS, check=True)
        self.assertEqual(done.stdout, b"Row(version=1, columns=(b'red',))\nFalse (b'red',)\n[b'pear', b'plum']\n2\n")
        self.assertEqual(server.index.commits, 6)

    def test_the_example_of_the_readme(self) -> None:
        with StandIn() as server:
            example = example_of(SHELL.parent / "README.md").replace("Index()", f"Client({server.port})")
            done = subprocess.run([sys.executable, "-c", example.replace("import Index", "import Client")],
                                  cwd=SHELL.parent, stdout=subprocess.PIPE, timeout=SECONDS, check=True)
        self.assertEqual(done.stdout, b"Row(version=1, columns=(b'red',))\nb'apple' (b'green',)\n1\n")

    def test_the_lines_of_the_page(self) -> None:
        page = SHELL.parents[2].joinpath("docs", "SERVING.md").read_text(encoding="utf-8")
        with StandIn() as server:
            for words, said in re.findall(r"^    clients/python/rowan -p 7070 (\S.*?)  +(done .*)$", page, re.M):
                done = subprocess.run([sys.executable, str(SHELL), "-p", str(server.port), *words.split()],
                                      stdout=subprocess.PIPE, timeout=SECONDS, check=True)
                self.assertEqual(done.stdout.decode(), said + "\n")
            self.assertEqual(server.index.commits, 3)
