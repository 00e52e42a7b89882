"""Tests of the stand-in's own log, on which scripts/durable_test is tried, and of `rowan serve` over it.
test_rowanspan.py runs them."""
from __future__ import annotations

import os
import signal
import subprocess
import sys
import tempfile
import unittest
from pathlib import Path
from typing import Type

from rowanspan import Client, Row
from server_cases import SECONDS
from stand_in import Options, StandIn
from stand_in_log import BadLog, FileLog, Policy

HERE = Path(__file__).resolve().parent


class Folder(unittest.TestCase):
    """Tests in a folder of their own."""

    def setUp(self) -> None:
        made = tempfile.TemporaryDirectory()
        self.addCleanup(made.cleanup)
        self.folder = Path(made.name) / "data"


class FileLogTest(Folder):
    def puts(self, count: int, columns: int = 1) -> int:
        """Puts `count` rows, and removes the first; returns the number of commits that were there before."""
        log = FileLog(self.folder, Policy(), columns)
        with StandIn(Options(workers=1, columns=columns, log=log)) as server:
            with Client(server.port, timeout=SECONDS) as index:
                before = index.ping()
                for number in range(count):
                    index.put(b"%d" % number, {0: b"v"})
                index.remove(b"0")
            server.stop()
            server.join()
        log.close()
        return before

    def want_bad(self, kind: Type[Exception], columns: int = 1) -> str:
        with self.assertRaises(kind) as met:
            FileLog(self.folder, Policy(), columns)
        return str(met.exception)

    def test_one_at_a_time(self) -> None:
        log = FileLog(self.folder, Policy(), 1)
        self.want_bad(BlockingIOError)
        log.close()
        self.assertEqual(self.puts(1), 0)

    def test_again(self) -> None:
        self.assertEqual([self.puts(count) for count in (3, 0, 5)], [0, 4, 4])
        self.assertEqual(self.puts(1), 10)

    def test_what_is_no_log(self) -> None:
        self.puts(3)
        self.assertIn("columns 1", self.want_bad(BadLog, columns=2))
        self.assertEqual(self.puts(0), 4)
        wal = self.folder / "even-wal"
        whole = wal.read_bytes().rstrip(b"\0")
        wal.write_bytes(whole[:40] + bytes((whole[40] ^ 1,)) + whole[41:])
        self.assertRegex(self.want_bad(BadLog), "the line at byte [0-9]+ is damaged$")
        wal.write_bytes(whole[:-1])
        self.assertEqual(self.puts(1), 3)

    def test_policies(self) -> None:
        self.assertEqual([Policy.read(word) for word in ("always", "never", "50")],
                         [Policy(), Policy(False), Policy(False, 50)])
        for word in ("", "0", "-1", "x", "1.5", "86400001"):
            with self.assertRaises(ValueError):
                Policy.read(word)


class ServeTest(Folder):
    """`rowan serve` over the stand-in."""

    def started(self, *options: str) -> subprocess.Popen[bytes]:
        process = subprocess.Popen([sys.executable, str(HERE / "rowan"), "serve", *options], stdin=subprocess.DEVNULL,
                                   stdout=subprocess.DEVNULL, stderr=subprocess.PIPE,
                                   env={**os.environ, "ROWANSPAN_MTSERVE": str(HERE / "stand_in.py")})
        self.addCleanup(process.kill)
        assert process.stderr is not None
        self.addCleanup(process.stderr.close)
        return process

    def test_rows_survive(self) -> None:
        """The options reach the server, and a signal lets it end."""
        for policy, number in (((), 1), (("--sync", "never"), 2), (("--sync", "60000"), 3), (("--sync", "always"), 4)):
            process = self.started("--data", str(self.folder), *policy)
            assert process.stderr is not None
            port = int(process.stderr.readline().split()[1])
            with Client(port, timeout=SECONDS) as index:
                self.assertEqual(index.get(b"a"), None if number == 1 else Row(number - 1, (b"v",)))
                self.assertEqual(index.put(b"a", b"v"), number)
                self.assertEqual(index.durable(), number if policy[1:] in ((), ("always",)) else number - 1)
            process.send_signal(signal.SIGTERM)
            self.assertEqual(process.wait(SECONDS), 0)

    def test_bad_command_lines(self) -> None:
        for words in (("--sync", "always"), ("--data", str(self.folder), "--sync", "often")):
            process = self.started(*words)
            self.assertEqual(process.wait(SECONDS), 2)
        self.assertFalse(self.folder.exists())
        # one at a time
        log = FileLog(self.folder, Policy(), 1)
        self.assertEqual(self.started("--data", str(self.folder)).wait(SECONDS), 3)
        log.close()
