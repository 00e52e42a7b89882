"""Tests of `rowan info`, `views`, `ping`, `stop` and `folder`, and of --token-file. test_rowanspan.py runs them."""
from __future__ import annotations

import os
import socket
import subprocess
import sys
import tempfile
import threading
import time
import unittest
from pathlib import Path
from typing import Any, List, Tuple
from unittest import mock

from rowanspan import Build, Equals, Prefix, Put, Range, Role, shell
from rowanspan.mirror import command as mirror
from server_cases import OWNER, READER, SECONDS, TOKENS, WRITER
from stand_in import Options, StandIn

SHELL = Path(__file__).resolve().parent / "rowan"
NOT_ALLOWED = "rowan: the client's token does not allow it, or the client has none\n"


def run(*words: str, lines: str = "") -> Tuple[int, str, str]:
    """Runs the command to its end: its status, output and errors."""
    done = subprocess.run([sys.executable, str(SHELL), *words], input=lines, capture_output=True, text=True,
                          timeout=SECONDS, check=False)
    return done.returncode, done.stdout, done.stderr


def free_port() -> str:
    with socket.create_server(("127.0.0.1", 0)) as listener:
        return str(listener.getsockname()[1])


class CommandTest(unittest.TestCase):
    def stand_in(self, **options: Any) -> StandIn:
        server = StandIn(Options(workers=2, **options))
        self.addCleanup(server.__exit__, None, None, None)
        return server

    def folder(self) -> Path:
        made = tempfile.TemporaryDirectory()
        self.addCleanup(made.cleanup)
        return Path(made.name)

    def token_file(self, text: bytes) -> str:
        path = self.folder() / "token"
        path.write_bytes(text)
        return str(path)

    def test_info(self) -> None:
        server = self.stand_in()
        server.index.answer(Put(b"a", b"v"))
        for words in (("info", "-p", str(server.port)), ("-p", str(server.port), "info")):
            status, output, errors = run(*words)
            lines = dict(line.split(" ") for line in output.splitlines())
            self.assertEqual((status, errors, lines["commits"], lines["rows"], lines["connections"], lines["durable"]),
                             (0, "", "1", "1", "1", "0"))

    def test_views(self) -> None:
        server = self.stand_in()
        for query in (Put(b"a", b"v"), Build(Prefix(b"a")), Build(Range(b"", b"b c", Equals(0, b"v")))):
            server.index.answer(query)
        port = str(server.port)
        self.assertEqual(run("views", "-p", port), (0, "1 1 1 prefix 61 any\n2 1 1 range - 622063 equals 0 76\n", ""))
        said = (0, "1 1 1 prefix a any\n2 1 1 range - b\\x20c equals 0 v\n", "")
        self.assertEqual((run("views", "-p", port, "--text"), run("-p", port, "--text", "views")), (said, said))

    def test_ping(self) -> None:
        server = self.stand_in()
        server.index.answer(Put(b"a", b"v"))
        port = str(server.port)
        said = (0, "commits 1\n", "")
        self.assertEqual(run("ping", "-p", port), said)
        self.assertEqual(run("-p", port, "ping", "--wait", "5"), said)
        self.assertEqual(run("ping", "--wait", "0.5", "--timeout", "0.2", "-p", port), said)

    def test_ping_of_nobody(self) -> None:
        port = free_port()
        status, output, errors = run("ping", "-p", port)
        self.assertEqual((status, output), (3, ""))
        self.assertRegex(errors, f"^rowan: no connection to 127.0.0.1, port {port}: .*\n$")
        began = time.monotonic()
        status, output, errors = run("ping", "-p", port, "--wait", "0.5")
        self.assertEqual((status, output), (3, ""))
        self.assertRegex(errors, f"^rowan: no answer in 0.5 seconds: no connection to 127.0.0.1, port {port}: .*\n$")
        self.assertGreater(time.monotonic() - began, 0.4)

    def test_ping_of_a_server_that_does_not_answer(self) -> None:
        with socket.create_server(("127.0.0.1", 0)) as listener:
            port = str(listener.getsockname()[1])
            for words in (("--timeout", "0.2"), ("--wait", "0.5")):
                status, output, errors = run("ping", "-p", port, *words)
                self.assertEqual((status, output, errors.count("\n")), (3, "", 1))
                self.assertIn("timed out", errors)

    def test_ping_of_a_server_that_starts_later(self) -> None:
        port = free_port()
        started: List[StandIn] = []
        starting = threading.Timer(0.7, lambda: started.append(self.stand_in(port=int(port))))
        starting.start()
        self.assertEqual(run("ping", "-p", port, "--wait", str(SECONDS)), (0, "commits 0\n", ""))
        starting.join()

    def test_stop(self) -> None:
        for words in ((), ("--now",)):
            server = self.stand_in(tokens=TOKENS)
            path = self.token_file(OWNER + b"\n")
            self.assertEqual(run("stop", "-p", str(server.port), "--token-file", path, *words), (0, "commits 0\n", ""))
            server.join()

    def test_tokens(self) -> None:
        server = self.stand_in(tokens={**TOKENS, b"two words": Role.READ})
        port = str(server.port)
        for text in (OWNER, OWNER + b"\r\n", b"\n\n" + OWNER + b"\nmore\n", b"all " + OWNER + b"\nread x\n", WRITER,
                     b"write " + WRITER):
            with self.subTest(text=text):
                self.assertEqual(run("-p", port, "--token-file", self.token_file(text), "put", "61", "0=76")[0], 0)
        path = self.token_file(b"two words\n")
        self.assertEqual(run("ping", "-p", port, "--token-file", path)[0], 0)
        self.assertEqual(run("-p", port, "--token-file", path, lines="get 62 all\nput 61 0=76\n"),
                         (0, "done 6 6 absent\nrefused 24\n", ""))

    def test_what_is_not_allowed(self) -> None:
        server = self.stand_in(tokens=TOKENS)
        port, path = str(server.port), self.token_file(READER)
        self.assertEqual(run("stop", "-p", port, "--token-file", path), (1, "", NOT_ALLOWED))
        for words in ("info", "views", "ping", "stop"):
            self.assertEqual(run(words, "-p", port), (1, "", NOT_ALLOWED))
        self.assertEqual(run("ping", "--wait", "5", "-p", port), (1, "", NOT_ALLOWED))
        self.assertEqual(run("-p", port, "get", "61", "all"), (0, "refused 24\n", ""))
        wrong = self.token_file(b"wrong")
        for given, status in ((("info",), 1), (("ping",), 1), (("ping", "--wait", "5"), 1), (("get", "61", "all"), 3)):
            with self.subTest(given=given):
                self.assertEqual(run("-p", port, "--token-file", wrong, *given), (status, "", NOT_ALLOWED))

    def test_an_older_server(self) -> None:
        server = self.stand_in(newest=2)
        port = str(server.port)
        self.assertEqual(run("ping", "-p", port), (3, "", "rowan: the server ended the connection\n"))
        why = "the server ended the connection before it answered hello: is it full, or older than hello?"
        self.assertEqual(run("-p", port, "--token-file", self.token_file(OWNER), "get", "61", "all"),
                         (3, "", f"rowan: {why}\n"))
        self.assertEqual(run("-p", port, "get", "61", "all"), (0, "done 0 0 absent\n", ""))

    def test_files_without_a_token(self) -> None:
        for path in (str(self.folder() / "none"), self.token_file(b""), self.token_file(b"\n\n"),
                     self.token_file(b"read \n"), str(self.folder())):
            for words in (("get", "61", "all"), ("ping",)):
                status, output, errors = run("-p", "1", "--token-file", path, *words)
                self.assertEqual((status, output), (2, ""))
                self.assertIn("argument --token-file: ", errors.splitlines()[-1])

    def test_bad_command_lines(self) -> None:
        for words in (("info",), ("info", "-p", "x"), ("info", "-p", "1", "more"), ("ping", "-p", "1", "--wait", "0"),
                      ("ping", "-p", "1", "--wait", "-1"), ("stop", "-p", "1", "--later"), ("ping", "-p", "unix:"),
                      ("views", "-p", "1", "--ca", "x"), ("info", "-p", "1", "--wait", "5"), ("--embedded", "info"),
                      ("--embedded", "--token-file", self.token_file(b"x"), "get", "61", "all"),
                      ("-p", "1", "--token", "x", "ping")):
            with self.subTest(words=words):
                status, output, errors = run(*words)
                self.assertEqual((status, output), (2, ""))
                self.assertTrue(errors.startswith("usage: rowan "))
        for name in ("info", "views", "ping", "stop"):
            status, output, errors = run(name, "--help")
            self.assertEqual((status, errors), (0, ""))
            self.assertIn("--token-file FILE", output)
        self.assertIn("rowan info | views [--text] | ping [--wait SECONDS] | stop [--now]", run("--help")[1])

    def test_output_that_is_full(self) -> None:
        server = self.stand_in()
        with open("/dev/full", "wb") as full:
            done = subprocess.run([sys.executable, str(SHELL), "ping", "-p", str(server.port)], stdout=full,
                                  stderr=subprocess.PIPE, timeout=SECONDS, check=False)
        self.assertEqual((done.returncode, done.stderr.count(b"\n")), (3, 1))

    def test_the_folder(self) -> None:
        """`rowan folder` is the program mtfolder, with its words, output and status."""
        program = self.folder() / "mtfolder"
        program.write_text('#!/bin/sh\necho "$@"\necho why >&2\nexit 1\n', encoding="ascii")
        for mode in (0o755, 0o644):
            program.chmod(mode)
            with mock.patch.dict(os.environ, {"ROWANSPAN_MTFOLDER": str(program)}):
                self.assertEqual(run("folder", "verify", "a folder"), (1, "verify a folder\n", "why\n"))
        with mock.patch.dict(os.environ, {"ROWANSPAN_MTFOLDER": str(program) + "s"}):
            self.assertEqual(run("folder", "show", "a"),
                             (3, "", f"rowan: there is no program mtfolder at {program}s\n"))
        self.assertIn("rowan folder show | verify | rows FOLDER", run("--help")[1])
        self.assertIn("rowan folder cut FOLDER --at COMMIT", run("--help")[1])

    def test_the_board(self) -> None:
        server = self.stand_in(tokens=TOKENS)
        given = ["board", "-p", str(server.port), "--http", "0"]
        for words in (["--token-file", self.token_file(b"wrong")], []):
            self.assertEqual(run(*given, *words), (3, "", "rowan board: the server doesn't admit the board: "
                                                          + NOT_ALLOWED.partition(": ")[2]))
        words = [sys.executable, str(SHELL), *given, "--token-file", self.token_file(OWNER), "--build", "prefix 61 any"]
        with subprocess.Popen(words, stdout=subprocess.PIPE, text=True) as board:
            assert board.stdout is not None
            self.assertRegex(board.stdout.readline(), "^board at http://127.0.0.1:[0-9]+/\n$")
            self.assertEqual([view.spec for view in server.index.listing().views], [Prefix(b"a")])
            board.terminate()
            self.assertEqual(board.wait(SECONDS), 143)
        self.assertEqual(server.index.listing().views, [])

    def test_the_mirror(self) -> None:
        server = self.stand_in(tokens=TOKENS)
        given = ["mirror", "etcd", "-p", str(server.port), "--name", "a", "--url", "http://127.0.0.1:1",
                 "--prefix", "a"]
        roles: List[Role] = []

        def follow(source: Any, target: Any, *_: object) -> None:
            roles.append(target._index.hello.role)
            raise KeyboardInterrupt

        source = mock.Mock(identity="none", prefix=b"a")
        with mock.patch.multiple(mirror, opened_etcd=lambda options: source, follow=follow):
            self.assertEqual(shell.main([*given, "--token-file", self.token_file(WRITER)]), 130)
            with mock.patch.object(mirror, "complain") as complain:
                self.assertEqual(shell.main([*given, "--token-file", self.token_file(b"wrong")]), 3)
        complain.assert_called_once_with("the server: " + NOT_ALLOWED.partition(": ")[2].rstrip())
        self.assertEqual(roles, [Role.WRITE])

    def test_a_unix_socket(self) -> None:
        path = os.path.join(str(self.folder()), "s")
        self.stand_in(path=path)
        self.assertEqual(run("-p", f"unix:{path}", "put", "61", "0=76"), (0, "done 0 1 put 1\n", ""))
        self.assertEqual(run("ping", "-p", f"unix:{path}"), (0, "commits 1\n", ""))

