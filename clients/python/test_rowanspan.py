#!/usr/bin/env python3
"""Tests of the client over a stand-in, without the server: broken streams, calls and pipelines. As a program it runs
the other tests that need nothing built too, and its last line is 'N passed, M failed'."""
from __future__ import annotations

import socket
import sys
import threading
import unittest
from typing import Any, List, Sequence, Tuple

import rowanspan
import test_aio
import test_aio_server
import test_bad_input
import test_board
import test_board_server
import test_durable
import test_durable_changes
import test_mapping
import test_mirror
import test_mirror_model
import test_mirror_reading
import test_mirror_rows
import test_names
import test_pool
import test_reads
import test_server_command
import test_server_queries
import test_shell
import test_stand_in_log
import test_wheel
import test_wire
from counting import run_counted
from rowanspan import (MAX_KEY_BYTES, BadReply, Build, Client, ConnectionLost, Get, GetRange, NoSuchView,
                       OtherVersion, Page, Prefix, Put, PutIf, Query, Range, Refused, Reply, Row, Tidied, TooLong,
                       Unanswered, View, ViewDrop, ViewRead, WrongIndex)
from stand_in import Options, StandIn
from test_wire import ANSWERS, ROW, framed

SECONDS = 20.0


class Canned:
    """A server of one connection that sends given pieces, whatever it is asked, and ends the connection."""

    def __init__(self, pieces: Sequence[bytes]) -> None:
        self._pieces = pieces
        self._listener = socket.create_server(("127.0.0.1", 0))
        self._listener.settimeout(SECONDS)
        self.port: int = self._listener.getsockname()[1]
        self._thread = threading.Thread(target=self._serve, daemon=True)

    def _serve(self) -> None:
        connection, _ = self._listener.accept()
        with connection:
            connection.settimeout(SECONDS)
            connection.setsockopt(socket.IPPROTO_TCP, socket.TCP_NODELAY, 1)
            connection.recv(rowanspan.MAX_REQUEST_BODY)
            for piece in self._pieces:
                connection.sendall(piece)

    def __enter__(self) -> Canned:
        self._thread.start()
        return self

    def __exit__(self, *_: object) -> None:
        self._thread.join()
        self._listener.close()


class BrokenStreamTest(unittest.TestCase):
    def test_cut_replies(self) -> None:
        whole = framed([ANSWERS[1][1]])
        for kept in range(len(whole)):
            with Canned([whole[:kept]]) as server, Client(server.port, timeout=SECONDS) as index:
                with self.assertRaises(ConnectionLost):
                    index.get(b"a")
                with self.assertRaises(ConnectionLost):
                    index.get(b"a")

    def test_a_reply_byte_by_byte(self) -> None:
        whole = framed([ANSWERS[1][1]])
        with Canned([whole[at:at + 1] for at in range(len(whole))]) as server:
            with Client(server.port, timeout=SECONDS) as index:
                self.assertEqual(index.get(b"a"), ROW)

    def test_bad_lengths(self) -> None:
        for length in (0, 1, rowanspan.MAX_REPLY_BODY + 1, 2 ** 32 - 1):
            with Canned([length.to_bytes(4, "big")]) as server, Client(server.port, timeout=SECONDS) as index:
                with self.assertRaises(BadReply):
                    index.get(b"a")
                with self.assertRaises(ConnectionLost):
                    index.get(b"a")

    def test_nobody_listens(self) -> None:
        with socket.create_server(("127.0.0.1", 0)) as listener:
            port = listener.getsockname()[1]
        with self.assertRaises(ConnectionLost):
            Client(port, timeout=SECONDS)
        with self.assertRaises(ConnectionLost):
            Client(port, "x" * 70, timeout=SECONDS)

    def test_a_server_that_does_not_answer(self) -> None:
        with socket.create_server(("127.0.0.1", 0)) as listener:
            with Client(listener.getsockname()[1], timeout=0.05) as index:
                with self.assertRaises(ConnectionLost):
                    index.get(b"a")

    def test_unfit_arguments_leave_the_connection(self) -> None:
        with StandIn() as server, Client(server.port, timeout=SECONDS) as index:
            with self.assertRaises(TooLong):
                index.put(b"a", bytes(256))
            with self.assertRaises(TooLong):
                index.call_all([Get(b"a")] * 65)
            self.assertIsNone(index.get(b"a"))

    def test_after_close(self) -> None:
        with StandIn() as server:
            index = Client(server.port, timeout=SECONDS)
            index.close()
            index.close()
            for call in (lambda: index.get(b"a"), lambda: index.put(b"a", b"v"), lambda: list(index.range()),
                         lambda: index.build(Prefix(b"a")), lambda: index.view(1).count, index.view(1).drop):
                with self.assertRaisesRegex(rowanspan.Closed, "^the index is closed$"):
                    call()
            self.assertEqual(server.index.events, 0)

    def test_a_server_that_is_gone(self) -> None:
        with Canned([]) as server, Client(server.port, timeout=SECONDS) as index:
            with self.assertRaisesRegex(ConnectionLost, "^the server ended the connection$"):
                index.get(b"a")
            with self.assertRaisesRegex(ConnectionLost, "was lost before"):
                index.put(b"a", b"v")
        with self.assertRaisesRegex(ConnectionLost, f"no connection to 127.0.0.1, port {server.port}"):
            Client(server.port, timeout=SECONDS)


class CallTest(unittest.TestCase):
    def setUp(self) -> None:
        self.server = self.enter(StandIn(Options(columns=2)))
        self.index = self.enter(Client(self.server.port, timeout=SECONDS))

    def enter(self, context: Any) -> Any:
        self.addCleanup(context.__exit__, None, None, None)
        return context.__enter__()

    def test_rows(self) -> None:
        self.assertIsNone(self.index.get(b"a"))
        self.assertIsNone(self.index.remove(b"a"))
        self.assertEqual(self.index.put(b"a", b"v"), 1)
        self.assertEqual(self.index.put(b"a", {1: b"w"}), 2)
        self.assertEqual(self.index.get(b"a"), Row(2, (b"v", b"w")))
        self.assertEqual(self.index.get(b"a", columns=[1, 0]), Row(2, (b"w", b"v")))
        self.assertEqual(self.index.put(b"", {}), 3)
        self.assertEqual(self.index.first(), [(b"", Row(3, (b"", b""))), (b"a", Row(2, (b"v", b"w")))])
        self.assertEqual(self.index.first(b"", 1, [1]), [(b"", Row(3, (b"",)))])
        self.assertEqual(self.index.remove(b"a"), 4)
        self.assertEqual(self.index.tidy(b"a"), Tidied.NOTHING)
        self.assertEqual(self.index.call(Get(b"a")), Reply(None, 4, 4))
        self.assertEqual(self.index.call(Put(b"a", b"v")), Reply(5, 4, 5))
        self.assertEqual(self.index.call(Build(Prefix(b""))), Reply(1, 5, 5))
        self.assertEqual(self.index.call(ViewRead(1, 5, b"b")), Reply(Page(5, 2, (118, 0), [])))

    def test_conditional_puts(self) -> None:
        self.assertEqual(self.index.put_if(b"a", b"v", 0), 1)
        self.assertEqual(self.index.put_if(b"a", {1: b"w"}, 1), 2)
        for wrong in (0, 1, 3):
            with self.assertRaises(OtherVersion) as met:
                self.index.put_if(b"a", b"x", wrong)
            self.assertEqual((met.exception.number, met.exception.detail), (16, 2))
        with self.assertRaises(OtherVersion) as met:
            self.index.put_if(b"b", b"x", 1)
        self.assertEqual(met.exception.detail, 0)
        self.assertEqual(self.index.first(), [(b"a", Row(2, (b"v", b"w")))])
        with self.index.pipeline() as pipeline:
            commit, row = pipeline.add(PutIf(b"b", b"x", 0)), pipeline.add(Get(b"b", [0]))
        self.assertEqual((commit.value, row.value), (3, Row(3, (b"x",))))

    def test_refusals(self) -> None:
        wrong: List[Tuple[Query[Any], int]] = [
            (Get(bytes(MAX_KEY_BYTES + 1)), 2), (Get(b"", [2]), 3), (Put(b"", [(0, b""), (0, b"")]), 3),
            (Put(b"", bytes(65)), 4),
            (GetRange(b"", 0), 5), (GetRange(b"", 1001), 5), (ViewRead(1), 11), (ViewDrop(1), 11),
            (Build(Range(b"b", b"a")), 13)]
        for query, number in wrong:
            with self.subTest(query=query), self.assertRaises(Refused) as met:
                self.index.call(query)
            self.assertEqual((met.exception.number, met.exception.detail), (number, None))

    def test_call_all(self) -> None:
        outcomes = self.index.call_all([Put(b"a", b"v"), GetRange(b"", 0), Get(b"a")])
        self.assertEqual(outcomes[0], Reply(1, 0, 1))
        self.assertIsInstance(outcomes[1], rowanspan.BadLimit)
        self.assertEqual(outcomes[2], Reply(Row(1, (b"v", b"")), 1, 1))


class PipelineTest(unittest.TestCase):
    def setUp(self) -> None:
        self.server = StandIn(Options(columns=2))
        self.addCleanup(self.server.__exit__, None, None, None)
        self.index = Client(self.server.port, timeout=SECONDS)
        self.addCleanup(self.index.close)

    def test_values_in_order(self) -> None:
        pipeline = self.index.pipeline()
        put, wrong, got = pipeline.add(Put(b"a", b"v")), pipeline.add(GetRange(b"", 0)), pipeline.add(Get(b"a", [0]))
        with self.assertRaises(Unanswered):
            put.value
        values = pipeline.send()
        self.assertEqual((values[0], values[2]), (1, Row(1, (b"v",))))
        self.assertIsInstance(values[1], rowanspan.BadLimit)
        self.assertEqual((put.value, got.reply), (1, Reply(Row(1, (b"v",)), 1, 1)))
        with self.assertRaises(rowanspan.BadLimit):
            wrong.value
        self.assertEqual((len(pipeline), pipeline.send()), (0, []))

    def test_each_method(self) -> None:
        with self.index.pipeline() as pipeline:
            asked = [pipeline.put(b"a", {0: b"v", 1: b"w"}), pipeline.get(b"a"), pipeline.get(b"a", [1]),
                     pipeline.get(b"b"), pipeline.put_if(b"b", b"x", 0), pipeline.remove(b"a"), pipeline.remove(b"a"),
                     pipeline.first(b"b", 5, [0]), pipeline.first(), pipeline.tidy(b"a")]
            built = pipeline.build(Prefix(b"b"))
            self.assertEqual((len(pipeline), self.server.index.events), (11, 0))
        pairs = [(b"b", Row(2, (b"x", b"")))]
        self.assertEqual([pending.value for pending in asked], [
            1, Row(1, (b"v", b"w")), Row(1, (b"w",)), None, 2, 3, None, [(b"b", Row(2, (b"x",)))], pairs,
            Tidied.NOTHING])
        self.assertEqual((built.value, built.reply), (self.index.view(1), Reply(self.index.view(1), 3, 3)))
        self.assertEqual(built.value.count, 1)
        pipeline.page(built.value, 3, b"b", 1)
        pipeline.page(1, limit=5)
        pipeline.drop(built.value)
        pipeline.drop(1)
        pipeline.build(Prefix(b""))
        page, same, nothing, dropped, again = pipeline.send()
        self.assertEqual((page, same, nothing, again), (Page(3, 1, (120, 0), pairs), page, None, self.index.view(2)))
        self.assertIsInstance(dropped, NoSuchView)

    def test_a_refused_build(self) -> None:
        with self.assertRaises(rowanspan.BadRange), self.index.pipeline() as pipeline:
            built, put = pipeline.build(Range(b"b", b"a")), pipeline.put(b"a", b"v")
        self.assertEqual(put.value, 1)
        with self.assertRaises(rowanspan.BadRange):
            built.value

    def test_the_first_refusal(self) -> None:
        """The end of the block raises the first refusal, when all queries have their answers."""
        self.index.put(b"a", b"v")
        with self.assertRaises(OtherVersion) as met, self.index.pipeline() as pipeline:
            asked = [pipeline.put(b"b", b"v"), pipeline.put_if(b"a", b"w", 0), pipeline.first(limit=0),
                     pipeline.put(b"c", b"v")]
        self.assertEqual(met.exception.detail, 1)
        self.assertEqual([asked[0].value, asked[3].value, len(pipeline)], [2, 3, 0])
        for pending, kind in ((asked[1], OtherVersion), (asked[2], rowanspan.BadLimit)):
            with self.assertRaises(kind):
                pending.value

    def test_wrong_arguments(self) -> None:
        pipeline: Any = self.index.pipeline()
        for name, arguments in (
                ("get", ("a",)), ("get", (b"a", 0)), ("put", (b"a", "v")), ("put_if", (b"a", b"v", "0")),
                ("remove", (None,)), ("first", ("",)), ("first", (b"", "1")), ("tidy", (5,)), ("build", (b"a",)),
                ("page", ("1",)), ("page", (None,)), ("page", (1, "0")), ("drop", (b"1",)), ("add", (b"a",))):
            with self.subTest(name=name, arguments=arguments), self.assertRaises(TypeError):
                getattr(pipeline, name)(*arguments)
        other = View(self.index, self.index.view(1).number)
        other._index = object()  # type: ignore[assignment]
        for name in ("page", "drop"):
            with self.assertRaisesRegex(WrongIndex, "^this is a view of another index: <rowanspan.View 1 of "):
                getattr(pipeline, name)(other)
        self.assertEqual((len(pipeline), pipeline.send(), self.server.index.events), (0, [], 0))

    def test_with_block(self) -> None:
        with self.index.pipeline() as pipeline:
            commits = [pipeline.put(bytes((number,)), b"v") for number in range(64)]
            with self.assertRaises(TooLong):
                pipeline.get(b"a")
        self.assertEqual([commit.value for commit in commits], list(range(1, 65)))
        with self.assertRaises(KeyError), self.index.pipeline() as pipeline:
            pipeline.put(b"a", b"v")
            raise KeyError
        self.assertIsNone(self.index.get(b"a"))

    def test_too_many_bytes(self) -> None:
        pipeline = self.index.pipeline()
        refused = [pipeline.get(bytes(65_000)) for _ in range(4)]
        with self.assertRaises(TooLong):
            pipeline.get(bytes(65_000))
        pipeline.send()
        for one in refused:
            with self.assertRaises(rowanspan.KeyTooLong):
                one.value

    def test_a_closed_index(self) -> None:
        pipeline = self.index.pipeline()
        put = pipeline.put(b"a", b"v")
        self.index.close()
        with self.assertRaises(rowanspan.Closed):
            pipeline.send()
        with self.assertRaises(Unanswered):
            put.value


def main() -> int:
    load = unittest.defaultTestLoader.loadTestsFromModule
    modules = (test_wire, sys.modules[__name__], test_server_queries, test_reads, test_pool, test_aio, test_aio_server,
               test_mapping, test_names, test_shell, test_server_command, test_bad_input, test_board,
               test_board_server, test_durable, test_durable_changes, test_mirror_rows, test_mirror,
               test_mirror_reading, test_mirror_model, test_stand_in_log, test_wheel)
    return run_counted(unittest.TestSuite(load(module) for module in modules))


if __name__ == "__main__":
    sys.exit(main())
