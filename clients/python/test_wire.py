"""Tests of the wire as the client has it: the worked bytes of docs/WIRE.md, each query and answer, and bodies that are
broken. test_rowanspan.py runs them."""
from __future__ import annotations

import socket
import tempfile
import unittest
from pathlib import Path
from typing import Any, Dict, List, Sequence, Tuple, Type

import rowanspan
from rowanspan import (MAX_KEY_BYTES, AnswerKind, AnyRow, AtLeast, BadColumn, BadLimit, BadReply, Behind, Build, Equals,
                       FeedFull, Get, GetRange, OtherVersion, Page, Prefix, Put, PutIf, Query, Range, Refused, Remove,
                       Reply, Row, Tidied, Tidy, TooLong, ViewDrop, ViewRead, frame_version, read_replies,
                       request_frame)
from stand_in import Options, PlainIndex, StandIn
from stand_in_wire import read_queries, reply_frame, spelled_done, spelled_page, spelled_pairs
from wire_page import PAGE, worked_bytes

SECONDS = 20.0
ROW = Row(258, (b"v", b""))

# one of each query, and its bytes
SPELLINGS: List[Tuple[Query[Any], str]] = [
    (Get(b"a"), "01 0001 61 00"),
    (Get(b"", [2, 0]), "01 0000 02 02 00"),
    (Put(b"a", b"v"), "02 0001 61 01 00 01 76"),
    (Put(b"a", {1: b"", 15: b"xy"}), "02 0001 61 02 01 00 0f 02 7879"),
    (Put(b"a", [(1, b""), (1, b"x")]), "02 0001 61 02 01 00 01 01 78"),
    (Put(b"a", {}), "02 0001 61 00"),
    (Remove(b"ab"), "03 0002 6162"),
    (GetRange(b"a", 258, [1]), "04 0001 61 0102 01 01"),
    (Tidy(b"a"), "05 0001 61"),
    (Build(Range(b"a", None, AnyRow())), "06 00 0001 61 00 00"),
    (Build(Range(b"", b"b", Equals(3, b"v"))), "06 00 0000 01 0001 62 01 03 01 76"),
    (Build(Prefix(b"a", AtLeast(2, 5))), "06 01 0001 61 02 02 0000000000000005"),
    (ViewRead(258, 1, b"a", 10), "07 0000000000000102 0000000000000001 0001 61 000a"),
    (ViewDrop(1), "08 0000000000000001"),
    (PutIf(b"a", b"v", 258), "09 0001 61 0000000000000102 01 00 01 76"),
]

# one of each answer: what asks, its bytes, and what is read
SPAN = "0000000000000001 0000000000000102"
PAIR = "0001 61 0000000000000102 02 01 76 00"
ANSWERS: List[Tuple[Query[Any], str, Reply[Any]]] = [
    (Get(b"a"), f"01 {SPAN}", Reply(None, 1, 258)),
    (Get(b"a"), f"02 {SPAN} 0000000000000102 02 01 76 00", Reply(ROW, 1, 258)),
    (Put(b"a", b"v"), f"03 {SPAN} 0000000000000002", Reply(2, 1, 258)),
    (Remove(b"a"), f"03 {SPAN} 0000000000000002", Reply(2, 1, 258)),
    (Remove(b"a"), f"01 {SPAN}", Reply(None, 1, 258)),
    (GetRange(), f"04 {SPAN} 0000", Reply([], 1, 258)),
    (GetRange(), f"04 {SPAN} 0001 {PAIR}", Reply([(b"a", ROW)], 1, 258)),
    (Tidy(b"a"), f"05 {SPAN} 04", Reply(Tidied.EMPTY_LAYER, 1, 258)),
    (Build(Prefix(b"")), f"06 {SPAN} 0000000000000007", Reply(7, 1, 258)),
    (ViewRead(7), f"07 0000000000000003 0000000000000001 02 {1:032x} {2 ** 64:032x} 0001 {PAIR}",
     Reply(Page(3, 1, (1, 2 ** 64), [(b"a", ROW)]))),
    (ViewDrop(7), "08", Reply(None)),
    (PutIf(b"a", b"v", 0), f"03 {SPAN} 0000000000000002", Reply(2, 1, 258)),
]

# bytes that are no answer to a get
BAD_ANSWERS: Dict[str, str] = {
    "nothing": "",
    "no kind": "09",
    "the answer to a put": f"03 {SPAN} 0000000000000002",
    "a cut span": "01 00",
    "bytes left over": f"01 {SPAN} 00",
    "a column beyond the end": f"02 {SPAN} 0000000000000102 01 05 76",
    "no such refusal": "00 11 0000000000000000",
    "a detail that the refusal has not": "00 05 0000000000000001",
}


def framed(answers: Sequence[str], version: int = 1) -> bytes:
    """The frame of these answers, in hex."""
    return reply_frame([bytes.fromhex(answer) for answer in answers], version)


def body_of(answer: str, version: int = 1) -> bytes:
    return framed([answer], version)[4:]


def frame_of(queries: Sequence[Query[Any]]) -> bytes:
    return request_frame([query.spelled() for query in queries], frame_version(queries))


class WorkedBytesTest(unittest.TestCase):
    def test_requests_both_ways(self) -> None:
        page = worked_bytes()
        for exchange in page.exchanges + page.second_version + page.third_version:
            queries = read_queries(exchange.request[4:])
            self.assertEqual(frame_of(queries), exchange.request)
            self.assertEqual(len(read_replies(exchange.reply[4:], queries)), len(queries))

    def test_replies_both_ways(self) -> None:
        for session in (worked_bytes().exchanges, worked_bytes().second_version):
            index = PlainIndex(1)
            for exchange in session:
                queries = read_queries(exchange.request[4:])
                answers = [index.answer(query) for query in queries]
                self.assertEqual(reply_frame(answers, frame_version(queries)), exchange.reply)
                self.assertEqual(len(read_replies(exchange.reply[4:], queries)), len(queries))

    def test_a_page_with_a_third_version(self) -> None:
        """The bytes of version 3 are those after its title."""
        text = PAGE.read_text(encoding="utf-8").partition("\n### Version 3\n")[0]
        text = text.replace("the version: 1 or 2 |", "the version: 1, 2 or 3 |")
        asked, answer = "00000003 03 01\n              12", "00000005 03 01\n              12 0000"
        with tempfile.NamedTemporaryFile("w", encoding="utf-8") as file:
            file.write(f"{text}\n### Version 3\n\nWhat it counts:\n\n    {asked}\n\nNothing:\n\n    {answer}\n")
            file.flush()
            page = worked_bytes(Path(file.name))
        (exchange,) = page.third_version
        self.assertEqual((page.newest, page.second_version), (3, worked_bytes().second_version))
        self.assertEqual(read_replies(exchange.reply[4:], read_queries(exchange.request[4:])), [Reply({})])

    def test_what_the_first_session_says(self) -> None:
        queries: List[Query[Any]] = [Put(b"a", b"v"), Get(b"a")]
        first = worked_bytes().exchanges[0]
        self.assertEqual(frame_of(queries), first.request)
        self.assertEqual(read_replies(first.reply[4:], queries), [Reply(1, 0, 1), Reply(Row(1, (b"v",)), 1, 1)])

    def test_bad_frames(self) -> None:
        for bad in worked_bytes().bad_frames:
            with StandIn(Options(newest=worked_bytes().newest)) as server:
                with socket.create_connection(("127.0.0.1", server.port), SECONDS) as connection:
                    connection.sendall(bad.sent)
                    self.assertEqual(connection.recv(1), b"")
                self.assertEqual(server.faults, [bad.fault])


class SpellingTest(unittest.TestCase):
    def test_each_query(self) -> None:
        for query, spelling in SPELLINGS:
            with self.subTest(query=query):
                self.assertEqual(query.spelled(), bytes.fromhex(spelling))
                (back,) = read_queries(bytes((query.since, 1)) + query.spelled())
                self.assertEqual(back.spelled(), query.spelled())
                self.assertIs(type(back), type(query))

    def test_each_answer(self) -> None:
        for query, spelling, reply in ANSWERS:
            with self.subTest(spelling=spelling):
                self.assertEqual(read_replies(body_of(spelling, query.since), [query]), [reply])

    def test_answers_as_the_stand_in_writes_them(self) -> None:
        self.assertEqual(spelled_done(AnswerKind.ABSENT, 1, 258, b""), bytes.fromhex(ANSWERS[0][1]))
        self.assertEqual(spelled_page(ANSWERS[9][2].value), bytes.fromhex(ANSWERS[9][1]))
        self.assertEqual(spelled_pairs([(b"a", ROW)]), bytes.fromhex(f"0001 {PAIR}"))

    def test_each_refusal(self) -> None:
        for number, kind in rowanspan.REFUSALS.items():
            detail = 258 if kind.has_detail else None
            (refused,) = read_replies(body_of(f"00 {number:02x} {detail or 0:016x}"), [Get(b"a")])
            assert isinstance(refused, Refused)
            self.assertEqual((type(refused), refused.number, refused.detail), (kind, number, detail))
            self.assertEqual(str(refused), kind.cause.replace("{0}", "258"))
        self.assertEqual(sorted(rowanspan.REFUSALS), list(range(1, 17)))
        with_detail = [kind for kind in rowanspan.REFUSALS.values() if kind.has_detail]
        self.assertEqual(with_detail, [FeedFull, Behind, OtherVersion])
        self.assertEqual(str(FeedFull(3)), "the log is full: views or open calls hold it from commit 3 on")
        self.assertEqual(str(Behind()), "the view is at commit N, or the log begins after it")

    def test_versions(self) -> None:
        put, put_if = Put(b"a", b"v"), PutIf(b"a", b"v", 0)
        self.assertEqual((frame_of([put])[4], frame_of([put, put_if])[4]), (1, 2))
        answer = ANSWERS[2][1]
        with self.assertRaises(BadReply):
            read_replies(body_of(answer, 2), [put])
        with self.assertRaises(BadReply):
            read_replies(body_of(answer, 1), [put_if])

    def test_what_does_not_fit(self) -> None:
        unfit: List[Tuple[Type[ValueError], List[Query[Any]]]] = [
            (TooLong, [Get(bytes(65_536)), Get(b"a", [0] * 256), Put(b"a", bytes(256)), Put(b"a", [(0, b"")] * 256),
                       ViewRead(2 ** 64), ViewDrop(-1), Build(Prefix(b"", AtLeast(0, 2 ** 64))),
                       PutIf(b"a", b"v", 2 ** 64)]),
            (BadColumn, [Get(b"a", [256]), Get(b"a", [-1])]), (BadLimit, [GetRange(b"", 65_536), GetRange(b"", -1)])]
        for kind, queries in unfit:
            for query in queries:
                with self.subTest(query=type(query)), self.assertRaises(kind):
                    query.spelled()

    def test_frames_that_do_not_fit(self) -> None:
        message = Get(b"a").spelled()
        request_frame([message] * 64)
        for messages in ([], [message] * 65, [Get(bytes(60_000)).spelled()] * 5):
            with self.assertRaises(TooLong):
                request_frame(messages)
        room = rowanspan.MAX_REQUEST_BODY - 2
        longest = [Get(bytes(65_000)).spelled()] * 4
        longest.append(Get(bytes(room - sum(map(len, longest)) - 4)).spelled())
        self.assertEqual(len(request_frame(longest)), 4 + rowanspan.MAX_REQUEST_BODY)


class BrokenBodyTest(unittest.TestCase):
    def test_bad_answers(self) -> None:
        for name, answer in BAD_ANSWERS.items():
            with self.subTest(name), self.assertRaises(BadReply):
                read_replies(body_of(answer), [Get(b"a")])

    def test_bad_bodies(self) -> None:
        good = body_of(ANSWERS[0][1])
        for body in (good[:1], b"\2" + good[1:], b"\1\2" + good[2:], b"\1\0"):
            with self.assertRaises(BadReply):
                read_replies(body, [Get(b"a")])

    def test_too_long_a_key_in_a_row(self) -> None:
        def body(count: int) -> bytes:
            return body_of(f"04 {SPAN} 0001 {count:04x} {'61' * count} 0000000000000102 01 00")

        (reply,) = read_replies(body(MAX_KEY_BYTES), [GetRange()])
        self.assertEqual(reply, Reply([(b"a" * MAX_KEY_BYTES, Row(258, (b"",)))], 1, 258))
        with self.assertRaises(BadReply):
            read_replies(body(MAX_KEY_BYTES + 1), [GetRange()])
