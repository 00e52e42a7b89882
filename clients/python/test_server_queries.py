"""Tests of the queries of a server: their bytes, the client's calls over the stand-in, and servers that know no version
3 of the wire. test_rowanspan.py runs them; scripts/serving_test runs the cases of server_cases.py over a build."""
from __future__ import annotations

import os
import pickle
import socket
import tempfile
import threading
import time
import unittest
from contextlib import contextmanager
from typing import Any, Iterator, List, Mapping, Tuple

import rowanspan
import server_cases
from rowanspan import (AnyRow, AtLeast, BadReply, Client, ConnectionLost, DiskFailed, DiskFull, Equals, Get, GetInfo,
                       Greeting, Hello, HelloUnanswered, InMemory, Listing, ListViews, NotAllowed, Ping, Pong, Pool,
                       Prefix, Query, Range, Reply, Role, Settled, StandingView, Stop, TooLong, TooMuchAtOnce, ViewNo,
                       Wait, Waited, WaitDurable, read_replies, request_frame)
from rowanspan.server_queries import next_of
from server_cases import COLUMNS, OWNER, READER, SECONDS, TOKENS
from stand_in import Options, StandIn
from stand_in_wire import read_queries, reply_frame, spelled_listing

RUN = bytes(7) + b"\1" + bytes(7) + b"\3"

# one of each query, and its frame
FRAMES: List[Tuple[Query[Any], str]] = [
    (Hello(b"k", b"n"), "0000000a 03 01  10 03 0001 6b 0001 6e"),
    (Hello(), "00000008 03 01  10 03 0000 0000"),
    (Hello("\u00e9", "ab", 7), "0000000c 03 01  10 07 0002 c3a9 0002 6162"),
    (Ping(258), "0000000b 03 01  11 0000000000000102"),
    (GetInfo(), "00000003 03 01  12"),
    (ListViews(), "00000003 03 01  13"),
    (Wait(258), "00000010 03 01  14 00 0000000000000102 00000000"),
    (Wait(5, 7, 1000), "00000018 03 01  14 01 0000000000000007 0000000000000005 000003e8"),
    (WaitDurable(258, 1000), "00000010 03 01  14 02 0000000000000102 000003e8"),
    (Stop(), "00000004 03 01  15 00"),
    (Stop(True), "00000004 03 01  15 01"),
]

# one of each answer: what asks, its frame, and what is read
REPLIES: List[Tuple[Query[Any], str, Any]] = [
    (Hello(), f"00000026 03 01  10 03 02 01 {RUN.hex()} 0000000000000005 0000000000000004",
     Greeting(3, Role.WRITE, 1, RUN, 5, 4)),
    (Ping(258), "00000013 03 01  11 0000000000000102 0000000000000005", Pong(258, 5)),
    (GetInfo(), "00000010 03 01  12 0001 0001 6e 0000000000000005", {"n": 5}),
    (GetInfo(), "00000005 03 01  12 0000", {}),
    (ListViews(), "0000000c 03 01  13 0000000000000005 00", Listing(5, [])),
    (ListViews(), "0000004e 03 01  13 0000000000000005 02"
                  " 0000000000000001 0000000000000004 0000000000000102 01 0001 61 00"
                  " 0000000000000003 0000000000000005 0000000000000000 00 0001 61 01 0001 62 01 01 02 7677",
     Listing(5, [StandingView(ViewNo(1), 4, 258, Prefix(b"a")),
                 StandingView(ViewNo(3), 5, 0, Range(b"a", b"b", Equals(1, b"vw")))])),
    (Wait(5), "00000014 03 01  14 01 0000000000000005 0000000000000000", Waited(True, 5, 0)),
    (Wait(5, 7), "00000014 03 01  14 00 0000000000000005 0000000000000004", Waited(False, 5, 4)),
    (WaitDurable(5), "00000014 03 01  14 00 0000000000000005 0000000000000004", Settled(False, 5, 4)),
    (Stop(), "0000000b 03 01  15 0000000000000005", 5),
]

# bodies that answer nothing of these queries
BAD: List[Tuple[str, Query[Any], str]] = [
    ("another number", Ping(257), "11 0000000000000102 0000000000000005"),
    ("no role", Hello(), f"10 03 00 01 {RUN.hex()} 0000000000000005 0000000000000004"),
    ("a fourth role", Hello(), f"10 03 04 01 {RUN.hex()} 0000000000000005 0000000000000004"),
    ("a cut run", Hello(), f"10 03 02 01 {RUN[1:].hex()} 0000000000000005 0000000000000004"),
    ("fewer numbers than it says", GetInfo(), "12 0002 0001 6e 0000000000000005"),
    ("no test", ListViews(), "13 0000000000000005 01 0000000000000001 0000000000000004 0000000000000000 01 0000 03"),
    ("no specification", ListViews(), "13 0000000000000005 01 0000000000000001 0000000000000004 0000000000000000 02"),
    ("neither reached nor not", Wait(5), "14 02 0000000000000005 0000000000000000"),
    ("neither durable nor not", WaitDurable(5), "14 02 0000000000000005 0000000000000000"),
    ("the answer to a ping", Stop(), "11 0000000000000000 0000000000000005"),
    ("a span", Stop(), "03 0000000000000000 0000000000000000 0000000000000001"),
    ("no refusal", Stop(), "00 1a 0000000000000000"),
    ("a detail that the refusal has not", Stop(), "00 18 0000000000000001"),
]


def bytes_of(spelling: str) -> bytes:
    return bytes.fromhex(spelling)


class BytesTest(unittest.TestCase):
    def test_each_query(self) -> None:
        for query, spelling in FRAMES:
            with self.subTest(query=query):
                self.assertEqual(request_frame([query.spelled()], query.since), bytes_of(spelling))
                (back,) = read_queries(bytes_of(spelling)[4:])
                self.assertEqual((type(back), back.spelled()), (type(query), query.spelled()))

    def test_each_answer(self) -> None:
        for query, spelling, value in REPLIES:
            with self.subTest(spelling=spelling):
                frame = bytes_of(spelling)
                self.assertEqual(len(frame) - 4, int.from_bytes(frame[:4], "big"))
                self.assertEqual(read_replies(frame[4:], [query]), [Reply(value)])

    def test_each_specification(self) -> None:
        """Each is read as it was written."""
        for spec in (*server_cases.SPECS, Range(b"", b"", AnyRow())):
            listing = Listing(2, [StandingView(ViewNo(1), 2, 3, spec)] * 2)
            body = b"\3\1" + spelled_listing(listing)
            self.assertEqual(read_replies(body, [ListViews()]), [Reply(listing)])

    def test_each_refusal(self) -> None:
        for spelling, wanted in (("0000000c 03 01  00 13 0000000000000102", DiskFailed(258)),
                                 ("0000000c 03 01  00 13 0000000000000000", DiskFailed(0)),
                                 ("0000000c 03 01  00 14 0000000000000000", DiskFull()),
                                 ("0000000c 03 01  00 15 0000000000000000", InMemory()),
                                 ("0000000c 03 01  00 18 0000000000000000", NotAllowed()),
                                 ("0000000c 03 01  00 19 0000000000000000", TooMuchAtOnce())):
            (refused,) = read_replies(bytes_of(spelling)[4:], [GetInfo()])
            assert isinstance(refused, rowanspan.Refused)
            self.assertEqual((type(refused), refused.detail, str(refused)), (type(wanted), wanted.detail, str(wanted)))
        # (a server with tokens refuses each query so, in each version)
        (refused,) = read_replies(bytes_of("01 01 00 18 0000000000000000"), [Get(b"a")])
        self.assertIsInstance(refused, NotAllowed)
        self.assertEqual(sorted(rowanspan.SERVER_REFUSALS), [19, 20, 21, 24, 25])

    def test_bad_answers(self) -> None:
        for name, query, spelling in BAD:
            with self.subTest(name), self.assertRaises(BadReply):
                read_replies(bytes_of(f"03 01 {spelling}"), [query])

    def test_as_the_stand_in_writes_them(self) -> None:
        with StandIn(Options(columns=1)) as server:
            server.keeper.run = RUN
            session = server.keeper.session()
            for query, spelling in ((Ping(258), "00000013 03 01  11 0000000000000102 0000000000000000"),
                                    (Hello(), f"00000026 03 01  10 03 03 01 {RUN.hex()}" + " 0000000000000000" * 2),
                                    (Wait(1), "00000014 03 01  14 00 0000000000000000 0000000000000000"),
                                    (ListViews(), "0000000c 03 01  13 0000000000000000 00")):
                with self.subTest(query=query):
                    self.assertEqual(reply_frame(server.keeper.answers(session, [query]), 3), bytes_of(spelling))

    def test_what_does_not_fit(self) -> None:
        for query in (Hello(bytes(65_536)), Hello(name="a" * 65), Hello(newest=256), Ping(2 ** 64), Wait(-1),
                      Wait(0, -1), Wait(0, None, 2 ** 32), WaitDurable(2 ** 64), WaitDurable(0, 2 ** 32)):
            with self.subTest(query=str(query)[:40]), self.assertRaises(TooLong):
                query.spelled()
        wrong: Any = [Hello(5), Hello(name=None), Ping("1"), Wait("1"), Wait(0, "1"), Wait(0, None, 1.5),
                      WaitDurable("1"), WaitDurable(0, 1.5)]
        for query in wrong:
            with self.subTest(query=query), self.assertRaises(TypeError):
                query.spelled()

    def test_a_token_is_not_shown(self) -> None:
        self.assertNotIn("secret", repr(Hello(b"secret")))
        with self.assertRaises(TooLong) as met:
            Hello(b"secret" * 20_000).spelled()
        self.assertNotIn("secret", str(met.exception))


class CaseTest(unittest.TestCase):
    """The cases of server_cases.py, over the stand-in."""

    @staticmethod
    @contextmanager
    def start(tokens: Mapping[bytes, Role]) -> Iterator[int]:
        with StandIn(Options(columns=COLUMNS, workers=8, tokens=tokens)) as server:
            yield server.port

    def test_each_case(self) -> None:
        for case in server_cases.CASES:
            with self.subTest(case.__name__):
                case(self.start)


class ClientTest(unittest.TestCase):
    def stand_in(self, **options: Any) -> StandIn:
        server = StandIn(Options(workers=4, **options))
        self.addCleanup(server.__exit__, None, None, None)
        return server

    def client(self, server: StandIn, **given: Any) -> Client:
        index = Client(server.port, timeout=SECONDS, **given)
        self.addCleanup(index.close)
        return index

    def test_hello_is_said_once_and_first(self) -> None:
        server = self.stand_in(tokens=TOKENS)
        index = self.client(server, token=OWNER, name="größe")
        self.assertEqual(index.put(b"a", b"v"), 1)
        self.assertEqual((index.hello.commits, index.hello.role, index.ping()), (0, Role.ALL, 1))
        self.assertEqual([session.name.decode() for session in server.keeper.sessions], ["größe"])

    def test_an_older_server(self) -> None:
        """A client without a token and a name sends it nothing that it doesn't know, and says what it misses."""
        server = self.stand_in(newest=2)
        index = self.client(server)
        self.assertEqual((index.put(b"a", b"v"), index.put_if(b"a", b"w", 1), server.faults), (1, 2, []))
        with self.assertRaisesRegex(HelloUnanswered, "^the server ended the connection before it answered hello: is it full"):
            index.hello
        for given in ({"token": OWNER}, {"name": "n"}):
            with self.assertRaises(HelloUnanswered) as met:
                self.client(server, **given)
            self.assertIsInstance(met.exception, (NotAllowed, ConnectionLost))
        with self.assertRaises(ConnectionLost):
            self.client(server).info()
        self.assertEqual(server.faults, [5] * 4)

    def test_kinds_of_faults(self) -> None:
        for fault, kinds in ((NotAllowed(), (PermissionError, rowanspan.Refused)),
                             (HelloUnanswered(), (NotAllowed, ConnectionLost, ConnectionError)),
                             (TooMuchAtOnce(), (rowanspan.Refused,))):
            for kind in kinds:
                self.assertIsInstance(fault, kind)
            again = pickle.loads(pickle.dumps(fault))
            self.assertEqual((type(again), str(again)), (type(fault), str(fault)))

    def test_a_refused_client(self) -> None:
        server = self.stand_in(tokens=TOKENS)
        with self.assertRaises(NotAllowed) as met:
            self.client(server, token=b"wrong")
        self.assertNotIsInstance(met.exception, ConnectionLost)
        for ask in (lambda index: index.get(b"a"), lambda index: index.ping(), lambda index: index.hello):
            index = self.client(server)
            with self.assertRaises(NotAllowed) as met:
                ask(index)
            self.assertNotIsInstance(met.exception, ConnectionLost)
            # the server has ended the connection then
            with self.assertRaises(ConnectionLost):
                index.get(b"a")
        self.assertEqual((server.faults, server.index.events), ([8] * 4, 0))

    def test_a_server_that_does_not_answer_hello(self) -> None:
        with socket.create_server(("127.0.0.1", 0)) as listener:
            with self.assertRaises(ConnectionLost) as met:
                Client(listener.getsockname()[1], timeout=0.1, token=OWNER)
            self.assertNotIsInstance(met.exception, NotAllowed)

    def test_a_wait_that_is_longer_than_the_timeout(self) -> None:
        server = self.stand_in()
        with Client(server.port, timeout=0.3) as index:
            self.assertFalse(index.wait(1, timeout=0.9))
            self.assertFalse(index.wait(1, timeout=0.01))
            self.assertEqual(index.put(b"a", b"v"), 1)
            # later calls have the client's own timeout again
            assert index._connection is not None
            self.assertEqual(index._connection.gettimeout(), 0.3)

    def test_a_wait_in_parts(self) -> None:
        server, parts = self.stand_in(), []
        index = self.client(server)
        call = index.call
        index.call = lambda query: parts.append(query) or call(query)  # type: ignore[method-assign, func-returns-value]
        before, rowanspan.server_queries.LONGEST_WAIT = rowanspan.server_queries.LONGEST_WAIT, 0.1
        try:
            putting = threading.Timer(0.35, lambda: self.client(server).put(b"a", b"v"))
            putting.start()
            self.assertTrue(index.wait())
            putting.join()
            self.assertFalse(index.wait(2, timeout=0.25))
        finally:
            rowanspan.server_queries.LONGEST_WAIT = before
        self.assertEqual(parts[0], Wait(0, None, 0))
        self.assertEqual({part.milliseconds for part in parts[1:4]}, {100})
        self.assertGreaterEqual(len(parts), 7)

    def test_the_next_commit(self) -> None:
        for now, view, following in ((Waited(True, 5, 0), None, 6), (Waited(True, 5, 3), 7, 4),
                                     (Waited(True, 2 ** 64 - 1, 0), None, 2 ** 64 - 1)):
            self.assertEqual(next_of(now, view), following)

    def test_bad_arguments(self) -> None:
        server: Any = self.stand_in()
        index: Any = self.client(server)
        for call in (lambda: index.wait("1"), lambda: index.wait(1, "1"), lambda: index.wait(1, None, "1"),
                     lambda: Client(server.port, token=5), lambda: Client(server.port, name=5),
                     lambda: Pool(server.port, token=5), lambda: Client("unix"), lambda: Client("7070"),
                     lambda: Client("UNIX:/tmp/a")):
            with self.assertRaises(TypeError):
                call()
        for call in (lambda: index.wait(-1), lambda: index.wait(2 ** 64), lambda: index.wait(1, None, -1),
                     lambda: index.wait(1, None, float("nan")), lambda: Client(server.port, name="a" * 65)):
            with self.assertRaises(TooLong):
                call()
        other = self.client(server)
        with self.assertRaises(rowanspan.WrongIndex):
            index.wait(1, other.view(1))
        self.assertEqual(server.index.events, 0)

    def test_a_unix_socket(self) -> None:
        with tempfile.TemporaryDirectory() as folder:
            path = os.path.join(folder, "s")
            with self.assertRaisesRegex(ConnectionLost, f"^no connection to unix:{path}: "):
                Client(f"unix:{path}", timeout=SECONDS)
            with StandIn(Options(path=path, workers=2, tokens=TOKENS)):
                with Client(f"unix:{path}", timeout=SECONDS, token=OWNER) as index:
                    self.assertEqual((index.put(b"a", b"v"), index.ping()), (1, 1))
                    self.assertEqual(repr(index), f"<rowanspan.Client unix:{path}>")
                with Pool(f"unix:{path}", timeout=SECONDS, token=READER) as pool:
                    self.assertEqual((pool.hello.role, pool[b"a"].version), (Role.READ, 1))

    def test_a_pool(self) -> None:
        server = self.stand_in(tokens=TOKENS)
        with Pool(server.port, size=2, timeout=SECONDS, token=OWNER, name="pool") as pool:
            self.assertEqual((pool.put(b"a", b"v"), pool.ping(), pool.info()["commits"]), (1, 1, 1))
            view = pool.build(Prefix(b"", AtLeast(0, 1)))
            self.assertEqual(pool.views(), [StandingView(view.number, 1, 1, Prefix(b"", AtLeast(0, 1)))])
            self.assertTrue(pool.wait(1, view, SECONDS))
            self.assertEqual(pool.hello.role, Role.ALL)
            self.assertEqual({session.name for session in server.keeper.sessions}, {b"pool"})
            self.assertEqual((pool.stop(), repr(pool)), (1, f"<rowanspan.Pool 127.0.0.1:{server.port}>"))
        with Pool(self.stand_in(tokens=TOKENS).port, timeout=SECONDS, token=b"wrong") as pool:
            with self.assertRaises(NotAllowed):
                pool.get(b"a")
            self.assertEqual(pool._in_use, 0)

    def test_the_end_of_a_server_ends_waits(self) -> None:
        server = self.stand_in()
        index, other = self.client(server), self.client(server)
        stopping = threading.Timer(0.2, other.stop)
        stopping.start()
        began = time.monotonic()
        try:
            self.assertFalse(index.wait(1, timeout=SECONDS))
        except ConnectionLost:
            pass
        stopping.join()
        self.assertLess(time.monotonic() - began, SECONDS - 1)
        server.join()
