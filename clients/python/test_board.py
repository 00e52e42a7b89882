"""Tests of the board without a browser: what it shows, forms, who may ask, and its poller over a stand-in.
test_rowanspan.py runs them; scripts/board_test tests the board over a server, in a browser."""
from __future__ import annotations

import json
import socket
import threading
import time
import unittest
from email.message import Message
from typing import Any, Callable, List, Optional, Tuple

from rowanspan import (MAX_KEY_BYTES, AtLeast, BadRange, Client, ConnectionLost, Equals, NoSuchView, Page, Prefix,
                       Range, Reply, Row, ViewNo)
from rowanspan.board.forms import MAX_FORM, Asked, BadForm, read_form, read_view
from rowanspan.board.guard import Tokens, refusal
from rowanspan.board.poller import PERIOD, Poller
from rowanspan.board.showing import SHOWN_BYTES, as_text, card_event, shown, spec_words
from rowanspan.board.state import CHUNK, MAX_CARDS, NO_VIEW, UNKNOWN, WINDOW, Board, Card, Full, Sent
from rowanspan.text import read_text
from stand_in import Options, StandIn

SECONDS = 20.0


class ShowingTest(unittest.TestCase):
    def test_bytes(self) -> None:
        for value, text in ((b"", ""), (b"a b:c,d", "a b:c,d"), (b"\\x41", "\\x5cx41"), (b"\0\xff", "\\x00\\xff"),
                            ("größe".encode(), "größe"), ("\u202e".encode(), "\\xe2\\x80\\xae"), (b"\xc3", "\\xc3"),
                            (b"<b>'\"&", "<b>'\"&")):
            with self.subTest(value=value):
                self.assertEqual((as_text(value), read_text(as_text(value))), (text, value))
        self.assertEqual(read_text(as_text(bytes(range(256)))), bytes(range(256)))

    def test_long_keys(self) -> None:
        self.assertEqual(shown(b"a" * SHOWN_BYTES), ["a" * SHOWN_BYTES, "61" * SHOWN_BYTES])
        self.assertEqual(shown(b"a" * MAX_KEY_BYTES)[0], "a" * SHOWN_BYTES + "… (1,024 bytes)")

    def test_specifications(self) -> None:
        self.assertEqual(spec_words(Prefix(b"a")), ["prefix", ["a", "61"]])
        self.assertEqual(spec_words(Range(b"", None, AtLeast(1, 5000))),
                         ["from", ["", ""], "to the last key", "with column 1 at least 5,000"])
        self.assertEqual(spec_words(Range(b"a", b"b", Equals(0, b"\0"))),
                         ["from", ["a", "61"], "before", ["b", "62"], "with column 0 equal to", ["\\x00", "00"]])

    def test_events(self) -> None:
        page = Page(2 ** 63, 1, (2 ** 127,), [(b"\n<", Row(3, (b"\xff",)))])
        card = Card(1, ViewNo(7), "größe\n\u2028", None, "token", "note", page)
        spelled = card_event(card).spelled()
        self.assertEqual((spelled.count(b"\n"), spelled[-2:]), (3, b"\n\n"))
        self.assertTrue(spelled.isascii())
        value = json.loads(spelled.split(b"data: ")[1])
        self.assertEqual(value["page"], {"at": str(2 ** 63), "count": "1", "sums": [str(2 ** 127)],
                                         "rows": [[["\\x0a<", "0a3c"], "3", [["\\xff", "ff"]]]]})
        self.assertEqual((value["number"], value["name"], value["spec"]), ("7", "größe\n\u2028", None))


class FormTest(unittest.TestCase):
    def test_views(self) -> None:
        for form, asked in (
                (b"kind=prefix&key=a%5Cx00&name=+A+", Asked(Prefix(b"a\0"), "A")),
                (b"kind=prefix&key=", Asked(Prefix(b""), "")),
                (b"kind=prefix&key=-", Asked(Prefix(b"-"), "")),
                (b"kind=range&lo=61&hi=62&notation=hex", Asked(Range(b"a", b"b"), "")),
                (b"kind=range&lo=&hi=&test=equals&column=1&value=", Asked(Range(b"", None, Equals(1, b"")), "")),
                (b"kind=range&test=atleast&column=0&value=7&notation=hex", Asked(Range(b"", None, AtLeast(0, 7)), "")),
                ("kind=prefix&key=größe".encode(), None), (b"kind=number&number=7&name=A", Asked(7, "A")),
                (b"kind=prefix&key=gr%C3%B6", Asked(Prefix("grö".encode()), ""))):
            with self.subTest(form=form):
                if asked is None:
                    self.assertRaises(BadForm, read_form, form)
                else:
                    self.assertEqual(read_view(read_form(form)), asked)

    def test_bad_forms(self) -> None:
        for form in (b"kind", b"kind=prefix&kind=range", b"kind=prefix&key=%ff",
                     b"&".join([b"a%d=" % number for number in range(17)]), b"", b"kind=other", b"kind=prefix&key=%5C",
                     b"kind=prefix&key=6&notation=hex", b"kind=prefix&notation=x",
                     b"kind=prefix&test=equals&column=256&value=", b"kind=prefix&test=equals&value=",
                     b"kind=prefix&test=x", b"kind=prefix&test=atleast&column=0&value=18446744073709551616",
                     b"kind=prefix&name=" + b"a" * 81, b"kind=number", b"kind=number&number=-1"):
            with self.subTest(form=form[:60]), self.assertRaises(BadForm):
                read_view(read_form(form))

    def test_the_longest_form(self) -> None:
        key = b"%5Cxff" * MAX_KEY_BYTES
        form = b"kind=range&notation=text&name=" + b"%ff" * 240 + b"&token=" + b"a" * 64 + b"&lo=" + key + b"&hi=" + key
        self.assertLess(len(form), MAX_FORM)


class GuardTest(unittest.TestCase):
    def refusal(self, method: str, path: str, *headers: Tuple[str, str], port: int = 8080) -> Optional[str]:
        message = Message()
        for name, value in headers:
            message[name] = value
        return refusal(port, method, path, message)

    def test_hosts_and_origins(self) -> None:
        host, origin = ("Host", "127.0.0.1:8080"), ("Origin", "http://127.0.0.1:8080")
        self.assertIsNone(self.refusal("GET", "/events", host))
        self.assertIsNone(self.refusal("POST", "/build", host, origin))
        self.assertIsNone(self.refusal("GET", "/", ("Host", "LOCALHOST:8080")))
        self.assertIsNone(self.refusal("GET", "/", ("Host", "localhost"), port=80))
        for headers in ((), (origin,), (("Host", "localhost"),), (("Host", "a:8080"),), (host, host),
                        (host, ("Host", "a")), (host, ("Origin", "null")), (host, origin, origin),
                        (host, ("Origin", "http://localhost:8080"))):
            with self.subTest(headers=headers):
                self.assertIsNotNone(self.refusal("GET", "/", *headers))
        self.assertIsNotNone(self.refusal("POST", "/build", host))

    def test_sites(self) -> None:
        host = ("Host", "127.0.0.1:8080")
        for site, mode, path, is_allowed in (
                ("same-origin", "cors", "/events", True), ("none", "navigate", "/", True),
                ("cross-site", "navigate", "/", True), ("cross-site", "navigate", "/events", False),
                ("cross-site", "no-cors", "/", False), ("same-site", "cors", "/", False)):
            with self.subTest(site=site, mode=mode, path=path):
                why = self.refusal("GET", path, host, ("Sec-Fetch-Site", site), ("Sec-Fetch-Mode", mode))
                self.assertEqual(why is None, is_allowed)

    def test_tokens(self) -> None:
        tokens = Tokens()
        self.assertTrue(tokens.fits("build", tokens.of("build")))
        for given in ("", "é", "\udcff", tokens.of("drop 1"), Tokens().of("build"), tokens.of("build").upper()):
            self.assertFalse(tokens.fits("build", given))


class StateTest(unittest.TestCase):
    def setUp(self) -> None:
        self.board = Board("127.0.0.1:1", 10, Tokens())

    def names(self, sent: Sent) -> List[str]:
        return [event.name for event in self.board.events(sent)]

    def test_what_is_sent(self) -> None:
        card, sent = self.board.add(ViewNo(1), Prefix(b"a")), Sent()
        self.assertEqual((self.names(sent), self.names(sent)), (["board", "view"], []))
        self.assertTrue(self.board.wait(sent, 0.01))
        self.board.show(card, Page(1, 0, (0,), []), 0, 0)
        self.assertEqual((self.names(sent), self.names(sent)), (["view", "samples"], []))
        # the same page a second later
        self.board.show(card, Page(1, 0, (0,), []), 0, 1)
        self.assertEqual((self.names(sent), self.names(Sent())), (["samples"], ["board", "view", "samples"]))
        self.board.fail(card, "why")
        self.assertEqual((self.names(sent), card.page), (["view"], Page(1, 0, (0,), [])))
        self.board.remove(card.id)
        self.assertEqual((self.names(sent), sent.marks, self.names(Sent())), (["board"], {}, ["board"]))
        self.board.close()
        self.assertFalse(self.board.wait(sent, SECONDS))

    def test_bounds(self) -> None:
        card = self.board.add(ViewNo(1), None)
        for second in range(3 * WINDOW):
            self.board.show(card, Page(second, 0, (0,), []), 0, second // 2)
        self.assertEqual((len(card.samples), card.samples[-1].second), (WINDOW, 3 * WINDOW // 2 - 1))
        self.assertEqual(card.floor, 3 * WINDOW - 1)
        for number in range(2, MAX_CARDS + 1):
            self.board.check_room()
            self.board.add(ViewNo(number), None)
        self.assertRaises(Full, self.board.check_room)

    def test_much_is_sent_in_parts(self) -> None:
        row = Row(1, (b"\xff" * 64,) * 16)
        cards = [self.board.add(ViewNo(number), None) for number in range(1, MAX_CARDS + 1)]
        for card in cards:
            self.board.show(card, Page(1, 10, (0,) * 16, [(bytes((key,)) * 100, row) for key in range(10)]), 0, 0)
        sent, found, parts = Sent(), [], 0
        while sent.revision == 0 or parts == 0:
            self.board.show(cards[0], Page(2 + parts, 0, (0,), []), 0, 0)
            events = self.board.events(sent)
            self.assertLess(sum(len(event.data) for event in events), CHUNK + 2 ** 17)
            found += [json.loads(event.data)["id"] for event in events if event.name == "view"]
            parts += 1
        self.assertGreater(parts, 5)
        self.assertEqual((set(found), found.count(cards[-1].id)), ({card.id for card in cards}, 1))

    def test_an_event_is_written_once(self) -> None:
        card = self.board.add(ViewNo(1), None)
        self.assertIs(self.board.events(Sent())[1], self.board.events(Sent())[1])
        self.board.show(card, Page(1, 0, (0,), []), 0, 0)
        self.assertIn(b'"at":"1"', self.board.events(Sent())[1].data)


class PollerCase(unittest.TestCase):
    """A poller over a stand-in that knows the versions of the wire up to `newest`."""

    newest = 2
    token: Optional[bytes] = None

    def setUp(self) -> None:
        self.server = self.stand_in()
        self.clients: List[Client] = []
        self.board = Board("127.0.0.1:1", 3, Tokens())
        self.poller = Poller(self.board, self.connect)

    def stand_in(self) -> StandIn:
        server = StandIn(Options(columns=1, workers=8, newest=self.newest))
        self.addCleanup(server.__exit__, None, None, None)
        return server

    def connect(self) -> Client:
        self.clients.append(Client(self.server.port, timeout=SECONDS, token=self.token))
        return self.clients[-1]

    def start(self) -> None:
        self.poller.start()
        self.addCleanup(self.poller.end)

    def cut(self) -> None:
        """Cuts the poller's connections."""
        for client in self.clients:
            connection: Any = client._connection
            if connection is not None:
                connection.shutdown(socket.SHUT_RDWR)

    def until(self, is_so: Callable[[], bool]) -> None:
        end = time.monotonic() + SECONDS
        while not is_so():
            self.assertLess(time.monotonic(), end)
            time.sleep(0.02)

    def at(self, card: Card) -> int:
        return -1 if card.page is None or card.trouble else card.page.at


class PollerTest(PollerCase):
    """Over a server that can't list its views."""

    def test_pages(self) -> None:
        self.start()
        with Client(self.server.port) as index:
            for key in (b"a", b"b", b"c", b"d"):
                index.put(key, b"\5")
            card = self.poller.build(Prefix(b""), "all")
            given = self.poller.watch(index.build(Prefix(b"c")).number)
            self.until(lambda: min(self.at(card), self.at(given)) == 4)
            assert card.page is not None and given.page is not None
            self.assertEqual((card.page.count, card.page.sums, len(card.page.rows)), (4, (20,), 3))
            self.assertEqual((card.lag, card.floor), (0, 4))
            self.assertEqual((given.page.count, given.spec, given.note), (1, None, UNKNOWN))
            with self.assertRaises(NoSuchView):
                self.poller.watch(ViewNo(9))
            with self.assertRaises(BadRange):
                self.poller.build(Range(b"b", b"a"))
            index.view(given.number).drop()
            self.until(lambda: "has no view 2" in given.trouble)
            for it in (given, card):
                self.poller.drop(it)
            self.assertEqual(self.board.cards(), [])

    def test_the_lag(self) -> None:
        card = self.board.add(ViewNo(1), None)
        for commits, lag in ((9, 5), (4, 0), (3, 0)):
            self.poller._commits = commits
            self.poller._take(card, Reply(Page(4, 0, (0,), [])))
            self.assertEqual((card.lag, card.floor), (lag, 4))

    def test_the_rate(self) -> None:
        cards = [self.board.add(ViewNo(number), None) for number in range(1, MAX_CARDS + 1)]
        with Client(self.server.port) as index:
            for _ in cards:
                index.build(Prefix(b""))
        before, began = self.server.index.events, time.monotonic()
        self.start()
        self.until(lambda: self.server.index.events >= before + 5 * (MAX_CARDS + 2))
        # five rounds of two frames, with a query more in each; the first is at the beginning
        self.assertGreaterEqual(time.monotonic() - began, 4 * PERIOD - 0.01)
        self.assertEqual({self.at(card) for card in cards}, {0})

    def test_a_connection_that_is_lost(self) -> None:
        self.start()
        with Client(self.server.port) as index:
            index.put(b"a", b"\5")
            card, given = self.poller.build(Prefix(b"a")), self.poller.watch(index.build(Prefix(b"a")).number)
            self.until(lambda: min(self.at(card), self.at(given)) == 1)
            before = len(self.clients)
            self.cut()
            self.until(lambda: len(self.clients) > before)
            index.put(b"a", b"\6")
            self.until(lambda: min(self.at(card), self.at(given)) == 2)
            self.assertEqual((card.number, given.number, given.is_over), (1, 2, False))

    def test_another_index(self) -> None:
        self.start()
        with Client(self.server.port) as index:
            commit = [index.put(b"a", b"\5") for _ in range(5)][-1]
            given, card = self.poller.watch(index.build(Prefix(b"a")).number), self.poller.build(Prefix(b"a"))
            self.until(lambda: min(self.at(card), self.at(given)) == commit)
        self.server = self.stand_in()
        with Client(self.server.port) as index:
            index.put(b"ab", b"\7")
            self.cut()
            self.until(lambda: self.at(card) == 1)
            assert card.page is not None and given.page is not None
            self.assertEqual((card.page.sums, given.is_over, given.page.at), ((7,), True, commit))
            # its number is another view's now, which isn't dropped with it
            self.poller.drop(given)
            self.assertEqual(index.view(card.number).count, 1)

    def test_another_index_of_as_many_commits(self) -> None:
        self.start()
        with Client(self.server.port) as index:
            index.put(b"a", b"\5")
            card = self.poller.build(Prefix(b"a"))
            self.until(lambda: self.at(card) == 1)
        self.server = self.stand_in()
        with Client(self.server.port) as index:
            for _ in range(3):
                index.put(b"a", b"\7")
            self.cut()
            self.until(lambda: self.at(card) == 3)
            assert card.page is not None
            self.assertEqual((card.page.sums, card.number), ((7,), 2))

    def test_no_server(self) -> None:
        with socket.create_server(("127.0.0.1", 0)) as listener:
            port = listener.getsockname()[1]
        self.start()
        card = self.poller.build(Prefix(b"a"))
        self.until(lambda: self.at(card) == 0)
        self.poller._connect = lambda: Client(port, timeout=SECONDS)
        self.cut()
        sent = Sent()
        self.until(lambda: b'"link":"lost"' in b"".join(event.data for event in self.board.events(sent)))
        for ask in (lambda: self.poller.build(Prefix(b"b")), lambda: self.poller.drop(card)):
            with self.assertRaises(ConnectionLost):
                ask()
        self.assertEqual((self.at(card), self.board.cards()), (0, [card]))

    def test_a_fault_of_the_poller(self) -> None:
        def fail(*_: object) -> None:
            raise KeyError("a fault")
        self.poller._read_all = fail  # type: ignore[assignment]
        before, threading.excepthook = threading.excepthook, lambda _: None
        self.start()
        self.poller.join(SECONDS)
        threading.excepthook = before
        self.assertIn(b"the board's poller has ended: KeyError", self.board.events(Sent())[0].data)

    def test_the_end(self) -> None:
        self.start()
        with Client(self.server.port) as index:
            given, card = self.poller.watch(index.build(Prefix(b"a")).number), self.poller.build(Prefix(b"a"))
            self.poller.end()
            self.assertEqual(index.view(given.number).count, 0)
            with self.assertRaises(NoSuchView):
                index.view(card.number).page()
        self.assertNotEqual(card.number, NO_VIEW)
