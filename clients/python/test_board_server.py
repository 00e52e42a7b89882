"""Tests of the board over a server that knows version 3 of the wire: it lists its views, waits, and names its run.
test_rowanspan.py runs them."""
from __future__ import annotations

import socket
import threading
import time
import unittest
from typing import Callable, Dict, List
from unittest import mock

from rowanspan import (AtLeast, Build, Client, ConnectionLost, NoSuchView, NotAllowed, Prefix, Put, Range, ViewNo)
from rowanspan.board import poller as polling
from rowanspan.board.guard import Tokens
from rowanspan.board.poller import Poller
from rowanspan.board.state import MAX_CARDS, Board, Card, Origin
from server_cases import OWNER, READER, TOKENS
from stand_in import Options, StandIn
from test_board import SECONDS, PollerCase


class ListTest(unittest.TestCase):
    """What the board takes of a list."""

    def setUp(self) -> None:
        self.board = Board("127.0.0.1:1", 10, Tokens())
        self.index = StandIn().index

    def take(self, *dropped: int) -> Dict[int, Card]:
        views = [view for view in self.index.listing().views if view.number not in dropped]
        self.board.take_list(views)
        return {card.number: card for card in self.board.cards()}

    def build(self, *specs: object) -> None:
        for spec in specs:
            self.index.answer(Build(spec))  # type: ignore[arg-type]

    def test_views_come_and_go(self) -> None:
        self.build(Prefix(b"a"), Range(b"b"))
        cards = self.take()
        self.assertEqual([(card.spec, card.origin, card.note) for card in cards.values()],
                         [(Prefix(b"a"), Origin.LISTED, ""), (Range(b"b"), Origin.LISTED, "")])
        self.assertEqual(self.take(), cards)
        self.assertEqual(list(self.take(1)), [2])

    def test_views_that_were_named(self) -> None:
        self.build(Prefix(b"a"), Prefix(b"b"))
        named = self.board.add(ViewNo(1), None, "mine")
        self.assertEqual((named.spec, named.note != ""), (None, True))
        cards = self.take()
        self.assertEqual((cards[1], named.spec, named.note, named.origin), (named, Prefix(b"a"), "", Origin.NAMED))
        self.assertIs(self.board.name_listed(ViewNo(2), "other"), cards[2])
        self.assertEqual((cards[2].origin, cards[2].name), (Origin.NAMED, "other"))
        self.assertIsNone(self.board.name_listed(ViewNo(2), "other"))
        # they stay if they are gone, as the page then says
        self.assertEqual(list(self.take(1, 2)), [1, 2])

    def test_views_that_are_hidden(self) -> None:
        self.build(Prefix(b"a"), Prefix(b"b"))
        self.board.hide(self.take()[1])
        self.assertEqual(list(self.take()), [2])
        self.board.add(ViewNo(1), None)
        self.board.remove(self.take()[1].id)
        self.assertEqual(sorted(self.take()), [1, 2])

    def test_no_more_than_the_board_shows(self) -> None:
        for number in range(1, MAX_CARDS):
            self.board.add(ViewNo(1000 + number), None)
        self.build(Prefix(b"a"), Prefix(b"b"))
        self.assertEqual(len(self.take()), MAX_CARDS)

    def test_another_run(self) -> None:
        self.build(Prefix(b"a"), Prefix(b"b"), Prefix(b"c"))
        own, named = self.board.add(ViewNo(1), Prefix(b"a"), origin=Origin.BUILT), self.board.add(ViewNo(2), None)
        self.board.hide(self.take()[3])
        self.board.start_again()
        self.assertEqual([card.number for card in self.board.cards()], [0, 2])
        self.assertEqual((own.is_over, named.is_over), (False, True))
        self.assertEqual([card.number for card in self.board.cards() if card.can_be_read()], [])
        # the numbers are other views' now, also that of the one that was hidden
        self.take()
        self.assertEqual([(card.number, card.origin) for card in self.board.cards() if card.can_be_read()],
                         [(number, Origin.LISTED) for number in (1, 2, 3)])


class ServerPollerTest(PollerCase):
    newest = 3

    def card(self, number: int) -> Card:
        """The view of this number, once it is on the board with a page."""
        found: List[Card] = []

        def is_there() -> bool:
            found[:] = [card for card in self.board.cards() if card.number == number and card.page is not None]
            return bool(found)

        self.until(is_there)
        return found[0]

    def quiet(self, seconds: float) -> None:
        """Lets the poller look without its watcher only after this time."""
        patch = mock.patch.object(polling, "QUIET", seconds)
        patch.start()
        self.addCleanup(patch.stop)

    def test_views_of_others(self) -> None:
        self.start()
        with Client(self.server.port) as index:
            index.put(b"a", b"\5")
            index.build(Prefix(b"a", AtLeast(0, 1)))
            card = self.card(1)
            assert card.page is not None
            self.assertEqual((card.spec, card.origin), (Prefix(b"a", AtLeast(0, 1)), Origin.LISTED))
            self.assertEqual(card.page.sums, (5,))
            own = self.poller.build(Range(b"b"), "own")
            self.assertEqual((own.number, own.origin), (2, Origin.BUILT))
            # by its number it isn't there twice
            self.assertIs(self.poller.watch(ViewNo(1), "named"), card)
            self.assertEqual((len(self.board.cards()), card.name), (2, "named"))
            index.build(Prefix(b"c"))
            third = self.card(3)
            index.view(3).drop()
            self.until(lambda: third not in self.board.cards())
            index.view(1).drop()
            self.until(lambda: "has no view 1" in card.trouble)
            self.poller.drop(own)
            self.assertEqual(index.views(), [])

    def test_only_its_own_are_dropped_at_the_end(self) -> None:
        with Client(self.server.port) as index:
            index.build(Prefix(b"a"))
            self.start()
            own = self.poller.build(Prefix(b"b"))
            self.card(1)
            self.card(own.number)
            self.poller.end()
            self.assertEqual([view.number for view in index.views()], [1])

    def test_a_commit_wakes_it(self) -> None:
        self.quiet(3 * SECONDS)
        with Client(self.server.port) as index:
            index.build(Prefix(b"a"))
            self.start()
            card = self.card(1)
            for _ in range(3):
                time.sleep(2 * polling.PERIOD)
                commit = index.put(b"a", b"\5")
                self.until(lambda: self.at(card) == commit)
            # and so does a form
            time.sleep(3 * polling.PERIOD)
            began = time.monotonic()
            self.assertEqual(self.poller.build(Prefix(b"b")).number, 2)
            self.assertLess(time.monotonic() - began, SECONDS)

    def test_what_does_not_change_is_not_read_again(self) -> None:
        self.quiet(2 * polling.PERIOD)
        with Client(self.server.port) as index:
            index.put(b"a", b"\5")
            index.build(Prefix(b"a"))
            self.start()
            card = self.card(1)
            events, seconds = self.server.index.events, len(card.samples)
            self.until(lambda: len(card.samples) >= seconds + 2)
            self.assertEqual((self.server.index.events, card.trouble), (events, ""))

    def test_writes_do_not_make_it_faster(self) -> None:
        with Client(self.server.port) as index:
            index.build(Prefix(b"a"))
            self.start()
            card = self.card(1)
            before, began, writes = self.server.index.events, time.monotonic(), 0
            while time.monotonic() < began + 5 * polling.PERIOD:
                index.put(b"a", b"\5")
                writes += 1
            # one page in each round
            self.assertLessEqual(self.server.index.events - before - writes, 8)
            self.until(lambda: self.at(card) == writes)

    def test_without_its_watcher(self) -> None:
        """It asks alone, as often as it would without one."""
        self.quiet(3 * SECONDS)
        with Client(self.server.port) as index:
            index.build(Prefix(b"a"))
            self.start()
            card = self.card(1)
            watcher = self.poller._watcher
            assert watcher is not None and watcher._index._connection is not None
            watcher._index._connection.shutdown(2)
            watcher.join(SECONDS)
            for _ in range(2):
                commit = index.put(b"a", b"\5")
                self.until(lambda: self.at(card) == commit)

    def test_a_connection_that_is_lost(self) -> None:
        self.start()
        with Client(self.server.port) as index:
            index.put(b"a", b"\5")
            own, named = self.poller.build(Prefix(b"a")), self.poller.watch(index.build(Prefix(b"a")).number)
            index.build(Prefix(b""))
            listed = self.card(3)
            before = len(self.clients)
            self.cut()
            self.until(lambda: len(self.clients) > before)
            commit = index.put(b"a", b"\6")
            self.until(lambda: min(map(self.at, (own, named, listed))) == commit)
            self.assertEqual(([card.number for card in self.board.cards()], named.is_over), ([1, 2, 3], False))
            # no view was built to find out which index it is
            self.assertEqual(index.build(Prefix(b"")).number, 4)

    def test_another_run_with_greater_numbers(self) -> None:
        """More commits and more views than before are no sign that it is the same index: its run has another name."""
        self.start()
        with Client(self.server.port) as index:
            index.put(b"a", b"\5")
            own, named = self.poller.build(Prefix(b"a")), self.poller.watch(index.build(Prefix(b"a")).number)
            listed = [index.build(Prefix(b"l")), self.card(3)][1]
            self.until(lambda: min(self.at(own), self.at(named)) == 1)
        self.server = self.stand_in()
        for query in [Put(b"ab", b"\7")] * 9 + [Build(Prefix(b"x"))] * 9:
            self.server.index.answer(query)
        self.cut()
        self.until(lambda: self.at(own) == 9)
        assert own.page is not None
        self.assertEqual((own.page.sums, own.number, own.origin), ((7,), 10, Origin.BUILT))
        self.assertEqual((named.is_over, listed in self.board.cards()), (True, False))
        self.until(lambda: sum(card.origin is Origin.LISTED for card in self.board.cards()) == 9)

    def test_a_server_of_another_version(self) -> None:
        """It is another run, and then it is read as its version allows."""
        self.start()
        own = self.poller.build(Prefix(b"a"))
        self.until(lambda: self.at(own) == 0)
        for newest in (2, 3):
            self.newest = newest
            self.server = self.stand_in()
            self.server.index.answer(Put(b"a", b"\5"))
            self.server.index.answer(Build(Prefix(b"x")))
            own.page = None
            self.cut()
            self.until(lambda: self.at(own) == 1)
            self.assertEqual((own.number, self.poller._greeting is None), (2, newest == 2))

    def test_a_full_server(self) -> None:
        """One that ends each connection at once isn't taken for another run, nor for another version."""
        self.start()
        own, server = self.poller.build(Prefix(b"a")), self.server
        self.until(lambda: self.at(own) == 0)
        met: List[int] = []

        def turn_away() -> None:
            while len(met) < 2:
                connection, _ = listener.accept()
                connection.close()
                met.append(1)

        with socket.create_server(("127.0.0.1", 0)) as listener:
            turning = threading.Thread(target=turn_away)
            turning.start()
            with mock.patch.object(self, "server", mock.Mock(port=listener.getsockname()[1])):
                self.cut()
                turning.join(SECONDS)
        server.index.answer(Put(b"a", b"\5"))
        self.until(lambda: self.at(own) == 1)
        self.assertEqual((own.number, own.trouble, len(self.board.cards())), (1, "", 1))

    def test_a_reader(self) -> None:
        self.server = StandIn(Options(workers=8, tokens=TOKENS))
        self.addCleanup(self.server.__exit__, None, None, None)
        self.server.index.answer(Build(Prefix(b"a")))
        self.token = READER
        self.start()
        card = self.card(1)
        tries: List[Callable[[], object]] = [lambda: self.poller.build(Prefix(b"b")), lambda: self.poller.drop(card)]
        for ask in tries:
            with self.assertRaises(NotAllowed):
                ask()
        self.assertEqual(self.board.cards(), [card])
        with Client(self.server.port, token=OWNER) as index:
            index.view(1).drop()
        self.until(lambda: self.board.cards() == [])

    def test_a_board_that_is_not_admitted(self) -> None:
        self.server = StandIn(Options(workers=8, tokens=TOKENS))
        self.addCleanup(self.server.__exit__, None, None, None)
        for token in (None, b"wrong"):
            self.token = token
            with self.assertRaises(NotAllowed):
                self.poller.start()
        self.server = self.stand_in()
        self.server.__exit__(None, None, None)
        with self.assertRaises((NoSuchView, ConnectionLost)):
            Poller(self.board, lambda: Client(1, timeout=SECONDS)).start()
