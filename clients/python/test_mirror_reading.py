"""Tests of what a reader of a mirror's rows calls, and of the command line, over a stand-in of the server.
test_rowanspan.py runs them."""
from __future__ import annotations

import contextlib
import io
import sys
import unittest
from typing import Any, List, Sequence, Tuple

import rowanspan
from rowanspan import Client, NoSuchView, Prefix, mirror
from rowanspan.mirror import NotYet, State
from rowanspan.mirror.command import main
from rowanspan.mirror.place import position_key
from stand_in import Options, StandIn
from test_mirror import SECONDS, a_position


class ReadingTest(unittest.TestCase):
    def setUp(self) -> None:
        self.server = self.enter(StandIn(Options(workers=4)))
        self.index, self.other = (self.enter(Client(self.server.port, timeout=SECONDS)) for _ in range(2))
        self.view = self.index.build(Prefix(b"m/"))

    def enter(self, context: Any) -> Any:
        self.addCleanup(context.__exit__, None, None, None)
        return context.__enter__()

    def put(self, **changed: Any) -> int:
        return self.other.put(position_key("m"), a_position(**changed).spelled())

    def page(self, **given: Any) -> Tuple[int, int]:
        found = mirror.page(self.index, "m", self.view, timeout=0.01, **given)
        return found.position, found.page.count

    def test_pages(self) -> None:
        for why in ("not there",):
            with self.assertRaisesRegex(NotYet, why):
                self.page()
        self.index.put(b"m/a", b"x")
        version = self.put()
        self.assertEqual((self.page(), self.page(at_least=7)), ((7, 1), (7, 1)))
        self.assertEqual(mirror.wait(self.index, "m", 7, 0.01), version)
        for at_least, changed, why in ((8, {}, "at 7"), (0, {"state": State.MOVING, "until": 9}, "at 7"),
                                       (0, {"state": State.COPYING}, "being copied")):
            self.put(**changed)
            with self.subTest(why=why), self.assertRaisesRegex(NotYet, f"is {why}"):
                self.page(at_least=at_least)
        with self.assertRaises(NotYet):
            mirror.wait(self.index, "m", 0, 0.01)
        self.put(state=State.MOVING, until=9)
        mirror.wait(self.index, "m", 7, 0.01)
        with self.assertRaises(NoSuchView):
            mirror.page(self.index, "m", 99)

    def test_a_position_that_moves_meanwhile(self) -> None:
        """If the mirror writes between the two looks, the page isn't taken."""
        self.put()
        calls: List[int] = []

        def moved(queries: Sequence[Any]) -> List[Any]:
            first, shown = Client.call_all(self.index, queries[:2])
            if not calls:
                self.put(at=8, until=8)
            calls.append(1)
            return [first, shown, *Client.call_all(self.index, queries[2:])]

        self.index.call_all = moved  # type: ignore[method-assign]
        found = mirror.page(self.index, "m", self.view)
        self.assertEqual((found.position, found.asked, len(calls)), (8, 2, 2))

    def test_a_view_that_lags(self) -> None:
        self.put()
        asked: List[int] = []

        def behind(queries: Sequence[Any]) -> List[Any]:
            outcomes = Client.call_all(self.index, queries)
            asked.append(queries[1].floor)
            return outcomes if len(asked) > 2 else [outcomes[0], rowanspan.Behind(0), outcomes[2]]

        self.index.call_all = behind  # type: ignore[method-assign]
        found = mirror.page(self.index, "m", self.view)
        self.assertEqual((found.position, asked), (7, [0, 1, 1]))


class CommandTest(unittest.TestCase):
    def setUp(self) -> None:
        silent = contextlib.redirect_stderr(io.StringIO())
        self.addCleanup(silent.__exit__, None, None, None)
        silent.__enter__()

    def test_bad_command_lines(self) -> None:
        for words in ([], ["mysql"], ["postgres"], ["etcd", "-p", "1", "--name", "A", "--url", "x", "--prefix", "y"]):
            with self.subTest(words=words), self.assertRaises(SystemExit) as met:
                main(words)
            self.assertEqual(met.exception.code, 2)

    def test_what_somebody_has_to_decide(self) -> None:
        etcd = ["etcd", "-p", "1", "--name", "a", "--prefix", "y"]
        self.assertEqual(main([*etcd, "--url", "https://127.0.0.1:2379"]), 1)
        self.assertEqual(main(["postgres", "-p", "1", "--name", "a", "--dsn", "", "--table", "t", "--key", "{id}"]), 1)

    def test_no_source(self) -> None:
        self.assertEqual(main(["etcd", "-p", "1", "--name", "a", "--prefix", "y", "--url", "http://127.0.0.1:1"]), 4)


if __name__ == "__main__":
    sys.exit(unittest.main())
