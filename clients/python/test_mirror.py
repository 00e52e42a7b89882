"""Tests of a mirror's writes over a stand-in of the server: kills at any frame, frames that come late, two mirrors of
one name. test_rowanspan.py runs them."""
from __future__ import annotations

import random
import sys
import unittest
from dataclasses import replace
from typing import Any, Dict, Iterator, List, Optional

import rowanspan
from rowanspan import BadReply, Closed, ConnectionLost, FeedFull, Put, PutIf, Remove, Row, mirror
from rowanspan.mirror import Position, State
from rowanspan.mirror.errors import BadMapping, CopyAgain, NeedsDecision, Overtaken
from rowanspan.mirror.following import follow
from rowanspan.mirror.frames import (CHANGES, FrameClient, change_frame, key_of_change, read_change_frame,
                                     read_versions, spelled_change, spelled_mark)
from rowanspan.mirror.place import position_key
from rowanspan.mirror.source import Copy, Group, Sets, Source, TakePuts
from rowanspan.mirror.target import Keys, Target
from stand_in import Options, PlainIndex, StandIn
from stand_in_wire import spelled_refusal

SECONDS = 120.0
OWNER = b"o" * 16
Rows = Dict[bytes, Sets]


def a_position(**changed: Any) -> Position:
    return replace(Position(State.EXACT, 7, 7, OWNER, b"w" * 8, b"m/"), **changed)


class PositionTest(unittest.TestCase):
    def test_the_row(self) -> None:
        for wanted in (a_position(), a_position(state=State.MOVING, until=2 ** 64 - 1),
                       a_position(state=State.COPYING)):
            self.assertEqual(Position.read(Row(5, (wanted.spelled(), b""))), replace(wanted, version=5))
        self.assertLessEqual(len(a_position(prefix=bytes(1024)).spelled()), 64)
        for row in (None, Row(1, (b"",)), Row(1, (b"x" * 64,)), Row(1, ())):
            self.assertIsNone(Position.read(row))

    def test_prefixes(self) -> None:
        for one, other, wanted in ((b"a/", b"a/", True), (b"a/", b"a/b/", True), (b"a/b/", b"a/", True),
                                   (b"a/", b"b/", False), (b"a" * 40 + b"1", b"a" * 40 + b"2", True)):
            short = Position.read(Row(1, (a_position(prefix=one).spelled(),)))
            assert short is not None
            self.assertEqual(short.overlaps(other), wanted)

    def test_lsn(self) -> None:
        self.assertEqual(mirror.lsn("1/A0"), 2 ** 32 + 160)


class FrameTest(unittest.TestCase):
    def test_changes(self) -> None:
        """They are spelled as the client spells queries."""
        self.assertEqual(spelled_change(b"k", {0: b"v", 3: b""}), Put(b"k", {0: b"v", 3: b""}).spelled())
        self.assertEqual(spelled_change(b"k", None), Remove(b"k").spelled())
        for sets in ({0: b"v"}, None):
            self.assertEqual(key_of_change(spelled_change(b"k" * 300, sets)), b"k" * 300)

    def test_answers(self) -> None:
        with StandIn() as server, FrameClient(server.port, timeout=SECONDS) as index:
            key = position_key("m")
            mark = spelled_mark(key, a_position())
            puts = [spelled_change(b"%d" % number, {0: b"v"}) for number in range(CHANGES)]
            for changes, found in ((puts, 0), (puts, 1), ([spelled_change(b"9", None)] * 2, 64), ([], 127)):
                index.send_frame(change_frame(mark, changes))
                written = read_change_frame(index.receive_reply(), len(changes))
                self.assertEqual((written.found, written.done, written.refused), (found, len(changes), None))
                self.assertEqual(written.version, index[key].version)
            bad = [puts[0], spelled_change(b"k", {1: b"v"}), puts[1]]
            index.send_frame(change_frame(mark, bad))
            written = read_change_frame(index.receive_reply(), 3)
            self.assertEqual((written.done, type(written.refused)), (1, rowanspan.BadColumn))

    def test_versions(self) -> None:
        with StandIn(Options(columns=2)) as server, FrameClient(server.port, timeout=SECONDS) as index:
            for number in range(2500):
                index.put(b"%04d" % number, {0: b"x" * (number % 65), 1: b"y"})
            rows = [(key, row.version) for key, row in index.items()]
            for start, end, wanted in ((b"", None, rows), (b"0010", b"1001", rows[10:1001]), (b"9", None, []),
                                       (b"1500", None, rows[1500:]), (b"2499", b"2499", [])):
                self.assertEqual(list(index.versions(start, end)), wanted)

    def test_bad_versions(self) -> None:
        row = b"\0\1k" + (7).to_bytes(8, "big") + b"\1\1v"
        whole = b"\1\1\4" + bytes(16) + b"\0\1" + row
        self.assertEqual(read_versions(whole), [(b"k", 7)])
        for body in (whole[:-1], whole + b"x", whole[:-2], whole[:20] + b"\2" + row, b"\1\1\0\5" + bytes(8), b""):
            with self.assertRaises(BadReply):
                read_versions(body)

    def test_lost_connections(self) -> None:
        with StandIn(Options(sessions=1)) as server:
            index = FrameClient(server.port, timeout=SECONDS)
            index.send_frame(b"\0\0\0\2\1\0")
            for call in (index.receive_reply, index.receive_reply, lambda: index.send_frame(b"\0\0\0\2\1\0")):
                with self.assertRaises(ConnectionLost):
                    call()
            index.close()
        with StandIn() as server, FrameClient(server.port, timeout=SECONDS) as index:
            index.close()
            with self.assertRaises(Closed):
                index.receive_reply()


# ---- a source, and a client that dies

class Done(Exception):
    """The source has no more changes, and this was wanted."""


class Killed(Exception):
    """The mirror is to be over at once."""


def copy_of(at: int, rows: Rows, many: int = 1) -> Copy:
    """A copy of these rows, `many` at a time."""
    puts = [spelled_change(key, sets) for key, sets in rows.items()]

    def take_all(take: TakePuts) -> None:
        for begin in range(0, len(puts), many):
            take(puts[begin:begin + many])

    return Copy(at, take_all)


class Fake(Source):
    """A source that has had transactions 1, 2, .., of which each changes some keys. It groups them at random."""

    identity, prefix = "fake", b"m/"

    def __init__(self, chance: random.Random, transactions: int, keys: int) -> None:
        self._chance = chance
        self._history: List[Dict[bytes, Optional[Sets]]] = []
        self.kept_from, self.confirmed = 0, 0
        for number in range(1, transactions + 1):
            names = chance.sample(range(keys), chance.randint(1, min(keys, 5)))
            self._history.append({b"m/%d" % key: None if chance.random() < 0.3 else {0: b"%d" % number, 1: b"%d" % key}
                                  for key in names})

    def rows_at(self, number: int) -> Dict[bytes, Sets]:
        rows: Rows = {}
        for transaction in self._history[:number]:
            for key, sets in transaction.items():
                rows.pop(key, None)
                if sets is not None:
                    rows[key] = sets
        return rows

    def copy(self) -> Copy:
        at = self._chance.randint(self.confirmed, len(self._history))

        return copy_of(at, self.rows_at(at), self._chance.randint(1, 200))

    def follow(self, start: int) -> Iterator[Group]:
        if start < self.kept_from:
            raise CopyAgain("the source has forgotten it")
        at = start
        while at < len(self._history):
            end = self._chance.randint(at + 1, len(self._history))
            changes: Dict[bytes, Optional[Sets]] = {}
            for transaction in self._history[at:end]:
                changes.update(transaction)
            yield Group(end, changes)
            at = end
        raise Done()

    def confirm(self, at: int) -> None:
        self.confirmed = max(self.confirmed, at)

    def close(self) -> None:
        pass


class Dying(FrameClient):
    """A client whose process is killed after some frames: before a frame, after it, or with the frame still on its way
    to the server."""

    def __init__(self, port: int, frames: int, leaves: bool) -> None:
        super().__init__(port, timeout=SECONDS)
        self._frames, self._leaves = frames, leaves
        # what was on its way
        self.late: List[bytes] = []

    def send_frame(self, frame: bytes) -> None:
        self._frames -= 1
        if self._frames < 0:
            self.late = [frame] if self._leaves else []
            raise Killed()
        super().send_frame(frame)

    def put_if(self, key: bytes, sets: Any, version: int) -> int:
        self._frames -= 1
        if self._frames < 0:
            raise Killed()
        return super().put_if(key, sets, version)


class FollowTest(unittest.TestCase):
    def setUp(self) -> None:
        self.server = self.enter(StandIn(Options(columns=2, workers=8)))
        self.index = self.enter(FrameClient(self.server.port, timeout=SECONDS))
        self.said: List[str] = []

    def enter(self, context: Any) -> Any:
        self.addCleanup(context.__exit__, None, None, None)
        return context.__enter__()

    def rows(self) -> Dict[bytes, Sets]:
        return {key: dict(enumerate(row.columns)) for key, row in self.index.range(prefix=b"m/")}

    def target(self, index: FrameClient, **changed: Any) -> Target:
        given = {"name": "m", "owner": OWNER, "keys": Keys(b"m/"), "columns": 2, **changed}
        return Target(index, **given)

    def run_once(self, source: Fake, index: FrameClient) -> bool:
        """Runs a mirror until it is killed, or has all; returns whether it has all."""
        try:
            with index:
                follow(source, self.target(index), 0.0, self.said.append)
        except Done:
            return True
        except Killed:
            return False

    def want_exact(self, source: Fake) -> Optional[State]:
        """If the position row says so, the rows are those of its position."""
        found = mirror.position(self.index, "m")
        if found is not None and found.state is State.EXACT:
            self.assertEqual(self.rows(), source.rows_at(found.at), f"at {found.at}")
        return None if found is None else found.state

    def test_kills_at_any_frame(self) -> None:
        chance, states = random.Random(3), set()
        for _ in range(60):
            source = Fake(chance, 40, 30)
            self.index.put(b"m/stale", b"x")
            self.index.remove(position_key("m"))
            while not self.run_once(source, Dying(self.server.port, chance.randint(0, 12), False)):
                states.add(self.want_exact(source))
                if chance.random() < 0.1:
                    # what isn't confirmed is lost
                    source.kept_from = chance.randint(0, 40)
            self.assertEqual((self.want_exact(source), self.rows()), (State.EXACT, source.rows_at(40)))
        self.assertEqual(states, {None, *State})

    def test_many_rows(self) -> None:
        source = Fake(random.Random(1), 2000, 1500)
        self.assertTrue(self.run_once(source, FrameClient(self.server.port, timeout=SECONDS)))
        self.assertEqual(self.rows(), source.rows_at(2000))

    def test_stale_rows(self) -> None:
        """A copy removes what was written before it, and no other, also if it has to begin again."""
        rows: Rows = {b"m/%d" % number: {0: b"x"} for number in range(CHANGES * 40)}
        target = self.target(self.index)

        def broken_off(take: TakePuts) -> None:
            take([spelled_change(key, sets) for key, sets in rows.items()])
            raise CopyAgain("once more")

        for stale in (b"m/stale", b"m/1"):
            self.index.put(stale, b"old")
            target.find(0.0)
            target.begin_copy()
            with self.assertRaisesRegex(CopyAgain, "once more"):
                target.copy(Copy(2, broken_off))
            target.begin_copy()
            rows = dict(list(rows.items())[1:])
            self.assertEqual(target.copy(copy_of(3, rows)), len(rows))
            self.assertEqual(list(self.rows()), sorted(rows))

    def test_a_full_log(self) -> None:
        """Refusals that pass change nothing."""
        chance, answer = random.Random(5), PlainIndex._answer

        def refusing(index: PlainIndex, query: Any) -> bytes:
            if isinstance(query, (Put, PutIf, Remove)) and chance.random() < 0.02:
                return spelled_refusal(FeedFull(1))
            return answer(index, query)

        PlainIndex._answer = refusing  # type: ignore[method-assign]
        try:
            for seed in range(5):
                self.server.index._rows.clear()
                source = Fake(random.Random(seed), 300, 200)
                self.assertTrue(self.run_once(source, Dying(self.server.port, 10 ** 9, False)))
                self.assertEqual((self.want_exact(source), self.rows()), (State.EXACT, source.rows_at(300)))
        finally:
            PlainIndex._answer = answer  # type: ignore[method-assign]

    def test_a_late_frame(self) -> None:
        """A frame of a mirror that was killed comes after the next mirror has moved the position: then nothing is
        called exact, and the next mirror notices it, and copies all rows."""
        chance, met = random.Random(11), 0
        for _ in range(40):
            source = Fake(chance, 60, 20)
            self.index.remove(position_key("m"))
            while True:
                dead = Dying(self.server.port, chance.randint(0, 6), True)
                if self.run_once(source, dead):
                    break
                if not dead.late:
                    continue
                living = FrameClient(self.server.port, timeout=SECONDS)
                with living:
                    target = self.target(living)
                    found = target.find(0.0)
                    if found is None or found.state is State.COPYING:
                        continue
                    target.move(next(source.follow(found.at), Group(found.at)))
                    self.want_exact(source)
                    self.index.send_frame(dead.late[0])
                    self.index.receive_reply()
                    met += 1
                    self.assertIsNot(self.want_exact(source), State.EXACT)
                    with self.assertRaisesRegex(CopyAgain, "came late"):
                        target.check()
                    target.begin_copy()
        self.assertGreater(met, 10)

    def test_two_mirrors(self) -> None:
        one, other = (self.enter(FrameClient(self.server.port, timeout=SECONDS)) for _ in range(2))
        first = self.target(one)
        self.assertIsNone(first.find(0.0))
        first.begin_copy()
        first.copy(copy_of(3, {b"m/a": {0: b"3"}}))
        second = self.target(other)
        self.assertEqual(getattr(second.find(0.0), "at", None), 3)
        first.move(Group(4, {b"m/a": {0: b"4"}}))
        with self.assertRaisesRegex(Overtaken, "an earlier mirror of the name m still writes"):
            second.move(Group(5, {b"m/a": {0: b"5"}}))
        first.check()
        self.assertEqual((self.index[b"m/a"].columns[0], first.at), (b"4", 4))
        self.assertEqual(getattr(second.find(0.0), "at", None), 4)
        second.move(Group(5, {b"m/a": {0: b"5"}}))
        with self.assertRaisesRegex(NeedsDecision, "another mirror of the name m writes"):
            first.check()
        self.assertEqual((self.index[b"m/a"].columns[0], second.at), (b"5", 5))

    def test_an_earlier_mirror_that_goes_on(self) -> None:
        """A mirror that is overtaken looks again, and gives up if that doesn't end."""
        first = self.target(self.enter(FrameClient(self.server.port, timeout=SECONDS)))
        first.find(0.0)
        first.begin_copy()
        first.copy(copy_of(0, {}))
        source = Fake(random.Random(1), 50, 5)

        def moved(*_: Any) -> None:
            first.move(Group(first.at + 1))

        second = self.target(self.index)
        with self.assertRaisesRegex(NeedsDecision, "still writes"):
            follow(source, second, 0.0, moved)
        self.assertEqual(first.at, 3)
        with self.assertRaises(Done):
            follow(source, second, 0.0, self.said.append)

    def test_a_removed_position(self) -> None:
        target = self.target(self.index)
        target.find(0.0)
        target.begin_copy()
        target.copy(copy_of(3, {}))
        self.index.remove(position_key("m"))
        with self.assertRaisesRegex(CopyAgain, "was removed"):
            target.move(Group(4, {b"m/a": {0: b"4"}}))

    def test_a_part_of_the_keys(self) -> None:
        self.index.put(b"m/1", b"not ours")
        target = self.target(self.index, keys=Keys(b"m/", b"m/2", b"m/4"))
        target.find(0.0)
        target.begin_copy()
        target.copy(copy_of(3, {b"m/%d" % number: {0: b"x"} for number in range(6)}))
        target.move(Group(4, {b"m/1": None, b"m/2": None, b"m/5": {0: b"y"}}))
        self.assertEqual(list(self.rows()), [b"m/1", b"m/3"])
        target.move(Group(5, {b"m/2": {0: b"z"}}, True))
        self.assertEqual(list(self.rows()), [b"m/1", b"m/2"])

    def test_other_mirrors(self) -> None:
        target = self.target(self.index)
        target.find(0.0)
        target.begin_copy()
        for changed, why in (({"columns": 3}, "start it with --columns 3"),
                             ({"name": "n", "keys": Keys(b"m/x/")}, "are those of the mirror m"),
                             ({"keys": Keys(b"k/")}, "the mirror m has the keys b'm/'")):
            with self.subTest(why=why), self.assertRaisesRegex(BadMapping, why):
                self.target(self.index, **changed)
        self.target(self.index, name="n", keys=Keys(b"n/"))
        self.assertIsNone(self.target(self.index, owner=b"p" * 16).find(0.0))

    def test_a_position_that_moves(self) -> None:
        target, moved = self.target(self.index), iter(range(1000))
        target._read = lambda: a_position(at=next(moved))  # type: ignore[method-assign]
        with self.assertRaisesRegex(NeedsDecision, "another mirror of the name m writes"):
            target.find(0.0)


if __name__ == "__main__":
    sys.exit(unittest.main())
