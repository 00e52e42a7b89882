"""Every run of a small model of a mirror: why its order of writes makes positions exact. test_rowanspan.py runs it.

A source has three transactions. A mirror groups them anyhow, and is killed before any frame, at most twice; the frame
that it had sent may be done at any later time. In each state that is reached, if the position row says that the rows
are exact, they are those of its position; and a mirror that has reached the end of the source has its rows.
"""
from __future__ import annotations

import sys
import unittest
from typing import Dict, Iterator, NamedTuple, Optional, Set, Tuple

HISTORY: Tuple[Dict[str, Optional[int]], ...] = ({"a": 1}, {"a": 2, "b": 2}, {"b": None})
END, KILLS, KEYS = len(HISTORY), 2, ("a", "b")
Rows = Tuple[Tuple[str, int], ...]


def changed(rows: Rows, key: str, value: Optional[int]) -> Rows:
    kept = [(name, held) for name, held in rows if name != key]
    return tuple(sorted(kept if value is None else [*kept, (key, value)]))


def rows_at(number: int) -> Rows:
    rows: Rows = ()
    for transaction in HISTORY[:number]:
        for key, value in transaction.items():
            rows = changed(rows, key, value)
    return rows


AT = [rows_at(number) for number in range(END + 1)]


class Place(NamedTuple):
    """The position row."""

    state: str
    at: int
    until: int
    version: int


class Frame(NamedTuple):
    """A frame: a conditional write of the position row; or, if there is a key, its write and that of a row."""

    state: str
    at: int
    until: int
    key: Optional[str] = None
    value: Optional[int] = None
    # that of the position row for which a conditional write is done
    version: int = 0


class Live(NamedTuple):
    """A mirror: what it knows of the position row, the frames that it will send, and whether it has sent the first."""

    at: int
    until: int
    version: int
    rest: Tuple[Frame, ...] = ()
    is_sent: bool = False
    # it has met a frame that came late, and nothing has said so yet
    is_alarmed: bool = False


class World(NamedTuple):
    rows: Rows
    place: Place
    live: Optional[Live]
    # frames of mirrors that were killed, which the server has yet to read
    late: Tuple[Frame, ...]
    kills: int


class Rules(NamedTuple):
    """Which parts of the protocol there are."""

    # a group that broke off is noted, and its end waited for
    notes_until: bool = True
    # frames of a mirror that was killed are done before the next begins
    waits: bool = False
    # a frame of rows writes the position row too, and reads which version that had
    leaves_traces: bool = True
    # a late frame comes while a mirror lives, which isn't killed before it has noticed that, and said so
    notices: bool = False


def done(world: World, frame: Frame, rules: Rules) -> Tuple[Rows, Place]:
    """What the server has after a frame."""
    rows, place = world.rows, world.place
    moved = Place(frame.state, frame.at, frame.until, place.version + 1)
    if frame.key is None:
        return rows, moved if frame.version == place.version else place
    return changed(rows, frame.key, frame.value), moved if rules.leaves_traces else place


def copied() -> Tuple[Frame, ...]:
    """A copy of all rows at the end of the source."""
    rows = dict(AT[END])
    return (Frame("c", 0, 0), *(Frame("c", 0, 0, key, rows.get(key)) for key in KEYS), Frame("=", END, END))


def groups(live: Live, rules: Rules) -> Iterator[Live]:
    """The groups that a mirror may make next."""
    for end in range(live.at + 1, END + 1):
        changes: Dict[str, Optional[int]] = {}
        for transaction in HISTORY[live.at:end]:
            changes.update(transaction)
        until = max(end, live.until) if rules.notes_until else end
        begin = Frame(">", live.at, until)
        rows = [begin._replace(key=key, value=value) for key, value in changes.items()]
        yield live._replace(rest=(begin, *rows, Frame("=" if end == until else ">", end, until)))


def steps(world: World, rules: Rules) -> Iterator[World]:
    live = world.live
    is_calm = live is not None and live.version == world.place.version and not live.is_alarmed
    for number, frame in enumerate(world.late if is_calm or not rules.notices else ()):
        rows, place = done(world, frame, rules)
        yield world._replace(rows=rows, place=place, late=world.late[:number] + world.late[number + 1:])
    if live is None:
        if not (rules.waits and world.late):
            place = world.place
            made = Live(place.at, place.until, place.version)
            yield world._replace(live=made._replace(rest=copied()) if place.state == "c" else made)
        return
    if world.kills < KILLS and (is_calm or not rules.notices):
        late = (live.rest[0]._replace(version=live.version),) if live.is_sent else ()
        yield world._replace(live=None, late=world.late + late, kills=world.kills + 1)
    if not live.rest:
        yield from (world._replace(live=one) for one in groups(live, rules))
    elif not live.is_sent:
        yield world._replace(live=live._replace(is_sent=True))
    else:
        yield answered(world, live, rules)


def answered(world: World, live: Live, rules: Rules) -> World:
    """The server does the frame that a mirror has sent, and the mirror reads the answer."""
    frame, found = live.rest[0]._replace(version=live.version), world.place.version
    rows, place = done(world, frame, rules)
    alarmed = found != live.version
    if alarmed:
        # it begins a copy, by a write that is for the version that it has seen now
        after = live._replace(rest=copied(), is_sent=False, version=place.version, is_alarmed=True)
    else:
        after = Live(frame.at if frame.key is None and len(live.rest) == 1 else live.at, frame.until, place.version,
                     live.rest[1:])
    return world._replace(rows=rows, place=place, live=after)


def fault_of(rules: Rules) -> Optional[str]:
    """What is wrong in some run; None if nothing is in any."""
    first = World((), Place("=", 0, 0, 0), None, (), 0)
    seen: Set[World] = {first}
    todo = [first]
    while todo:
        world = todo.pop()
        place, live = world.place, world.live
        if place.state == "=" and world.rows != AT[place.at]:
            return f"at {place.at} with rows {world.rows}"
        is_over = live is not None and not live.rest and (live.at, live.version) == (END, place.version)
        if is_over and not world.late and (world.rows, place.state) != (AT[END], "="):
            return f"it ends as {place} with rows {world.rows}"
        for new in steps(world, rules):
            if new not in seen:
                seen.add(new)
                todo.append(new)
    return None


class ModelTest(unittest.TestCase):
    def test_what_is_exact(self) -> None:
        for rules in (Rules(waits=True), Rules(waits=True, leaves_traces=False), Rules(notices=True)):
            with self.subTest(rules=rules):
                self.assertIsNone(fault_of(rules))

    def test_what_is_not(self) -> None:
        """Each part is needed. What the last rules leave open, a batch that is conditional would close."""
        for rules in (Rules(waits=True, notes_until=False), Rules(leaves_traces=False), Rules()):
            with self.subTest(rules=rules):
                self.assertIsNotNone(fault_of(rules))


if __name__ == "__main__":
    sys.exit(unittest.main())
