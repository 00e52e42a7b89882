"""The loop of a mirror: copies the rows of its source if it has to, and follows the changes."""
from __future__ import annotations

import time
from typing import Callable, NoReturn, Optional

from .errors import CopyAgain, NeedsDecision, Overtaken
from .place import Position, State
from .source import Group, Source
from .target import Target

__all__ = ["follow"]

Say = Callable[[str], None]
# seconds between two looks at the position row, if there is nothing to write
CHECK_EVERY = 1.0
# how often it looks at the position row again, if an earlier run wrote it meanwhile
LOOKS = 3
NO_POSITION = "the server has no position of this source and mapping, or a copy was broken off"


def follow(source: Source, target: Target, settle: float, say: Say) -> NoReturn:
    """Keeps the rows of the target as those of the source, until an exception ends it. What was written last, the
    position row says: so it may be ended at any moment."""
    found, why, looks = target.find(settle), NO_POSITION, LOOKS
    while True:
        try:
            start = copied(source, target, say, why) if must_copy(found) else continued(found, say)
            changes_after(start, source, target)
        except CopyAgain as fault:
            found, why = None, str(fault)
        except Overtaken as fault:
            looks -= 1
            if looks == 0:
                raise NeedsDecision(str(fault)) from fault
            found, why = target.find(settle), NO_POSITION


def must_copy(found: Optional[Position]) -> bool:
    return found is None or found.state is State.COPYING


def continued(found: Optional[Position], say: Say) -> int:
    """The position from which on the changes are followed."""
    assert found is not None
    say(f"continues after {found.at}")
    return found.at


def copied(source: Source, target: Target, say: Say, why: str) -> int:
    """Copies all rows; returns the position that they have."""
    say(f"copies all rows: {why}")
    begun = time.monotonic()
    target.begin_copy()
    copy = source.copy()
    count = target.copy(copy)
    seconds = time.monotonic() - begun
    say(f"copied {count} rows in {seconds:.2f} s, {count / seconds:.0f} a second, at {copy.at}")
    source.confirm(copy.at)
    return copy.at


def changes_after(start: int, source: Source, target: Target) -> NoReturn:
    """Makes the changes after a position, group by group."""
    checked = time.monotonic()
    for group in source.follow(start):
        if is_news(group, target):
            target.move(group)
            source.confirm(group.at)
        elif time.monotonic() > checked + CHECK_EVERY:
            target.check()
            checked = time.monotonic()
    raise AssertionError("a source's groups have no end")


def is_news(group: Group, target: Target) -> bool:
    return bool(group.changes) or group.clears or group.at > target.at
