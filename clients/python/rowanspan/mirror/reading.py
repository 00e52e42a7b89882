"""What a reader needs: pages that are exact at a position of the source, and at least at one that it names."""
from __future__ import annotations

import time
from dataclasses import dataclass
from typing import Optional, Union

from ..client import Client
from ..core import MAX_LIMIT, Behind, Page, Refused, RowanspanError
from ..mapping import View, number_of_view
from ..wire import Get, ViewRead
from .place import Position, State, position_key

__all__ = ["NotYet", "ExactPage", "position", "wait", "page", "lsn"]

# how long is waited between two looks
PAUSE = 0.001
# how often a page is asked for again at once
AT_ONCE = 3


class NotYet(RowanspanError):
    """The mirror didn't reach the position within the timeout, or there is no mirror of this name."""


@dataclass(frozen=True)
class ExactPage:
    """A page of a view, and the position of the source at which it is exact."""

    position: int
    page: Page
    # how often the server was asked
    asked: int


def position(index: Client, name: str) -> Optional[Position]:
    """Where a mirror is; None if the server has no mirror of this name. It costs one round trip."""
    return Position.read(index.get(position_key(name)))


def wait(index: Client, name: str, at_least: int, timeout: float = 10.0) -> int:
    """Waits until a mirror has all transactions of its source up to a position. Returns the number of a commit: a page
    with it as its floor, of any view of the server, has them too. Raises `NotYet`.

    It asks for the position row about 1,000 times in a second until then."""
    end = time.monotonic() + timeout
    while True:
        found = position(index, name)
        if found is not None and found.state is not State.COPYING and found.at >= at_least:
            return found.version
        if time.monotonic() > end:
            raise NotYet(f"the mirror {name} is {place_of(found)}, and not at {at_least} after {timeout:g} s")
        time.sleep(PAUSE)


def place_of(found: Optional[Position]) -> str:
    """Where a mirror is, in words."""
    if found is None:
        return "not there"
    return "being copied" if found.state is State.COPYING else f"at {found.at}"


def page(index: Client, name: str, view: Union[View, int], at_least: int = 0, start: bytes = b"",
         limit: int = MAX_LIMIT, timeout: float = 10.0) -> ExactPage:
    """A page of a view of a mirror's rows, and the position of the source at which it is exact: at least `at_least`.
    `view`, `start` and `limit` are those of `View.page`. Raises `NotYet`, or what the view's own page raises.

    It costs one round trip if the mirror is between two groups, and asks again otherwise. The rows of the page that
    aren't of the mirror are those of the page's commit."""
    key, number, end = position_key(name), number_of_view(index, view), time.monotonic() + timeout
    floor = asked = 0
    found = None
    while True:
        asked += 1
        # if both position rows are one, and say that the rows are exact, no row of the mirror changed between them
        first, shown, last = index.call_all([Get(key), ViewRead(number, floor, start, limit), Get(key)])
        for outcome in (first, shown, last):
            if isinstance(outcome, Refused) and not isinstance(outcome, Behind):
                raise outcome
        before, found = position_in(first), position_in(last)
        if found is not None and found == before and found.state is State.EXACT:
            floor = found.version
            if not isinstance(shown, Refused) and found.at >= at_least and shown.value.at >= floor:
                return ExactPage(found.at, shown.value, asked)
        if time.monotonic() > end:
            raise NotYet(f"the mirror {name} is {place_of(found)}; it has no exact page at {at_least} after "
                         f"{timeout:g} s")
        time.sleep(PAUSE if asked > AT_ONCE else 0)


def position_in(outcome: object) -> Optional[Position]:
    """The position that an answer has."""
    return Position.read(getattr(outcome, "value", None))


def lsn(text: str) -> int:
    """The number of a position of PostgreSQL that is written as `0/16B3748`. Raises ValueError."""
    high, low = text.split("/")
    return int(high, 16) << 32 | int(low, 16)
