"""What the board knows: its views with their last pages and samples, and whether the server answers."""
from __future__ import annotations

import enum
import secrets
import threading
from collections import deque
from dataclasses import dataclass, field
from typing import Deque, Dict, List, NamedTuple, Optional, Sequence, Set, Tuple

from ..core import Page, ViewNo, ViewSpec
from ..server import StandingView
from .guard import Tokens
from .showing import Event, board_event, card_event, samples_event

# how many views a board shows, and how many seconds its lines go back: a sample a second
MAX_CARDS = 64
WINDOW = 300
# after how many bytes of events a browser is sent what there is, so that a slow one holds no more
CHUNK = 1 << 18
# no view has this number: that of a view that has to be built again
NO_VIEW = ViewNo(0)
UNKNOWN = "specification unknown: given by number"
STARTED_AGAIN = "The server was started again."
OVER = STARTED_AGAIN + " It has this view no longer, and the number may become another view's."


class Link(enum.Enum):
    """How the board is connected to the server."""

    LIVE = "live"
    LOST = "lost"


class Origin(enum.Enum):
    """How a view came to the board: it built it, its number was named, or the server listed it."""

    BUILT = "built"
    NAMED = "named"
    LISTED = "listed"


@dataclass(frozen=True)
class Sample:
    """The count and the sums of a view in one second since the board began."""

    second: int
    count: int
    sums: Tuple[int, ...]


@dataclass
class Card:
    """A view on the board: its number at the server, and the last page that was read. `floor` is the commit that the
    next page has to show at least; `trouble` says why no page comes, and is empty as long as pages come. `note` is
    there if the specification isn't known. A view that `is_over` can't come back. The board drops only those that it
    has built, unless it is asked to."""

    id: int
    number: ViewNo
    name: str
    spec: Optional[ViewSpec]
    token: str
    note: str
    page: Optional[Page] = None
    lag: int = 0
    floor: int = 0
    trouble: str = ""
    is_over: bool = False
    revision: int = 0
    samples: Deque[Sample] = field(default_factory=lambda: deque(maxlen=WINDOW))
    origin: Origin = Origin.NAMED
    # the event of the revision that is named
    rendered: Tuple[int, Event] = (0, Event("", b""))

    def is_own(self) -> bool:
        """Whether the board has built it: it drops no other at its end."""
        return self.origin is Origin.BUILT

    def can_be_read(self) -> bool:
        """Whether its number is that of the view at the server, as far as the board knows."""
        return self.number != NO_VIEW and not self.is_over

    def event(self) -> Event:
        """What the page shows of it, which is written once for all browsers."""
        if self.rendered[0] != self.revision:
            self.rendered = (self.revision, card_event(self))
        return self.rendered[1]


class Mark(NamedTuple):
    """What a browser has been sent of a view: the revision, and up to which second."""

    revision: int = 0
    second: int = -1


@dataclass
class Sent:
    """What a browser has been sent: up to which revision all, of the board itself up to which, and of each view."""

    revision: int = 0
    own_revision: int = 0
    marks: Dict[int, Mark] = field(default_factory=dict)

    def mark(self, card: Card) -> Mark:
        return self.marks.get(card.id, Mark())


class Full(Exception):
    """The board shows as many views as it can."""


class Board:
    """The state that one poller writes, and that any number of browsers are sent. Its methods may be called by any
    thread."""

    def __init__(self, server: str, rows: int, tokens: Tokens) -> None:
        self.server, self.rows, self.tokens = server, rows, tokens
        # another board at this port has another name, so that a page that was open before knows to load again
        self.instance = secrets.token_hex(8)
        self._changed = threading.Condition()
        self._cards: Dict[int, Card] = {}
        # views that are not to be shown, though the server lists them
        self._hidden: Set[ViewNo] = set()
        self._last_id = 0
        self._revision = self._own_revision = 1
        self._link, self._why = Link.LIVE, ""
        self._is_closed = False

    # -- what the poller writes

    def cards(self) -> List[Card]:
        """The views, in the order in which they came to the board."""
        with self._changed:
            return list(self._cards.values())

    def card(self, card_id: int) -> Optional[Card]:
        with self._changed:
            return self._cards.get(card_id)

    def check_room(self) -> None:
        """Raises `Full` if there is no room for another view."""
        with self._changed:
            if len(self._cards) >= MAX_CARDS:
                raise Full(f"the board shows {MAX_CARDS} views already")

    def add(self, number: ViewNo, spec: Optional[ViewSpec], name: str = "", origin: Origin = Origin.NAMED) -> Card:
        """Adds a view, whose specification may be unknown."""
        with self._changed:
            self._last_id += 1
            token, note = self.tokens.of(f"drop {self._last_id}"), UNKNOWN if spec is None else ""
            card = Card(self._last_id, number, name, spec, token, note, origin=origin)
            self._cards[card.id] = card
            self._hidden.discard(number)
            self._change(card)
            self._change()
            return card

    def name_listed(self, number: ViewNo, name: str) -> Optional[Card]:
        """Takes a view that the server has listed as one that was named. None if it isn't on the board so."""
        with self._changed:
            for card in self._cards.values():
                if card.number == number and card.origin is Origin.LISTED:
                    card.origin, card.name = Origin.NAMED, name
                    self._change(card)
                    return card
            return None

    def remove(self, card_id: int) -> None:
        with self._changed:
            if self._cards.pop(card_id, None) is not None:
                self._change()

    def hide(self, card: Card) -> None:
        """Takes a view off the board. It isn't shown again if the server lists it."""
        with self._changed:
            if card.can_be_read():
                self._hidden.add(card.number)
            self.remove(card.id)

    def take_list(self, views: Sequence[StandingView]) -> None:
        """Takes what the server lists: those that are new come to the board, as far as there is room, and those that
        had come so and are gone leave it. The specifications of all are known."""
        with self._changed:
            listed = {view.number: view for view in views}
            known = [card for card in self._cards.values() if card.can_be_read()]
            for card in known:
                view = listed.get(card.number)
                if view is None and card.origin is Origin.LISTED:
                    self.remove(card.id)
                elif view is not None and card.spec is None:
                    card.spec, card.note = view.spec, ""
                    self._change(card)
            for number in sorted(listed.keys() - {card.number for card in known} - self._hidden):
                if len(self._cards) < MAX_CARDS:
                    self.add(number, listed[number].spec, origin=Origin.LISTED)

    def show(self, card: Card, page: Page, lag: int, second: int) -> None:
        """Takes a page of a view that was read in this second, and by how many commits the view lagged behind."""
        with self._changed:
            if (page, lag, "") != (card.page, card.lag, card.trouble):
                card.page, card.lag, card.floor, card.trouble = page, lag, page.at, ""
                self._change(card)
            if not card.samples or card.samples[-1].second < second:
                card.samples.append(Sample(second, page.count, page.sums))
                self._revision += 1

    def fail(self, card: Card, why: str) -> None:
        """No page of a view came; the last one stays."""
        with self._changed:
            if card.trouble != why:
                card.trouble = why
                self._change(card)

    def start_again(self) -> None:
        """The server was started again, so its commits begin again: views that the board has built have to be built
        again, and those that were named are over. Others leave the board."""
        with self._changed:
            self._hidden.clear()
            for card in list(self._cards.values()):
                if card.origin is Origin.LISTED:
                    self.remove(card.id)
                    continue
                card.floor, card.is_over = 0, card.origin is Origin.NAMED
                card.number, card.trouble = (card.number, OVER) if card.is_over else (NO_VIEW, STARTED_AGAIN)
                self._change(card)

    def rebuilt(self, card: Card, number: ViewNo) -> None:
        """A view was built again, and has this number."""
        with self._changed:
            card.number = number
            self._change(card)

    def set_link(self, link: Link, why: str = "") -> None:
        with self._changed:
            if (link, why) != (self._link, self._why):
                self._link, self._why = link, why
                self._change()

    def close(self) -> None:
        """Ends the streams of events."""
        with self._changed:
            self._is_closed = True
            self._changed.notify_all()

    def tell(self) -> None:
        """Wakes the streams, after a round of changes."""
        with self._changed:
            self._changed.notify_all()

    def _change(self, card: Optional[Card] = None) -> None:
        self._revision += 1
        if card is None:
            self._own_revision = self._revision
        else:
            card.revision = self._revision

    # -- what a stream of events reads

    def wait(self, sent: Sent, seconds: float) -> bool:
        """Waits until there is something that wasn't sent, or this time is over; False if the board is closed."""
        with self._changed:
            self._changed.wait_for(lambda: self._is_closed or self._revision > sent.revision, seconds)
            return not self._is_closed

    def events(self, sent: Sent) -> List[Event]:
        """What a browser hasn't been sent, which is noted in `sent`. If it is much, a part of it, and the next calls
        return the rest: first the views that were sent the longest time ago."""
        with self._changed:
            events = self._own_events(sent)
            for card in sorted(self._cards.values(), key=lambda it: sent.mark(it).revision):
                if sum(len(event.data) for event in events) > CHUNK:
                    return events
                events += self._card_events(card, sent)
            sent.revision = self._revision
            return events

    def _own_events(self, sent: Sent) -> List[Event]:
        if sent.own_revision == self._own_revision:
            return []
        sent.own_revision = self._own_revision
        sent.marks = {card_id: mark for card_id, mark in sent.marks.items() if card_id in self._cards}
        return [board_event(self, self._link.value, self._why, list(self._cards))]

    @staticmethod
    def _card_events(card: Card, sent: Sent) -> List[Event]:
        """What is new of a view, and of its samples: of most calls none or the last one."""
        mark, last = sent.mark(card), card.samples[-1].second if card.samples else -1
        sent.marks[card.id] = Mark(card.revision, last)
        events = [card.event()] if card.revision > mark.revision else []
        if last > mark.second:
            new = [sample for sample in card.samples if sample.second > mark.second]
            events.append(samples_event(card.id, new))
        return events
