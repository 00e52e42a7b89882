"""The poller: a thread with a connection, which reads the views of the board at most four times a second."""
from __future__ import annotations

import queue
import socket
import threading
import time
from concurrent.futures import Future
from concurrent.futures import TimeoutError as FutureTimeout
from typing import Any, Callable, List, Optional, Sequence, Tuple, TypeVar

from ..client import Client
from ..core import BadReply, ConnectionLost, NoSuchView, Page, Range, Refused, RowanspanError, ViewNo, ViewSpec
from ..server import Greeting, HelloUnanswered, Listing
from ..server_queries import ListViews
from ..wire import MAX_QUERIES, Get, Outcome, Query, Reply, ViewDrop, ViewRead
from .state import NO_VIEW, STARTED_AGAIN, Board, Card, Link, Origin
from .watcher import Watcher

# in seconds: from one round to the next, at least, and at most while nothing is committed; from one try to connect to
# the next; and how long a form waits
PERIOD = 0.25
QUIET = 1.0
RETRY = 1.0
PATIENCE = 60.0
MAX_JOBS = 16
SILENT = " (a server whose workers are all busy with other clients doesn't answer: --workers)"

Value = TypeVar("Value")
Job = Tuple[Callable[[Client], Any], "Future[Any]"]


class Busy(Exception):
    """Too many forms wait for the server, or an answer didn't come."""


def refused_text(number: ViewNo, refused: Refused) -> str:
    """Why no page of a view comes, for the page."""
    if isinstance(refused, NoSuchView):
        return f"The server has no view {number}: it was dropped, or the server was started again."
    return f"The server refused a page of view {number}: {refused}."


def lost_text(fault: RowanspanError) -> str:
    """Why there is no connection, for people."""
    return f"{fault}{SILENT if isinstance(fault.__cause__, socket.timeout) else ''}"


class Poller(threading.Thread):
    """Reads the views of a board round by round, and does what forms ask for in between.

    All of it goes over one connection, however many browsers look. If that is lost, the poller tries again until there
    is one. If the server lists its views, it is asked for the list, pages are read only of views that have changed, and
    a watcher waits for commits over another connection. (Its `info` counts its views then.)
    """

    def __init__(self, board: Board, connect: Callable[[], Client]) -> None:
        super().__init__(name="poller", daemon=True)
        self._board = board
        self._connect = connect
        self._index: Optional[Client] = None
        self._jobs: queue.Queue[Job] = queue.Queue(MAX_JOBS)
        self._is_ending = threading.Event()
        # a round is wanted now
        self._wake = threading.Event()
        self._watcher: Optional[Watcher] = None
        self._began = time.monotonic()
        # what the server said of itself, if it knows version 3 of the wire
        self._greeting: Optional[Greeting] = None
        # whether it lists its views, and lets clients wait for commits
        self._lists = False
        # of the index that was seen last: the name of its run, its commits, and the greatest number of a view
        self._run: Optional[bytes] = None
        self._commits = 0
        self._greatest = 0

    # -- what other threads call

    def ask(self, work: Callable[[Client], Value]) -> Value:
        """Has the poller do something with its connection, and returns what it returns. Raises what it raises, and
        `Busy`."""
        result: Future[Value] = Future()
        try:
            self._jobs.put_nowait((work, result))
            self._wake.set()
            return result.result(PATIENCE)
        except queue.Full:
            raise Busy("too many forms wait for the server: send it again later") from None
        except FutureTimeout:
            result.cancel()
            raise Busy("the server didn't answer in time") from None

    def build(self, spec: ViewSpec, name: str = "") -> Card:
        """Builds a view, and adds it to the board. Raises `Refused`, `Full`, `ConnectionLost`, `BadReply` or `Busy`."""
        def work(index: Client) -> Card:
            self._board.check_room()
            return self._board.add(self._built(index, spec), spec, name, Origin.BUILT)
        return self.ask(work)

    def watch(self, number: ViewNo, name: str = "") -> Card:
        """Adds the view of this number to the board. Raises `NoSuchView` if there is none, and what `build` raises."""
        def work(index: Client) -> Card:
            self._board.check_room()
            index.view(number).page(limit=1)
            self._greatest = max(self._greatest, number)
            return self._board.name_listed(number, name) or self._board.add(number, None, name)
        return self.ask(work)

    def drop(self, card: Card) -> None:
        """Drops a view, and takes it off the board. One that isn't there any more is no error."""
        def work(index: Client) -> None:
            try:
                if card.can_be_read():
                    index.view(card.number).drop()
            except NoSuchView:
                pass
            self._board.remove(card.id)
        self.ask(work)

    def end(self) -> None:
        """Drops the views that the board has built, closes the connection, and waits for both."""
        self._is_ending.set()
        self._wake.set()
        if self.ident is not None:
            self.join(PATIENCE)

    # -- the thread

    def start(self) -> None:
        """Connects, and begins. Raises `ConnectionLost` and `NotAllowed`."""
        self._index = self._opened()
        self._run = self._greeting.run if self._greeting else None
        super().start()

    def run(self) -> None:
        try:
            self._run_rounds()
        except BaseException as fault:
            # (a fault of the board itself, which no page may take for a view that doesn't change)
            self._board.set_link(Link.LOST, f"the board's poller has ended: {fault!r}")
            self._board.tell()
            raise

    def _run_rounds(self) -> None:
        while not self._is_ending.is_set():
            began = time.monotonic()
            self._wake.clear()
            is_answered = self._round()
            self._board.tell()
            self._is_ending.wait(max(0.0, began + (PERIOD if is_answered else RETRY) - time.monotonic()))
            if is_answered and self._watches():
                self._wake.wait(max(0.0, began + QUIET - time.monotonic()))
        self._leave()

    def _watches(self) -> bool:
        """Whether the poller is woken when something changes. (A view that is behind changes without a commit.)"""
        if self._watcher is None or any(card.lag and not card.trouble for card in self._board.cards()):
            return False
        return self._watcher.watch(self._commits)

    def _round(self) -> bool:
        """Does what forms ask for, and reads each view once; whether the server answered."""
        try:
            if self._index is None:
                self._index = self._opened()
                self._meet(self._index)
            self._do_jobs(self._index)
            self._build_missing(self._index)
            listing = self._listed(self._index)
            if listing is None:
                self._read_all(self._index)
            else:
                self._read_changed(self._index, listing)
        except RowanspanError as fault:
            self._lose(fault)
            return False
        self._board.set_link(Link.LIVE)
        return True

    def _opened(self) -> Client:
        """A connection, after hello if the server knows it. Raises `ConnectionLost` and `NotAllowed`."""
        # (a server ends a connection by which it is asked what it doesn't know; and any, if it has too many)
        index = self._greeted(self._connect()) or self._greeted(self._answering())
        if index is None:
            self._greeting, self._lists = None, False
            return self._answering()
        if self._lists:
            self._watcher = self._new_watcher()
        return index

    def _greeted(self, index: Client) -> Optional[Client]:
        """A connection after hello; None if the server has ended it instead. Raises `ConnectionLost` and `NotAllowed`."""
        try:
            self._greeting = index.hello
            self._lists = "views" in index.info()
        except BaseException as fault:
            index.close()
            if isinstance(fault, HelloUnanswered):
                return None
            raise
        return index

    def _answering(self) -> Client:
        """A connection by which a query was answered that each server knows. Raises `ConnectionLost` and `NotAllowed`."""
        index = self._connect()
        try:
            index.call(Get(b"", (0,)))
        except BaseException:
            index.close()
            raise
        return index

    def _new_watcher(self) -> Optional[Watcher]:
        """A watcher, or None if there is no second connection for it."""
        try:
            made = Watcher(self._connect(), self._wake)
        except RowanspanError:
            return None
        made.start()
        return made

    def _lose(self, fault: RowanspanError) -> None:
        self._close()
        self._board.set_link(Link.LOST, lost_text(fault))
        self._fail_jobs(fault)

    def _fail_jobs(self, fault: Exception) -> None:
        for _ in range(self._jobs.qsize()):
            result = self._jobs.get_nowait()[1]
            if result.set_running_or_notify_cancel():
                result.set_exception(fault)

    def _do_jobs(self, index: Client) -> None:
        """Does the jobs that wait now. A fault of the connection is that of the job and of the round."""
        for _ in range(self._jobs.qsize()):
            work, result = self._jobs.get_nowait()
            if not result.set_running_or_notify_cancel():
                continue
            try:
                result.set_result(work(index))
            except (ConnectionLost, BadReply) as fault:
                result.set_exception(fault)
                raise
            except Exception as fault:
                result.set_exception(fault)

    def _close(self) -> None:
        if self._watcher is not None:
            self._watcher.end()
        if self._index is not None:
            self._index.close()
        self._watcher = self._index = None

    # -- reading

    def _listed(self, index: Client) -> Optional[Listing]:
        """What the server lists, if it does. The board takes it."""
        outcome = index.call_all([ListViews()])[0] if self._lists else None
        if not isinstance(outcome, Reply):
            return None
        listing: Listing = outcome.value
        self._greatest = max([self._greatest, *(view.number for view in listing.views)])
        self._board.take_list(listing.views)
        return listing

    def _read_changed(self, index: Client, listing: Listing) -> None:
        """A page of each view that isn't as it was read last."""
        self._commits = listing.commits
        at = {view.number: view.commits for view in listing.views}
        changed = []
        for card in self._board.cards():
            if card.page is not None and not card.trouble and card.page.at == at.get(card.number):
                self._show(card, card.page)
            elif card.can_be_read():
                changed.append(card)
        for first in range(0, len(changed), MAX_QUERIES):
            cards = changed[first:first + MAX_QUERIES]
            for card, outcome in zip(cards, index.call_all(self._reads(cards))):
                self._take(card, outcome)

    def _reads(self, cards: Sequence[Card]) -> List[Query[Any]]:
        return [ViewRead(card.number, card.floor, limit=self._board.rows) for card in cards]

    def _read_all(self, index: Client) -> None:
        """A page of each view, in as few frames as hold them. The first query of a frame asks how many commits there
        are."""
        cards, size = [card for card in self._board.cards() if card.can_be_read()], MAX_QUERIES - 1
        for first in range(0, max(len(cards), 1), size):
            self._read_some(index, cards[first:first + size])

    def _read_some(self, index: Client, cards: Sequence[Card]) -> None:
        queries: List[Query[Any]] = [Get(b"", (0,)), *self._reads(cards)]
        counted, *pages = index.call_all(queries)
        if isinstance(counted, Reply) and counted.to is not None:
            self._commits = counted.to
        for card, outcome in zip(cards, pages):
            self._take(card, outcome)

    def _take(self, card: Card, outcome: Outcome) -> None:
        if isinstance(outcome, Refused):
            self._board.fail(card, refused_text(card.number, outcome))
            return
        self._show(card, outcome.value)

    def _show(self, card: Card, page: Page) -> None:
        # (commits that came between the count and the page aren't missing in it)
        self._board.show(card, page, max(self._commits - page.at, 0), int(time.monotonic() - self._began))

    # -- the server is back

    def _built(self, index: Client, spec: ViewSpec) -> ViewNo:
        number = index.build(spec).number
        self._greatest = max(self._greatest, number)
        return number

    def _meet(self, index: Client) -> None:
        """After a lost connection: if this is another index than before, the views that the board has built are built
        again, and those that it was given are over."""
        is_same = self._is_same(index)
        self._run = self._greeting.run if self._greeting else None
        if not is_same:
            self._commits = self._greatest = 0
            self._board.start_again()

    def _is_same(self, index: Client) -> bool:
        """Whether an index is the one from before, by the name of its run. Without names, whether it can be: it has no
        fewer commits, and a new view has a greater number than each that was seen."""
        if self._greeting is not None or self._run is not None:
            return self._greeting is not None and self._greeting.run == self._run
        commits = index.call(Get(b"", (0,))).to
        if commits is None or commits < self._commits:
            return False
        try:
            with index.build(Range(b"", b"\0")) as probe:
                return probe.number > self._greatest
        except Refused:
            return True

    def _build_missing(self, index: Client) -> None:
        """Builds the views that the server was started again without. What it refuses is asked again in the next
        round."""
        for card in self._board.cards():
            if card.number == NO_VIEW and card.spec is not None:
                self._build_again(index, card, card.spec)

    def _build_again(self, index: Client, card: Card, spec: ViewSpec) -> None:
        try:
            self._board.rebuilt(card, self._built(index, spec))
        except Refused as refused:
            self._board.fail(card, f"{STARTED_AGAIN} It refused to build the view: {refused}.")

    # -- the end

    def _leave(self) -> None:
        """Drops what the board has built, as far as the server answers."""
        self._fail_jobs(Busy("the board ends"))
        if self._index is None:
            return
        drops = [ViewDrop(card.number) for card in self._board.cards()
                 if card.is_own() and card.can_be_read()]
        try:
            for first in range(0, len(drops), MAX_QUERIES):
                self._index.call_all(drops[first:first + MAX_QUERIES])
        except RowanspanError:
            pass
        self._close()
