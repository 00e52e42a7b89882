"""A mirror that is killed at random moments, while its source is written, and readers ask for exact pages."""
from __future__ import annotations

import bisect
import random
import statistics
import threading
import time
from dataclasses import dataclass, field
from typing import Dict, List, Set, Union

from banks import EtcdBank, PostgresBank, Totals
# (it puts the package on the path)
from running import SECONDS, Failed, Mirror, Server, rows_of, want, want_same

from rowanspan import Page, Prefix, mirror

Bank = Union[PostgresBank, EtcdBank]
# how often a source loses what a killed mirror would need next
LOSES = 0.06
# how often it is waited before a kill that the mirror has all, and how many kills there are without it at most: on a
# slow machine the mirror would never end a copy, and the readers wait for that
REACHES, WITHOUT = 0.3, 5
# for how many seconds it runs after the last kill
LAST = 2.0


@dataclass
class Seen:
    """What the readers have met."""

    exact: Dict[int, Totals] = field(default_factory=dict)
    pages: int = 0
    asked: int = 0
    compared: int = 0
    own: List[float] = field(default_factory=list)
    # the positions of etcd that were compared
    done: Set[int] = field(default_factory=set)
    faults: List[str] = field(default_factory=list)


class Readers:
    """Threads that write and read until the end of the `with` block."""

    def __init__(self, server: Server, bank: Bank, name: str, rate: float) -> None:
        self._server, self._bank, self._name = server, bank, name
        self._stop = threading.Event()
        self.seen = Seen()
        with server.index() as index:
            self._view = index.build(Prefix(bank.prefix)).number
        works = [lambda: bank.write(1, rate, self._stop), lambda: bank.write(2, rate, self._stop), self._read,
                 self._read_own]
        self._threads = [threading.Thread(target=self._guarded, args=(work,), daemon=True) for work in works]

    def __enter__(self) -> Readers:
        for thread in self._threads:
            thread.start()
        return self

    def __exit__(self, *_: object) -> None:
        self._stop.set()
        for thread in self._threads:
            thread.join(2 * SECONDS)

    def want_right(self, copied: Mirror) -> None:
        """Nothing was wrong so far."""
        want(not self.seen.faults, f"{'; '.join(self.seen.faults)}. {copied.said()[-800:]}")

    def _guarded(self, work: object) -> None:
        try:
            assert callable(work)
            work()
        except BaseException as fault:
            self.seen.faults.append(f"{type(fault).__name__}: {fault}")

    def _read(self) -> None:
        """Exact pages, one after another. Two at one position have to be the same."""
        last = 0
        with self._server.index() as index:
            while not self._stop.is_set():
                found = mirror.page(index, self._name, self._view, limit=1, timeout=SECONDS)
                totals = totals_of(found.page, self._bank)
                want(found.position >= last, f"position {found.position} came after {last}")
                want_same(f"at {found.position}", totals, self.seen.exact.setdefault(found.position, totals))
                last = found.position
                self.seen.pages += 1
                self.seen.asked += found.asked
                time.sleep(0.002)

    def _read_own(self) -> None:
        """What this thread has written is there at its position; and what the source says itself at a position."""
        number = 0
        with self._server.index() as index:
            while not self._stop.is_set():
                number += 1
                at = self._bank.write_own(number)
                begun = time.monotonic()
                mirror.wait(index, self._name, at, SECONDS)
                self.seen.own.append(time.monotonic() - begun)
                row = index.get(self._bank.own_key)
                want(row is not None and row.columns[0] == self._bank.own_value(number), f"own write {number}: {row}")
                if number % 5 == 0:
                    at, totals = self._bank.asked()
                    found = mirror.page(index, self._name, self._view, at_least=at, limit=1, timeout=SECONDS)
                    self.seen.exact.setdefault(found.position, totals_of(found.page, self._bank))
                    # (no transaction has come in between, or it is compared afterwards)
                    if found.position == at:
                        want_same(f"SQL at {at}", totals_of(found.page, self._bank), totals)
                        self.seen.compared += 1
                time.sleep(0.02)


def totals_of(page: Page, bank: Bank) -> Totals:
    return Totals(page.count, tuple(page.sums[:2 if bank.columns > 1 else 1]))


def killed(server: Server, bank: Bank, kills: int, seed: int, rate: float) -> str:
    """Kills a mirror so often, then compares all rows, and all positions that were called exact; says what was met."""
    chance, name = random.Random(seed), f"bank_{'sql' if bank.columns > 1 else 'etcd'}"
    begun, lost, without = time.monotonic(), 0, 0
    with Mirror(server.port, name, bank.words) as copied, Readers(server, bank, name, rate) as readers, \
            server.index() as index:
        for _ in range(kills):
            without += 1
            if chance.random() < REACHES or without > WITHOUT:
                copied.reach(index, bank.now())
                without = 0
            time.sleep(chance.choice((chance.uniform(0.0, 0.6), chance.uniform(0.4, 1.6))))
            copied.want_running()
            readers.want_right(copied)
            copied.kill()
            if chance.random() < LOSES:
                if isinstance(bank, EtcdBank):
                    # (what is compacted can't be compared any more)
                    compare_with_etcd(bank, readers.seen)
                lost += bank.lose(name)
            time.sleep(chance.choice((0.0, 0.0, 0.3)))
            copied.start()
        copied.reach(index, bank.now())
        time.sleep(LAST)
        readers.__exit__()
        readers.want_right(copied)
        copied.reach(index, bank.now())
        want_same("rows", rows_of(index, bank.prefix, bank.columns), bank.rows())
        again = copied.said().count("copies all rows")
    return said_of(readers.seen, bank, compare(bank, readers.seen),
                   f"{kills} kills in {time.monotonic() - begun:.0f} s, {lost} with a loss, {again} copies")


def said_of(seen: Seen, bank: Bank, compared: int, begin: str) -> str:
    return (f"{begin}; {sum(bank.done.values())} transactions; {seen.pages} exact pages (asked "
            f"{seen.asked / max(1, seen.pages):.2f} times each) at {len(seen.exact)} positions, {compared} compared "
            f"with the log and {seen.compared} with SQL; own writes seen after "
            f"{1000 * statistics.median(seen.own):.1f} ms (median of {len(seen.own)})")


def compare(bank: Bank, seen: Seen) -> int:
    """Compares what was called exact with what the source says of each position; returns how many there were."""
    if not seen.exact:
        raise Failed("no page was exact")
    if isinstance(bank, EtcdBank):
        compare_with_etcd(bank, seen)
        want(bool(seen.done), "no position of etcd could be compared")
        return len(seen.done)
    history = bank.history()
    ends = sorted(history)
    for position, totals in seen.exact.items():
        place = bisect.bisect_right(ends, position)
        wanted = history[ends[place - 1]] if place else Totals(0, (0, 0))
        want_same(f"at {position}", totals, wanted)
    return len(seen.exact)


def compare_with_etcd(bank: EtcdBank, seen: Seen) -> None:
    """The same, by ranges at a revision, but for what was compared before, and what is compacted."""
    for position in sorted(set(list(seen.exact)) - seen.done):
        try:
            wanted = bank.totals(position)
        except KeyError:
            continue
        want_same(f"at {position}", seen.exact[position], wanted)
        seen.done.add(position)
