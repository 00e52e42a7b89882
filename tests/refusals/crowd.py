"""Eight clients at once on a server whose allocations are refused by chance, all held by the auditor.

Each client changes keys of its own, one in a frame, and reads all. So after a lost session it finds out by a get
whether its change was done: a put by its value, which no other put has, and then by its version; a remove by the
absence. The numbers of removes that were lost are those that no other commit has.
"""
from __future__ import annotations

import random
from concurrent.futures import ThreadPoolExecutor
from dataclasses import dataclass, field
from itertools import islice, permutations
from types import ModuleType
from typing import Any, Dict, Iterator, List, Optional, Sequence, Tuple

from reading import Wrong, want
from sessions import preloaded
from shim import Shim

from rowanspan import (AnyRow, AtLeast, Behind, Build, Client, ConnectionLost, Get, GetRange, NoMemory, Outcome, Pairs,
                       Prefix, Put, Query, Range, Refused, Remove, Reply, Row, Tidy, ViewRead, ViewSpec, key_after)

CLIENTS, FRAMES, ODDS, SECONDS = 8, 120, 50, 60.0
# what the server has allocated by far when it listens
STARTED = 600
ABOVE = (b"", b"k", b"abcdefgh", b"abcdefghijklmnop", bytes(8))
BUILDS = 7


@dataclass
class Member:
    """One of the clients."""

    serving: ModuleType
    server: Any
    number: int
    chance: random.Random
    index: Client
    keys: List[bytes] = field(default_factory=list)
    rows: Dict[bytes, bytes] = field(default_factory=dict)
    said: List[Any] = field(default_factory=list)
    commits: Dict[int, Query[Any]] = field(default_factory=dict)
    lost_removes: List[Tuple[Query[Any], int, int]] = field(default_factory=list)
    views: Dict[int, ViewSpec] = field(default_factory=dict)
    builds: int = 0
    made: int = 0
    seen: int = 0
    lost: int = 0
    refused: int = 0

    def keep_keys(self) -> None:
        self.keys = [above + b"%d%d" % (self.number, last) for above in ABOVE for last in range(4)]

    def work(self) -> None:
        self.keep_keys()
        for _ in range(FRAMES):
            self.frame([*(self.read() for _ in range(self.chance.randint(0, 3))), *self.change_or_none()])
        self.put_all()

    def put_all(self) -> None:
        """Puts each key once more: no lock is left."""
        for key in self.keys:
            while not self.frame([self.put(key)]):
                pass

    # -- what is asked

    def any_key(self) -> bytes:
        return self.chance.choice(ABOVE) + b"%d%d" % (self.chance.randrange(CLIENTS), self.chance.randrange(4))

    def read(self) -> Query[Any]:
        kind = self.chance.random()
        if kind < 0.5:
            return Get(self.any_key(), self.chance.choice(((), (0,), (1, 0))))
        if kind < 0.75:
            return GetRange(self.any_key(), self.chance.choice((1, 3, 10)))
        if kind < 0.85 or (self.builds == BUILDS and not self.views):
            return Tidy(self.any_key())
        if self.builds < BUILDS and (not self.views or self.chance.random() < 0.3):
            self.builds += 1
            specs = (Range(b"", None, AnyRow()), Prefix(b"k"), Range(b"a", None, AtLeast(1, 100)))
            return Build(self.chance.choice(specs))
        if self.views:
            view = self.chance.choice(sorted(self.views))
            return ViewRead(view, self.chance.choice((0, self.seen)), b"", self.chance.choice((1, 5)))
        return Get(b"")

    def put(self, key: bytes) -> Query[Any]:
        self.made += 1
        return Put(key, {0: b"%d.%d" % (self.number, self.made), 1: self.chance.randbytes(self.chance.randint(0, 9))})

    def change_or_none(self) -> List[Query[Any]]:
        key, kind = self.chance.choice(self.keys), self.chance.random()
        if kind < 0.55:
            return [self.put(key)]
        return [Remove(key)] if kind < 0.75 else [self.read()]

    # -- what comes of it

    def frame(self, queries: Sequence[Query[Any]]) -> bool:
        """Asks a frame; whether none of it was refused or lost."""
        try:
            outcomes = self.index.call_all(queries)
        except ConnectionLost:
            self.again()
            self.find_out(queries)
            return False
        for query, outcome in zip(queries, outcomes):
            self.take(query, outcome)
        return not any(isinstance(outcome, Refused) for outcome in outcomes)

    def take(self, query: Query[Any], outcome: Outcome) -> None:
        spec = self.views.get(query.view) if isinstance(query, ViewRead) else None
        self.said.append(self.serving.Said(query, outcome, spec))
        if isinstance(outcome, Refused):
            self.refused += isinstance(outcome, NoMemory)
            want(isinstance(outcome, (NoMemory, Behind)), f"{query} was refused {outcome.number}")
            return
        if outcome.from_ is not None and outcome.to is not None:
            want(self.seen <= outcome.from_ <= outcome.to, f"{query} spans {outcome} after {self.seen} was seen")
            self.seen = outcome.to
        if isinstance(query, (Put, Remove)) and outcome.value is not None:
            self.committed(query, outcome.value)
        elif isinstance(query, Build):
            self.views[outcome.value] = query.spec

    def committed(self, query: Any, number: int) -> None:
        want(number not in self.commits, f"two changes have the commit {number}")
        self.commits[number] = query
        self.keep(query)

    def keep(self, query: Any) -> None:
        if isinstance(query, Put):
            self.rows[query.key] = dict(query.sets)[0]  # type: ignore[arg-type]
        else:
            del self.rows[query.key]

    def connected(self, query: Query[Any]) -> Outcome:
        """The answer to a query, in as many sessions as it takes."""
        while True:
            try:
                while True:
                    outcome = self.index.call_all([query])[0]
                    if not isinstance(outcome, NoMemory):
                        return outcome
            except ConnectionLost:
                self.again()

    def again(self) -> None:
        """The session was lost: another begins."""
        self.lost += 1
        self.index = Client(self.server.port, timeout=SECONDS)

    def find_out(self, queries: Sequence[Query[Any]]) -> None:
        """Whether the change of a lost frame was done."""
        changes: List[Any] = [query for query in queries if isinstance(query, (Put, Remove))]
        outcome = self.connected(Get(changes[0].key if changes else b""))
        assert isinstance(outcome, Reply) and outcome.to is not None
        row: Optional[Row] = outcome.value
        before = self.seen
        self.take(Get(changes[0].key if changes else b""), outcome)
        for change in changes:
            had = self.rows.get(change.key)
            now = None if row is None else row.columns[0]
            if isinstance(change, Put) and now == dict(change.sets)[0] and row is not None:  # type: ignore[arg-type]
                self.committed(change, row.version)
            elif isinstance(change, Remove) and had is not None and now is None:
                self.lost_removes.append((change, before, outcome.to))
                self.keep(change)
            else:
                want(now == had, f"{change.key!r} has {now!r} instead of {had!r}")


def logs(members: Sequence[Member], count: int) -> Iterator[List[Query[Any]]]:
    """The logs that there may have been: the lost removes are the commits that aren't told, each within its span."""
    known: Dict[int, Query[Any]] = {}
    for member in members:
        want(not set(known) & set(member.commits), "two clients have the same commit")
        known.update(member.commits)
    gaps = [number for number in range(1, count + 1) if number not in known]
    lost = [remove for member in members for remove in member.lost_removes]
    want(len(gaps) == len(lost), f"{len(gaps)} commits aren't told, and {len(lost)} removes were lost")
    for order in islice(permutations(sorted(lost, key=lambda remove: remove[1])), 50_000):
        if all(first < number <= last for number, (_, first, last) in zip(gaps, order)):
            whole = {**known, **{number: remove for number, (remove, _, _) in zip(gaps, order)}}
            yield [whole[number] for number in range(1, count + 1)]


def rows_at_end(member: Member) -> Tuple[Pairs, int]:
    """The rows, read in small pieces, and the number of commits."""
    rows: Pairs = []
    start: Optional[bytes] = b""
    while start is not None:
        reply = member.connected(GetRange(start, 4))
        assert isinstance(reply, Reply) and reply.to is not None
        rows += reply.value
        start = key_after(reply.value[-1][0]) if reply.value else None
    return rows, reply.to


def audit(serving: ModuleType, members: Sequence[Member], check: str) -> int:
    """Holds all that was said by the auditor, over the log of the commits; gives how many receipts there are."""
    standing, count = rows_at_end(members[0])
    said = [one for member in members for one in member.said]
    receipts = serving.receipts_of(said)
    why: Exception = Wrong("no log fits the lost removes")
    for commits in logs(members, count):
        deltas, rows = serving.folded(commits)
        try:
            want(standing == sorted(rows.items()), "the rows at the end are others")
            serving.want_audited(check, deltas, receipts)
            return len(receipts)
        except (Wrong, serving.Failed) as fault:
            why = fault
    raise why


def one_crowd(serving: ModuleType, shim: Shim, check: str, seed: int) -> Tuple[int, int, int]:
    """One server and its clients: how many receipts there are, queries refused, and sessions lost."""
    environment = shim.environment({"REFUSE_ONE_IN": str(ODDS), "REFUSE_SEED": str(seed), "REFUSE_FROM": str(STARTED)})
    words = ["--forever", "--workers", str(CLIENTS), "--columns", "2", "--log-capacity",
             "65536"]
    with preloaded(environment):
        server = serving.Server(str(shim.program), *words)
    with server:
        members = [Member(serving, server, number, random.Random(f"{seed} {number}"), server.index())
                   for number in range(CLIENTS)]
        # once each client has a worker, no thread is to be started any more, which would be refused too
        for member in members:
            member.index.get(b"")
        with ThreadPoolExecutor(CLIENTS) as threads:
            for working in [threads.submit(member.work) for member in members]:
                working.result()
        receipts = audit(serving, members, check)
        lost = sum(member.lost for member in members)
        want(server.process.poll() is None, "the server has ended")
        server.want_faults(lost, 7)
    more = server.rest_of_lines()
    want(more == [], f"{lost} sessions were lost, and it also says {more[:3]}, {len(more)} lines")
    return receipts, sum(member.refused for member in members), lost


def crowd_by_chance(serving: ModuleType, shim: Shim, check: str, count: int) -> str:
    """`count` servers, one after the other."""
    came = [one_crowd(serving, shim, check, seed) for seed in range(count)]
    receipts, refused, lost = (sum(one[at] for one in came) for at in range(3))
    return f"{receipts} receipts audited, {refused} queries refused, {lost} sessions lost"
