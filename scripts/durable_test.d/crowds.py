"""Cases: servers that are killed while clients write, at any moment, again and again over one folder."""
from __future__ import annotations

import random
import sys
import time
from dataclasses import dataclass, field
from types import ModuleType
from typing import Any, Callable, Dict, List, Optional, Sequence, Tuple

from histories import History
from running import COLUMNS, SECONDS, TOP, Failed, Setting, at_once, want, want_same

from rowanspan import (MAX_QUERIES, Client, ConnectionLost, Get, Outcome, Put, PutIf, Query, Remove, Reply, Row,
                       request_frame)

sys.path.insert(0, str(TOP / "tests" / "refusals"))

from sessions import serving_test  # noqa: E402

# the writers: how many changes a frame has, and whether one of them is a remove
WRITERS: Sequence[Tuple[int, bool]] = ((1, False), (1, False), (8, True), (64, False), (64, False))
KEYS_EACH = 100
# in seconds: how long a server runs; and how often one is killed while it starts
RUNS, EARLY = ((0.0, 0.05), (0.05, 0.5)), 0.2


@dataclass
class Writer:
    """One of the clients: it changes keys of its own, so it knows what they are to have. Each of its values is put
    once, so it can tell after a kill what was done of the frame that wasn't answered."""

    serving: ModuleType
    number: int
    size: int
    removes: bool
    chance: random.Random
    keys: int = KEYS_EACH
    rows: Dict[bytes, Row] = field(default_factory=dict)
    said: List[Any] = field(default_factory=list)
    commits: Dict[int, Query[Any]] = field(default_factory=dict)
    pending: List[Any] = field(default_factory=list)
    made: int = 0
    answered: int = 0
    frames: int = 0

    def key(self, number: int) -> bytes:
        return b"%d/%02d" % (self.number, number)

    # -- what is asked

    def work(self, port: int) -> None:
        """Asks frames until the connection breaks."""
        try:
            with Client(port, timeout=SECONDS) as index:
                while True:
                    self.ask(index)
        except ConnectionLost:
            pass

    def fill(self, index: Client) -> None:
        """Puts a row under each of its keys."""
        for at in range(0, self.keys, MAX_QUERIES):
            self.ask_all(index, [self.put(self.key(number)) for number in range(at, min(at + MAX_QUERIES, self.keys))])

    def ask(self, index: Client) -> None:
        """Asks a frame of a server with --sync always."""
        self.ask_all(index, self.frame())
        if self.chance.random() < 0.05:
            want(index.durable() >= self.answered, f"commit {self.answered} was answered, and isn't durable")

    def ask_all(self, index: Client, queries: List[Query[Any]]) -> None:
        self.pending = queries
        outcomes = index.call_all(self.pending)
        for query, outcome in zip(self.pending, outcomes):
            self.take(query, outcome)
        self.pending = []
        self.frames += 1

    def frame(self) -> List[Query[Any]]:
        keys = [self.key(number) for number in self.chance.sample(range(self.keys), self.size)]
        queries = [self.change(key) for key in keys]
        if self.removes and self.rows:
            key = self.chance.choice(sorted(self.rows))
            queries = [query for query in queries if query.key != key]
            queries.insert(self.chance.randrange(len(queries) + 1), Remove(key))
        if len(queries) < MAX_QUERIES and self.chance.random() < 0.3:
            # (a read of what the frame has done, too)
            queries.append(Get(self.chance.choice(queries).key))
        return queries

    def put(self, key: bytes) -> Any:
        self.made += 1
        size = self.chance.choice((0, 9, 64))
        return Put(key, {0: b"%d.%d" % (self.number, self.made), 1: self.chance.randbytes(size)})

    def change(self, key: bytes) -> Any:
        query = self.put(key)
        if self.chance.random() < 0.3:
            row = self.rows.get(key)
            return PutIf(key, query.sets, row.version if row else 0)
        return query

    # -- what comes of it

    def take(self, query: Any, outcome: Outcome) -> None:
        if not isinstance(outcome, Reply):
            raise Failed(f"{query} is refused: {outcome}")
        self.said.append(self.serving.Said(query, outcome, None))
        if isinstance(query, Get):
            want_same(f"the row of {query.key!r}", outcome.value, self.rows.get(query.key))
            return
        want(isinstance(outcome.value, int), f"{query} is answered by {outcome}")
        self.keep(query, outcome.value)
        self.answered = outcome.value

    def keep(self, query: Any, commit: int) -> None:
        """A change was made, by this commit."""
        want(commit not in self.commits, f"two changes have the commit {commit}")
        self.commits[commit] = query
        after = self.serving.row_after(commit, query, self.rows.pop(query.key, None))
        if after is not None:
            self.rows[query.key] = after

    def find_out(self, index: Client) -> Optional[Query[Any]]:
        """What is there after a kill: all that was answered, and of the frame that wasn't its first changes. Returns a
        remove of it that was made, whose commit isn't known."""
        found, pending = dict(index.range(prefix=b"%d/" % self.number)), self.pending
        changes = [query for query in pending if not isinstance(query, Get)]
        done = [is_done(query, found) for query in changes]
        want(done == sorted(done, reverse=True), f"of a frame not the first changes are there, but {done}")
        lost: Optional[Query[Any]] = None
        for query in changes[:done.count(True)]:
            if isinstance(query, Remove):
                lost = query
                self.rows.pop(query.key)
            else:
                self.keep(query, found[query.key].version)
        self.pending = []
        want_same(f"how many rows of writer {self.number} there are", len(found), len(self.rows))
        for key, row in self.rows.items():
            want_same(f"the row of {key!r}", found.get(key), row)
        return lost


def is_done(query: Any, found: Dict[bytes, Row]) -> bool:
    row = found.get(query.key)
    return row is None if isinstance(query, Remove) else row is not None and row.columns[0] == query.sets[0]


@dataclass
class Crowd:
    """The writers, and all commits so far."""

    serving: ModuleType
    writers: List[Writer]
    commits: Dict[int, Query[Any]] = field(default_factory=dict)
    last: int = 0

    def find_out(self, index: Client) -> None:
        """Each commit since the last kill is known, and has its writer; no number is left out."""
        count = index.ping()
        answered = max(writer.answered for writer in self.writers)
        want(answered <= count, f"commit {answered} was answered, and {count} are there")
        lost = [query for query in (writer.find_out(index) for writer in self.writers) if query is not None]
        known: Dict[int, Query[Any]] = {}
        for writer in self.writers:
            want(not set(known) & set(writer.commits), "two writers have the same commit")
            known.update(writer.commits)
            writer.commits.clear()
        gaps = [number for number in range(self.last + 1, count + 1) if number not in known]
        want(len(gaps) == len(lost), f"nobody has made the commits {gaps}, and {len(lost)} removes weren't answered")
        known.update(zip(gaps, lost))
        want_same("the numbers of commits", sorted(known), list(range(self.last + 1, count + 1)))
        want_same("how many are durable after a start", index.durable(), count)
        self.commits.update(known)
        self.last = count

    def rows(self) -> Dict[bytes, Row]:
        return {key: row for writer in self.writers for key, row in writer.rows.items()}


def crowd_of(setting: Setting, shapes: Sequence[Tuple[int, bool]] = WRITERS, keys: int = KEYS_EACH) -> Crowd:
    serving = serving_test()
    want_same("the columns", serving.COLUMNS, COLUMNS)
    return Crowd(serving, [Writer(serving, number, size, removes, random.Random(f"{setting.seed} {number}"), keys)
                           for number, (size, removes) in enumerate(shapes)])


def killed_while_clients_write(setting: Setting) -> str:
    """With --sync always each change that was answered is there after a kill, and of each frame that wasn't its first
    changes."""
    chance = random.Random(setting.seed)
    return kill_again_and_again(setting, crowd_of(setting), chance,
                                lambda: time.sleep(chance.uniform(*chance.choice(RUNS))))


def kill_again_and_again(setting: Setting, crowd: Crowd, chance: random.Random, moment: Callable[[], None],
                         *words: str, look: Callable[[], None] = lambda: None) -> str:
    """Lets the crowd write until `moment` returns, kills the server, looks, and starts it again."""
    early = 0
    for _ in range(setting.kills):
        if chance.random() < EARLY:
            early += 1
            starting = setting.server(*words)
            time.sleep(chance.uniform(0.0, 0.1))
            starting.kill()
        with setting.server("--sync", "always", *words) as server:
            with server.index() as index:
                crowd.find_out(index)

            def kill() -> None:
                moment()
                server.kill()

            at_once([kill, *(lambda writer=writer: writer.work(server.port) for writer in crowd.writers)])
            want_same("what the server said", server.rest_of_lines(), [])
        look()
    with setting.server(*words) as server, server.index() as index:
        crowd.find_out(index)
        want_same("the rows", dict(index.range()), crowd.rows())
    return (f"{setting.kills} kills, {early} more at the start, {crowd.last} commits, "
            f"{sum(writer.frames for writer in crowd.writers)} frames{audited(setting, crowd)}")


def audited(setting: Setting, crowd: Crowd) -> str:
    """Holds all answers by the auditor, over the commits of all runs."""
    deltas, rows = crowd.serving.folded([crowd.commits[number] for number in range(1, crowd.last + 1)])
    want_same("the rows that the commits make", rows, crowd.rows())
    if setting.check is None:
        return ""
    receipts = crowd.serving.receipts_of([one for writer in crowd.writers for one in writer.said])
    crowd.serving.want_audited(setting.check, deltas, receipts)
    return f", {len(receipts)} answers audited"


def killed_under_other_policies(setting: Setting) -> str:
    """Without always the first commits are there after a kill, and at least as many as were durable."""
    history, chance, lost = History(setting.seed), random.Random(setting.seed), 0
    for number in range(setting.kills):
        words = ("--sync", "never") if number % 2 else ("--sync", str(chance.choice((1, 5, 20, 100))))
        with setting.server(*words) as server:
            with server.index() as index:
                least = index.durable()
                for _ in range(chance.randrange(20)):
                    history.work(index, chance.randrange(5), chance.choice((1, 10, 60)))
                    least = index.durable() if chance.random() < 0.5 else least
                frame = [history.change() for _ in range(chance.choice((1, 64)))]
                connection = index._connection
                assert connection is not None
                connection.sendall(request_frame([query.spelled() for query in frame], 2))
                history.assume(frame)
                time.sleep(chance.choice((0.0, 0.001, 0.03)))
                server.kill()
        with setting.server() as server, server.index() as index:
            before = history.commits
            lost += before - history.want_front(index, least)
            server.kill()
    return f"{setting.kills} kills, {history.commits} commits, {lost} lost that weren't durable"


CASES = (killed_while_clients_write, killed_under_other_policies)
