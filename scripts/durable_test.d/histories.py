"""What a server is to have: what each commit left, as the answers to one client say."""
from __future__ import annotations

import random
from typing import Any, Dict, List, Optional, Sequence, Tuple

# (it puts the package on the path)
from running import COLUMNS, want, want_raised, want_same

from rowanspan import (Client, Get, GetRange, OtherVersion, Outcome, Put, PutIf, Query, Refused, Remove, Reply, Row,
                       set_pairs)

KEYS = [b"", b"k", b"\0", *(b"k%d" % number for number in range(9)), b"abcdefgh\0", b"abcdefghi", bytes(1024)]
Rows = Dict[bytes, Row]


def row_after(number: int, query: Query[Any], before: Optional[Row]) -> Optional[Row]:
    """The row that a commit leaves."""
    if not isinstance(query, (Put, PutIf)):
        return None
    columns = list(before.columns) if before else [b""] * COLUMNS
    for column, value in set_pairs(query.sets):
        columns[column] = value
    return Row(number, tuple(columns))


class History:
    """What each commit left, of a server that only one client changes, and the rows after the last one."""

    def __init__(self, seed: int = 1, keys: Sequence[bytes] = KEYS) -> None:
        self.chance, self.keys = random.Random(seed), keys
        self.left: List[Tuple[bytes, Optional[Row]]] = []
        self.rows: Rows = {}

    @property
    def commits(self) -> int:
        return len(self.left)

    def front(self, commits: int) -> History:
        """A copy that has the first commits alone."""
        copied = History(keys=self.keys)
        for key, row in self.left[:commits]:
            copied.leave(key, row)
        return copied

    def leave(self, key: bytes, row: Optional[Row]) -> None:
        """The next commit leaves this row, or none."""
        self.left.append((key, row))
        self.rows.pop(key, None)
        if row is not None:
            self.rows[key] = row

    def made(self, query: Any) -> None:
        """A change is the next commit."""
        self.leave(query.key, row_after(self.commits + 1, query, self.rows.get(query.key)))

    # -- what is asked

    def change(self) -> Query[Any]:
        """A put, a conditional put or a remove, by chance; some aren't to be done."""
        key, kind = self.chance.choice(self.keys), self.chance.random()
        if kind < 0.2:
            return Remove(key)
        sets = {column: self.chance.randbytes(self.chance.choice((0, 1, 8, 64)))
                for column in self.chance.choice(((), (0,), (1,), (0, 1)))}
        if kind < 0.4:
            row = self.rows.get(key)
            return PutIf(key, sets, self.chance.choice((0, row.version if row else 0)))
        return Put(key, sets)

    def ask(self, index: Client, queries: Sequence[Query[Any]]) -> None:
        """Asks a frame of changes, and holds the answers against the rows."""
        for query, outcome in zip(queries, index.call_all(queries)):
            self.take(query, outcome)

    def take(self, query: Any, outcome: Outcome) -> None:
        before = self.rows.get(query.key)
        version = before.version if before else 0
        if isinstance(query, PutIf) and query.version != version:
            want(isinstance(outcome, OtherVersion) and outcome.detail == version, f"{query} is answered by {outcome!r}")
            return
        if isinstance(outcome, Refused):
            raise outcome
        if isinstance(query, Remove) and before is None:
            want_same(f"{query}", outcome.value, None)
            return
        want_same(f"the commit of {query}", outcome.value, self.commits + 1)
        self.made(query)

    def work(self, index: Client, frames: int, size: int) -> None:
        """Asks `frames` frames of `size` changes each."""
        for _ in range(frames):
            if size == 1:
                self.ask(index, [self.change()])
            else:
                # (a frame is made before its first answer: so no version of it is known)
                self.ask(index, [query for query in (self.change() for _ in range(size))
                                 if not isinstance(query, PutIf)])

    def assume(self, queries: Sequence[Any]) -> None:
        """A frame of changes is sent, and nothing is known of its answer: so all of it may be there."""
        for query in queries:
            before = self.rows.get(query.key)
            version = before.version if before else 0
            if isinstance(query, Remove) and before is None or isinstance(query, PutIf) and query.version != version:
                continue
            self.made(query)

    # -- what is to be there

    def want_all(self, index: Client) -> None:
        """All commits are there, and a change is answered as before."""
        self.want_rows(index)
        self.want_versions(index)

    def want_rows(self, index: Client) -> None:
        """All commits are there: the rows with their versions, and the numbers of commits and rows."""
        want_same("the rows", index.call(GetRange()),
                  Reply(sorted(self.rows.items()), self.commits, self.commits))
        info = index.info()
        want_same("how many commits each says", (index.ping(), index.hello.commits, info["commits"]),
                  (self.commits,) * 3)
        want_same("how many rows it says", info["rows"], len(self.rows))
        for key in self.keys[:4]:
            want_same(f"the row of {key!r}", index.call(Get(key)).value, self.rows.get(key))

    def want_versions(self, index: Client) -> None:
        """A conditional put is answered as before."""
        for key in self.keys:
            row = self.rows.get(key)
            refusal = want_raised("a put of another version",
                                  lambda: index.put_if(key, b"v", (row.version if row else 0) + 1), OtherVersion)
            want_same(f"the version of {key!r}", refusal.detail, row.version if row else 0)

    def want_front(self, index: Client, least: int) -> int:
        """The first commits are there, `least` of them at least; others are forgotten. Returns how many are there."""
        commits = self.want_front_read(index, least)
        self.want_versions(index)
        return commits

    def want_front_read(self, index: Client, least: int) -> int:
        """The same, of a server that makes no change."""
        commits = index.ping()
        want(least <= commits <= self.commits,
             f"{commits} commits are there, of {self.commits}; {least} have to be there")
        self.left, self.rows = self.left[:commits], self.front(commits).rows
        self.want_rows(index)
        return commits
