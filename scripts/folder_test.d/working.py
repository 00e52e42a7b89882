"""A process that changes the rows of a folder, and what its commits leave: `working.py FOLDER SEED COMMITS CHECKPOINT`.

Commit N is a change by chance of the seed and of N alone. So all that is known of a process that was killed are the
numbers of its receipts, and the rows after each commit are known too.
"""
from __future__ import annotations

import random
import struct
import sys
from pathlib import Path
from typing import Dict, Iterator, Optional, Tuple

sys.path.insert(0, str(Path(__file__).resolve().parent.parent.parent / "clients" / "python"))

from rowanspan import Index, Row  # noqa: E402

COLUMNS = 2
KEYS = [b"", *(b"%03d" % number for number in range(250)), *(b"alike, alike, %d" % number for number in range(50))]
# a receipt: which call has returned, and its number
RECEIPT = struct.Struct(">cQ")
COMMIT, DURABLE = b"c", b"d"
Rows = Dict[bytes, Row]


def change(seed: int, commit: int, rows: Rows) -> Tuple[bytes, Optional[Dict[int, bytes]], bool]:
    """The key that a commit changes, the columns that it sets (None: it removes the row), and whether it is a put of a
    version."""
    chance = random.Random(f"{seed} {commit}")
    key = chance.choice(KEYS)
    if key in rows and chance.random() < 0.3:
        return key, None, False
    sets = {column: chance.randbytes(chance.choice((0, 1, 8, 64)))
            for column in chance.choice(((), (0,), (1,), (0, 1)))}
    return key, sets, chance.random() < 0.3


def leave(seed: int, commit: int, rows: Rows) -> None:
    """Makes a commit in plain rows."""
    key, sets, _ = change(seed, commit, rows)
    before = rows.pop(key, None)
    if sets is not None:
        columns = before.columns if before else (b"",) * COLUMNS
        rows[key] = Row(commit, tuple(sets.get(column, old) for column, old in enumerate(columns)))


def make(index: Index, seed: int, commit: int, rows: Rows) -> Optional[int]:
    """Makes a commit in an index that has these rows."""
    key, sets, is_conditional = change(seed, commit, rows)
    if sets is None:
        return index.remove(key)
    if is_conditional:
        return index.put_if(key, sets, rows[key].version if key in rows else 0)
    return index.put(key, sets)


def work(folder: Path, seed: int, commits: int, checkpoint: int) -> Iterator[Tuple[bytes, int]]:
    """Makes commits after those that a folder has, until there are so many; yields what each call returned. Now and
    then it settles, or makes a whole checkpoint."""
    index = Index(COLUMNS, folder=folder, checkpoint=checkpoint)
    rows = dict(index.items())
    for commit in range(index.commits() + 1, commits + 1):
        made = make(index, seed, commit, rows)
        if made != commit:
            raise AssertionError(f"commit {commit} is {made}")
        leave(seed, commit, rows)
        yield COMMIT, commit
        kind = random.Random(f"{seed} after {commit}").random()
        if kind < 0.01:
            yield DURABLE, index.settle()
        elif kind < 0.012:
            index.checkpoint()
            yield DURABLE, index.durable()


def main() -> None:
    folder, seed, commits, checkpoint = sys.argv[1:]
    for kind, number in work(Path(folder), int(seed), int(commits), int(checkpoint)):
        sys.stdout.buffer.write(RECEIPT.pack(kind, number))
        sys.stdout.buffer.flush()


if __name__ == "__main__":
    main()
