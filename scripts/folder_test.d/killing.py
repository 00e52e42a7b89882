"""Cases: processes that are killed while they change rows, at any moment, again and again over one folder."""
from __future__ import annotations

import os
import random
import signal
import time
from pathlib import Path
from typing import Callable, Dict, List, NoReturn, Tuple

from folders import said
from running import Setting, want, want_same
from working import COLUMNS, COMMIT, DURABLE, RECEIPT, Rows, leave, work

from rowanspan import Index

# more commits than a process makes before it is killed
MANY = 1 << 40
# in seconds: how long a process runs that is killed early, while it opens the folder or soon after that
EARLY = 0.02
# a log with more bytes than this, and than twice those of its rows, is shortened
LIMIT = 20_000


def write_receipts(to: int, folder: Path, seed: int) -> NoReturn:
    """The work of a process, which ends when it is killed."""
    try:
        for kind, number in work(folder, seed, MANY, LIMIT):
            os.write(to, RECEIPT.pack(kind, number))
    finally:
        os._exit(1)


def killed(folder: Path, seed: int, count: int, seconds: float) -> Dict[bytes, int]:
    """The greatest number of each kind of receipt of a process that is killed after so many of them, and so long."""
    begin, end = os.pipe()
    child = os.fork()
    if child == 0:
        os.close(begin)
        write_receipts(end, folder, seed)
    os.close(end)
    found, most = 0, {COMMIT: 0, DURABLE: 0}
    with open(begin, "rb", buffering=0) as receipts:
        while found < count and len(read := receipts.read(RECEIPT.size)) == RECEIPT.size:
            most.update([RECEIPT.unpack(read)])
            found += 1
        time.sleep(seconds)
        os.kill(child, signal.SIGKILL)
        rest = receipts.read()
        while more := receipts.read():
            rest += more
        for kind, number in RECEIPT.iter_unpack(rest[:len(rest) // RECEIPT.size * RECEIPT.size]):
            most[kind] = number
    status = os.waitpid(child, 0)[1]
    want(os.WIFSIGNALED(status) and os.WTERMSIG(status) == signal.SIGKILL, f"the process has ended with {status}")
    return most


def in_a_process(part: Callable[[], None]) -> None:
    """Runs a part in a process that ends without a close."""
    child = os.fork()
    if child == 0:
        try:
            part()
        except BaseException as fault:
            print(f"{type(fault).__name__}: {fault}", flush=True)
            os._exit(1)
        os._exit(0)
    want_same("how the auditor ends", os.waitpid(child, 0)[1], 0)


class Audit:
    """The rows after the commits that a folder is known to have."""

    def __init__(self, folder: Path, seed: int) -> None:
        self.folder, self.seed = folder, seed
        self.rows: Rows = {}
        self.commits = 0

    def advance(self, commits: int) -> None:
        while self.commits < commits:
            self.commits += 1
            leave(self.seed, self.commits, self.rows)

    def take(self, told: Dict[bytes, int]) -> int:
        """Wants all that the receipts of a killed process tell. Returns how many commits more are there: that of the
        call that hadn't returned."""
        least = max(told[COMMIT], told[DURABLE], self.commits)
        with Index(COLUMNS, folder=self.folder) as index:
            commits = index.commits()
            want(least <= commits <= least + 1, f"{commits} commits are there, and {least} were told")
            want(index.durable() == commits, f"{index.durable()} of {commits} commits are durable after a start")
        self.advance(commits)
        return commits - least

    def want_rows(self) -> None:
        with Index(COLUMNS, folder=self.folder) as index:
            self.want_rows_of(index)

    def want_rows_of(self, index: Index) -> None:
        want_same("the commits", index.commits(), self.commits)
        want_same("the rows", dict(index.items()), self.rows)
        want_same("how many rows it says", len(index), len(self.rows))

    def want_rows_and_end(self) -> None:
        """The same, and the index isn't closed."""
        self.want_rows_of(Index(COLUMNS, folder=self.folder))


def killed_again_and_again(setting: Setting) -> str:
    """After each kill all is there that was told, and nothing else but the call that hadn't returned."""
    audit, chance = Audit(setting.data, setting.seed), random.Random(setting.seed)
    more: List[int] = []
    receipts = 0
    for number in range(setting.kills):
        before = audit.commits
        count, seconds = moment(chance)
        more.append(audit.take(killed(setting.data, setting.seed, count, seconds)))
        receipts += audit.commits - before - more[-1]
        in_a_process(audit.want_rows_and_end)
        if number % 3 == 0:
            audit.want_rows()
        if number % 10 == 0 and setting.reads is not None:
            want_same("verify", said(setting, "verify").lines,
                      [f"ok rows {len(audit.rows)} commits {audit.commits}"])
    want(receipts > 50 * setting.kills, f"only {receipts} commits were told")
    return f"{setting.kills} kills, {receipts} receipts, {sum(more)} commits more, {len(audit.rows)} rows"


def moment(chance: random.Random) -> Tuple[int, float]:
    """When a process is killed: after how many receipts, and how long after that. One of five is killed while it
    starts."""
    if chance.random() < 0.2:
        return 0, chance.uniform(0.0, EARLY)
    return chance.randrange(1, 400), chance.choice((0.0, chance.uniform(0.0, 0.005)))


CASES = (killed_again_and_again,)
