"""Refuses allocations of a server with a folder, one a run: what was durable is there after the next start.

Each run begins with a copy of a folder whose server was killed: so a start reads logs, and loads rows. One client then
changes rows, and the log is shortened again and again. The rows are those of a plain map (scripts/durable_test.d).
"""
from __future__ import annotations

import shutil
import sys
import tempfile
from collections import Counter
from contextlib import contextmanager
from dataclasses import dataclass
from pathlib import Path
from subprocess import SubprocessError
from typing import Iterator, List, Sequence, Tuple

from reading import Wrong, want
from sessions import TOP
from shim import Shim

sys.path.append(str(TOP / "scripts" / "durable_test.d"))

from histories import History  # noqa: E402
from rowanspan import Client, ConnectionLost, NoMemory, PutIf  # noqa: E402
from running import Failed, Server, Setting  # noqa: E402

FRAMES, SIZE, RUNS, SECONDS = 20, 8, 40, 60.0
# how the line of a server ends that doesn't start: a thread takes memory, too
NO_ROOM = ("out of memory", "a thread could not be started")
# when commits are durable, and whether a server is killed at the end of its run
POLICIES = (("always", True), ("always", False), ("1", True), ("20", False))


@dataclass
class Left:
    """What a server has left: its folder, and what its commits left."""

    folder: Path
    history: History


@dataclass
class Run:
    """A server of which an allocation is refused."""

    setting: Setting
    server: Server
    history: History
    is_always: bool
    # how many commits no crash undoes, how many queries were refused, and whether a session was lost
    durable: int
    refused: int = 0
    is_lost: bool = False

    def work(self) -> None:
        """Asks frames of changes until a session is lost."""
        try:
            with self.server.index() as index:
                for _ in range(FRAMES):
                    self.frame(index)
        except ConnectionLost:
            self.is_lost = True

    def frame(self, index: Client) -> None:
        queries = [query for query in (self.history.change() for _ in range(SIZE)) if not isinstance(query, PutIf)]
        try:
            outcomes = index.call_all(queries)
        except ConnectionLost:
            self.history.assume(queries)
            raise
        for query, outcome in zip(queries, outcomes):
            if isinstance(outcome, NoMemory):
                self.refused += 1
            else:
                self.history.take(query, outcome)
        self.durable = self.history.commits if self.is_always else self.said_durable(index)

    def said_durable(self, index: Client) -> int:
        try:
            return index.durable()
        except NoMemory:
            self.refused += 1
            return self.durable

    def end(self, kills: bool) -> str:
        """Ends the server, and returns how that went. If it ended by itself and well, all is durable."""
        if kills:
            self.server.kill()
            return "killed"
        self.server.end_input()
        status = self.server.process.wait(SECONDS)
        want(status in (0, 3), f"it ends with status {status}")
        if status == 0 and not self.is_lost:
            self.durable = self.history.commits
        return "ended" if status == 0 else "status 3"


def words_of(policy: str) -> List[str]:
    return ["--workers", "1", "--checkpoint", "600", "--sync", policy]


@contextmanager
def settings(serve: Path) -> Iterator[Setting]:
    """A folder that is none yet."""
    with tempfile.TemporaryDirectory(prefix="refused-") as folder:
        yield Setting(str(serve), None, None, Path(folder), 0, 1)


def left_by_a_kill(setting: Setting) -> Left:
    """A folder of which the log was shortened, some changes ago."""
    history = History(seed=3)
    with setting.server(*words_of("always")) as server, server.index() as index:
        history.work(index, 12, SIZE)
        server.kill()
    return Left(setting.data, history)


def started(shim: Shim, setting: Setting, policy: str, refused: int, large: int) -> Server:
    """A server of which the allocation of this number is refused, and those of so many bytes are told of."""
    (shim.room / "these").write_text(f"{refused}\n")
    (shim.room / "told").write_text("")
    paths = {"REFUSE_THESE": str(shim.room / "these"), "REFUSE_TELL": str(shim.room / "told"),
             "REFUSE_LARGE": str(large)}
    return setting.server(*words_of(policy), environment=shim.environment(paths))


def one_run(shim: Shim, left: Left, policy: str, kills: bool, refused: int, large: int = 1 << 40) -> Tuple[str, int]:
    """Runs a server, and another one after it. Returns what came of it, and of how many allocations was told."""
    with settings(shim.program) as setting:
        shutil.copytree(left.folder, setting.data)
        server = started(shim, setting, policy, refused, large)
        history = left.history.front(left.history.commits)
        run = Run(setting, server, history, policy == "always", history.commits)
        try:
            came = outcome_of(run, kills)
        finally:
            server.kill()
        told = len((shim.room / "told").read_text().splitlines())
        with setting.server(*words_of(policy)) as again, again.index() as index:
            run.history.want_front(index, run.durable)
        return came, told


def next_line(server: Server) -> str:
    """The next line on standard error; none if the server has ended without one."""
    try:
        return server.next_line()
    except Failed:
        return ""


def outcome_of(run: Run, kills: bool) -> str:
    """What came of a run. It says that memory was refused if it doesn't start, breaks a session off, or ends."""
    line = next_line(run.server)
    before: List[str] = []
    # (a checkpoint may be due before it listens)
    if line.startswith("checkpoint: "):
        before.append(line)
        line = next_line(run.server)
    if not line.startswith("listening "):
        want(line.startswith("mtserve: ") and line.endswith(NO_ROOM), f"its first line is {line!r}")
        status = run.server.process.wait(SECONDS)
        want((status, run.server.rest_of_lines()) == (3, []), f"it doesn't start, and ends with status {status}")
        return "no start"
    run.server.port = int(line.split(" ")[1])
    run.work()
    ended = run.end(kills)
    lines = before + run.server.rest_of_lines()
    want(len(lines) <= 1 and all(line.endswith("out of memory") for line in lines), f"it has {ended}, and says {lines}")
    # (one that is killed may not have said it yet)
    want(bool(lines) or kills or not run.is_lost and ended != "status 3", f"it has {ended}, and doesn't say why")
    return came_of(run, lines, ended)


def came_of(run: Run, lines: Sequence[str], ended: str) -> str:
    if lines and lines[0].startswith("checkpoint: "):
        return "checkpoint put off"
    return "session lost" if run.is_lost else "query refused" if run.refused else ended


def refused_in_folders(shim: Shim, is_all: bool) -> str:
    """Refuses allocations of servers of each policy: some by a stride, or all."""
    counts: Counter[str] = Counter()
    with settings(shim.program) as setting:
        left = left_by_a_kill(setting)
        for policy, kills in POLICIES:
            _, many = one_run(shim, left, policy, kills, 0, 1)
            for number in range(1, many, 1 if is_all else max(1, many // RUNS)):
                try:
                    counts[one_run(shim, left, policy, kills, number)[0]] += 1
                except (Wrong, Failed, OSError, SubprocessError) as wrong:
                    raise Wrong(f"with --sync {policy} and allocation {number} refused: {wrong}") from wrong
    return ", ".join(f"{count} {kind}" for kind, count in sorted(counts.items()))
