"""What the tests of checkpoints see of the two logs of a folder, and how they make a server begin one."""
from __future__ import annotations

import time
from dataclasses import dataclass
from typing import Any, Callable, Dict, Optional, Sequence

from frames import LogOf, header_of, log_of
from histories import History
from running import FILES, SECONDS, Server, Setting, want

from rowanspan import Client, Query

# a log with more bytes than this, and than twice those of its rows, is shortened
LIMIT = 20_000
SHORT = ("--checkpoint", str(LIMIT))
# more keys than a part of a checkpoint has rows
MANY = [b"%04d" % number for number in range(600)]
# in seconds: how often a file is looked at; and how many bytes of it have the header
PAUSE, HEADER = 0.002, 256
# more changes than are needed until a checkpoint is made
CHANGES = 20_000


@dataclass(frozen=True)
class Logs:
    """The logs of a folder: the current one, which has the greater generation, and that of the other file."""

    name: str
    current: LogOf
    other: Optional[LogOf]

    @property
    def other_name(self) -> str:
        return other_than(self.name)

    @property
    def generation(self) -> int:
        return self.current.header.generation

    @property
    def is_sealed(self) -> bool:
        return self.current.seal is not None


def other_than(name: str) -> str:
    return FILES[name == FILES[0]]


def logs_of(setting: Setting) -> Logs:
    found = {name: log_of((setting.data / name).read_bytes()) for name in FILES}
    there = {name: log for name, log in found.items() if log is not None}
    want(there != {}, f"no file of {setting.data} has a log")
    name = max(there, key=lambda name: there[name].header.generation)
    return Logs(name, there[name], there.get(other_than(name)))


def generation_of(setting: Setting) -> int:
    """The generation of the current log, of which only the header is read."""
    heads = []
    for name in FILES:
        with (setting.data / name).open("rb") as file:
            heads.append(header_of(file.read(HEADER)))
    return max(-1 if head is None else head[0].generation for head in heads)


def used(setting: Setting) -> Dict[str, int]:
    """How many bytes of each file aren't the zeros at its end."""
    return {name: len((setting.data / name).read_bytes().rstrip(b"\0")) for name in FILES}


def until(what: str, is_so: Callable[[], bool]) -> None:
    """Waits until something is so."""
    end = time.monotonic() + SECONDS
    while not is_so():
        want(time.monotonic() < end, f"{what}: not in {SECONDS:.0f} seconds")
        time.sleep(PAUSE)


def work_until(what: str, history: History, index: Client, is_so: Callable[[], bool],
               frame: Optional[Callable[[], Sequence[Query[Any]]]] = None) -> None:
    """Asks frames of changes until something is so."""
    last = history.commits + CHANGES
    while not is_so():
        want(history.commits < last, f"{what}: not after {CHANGES} commits more")
        if frame is None:
            history.work(index, 1, 20)
        else:
            history.ask(index, frame())


def work_until_shortened(setting: Setting, history: History, index: Client, times: int = 1,
                         frame: Optional[Callable[[], Sequence[Query[Any]]]] = None) -> Logs:
    """Makes changes until checkpoints more are complete. Returns the logs then."""
    wanted = generation_of(setting) + times
    work_until(f"generation {wanted}", history, index, lambda: generation_of(setting) >= wanted, frame)
    until("a seal", lambda: logs_of(setting).is_sealed)
    return logs_of(setting)


def shortened(setting: Setting, history: History, times: int = 1, after: int = 0, *words: str) -> Logs:
    """Makes changes until checkpoints more are complete, and then some more, one by one; kills the server."""
    with setting.server(*SHORT, *words) as server, server.index() as index:
        work_until_shortened(setting, history, index, times)
        last = history.commits + after
        while history.commits < last:
            history.work(index, 1, 1)
        server.kill()
    return logs_of(setting)


def want_all_found(setting: Setting, history: History, *words: str) -> None:
    """A start finds all commits; the server goes on, and the next start finds those too."""
    for _ in range(2):
        with setting.server(*words) as server, server.index() as index:
            history.want_all(index)
            history.work(index, 5, 1)
            server.kill()


def stop(server: Server, history: History) -> None:
    """Lets a server end."""
    commits = server.stop()
    want(commits == history.commits, f"it ends with {commits} commits of {history.commits}")
