"""Sessions of a server whose allocations are refused: a client that asks frames of lines, and holds the answers against the model."""
from __future__ import annotations

import os
import sys
from contextlib import contextmanager
from dataclasses import dataclass, field
from importlib.machinery import SourceFileLoader
from importlib.util import module_from_spec, spec_from_loader
from pathlib import Path
from types import ModuleType
from typing import Any, Dict, Iterator, List, Sequence

from lines import Command, command_of
from reading import Held, Said, want

TOP = Path(__file__).resolve().parent.parent.parent
sys.path.insert(0, str(TOP / "clients" / "python"))

from rowanspan import Client, ConnectionLost  # noqa: E402
from rowanspan.text import HEX, outcome_line, read_query  # noqa: E402

SECONDS = 60.0
CALLS = ("get", "put", "remove", "range", "tidy", "build")


def serving_test() -> ModuleType:
    """The tests of the server from outside, whose `Server` runs one."""
    path = str(TOP / "scripts" / "serving_test")
    spec = spec_from_loader("serving_test", SourceFileLoader("serving_test", path))
    assert spec is not None and spec.loader is not None
    module = module_from_spec(spec)
    sys.modules["serving_test"] = module
    spec.loader.exec_module(module)
    return module


@contextmanager
def preloaded(environment: Dict[str, str]) -> Iterator[None]:
    """What is started here is started with this environment."""
    before = {name: os.environ.get(name) for name in environment}
    os.environ.update(environment)
    try:
        yield
    finally:
        for name, value in before.items():
            if value is None:
                del os.environ[name]
            else:
                os.environ[name] = value


class Served(Held):
    """As `Held`, but views are taken on by the server, from where they stand to the newest commit, and it isn't
    told."""

    def view_event(self, at: int, answer: str, command: Command) -> None:
        for view, stands in self.views.may.items():
            self.views.may[view] = set(range(min(stands), self.counts[at][1] + 1))
        super().view_event(at, answer, command)


@dataclass
class Asker:
    """A client, alone with a server. Where a session is lost, it finds out how far the frame came: what was done of it
    are its first queries."""

    server: Any
    said: List[Said] = field(default_factory=list)
    commits: int = 0
    built: int = 0
    lost: int = 0

    def connect(self) -> Client:
        return Client(self.server.port, timeout=SECONDS)

    def ask_all(self, frames: Sequence[Sequence[str]]) -> None:
        """Asks these frames in one session, or in several, as sessions are lost."""
        index = self.connect()
        for frame in frames:
            try:
                self.ask(index, frame)
            except ConnectionLost:
                self.lost += 1
                self.server.want_fault(7)
                index = self.connect()
                self.find_out(index, frame)
        index.close()

    def ask(self, index: Client, frame: Sequence[str]) -> None:
        queries = [read_query(line, HEX) for line in frame]
        outcomes = index.call_all(queries)
        for line, query, outcome in zip(frame, queries, outcomes):
            self.take(line, outcome_line(query, outcome, HEX))

    def take(self, line: str, answer: str) -> None:
        written = f"alone {line}" if line.split(" ")[0] in CALLS else line
        self.said.append(Said(written, command_of(written), (answer,)))
        words = answer.split(" ")
        if words[0] == "done":
            self.commits = int(words[2])
            self.built += words[3] == "built"

    def find_out(self, index: Client, frame: Sequence[str]) -> None:
        """Of a lost frame, puts and removes are done as far as there are commits, and a build if its view exists."""
        query = read_query("get - all", HEX)
        now = index.call_all([query])[0].to
        for line in frame:
            kind = line.split(" ")[0]
            if kind in ("put", "remove") and self.commits < now:
                done = self.commits + 1
                self.take(line, f"done {self.commits} {done} {'put' if kind == 'put' else 'removed'} {done}")
            elif kind == "build" and self.stands(index, self.built + 1):
                self.take(line, f"done {self.commits} {self.commits} built {self.built + 1}")
            elif kind == "drop" and not self.stands(index, int(line.split(" ")[1])):
                self.take(line, "dropped")
        want(self.commits == now, f"there are {now} commits, {self.commits} by the first queries of the lost frame")

    def stands(self, index: Client, view: int) -> bool:
        query = read_query(f"view {view} 0 - 1", HEX)
        return outcome_line(query, index.call_all([query])[0], HEX) != "refused 11"

    def hold(self, columns: int) -> None:
        """Holds all that was said against the plain map."""
        Served(columns, self.said)

    def refused(self) -> int:
        return sum(one.answer == "refused 1" for one in self.said)
