"""What a server has in memory while rows are put and removed: the server's part of scripts/time_memory."""
from __future__ import annotations

import re
import sys
import tempfile
from contextlib import contextmanager
from itertools import islice
from pathlib import Path
from random import Random
from typing import Any, Dict, Iterable, Iterator, List, Sequence, Tuple

import measuring

sys.path.insert(0, str(measuring.TOP / "tests" / "refusals"))

from sessions import preloaded, serving_test  # noqa: E402
from shim import built  # noqa: E402

from rowanspan import MAX_QUERIES, Client, Put, Query, Refused, Remove, RowanspanError  # noqa: E402

SERVING = serving_test()
LIVE = measuring.TOP / "tests" / "refusals" / "live.c"
# what the cases raise, besides `measuring.Failed`
FAULTS = (RowanspanError, SERVING.Failed, OSError)

# live.c tells what is allocated at each 20,000th allocation: puts and removes of a key of no case lead to the next one
NUDGE_KEY = b"\xff" * 9
NUDGE = [Put(NUDGE_KEY, b""), Remove(NUDGE_KEY)] * (MAX_QUERIES // 2)
MOST_NUDGES = 2_000

# bytes, by what they are: RESIDENT or ALLOCATED
Memory = Dict[str, int]
RESIDENT, ALLOCATED = KINDS = ("resident", "allocated")
# before the first put, at the first reading, and at the last
Readings = Tuple[Memory, Memory, Memory]


# ---- a server and its client

def frames(queries: Iterable[Query[Any]]) -> Iterator[List[Query[Any]]]:
    """Full frames of queries, and one of the rest."""
    rest = iter(queries)
    frame = list(islice(rest, MAX_QUERIES))
    while frame:
        yield frame
        frame = list(islice(rest, MAX_QUERIES))


def resident_of(process: int) -> int:
    """The bytes of memory that a process has."""
    status = Path(f"/proc/{process}/status").read_text()
    found = re.search(r"^VmRSS:\s*(\d+) kB$", status, re.MULTILINE)
    if found is None:
        raise measuring.Failed(f"the system reports no VmRSS of process {process}")
    return 1024 * int(found[1])


class Measured:
    """The one client of a server, which also reads the server's memory."""

    def __init__(self, process: int, index: Client, told: Path) -> None:
        self._process = process
        self._index = index
        self._told = told

    def ask(self, queries: Iterable[Query[Any]]) -> None:
        """Asks puts and removes, all of which have to change a row."""
        for frame in frames(queries):
            self._ask_frame(frame)

    def _ask_frame(self, frame: Sequence[Query[Any]]) -> None:
        for query, outcome in zip(frame, self._index.call_all(frame)):
            if isinstance(outcome, Refused):
                raise measuring.Failed(f"the server refused {query}: {outcome}")
            if outcome.value is None:
                raise measuring.Failed(f"the server found no row for {query}")

    def memory(self) -> Memory:
        """What the server has now."""
        allocated = self._allocated()
        return {RESIDENT: resident_of(self._process), ALLOCATED: allocated}

    def _allocated(self) -> int:
        """The bytes that are allocated and not freed, by the next line of live.c."""
        before = len(self._lines())
        for _ in range(MOST_NUDGES):
            self._ask_frame(NUDGE)
            lines = self._lines()
            if len(lines) > before:
                return int(lines[-1].split()[1])
        raise measuring.Failed(f"{LIVE.name} doesn't report what the server has allocated")

    def _lines(self) -> List[str]:
        return self._told.read_text().splitlines()


@contextmanager
def started(program: Path) -> Iterator[Measured]:
    """A server of one worker, whose allocations are counted, and its client."""
    with tempfile.TemporaryDirectory() as made:
        told = Path(made) / "told"
        told.touch()
        with preloaded({"LD_PRELOAD": str(built(LIVE, Path(made))), "LIVE_TELL": str(told)}):
            server = SERVING.Server(str(program), "--forever")
        with server, server.index() as index:
            yield Measured(server.process.pid, index, told)


# ---- cases

def emptied(program: Path, rows: int) -> Readings:
    """Puts rows of 8 random bytes, and removes all in random order. The first reading is with all rows."""
    chance = Random(rows)
    keys = [chance.randbytes(8) for _ in range(rows)]
    with started(program) as client:
        before = client.memory()
        client.ask(Put(key, key) for key in keys)
        full = client.memory()
        chance.shuffle(keys)
        client.ask(Remove(key) for key in keys)
        return before, full, client.memory()


def counter(number: int) -> bytes:
    return number.to_bytes(8, "big")


def moves(rows: int, begin: int, end: int) -> Iterator[Query[Any]]:
    """The moves of these numbers: each puts a new greatest key, and removes the least."""
    for number in range(begin, end):
        yield Put(counter(number + rows), counter(number))
        yield Remove(counter(number))


def window(program: Path, rows: int, first: int, count: int) -> Readings:
    """Moves a window of rows. The first reading is after the first moves."""
    with started(program) as client:
        before = client.memory()
        client.ask(Put(counter(number), counter(number)) for number in range(rows))
        client.ask(moves(rows, 0, first))
        early = client.memory()
        client.ask(moves(rows, first, count))
        return before, early, client.memory()
