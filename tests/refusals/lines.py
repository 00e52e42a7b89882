"""What the lines of a script ask, and what the lines of its answers say, as plain values."""
from __future__ import annotations

from dataclasses import dataclass
from functools import lru_cache
from typing import Dict, List, Optional, Tuple

MAX_KEY_BYTES = 1024

Columns = Tuple[bytes, ...]
Pair = Tuple[bytes, int, Columns]


class Bad(Exception):
    """A line says nothing."""


def bytes_of(word: str) -> bytes:
    """Bytes in hex; `-` is none."""
    if word == "-":
        return b""
    if not word or len(word) % 2 or any(letter not in "0123456789abcdefABCDEF" for letter in word):
        raise Bad(word)
    return bytes.fromhex(word)


def word_of(value: bytes) -> str:
    return value.hex() or "-"


def number_of(word: str) -> int:
    if not (word.isascii() and word.isdigit()):
        raise Bad(word)
    return int(word)


@dataclass(frozen=True)
class Test:
    """Which rows are a view's: all, those with these bytes in a column, those whose column is at least a number."""

    kind: str
    column: int = 0
    wanted: bytes = b""
    least: int = 0

    def holds(self, columns: Columns) -> bool:
        if self.kind == "equals":
            return columns[self.column] == self.wanted
        return self.kind == "any" or amount_of(columns[self.column]) >= self.least


def amount_of(column: bytes) -> int:
    """A column as a number; one of more than eight bytes counts 0."""
    return int.from_bytes(column, "big") if len(column) <= 8 else 0


@dataclass(frozen=True)
class Spec:
    """The keys of a view, from one on and before another or with a prefix, and its test."""

    first: bytes
    end: Optional[bytes]
    is_prefix: bool
    test: Test

    def has(self, key: bytes, columns: Columns) -> bool:
        if self.is_prefix:
            return key.startswith(self.first) and self.test.holds(columns)
        return self.first <= key and (self.end is None or key < self.end) and self.test.holds(columns)


@dataclass(frozen=True)
class Request:
    """What a call asks. `columns` are those of a get or range (none: all), `sets` those of a put, `version` that of a
    conditional one."""

    kind: str
    key: bytes = b""
    columns: Tuple[int, ...] = ()
    sets: Tuple[Tuple[int, bytes], ...] = ()
    limit: int = 0
    spec: Optional[Spec] = None
    version: Optional[int] = None

    def shown(self, columns: Columns) -> Columns:
        """The columns that an answer shows of a row."""
        return tuple(columns[number] for number in self.columns) if self.columns else columns

    def is_change(self) -> bool:
        return self.kind in ("put", "remove")


def columns_of(word: str) -> Tuple[int, ...]:
    return () if word == "all" else tuple(number_of(part) for part in word.split(","))


def sets_of(word: str) -> Tuple[Tuple[int, bytes], ...]:
    if word == "-":
        return ()
    pairs = [part.partition("=") for part in word.split(",")]
    if any(not middle for _, middle, _ in pairs):
        raise Bad(word)
    return tuple((number_of(column), bytes_of(value)) for column, _, value in pairs)


def test_of(words: List[str]) -> Test:
    if words == ["any"]:
        return Test("any")
    if len(words) == 3 and words[0] == "equals":
        return Test("equals", number_of(words[1]), wanted=bytes_of(words[2]))
    if len(words) == 3 and words[0] == "atleast":
        return Test("atleast", number_of(words[1]), least=number_of(words[2]))
    raise Bad(" ".join(words))


def spec_of(words: List[str]) -> Spec:
    if len(words) >= 4 and words[0] == "range":
        end = None if words[2] == "none" else bytes_of(words[2])
        return Spec(bytes_of(words[1]), end, False, test_of(words[3:]))
    if len(words) >= 3 and words[0] == "prefix":
        return Spec(bytes_of(words[1]), None, True, test_of(words[2:]))
    raise Bad(" ".join(words))


def request_of(words: List[str]) -> Request:
    """The request of these words."""
    kind, rest = (words[0], words[1:]) if words else ("", [])
    if kind == "get" and len(rest) == 2:
        return Request(kind, bytes_of(rest[0]), columns=columns_of(rest[1]))
    if kind == "put" and len(rest) == 2:
        return Request(kind, bytes_of(rest[0]), sets=sets_of(rest[1]))
    if kind == "putif" and len(rest) == 3:
        return Request("put", bytes_of(rest[0]), sets=sets_of(rest[2]), version=number_of(rest[1]))
    if kind in ("remove", "tidy") and len(rest) == 1:
        return Request(kind, bytes_of(rest[0]))
    if kind == "range" and len(rest) == 3:
        return Request(kind, bytes_of(rest[0]), columns=columns_of(rest[2]), limit=number_of(rest[1]))
    if kind == "build":
        return Request(kind, spec=spec_of(rest))
    raise Bad(" ".join(words))


@dataclass(frozen=True)
class Command:
    """What a line says: its first word, the numbers after it, and the request of a call."""

    word: str
    numbers: Tuple[int, ...] = ()
    request: Optional[Request] = None
    start: bytes = b""


ONE_NUMBER = ("step", "finish", "apply", "drop")


@lru_cache(maxsize=None)
def command_of(line: str) -> Optional[Command]:
    """What a line says; nothing where it is a bad line."""
    words = line.split(" ")
    word, rest = words[0], words[1:]
    try:
        if word in ("advance", "collect") and not rest:
            return Command(word)
        if word in ONE_NUMBER and len(rest) == 1:
            return Command(word, (number_of(rest[0]),))
        if word == "feed" and len(rest) == 2:
            return Command(word, (number_of(rest[0]), number_of(rest[1])))
        if word == "alone":
            return Command(word, (), request_of(rest))
        if word == "begin" and rest:
            return Command(word, (number_of(rest[0]),), request_of(rest[1:]))
        if word == "view" and len(rest) == 4:
            view, floor, limit = (number_of(rest[at]) for at in (0, 1, 3))
            return Command(word, (view, floor, limit), start=bytes_of(rest[2]))
    except Bad:
        pass
    return None


# ---- answers

def values_of(word: str) -> Columns:
    return tuple(bytes_of(part) for part in word.split(","))


def pair_of(word: str) -> Pair:
    key, version, values = word.split(":")
    return bytes_of(key), number_of(version), values_of(values)


def pair_text(pair: Pair) -> str:
    key, version, columns = pair
    return f"{word_of(key)}:{row_text((version, columns))}"


def delta_text(number: int, key: bytes, before: Optional[Tuple[int, Columns]],
               after: Optional[Tuple[int, Columns]]) -> str:
    """The line of a delta."""
    return f"delta {number} {word_of(key)} {row_text(before)} {row_text(after)}"


def row_text(row: Optional[Tuple[int, Columns]]) -> str:
    return "none" if row is None else f"{row[0]}:" + ",".join(word_of(column) for column in row[1])


def changed(request: Request, columns: int, before: Optional[Columns]) -> Optional[Columns]:
    """The columns that a put or remove leaves of these."""
    if request.kind == "remove":
        return None
    made: Dict[int, bytes] = dict(enumerate(before if before is not None else (b"",) * columns))
    made.update(request.sets)
    return tuple(made[column] for column in range(columns))
