"""The fields of messages as bytes: written, and read from the front of a body."""
from __future__ import annotations

from typing import Optional, Sequence, Tuple

from .core import (MAX_KEY_BYTES, AtLeast, ColumnTooLong, Equals, KeyTooLong, Page, Pairs, Prefix, Row, RowTest, Sets,
                   Tidied, ViewNo, ViewSpec, checked_bytes, checked_column, checked_columns, checked_limit,
                   checked_number, checked_spec, checked_test, set_pairs)

__all__ = ["spelled_number", "spelled_key", "spelled_bytes", "Reader"]


# ---- written

def spelled_number(number: int, width: int, what: str = "a number") -> bytes:
    """A number in this many bytes, the highest first."""
    return checked_number(number, what, 256 ** width - 1).to_bytes(width, "big")


def spelled_key(key: bytes) -> bytes:
    """A key: two bytes of length, then the key. Raises `KeyTooLong` if its length doesn't fit two bytes."""
    checked = checked_bytes(key, "a key")
    if len(checked) >= 256 ** 2:
        raise KeyTooLong()
    return len(checked).to_bytes(2, "big") + checked


def spelled_bytes(value: bytes) -> bytes:
    """The bytes of a column: one byte of length, then the bytes. Raises `ColumnTooLong` if their length doesn't fit one
    byte."""
    checked = checked_bytes(value, "a column")
    if len(checked) >= 256:
        raise ColumnTooLong()
    return bytes((len(checked),)) + checked


def spelled_columns(columns: Sequence[int]) -> bytes:
    """Numbers of columns: one byte that counts them, then one byte each."""
    checked = checked_columns(columns)
    return spelled_number(len(checked), 1, "the count of columns") + bytes(checked)


def spelled_column(column: int) -> bytes:
    """The number of a column, in one byte."""
    return bytes((checked_column(column),))


def spelled_limit(limit: int) -> bytes:
    """A limit, in two bytes."""
    return checked_limit(limit).to_bytes(2, "big")


def spelled_sets(sets: Sets) -> bytes:
    """The columns that a put sets: one byte that counts them, then each number and its bytes."""
    pairs = set_pairs(sets)
    columns = b"".join(spelled_column(column) + spelled_bytes(value) for column, value in pairs)
    return spelled_number(len(pairs), 1, "the count of columns") + columns


def spelled_test(test: RowTest) -> bytes:
    """A test of rows: its kind, then the column and what it is compared with."""
    checked = checked_test(test)
    if isinstance(checked, Equals):
        return b"\1" + spelled_column(checked.column) + spelled_bytes(checked.value)
    if isinstance(checked, AtLeast):
        return b"\2" + spelled_column(checked.column) + spelled_number(checked.least, 8, "the least amount")
    return b"\0"


def spelled_end(end: Optional[bytes]) -> bytes:
    """The key before which something ends, or that there is none."""
    return b"\0" if end is None else b"\1" + spelled_key(end)


def spelled_spec(spec: ViewSpec) -> bytes:
    """What a view is of: its kind, the keys, and the test."""
    checked = checked_spec(spec)
    if isinstance(checked, Prefix):
        return b"\1" + spelled_key(checked.key) + spelled_test(checked.test)
    return b"\0" + spelled_key(checked.lo) + spelled_end(checked.hi) + spelled_test(checked.test)


# ---- read

class Reader:
    """Reads the fields of a body, one after another. What isn't there whole is a ValueError."""

    def __init__(self, body: bytes) -> None:
        self._body = body
        self._at = 0

    def is_at_end(self) -> bool:
        return self._at == len(self._body)

    def take(self, count: int) -> bytes:
        taken = self._body[self._at:self._at + count]
        if len(taken) != count:
            raise ValueError("a body ends inside a field")
        self._at += count
        return taken

    def number(self, width: int) -> int:
        return int.from_bytes(self.take(width), "big")

    def key(self) -> bytes:
        return self.take(self.number(2))

    def short(self) -> bytes:
        return self.take(self.number(1))

    def flag(self) -> bool:
        number = self.number(1)
        if number > 1:
            raise ValueError(f"{number} is neither yes nor no")
        return number == 1

    def row(self) -> Row:
        version = self.number(8)
        return Row(version, tuple(self.short() for _ in range(self.number(1))))

    def pair(self) -> Tuple[bytes, Row]:
        key = self.key()
        if len(key) > MAX_KEY_BYTES:
            raise ValueError("a row has too long a key")
        return key, self.row()

    def pairs(self) -> Pairs:
        return [self.pair() for _ in range(self.number(2))]

    def page(self) -> Page:
        at, count = self.number(8), self.number(8)
        sums = tuple(self.number(16) for _ in range(self.number(1)))
        return Page(at, count, sums, self.pairs())

    def commit(self) -> int:
        return self.number(8)

    def view_number(self) -> ViewNo:
        return ViewNo(self.number(8))

    def tidied(self) -> Tidied:
        return Tidied(self.number(1))

    def nothing(self) -> None:
        return None
