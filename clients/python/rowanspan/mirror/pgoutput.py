"""The messages of pgoutput, the output plugin that PostgreSQL has built in, in version 1 of its protocol."""
from __future__ import annotations

import enum
import struct
from dataclasses import dataclass
from typing import List, Optional, Tuple, Union

__all__ = ["Unchanged", "UNCHANGED", "Value", "Values", "Begin", "Commit", "Relation", "Change", "Truncate", "Message",
           "read_message"]


class Unchanged(enum.Enum):
    """A value that is kept outside its row (TOAST), and that an update left as it was. It isn't sent."""

    IT = enum.auto()


UNCHANGED = Unchanged.IT
# a value as text; None is NULL
Value = Union[str, None, Unchanged]
Values = Tuple[Value, ...]


@dataclass(frozen=True)
class Begin:
    """A transaction begins, which has this number."""

    transaction: int


@dataclass(frozen=True)
class Commit:
    """A transaction ends; all those up to position `end` were sent."""

    end: int


@dataclass(frozen=True)
class Relation:
    """A table, as the changes that follow have it."""

    oid: int
    name: str
    columns: Tuple[str, ...]
    # of each column the type's number, and how it is narrowed
    types: Tuple[Tuple[int, int], ...]


@dataclass(frozen=True)
class Change:
    """A row before and after: an insert has no `old`, a delete no `new`. An update has an `old` if its key changed, or
    if the table has the identity FULL."""

    oid: int
    old: Optional[Values]
    # whether `old` has the values of the key alone, and None in the place of the others
    old_is_key: bool
    new: Optional[Values]


@dataclass(frozen=True)
class Truncate:
    """All rows of these tables are removed."""

    oids: Tuple[int, ...]


Message = Union[Begin, Commit, Relation, Change, Truncate, None]


def read_values(body: bytes, at: int) -> Tuple[Values, int]:
    """The values of a row from a place on, and the place after them."""
    (count,) = struct.unpack_from(">H", body, at)
    at += 2
    values: List[Value] = []
    for _ in range(count):
        kind = body[at:at + 1]
        at += 1
        if kind == b"t":
            end = at + 4 + int.from_bytes(body[at:at + 4], "big")
            values.append(body[at + 4:end].decode())
            at = end
        elif kind == b"n":
            values.append(None)
        elif kind == b"u":
            values.append(UNCHANGED)
        else:
            raise ValueError(f"{kind!r} is no kind of a value")
    return tuple(values), at


def read_text(body: bytes, at: int) -> Tuple[str, int]:
    """A text that ends with a zero, and the place after it."""
    end = body.index(0, at)
    return body[at:end].decode(), end + 1


def read_change(body: bytes) -> Change:
    (oid,) = struct.unpack_from(">I", body, 1)
    at, old, new = 5, None, None
    old_is_key = body[5:6] == b"K"
    if body[5:6] in (b"K", b"O"):
        old, at = read_values(body, 6)
    if body[:1] != b"D":
        # (before the values there is an N)
        new, at = read_values(body, at + 1)
    return Change(oid, old, old_is_key, new)


def read_relation(body: bytes) -> Relation:
    (oid,) = struct.unpack_from(">I", body, 1)
    space, at = read_text(body, 5)
    name, at = read_text(body, at)
    # (a byte of the identity)
    (count,) = struct.unpack_from(">H", body, at + 1)
    at += 3
    columns: List[str] = []
    types: List[Tuple[int, int]] = []
    for _ in range(count):
        # (a byte of flags)
        column, at = read_text(body, at + 1)
        columns.append(column)
        kind, narrowed = struct.unpack_from(">Ii", body, at)
        types.append((kind, narrowed))
        at += 8
    return Relation(oid, f"{space}.{name}", tuple(columns), tuple(types))


def read_message(body: bytes) -> Message:
    """A message; None for one that says nothing of rows. Raises ValueError or `struct.error` for bytes that are
    none."""
    kind = body[:1]
    if kind in (b"I", b"U", b"D"):
        return read_change(body)
    if kind == b"B":
        return Begin(struct.unpack_from(">I", body, 17)[0])
    if kind == b"C":
        return Commit(struct.unpack_from(">Q", body, 10)[0])
    if kind == b"R":
        return read_relation(body)
    if kind == b"T":
        (count,) = struct.unpack_from(">I", body, 1)
        return Truncate(struct.unpack_from(f">{count}I", body, 6))
    return None
