"""The position row of a mirror: a row of the server that says of which position of the source the mirror's rows are."""
from __future__ import annotations

import enum
import hashlib
import struct
from dataclasses import dataclass
from typing import Optional

from ..core import Row

__all__ = ["RESERVED", "NAME", "State", "Position", "position_key", "owner_of"]

# the keys of the position rows (no text in UTF-8 has the byte ff)
RESERVED = b"\xffmirror/"
# what a name may be, as a regular expression: a slot of PostgreSQL is named after it
NAME = "[a-z0-9_]{1,50}"
FIELDS = struct.Struct(">cQQ16s8s")
MAX_COLUMN = 64
# how many bytes of the prefix of the mirror's keys have room
MAX_PREFIX = MAX_COLUMN - FIELDS.size


class State(enum.Enum):
    """What is true of the mirror's rows."""

    # they are those of the source after all transactions up to `at`, and no other
    EXACT = b"="
    # all transactions up to `at` are in, and some rows of those up to `until` may be
    MOVING = b">"
    # nothing is promised: all rows are being copied
    COPYING = b"c"


@dataclass(frozen=True)
class Position:
    """The position row, whose column 0 spells all of it but the version."""

    state: State
    at: int
    until: int
    # of which source, table and mapping the rows are: 16 bytes
    owner: bytes
    # which run of the mirror has written it: 8 bytes
    writer: bytes
    # the first bytes of the prefix of the mirror's keys
    prefix: bytes
    # the number of the commit that wrote it: a floor for pages that are to have this position
    version: int = 0

    def spelled(self) -> bytes:
        """Column 0."""
        return FIELDS.pack(self.state.value, self.at, self.until, self.owner, self.writer) + self.prefix[:MAX_PREFIX]

    def is_of(self, prefix: bytes) -> bool:
        """Whether it is of a mirror whose keys begin so, as far as the position row knows."""
        return self.prefix == prefix[:MAX_PREFIX]

    @staticmethod
    def read(row: Optional[Row]) -> Optional[Position]:
        """The position of a row; None if there is no row, or it is no position."""
        if row is None or not row.columns or len(row.columns[0]) < FIELDS.size:
            return None
        column = row.columns[0]
        state, at, until, owner, writer = FIELDS.unpack_from(column)
        if state not in {one.value for one in State}:
            return None
        return Position(State(state), at, until, owner, writer, column[FIELDS.size:], row.version)

    def overlaps(self, prefix: bytes) -> bool:
        """Whether keys that begin with this prefix may be this mirror's. Of a long prefix only the first bytes are
        known."""
        other = prefix[:MAX_PREFIX]
        return self.prefix.startswith(other) or other.startswith(self.prefix)


def position_key(name: str) -> bytes:
    """The key of a mirror's position row."""
    return RESERVED + name.encode()


def owner_of(*words: str) -> bytes:
    """Words in 16 bytes: the same words, the same bytes."""
    return hashlib.sha256("\0".join(words).encode()).digest()[:16]
