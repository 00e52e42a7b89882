"""The frames of a log's file, read and written as crates/mt_frame/README.md says."""
from __future__ import annotations

import re
import struct
from dataclasses import dataclass
from typing import Iterable, List, Optional, Tuple, Union

# (it puts the package on the path)
from running import want

from rowanspan import Row

TITLE, FORMAT = b"rowanspan log", 1
# how many bytes of a frame are its length, and how many of a body are its digest
LENGTH, DIGEST = 5, 8
Columns = Tuple[bytes, ...]


# ---- what frames say

@dataclass(frozen=True)
class Header:
    columns: int
    generation: int
    base: int
    run: int = 0
    format: int = FORMAT

    def spelled(self) -> bytes:
        return b"\1" + TITLE + struct.pack(">HBQQQ", self.format, self.columns, self.generation, self.base, self.run)


@dataclass(frozen=True)
class Commits:
    """What commits left, from the first number on: the columns of a key's row, or None."""

    first: int
    durable: int
    records: Tuple[Tuple[bytes, Optional[Columns]], ...]

    @property
    def last(self) -> int:
        return self.first + len(self.records) - 1

    def spelled(self) -> bytes:
        each = (b"\2" + spelled_key(key) if columns is None else b"\1" + spelled_key(key) + spelled_columns(columns)
                for key, columns in self.records)
        return b"\2" + struct.pack(">QQH", self.first, self.durable, len(self.records)) + b"".join(each)


@dataclass(frozen=True)
class Part:
    """Rows of a checkpoint, as they were after so many commits."""

    at: int
    rows: Tuple[Tuple[bytes, Row], ...]

    def spelled(self) -> bytes:
        each = (spelled_key(key) + struct.pack(">Q", row.version) + spelled_columns(row.columns)
                for key, row in self.rows)
        return b"\3" + struct.pack(">QH", self.at, len(self.rows)) + b"".join(each)


@dataclass(frozen=True)
class Sealed:
    rows: int

    def spelled(self) -> bytes:
        return b"\5" + struct.pack(">Q", self.rows)


@dataclass(frozen=True)
class Closed:
    commits: int

    def spelled(self) -> bytes:
        return b"\6" + struct.pack(">Q", self.commits)


Entry = Union[Header, Commits, Part, Sealed, Closed]


def spelled_key(key: bytes) -> bytes:
    return struct.pack(">H", len(key)) + key


def spelled_columns(columns: Columns) -> bytes:
    return bytes((len(columns),)) + b"".join(bytes((len(column),)) + column for column in columns)


class Body:
    """The body of a frame, from which its fields are taken."""

    def __init__(self, body: bytes) -> None:
        self._left = body

    def take(self, count: int) -> bytes:
        want(count <= len(self._left), "a body is too short")
        taken, self._left = self._left[:count], self._left[count:]
        return taken

    def number(self, size: int) -> int:
        return int.from_bytes(self.take(size), "big")

    def key(self) -> bytes:
        return self.take(self.number(2))

    def columns(self) -> Columns:
        return tuple([self.take(self.number(1)) for _ in range(self.number(1))])

    def record(self) -> Tuple[bytes, Optional[Columns]]:
        kind, key = self.number(1), self.key()
        want(kind in (1, 2), f"a record of the kind {kind}")
        return key, self.columns() if kind == 1 else None

    def pair(self) -> Tuple[bytes, Row]:
        key, version = self.key(), self.number(8)
        return key, Row(version, self.columns())

    def entry(self) -> Entry:
        found = self._entry(self.number(1))
        want(self._left == b"", f"{len(self._left)} bytes follow {str(found)[:100]}")
        return found

    def _entry(self, kind: int) -> Entry:
        if kind == 1:
            want(self.take(len(TITLE)) == TITLE and self.number(2) == FORMAT, "a header of another format")
            return Header(self.number(1), self.number(8), self.number(8), self.number(8))
        if kind == 2:
            first, durable, count = self.number(8), self.number(8), self.number(2)
            return Commits(first, durable, tuple([self.record() for _ in range(count)]))
        if kind == 3:
            at, count = self.number(8), self.number(2)
            return Part(at, tuple([self.pair() for _ in range(count)]))
        want(kind in (5, 6), f"a frame of the kind {kind}")
        return Sealed(self.number(8)) if kind == 5 else Closed(self.number(8))


# ---- frames

MASK = (1 << 64) - 1


class SipState:
    """The four words of SipHash, with a key of zeros."""

    def __init__(self) -> None:
        self.v0, self.v1 = 0x736f6d6570736575, 0x646f72616e646f6d
        self.v2, self.v3 = 0x6c7967656e657261, 0x7465646279746573

    def round(self) -> None:
        v0, v1, v2, v3 = self.v0, self.v1, self.v2, self.v3
        v0, v2 = (v0 + v1) & MASK, (v2 + v3) & MASK
        v1, v3 = turned(v1, 13) ^ v0, turned(v3, 16) ^ v2
        v0, v2 = (turned(v0, 32) + v3) & MASK, (v2 + v1) & MASK
        self.v1, self.v3 = turned(v1, 17) ^ v2, turned(v3, 21) ^ v0
        self.v0, self.v2 = v0, turned(v2, 32)

    def add(self, word: int) -> None:
        self.v3 ^= word
        self.round()
        self.v0 ^= word

    def digest(self) -> int:
        self.v2 ^= 0xff
        for _ in range(3):
            self.round()
        return self.v0 ^ self.v1 ^ self.v2 ^ self.v3


def turned(word: int, bits: int) -> int:
    return (word << bits | word >> 64 - bits) & MASK


def siphash13(data: bytes) -> int:
    state, whole = SipState(), len(data) - len(data) % 8
    for (word,) in struct.iter_unpack("<Q", data[:whole]):
        state.add(word)
    state.add(int.from_bytes(data[whole:], "little") | (len(data) & 0xff) << 56)
    return state.digest()


def frame_of(generation: int, place: int, entry: Entry) -> bytes:
    """The bytes of a frame at this place of a log of this generation."""
    of_header = isinstance(entry, Header)
    where = struct.pack(">QQ", 0 if of_header else generation, 0 if of_header else place)
    body = entry.spelled()
    body += struct.pack(">Q", siphash13(where + body))
    text = re.sub(rb"[\x00\x01]", lambda found: b"\1\1" if found[0] == b"\0" else b"\1\2", body)
    return bytes(0x80 + (len(text) >> shift) % 0x80 for shift in (28, 21, 14, 7, 0)) + text


@dataclass(frozen=True)
class Frame:
    """A frame, and where it begins and ends."""

    begin: int
    end: int
    entry: Entry


def frame_at(whole: bytes, place: int) -> Optional[Frame]:
    """The frame that begins here; None if the log ends here. Its digest isn't looked at."""
    head = whole[place:place + LENGTH]
    if len(head) < LENGTH or min(head) < 0x80:
        return None
    length = 0
    for byte in head:
        length = length * 0x80 + byte - 0x80
    text = whole[place + LENGTH:place + LENGTH + length]
    if len(text) < length or 0 in text:
        return None
    body = re.sub(rb"\x01([\x01\x02])", lambda found: b"\0" if found[1] == b"\1" else b"\1", text)
    return Frame(place, place + LENGTH + length, Body(body[:-DIGEST]).entry())


# ---- logs

@dataclass(frozen=True)
class LogOf:
    """The log that a file has: its header, and the frames after it."""

    header: Header
    begin: int
    frames: List[Frame]

    @property
    def end(self) -> int:
        return self.frames[-1].end if self.frames else self.begin

    @property
    def seal(self) -> Optional[Frame]:
        """The first seal."""
        return next((frame for frame in self.frames if isinstance(frame.entry, Sealed)), None)

    @property
    def is_whole(self) -> bool:
        """Whether no other log is needed for its rows."""
        return self.header.base == 0 or self.seal is not None

    @property
    def commits(self) -> int:
        """The number of its last commit."""
        return self.commits_before(self.end)

    def commits_before(self, place: int) -> int:
        """The number of the last commit that is whole before this place."""
        ends = [frame.entry.last for frame in self.frames if isinstance(frame.entry, Commits) and frame.end <= place]
        return max(ends, default=self.header.base)


def header_of(whole: bytes) -> Optional[Tuple[Header, int]]:
    """The header at the front of a file, and where it ends; None if there is none."""
    frame = frame_at(whole, 0)
    if frame is None or not isinstance(frame.entry, Header):
        return None
    return frame.entry, frame.end


def log_of(whole: bytes) -> Optional[LogOf]:
    """The log of a file with these bytes; None if it has none."""
    found = header_of(whole)
    if found is None:
        return None
    header, end = found
    frames: List[Frame] = []
    frame = frame_at(whole, end)
    while frame is not None:
        frames.append(frame)
        frame = frame_at(whole, frame.end)
    return LogOf(header, end, frames)


def bytes_of(header: Header, entries: Iterable[Entry]) -> bytes:
    """The bytes of a log, without the zeros after it."""
    whole = frame_of(0, 0, header)
    for entry in entries:
        whole += frame_of(header.generation, len(whole), entry)
    return whole
