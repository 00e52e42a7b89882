"""Where the stand-in keeps its commits, so that they are there again after it was killed: a file of lines, one for each
commit, and zeros after them. Its bytes aren't those of the server, but what it promises is (docs/SERVING.md)."""
from __future__ import annotations

import fcntl
import os
import re
import zlib
from contextlib import ExitStack
from dataclasses import dataclass
from errno import EFBIG, ENOSPC
from pathlib import Path
from typing import BinaryIO, Iterator, List, Optional, Tuple

from rowanspan import DiskFailed, DiskFull, Refused, Row

# how many zeros are written ahead at once, and how many of them must be left before a frame of queries is answered
AHEAD = 1 << 20
ROOM = 1 << 19
MAX_MILLISECONDS = 86_400_000
FULL = (ENOSPC, EFBIG)


class BadLog(Exception):
    """A log can't be opened: it is another's, or it is damaged."""


@dataclass(frozen=True)
class Policy:
    """When commits are made durable: each before it is answered, or, with a number, within that many milliseconds
    (None: only at the end)."""

    is_always: bool = True
    milliseconds: Optional[int] = None

    @staticmethod
    def read(word: str) -> Policy:
        """`always`, `never` or a number of milliseconds. Raises ValueError."""
        if word in ("always", "never"):
            return Policy(word == "always")
        if not word.isdecimal() or not 1 <= int(word) <= MAX_MILLISECONDS:
            raise ValueError(word)
        return Policy(False, int(word))


@dataclass(frozen=True)
class Change:
    """What a commit did: the row that it left, or None."""

    key: bytes
    row: Optional[Row]


class Log:
    """How many commits are durable, and why there can be no more of them, if so. Without a file this is what tests
    say."""

    def __init__(self, policy: Policy = Policy()) -> None:
        self.policy = policy
        self.written = self.durable = 0
        self.refusal: Optional[Refused] = None

    def add(self, number: int, change: Change) -> None:
        """Writes a commit."""
        self.written = number

    def sync(self) -> None:
        """All that was written is durable, unless the disk has failed."""
        if self.refusal is None:
            self.durable = self.written

    def hindrance(self) -> Optional[Refused]:
        """Why rows can't be changed now."""
        return self.refusal

    def close(self) -> None:
        """The end: all is durable."""
        self.sync()


class FileLog(Log):
    """A log in the file `even-wal` of a folder, locked by its file `even`. Raises `BadLog` and OSError."""

    def __init__(self, folder: Path, policy: Policy, columns: int) -> None:
        super().__init__(policy)
        folder.mkdir(exist_ok=True)
        self._path = folder / "even-wal"
        self._head = b"rowanspan stand-in, columns %d" % columns
        self._end = 0
        with ExitStack() as opened:
            self._lock, self._file = (opened.enter_context(opened_file(path)) for path in (folder / "even", self._path))
            fcntl.flock(self._lock, fcntl.LOCK_EX | fcntl.LOCK_NB)
            self.changes = self._read()
            self._opened = opened.pop_all()
        self.written = self.durable = len(self.changes)

    # -- at the start

    def _read(self) -> List[Change]:
        whole = self._path.read_bytes()
        front = whole.partition(b"\0")[0]
        lines, head = list(self._lines(front)), line_of(self._head)
        if head.startswith(front):
            # (it is new, or a crash has left a part of its head)
            lines = [self._head]
            os.pwrite(self._file.fileno(), head, 0)
            self._end = len(head)
        elif not lines or lines[0] != self._head:
            raise BadLog(f"{self._path}: at byte 0 there is no head of these columns: {front[:50].decode('latin-1')!r}")
        self._want_none_lost(whole, len(lines) - 1)
        # (what a crash has left of the end)
        os.ftruncate(self._file.fileno(), self._end)
        os.fsync(self._file.fileno())
        return [change_of(line, number) for number, line in enumerate(lines[1:], 1)]

    def _want_none_lost(self, whole: bytes, commits: int) -> None:
        """No line after the end says that more commits were durable. Raises `BadLog`."""
        for match in re.finditer(rb"[0-9a-f]{8} ((\d+) [^\n\0]*)\n", whole[self._end:]):
            if line_of(match[1]) == match[0] and int(match[2]) > commits:
                raise BadLog(f"{self._path}: commits after {commits} are missing that were durable: the line at byte "
                             f"{self._end + match.start()} says so")

    def _lines(self, front: bytes) -> Iterator[bytes]:
        """The lines that are there whole. Raises `BadLog` for one that isn't as it was written."""
        while b"\n" in front[self._end:]:
            line = front[self._end:].partition(b"\n")[0]
            if line_of(line[9:]) != line + b"\n":
                raise BadLog(f"{self._path}: the line at byte {self._end} is damaged")
            yield line[9:]
            self._end += len(line) + 1

    # -- afterwards

    def add(self, number: int, change: Change) -> None:
        line = line_of(text_of(change, self.durable))
        os.pwrite(self._file.fileno(), line, self._end)
        self._end += len(line)
        self.written = number

    def hindrance(self) -> Optional[Refused]:
        """Why rows can't be changed now. Makes room for a frame's changes."""
        if isinstance(self.refusal, DiskFailed):
            return self.refusal
        self.refusal = None
        size = os.fstat(self._file.fileno()).st_size
        while size < self._end + ROOM and self.refusal is None:
            try:
                size += os.pwrite(self._file.fileno(), bytes(AHEAD), size)
            except OSError as fault:
                self.refusal = DiskFull() if fault.errno in FULL else DiskFailed(self.durable)
        return self.refusal

    def sync(self) -> None:
        if self.durable == self.written:
            return
        try:
            os.fdatasync(self._file.fileno())
            self.durable = self.written
        except OSError:
            self.refusal = DiskFailed(self.durable)

    def close(self) -> None:
        self.sync()
        self._opened.close()


# ---- files and lines

def opened_file(path: Path) -> BinaryIO:
    return os.fdopen(os.open(path, os.O_RDWR | os.O_CREAT, 0o600), "r+b")


def line_of(text: bytes) -> bytes:
    return b"%08x %s\n" % (zlib.crc32(text), text)


def text_of(change: Change, durable: int) -> bytes:
    """A change, and how many commits are durable before it is written."""
    words = [change.key, *(change.row.columns if change.row else ())]
    kind = b"put" if change.row else b"remove"
    return b" ".join([b"%d" % durable, kind, *(b"=" + word.hex().encode() for word in words)])


def change_of(text: bytes, number: int) -> Change:
    _, kind, *words = text.split(b" ")
    key, *columns = [bytes.fromhex(word[1:].decode()) for word in words]
    values: Tuple[bytes, ...] = tuple(columns)
    return Change(key, Row(number, values) if kind == b"put" else None)
