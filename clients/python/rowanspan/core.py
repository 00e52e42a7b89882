"""What the client and the embedded index share: limits, errors, rows, pages, views, and the checks of arguments."""
from __future__ import annotations

import enum
import operator
from dataclasses import dataclass
from errno import EBUSY
from typing import Any, ClassVar, Dict, List, Mapping, NewType, Optional, Sequence, Tuple, Type, Union

__all__ = [
    "MAX_KEY_BYTES", "MAX_LIMIT", "MAX_NUMBER", "RowanspanError", "TooLong", "Closed", "WrongIndex", "NoLibrary",
    "FolderFailed", "FolderBusy", "FolderDamaged", "NotWritten", "NotDurable", "ConnectionLost", "BadReply",
    "Unanswered", "Refused",
    "NoMemory", "KeyTooLong", "BadColumn", "ColumnTooLong", "BadLimit", "ArenaFull", "FeedFull", "TooManyCalls",
    "NoSuchCall", "TooManyViews", "NoSuchView", "Behind", "BadRange", "Spent", "WrongPass", "OtherVersion", "REFUSALS",
    "ViewNo", "Row", "Pairs", "Page", "Totals", "Delta", "Tidied", "AnyRow", "Equals", "AtLeast", "RowTest", "Range",
    "Prefix", "ViewSpec", "Sets", "set_pairs", "key_after",
]

MAX_KEY_BYTES = 1024
MAX_LIMIT = 1000
MAX_NUMBER = 2 ** 64 - 1

ViewNo = NewType("ViewNo", int)


# ---- what can go wrong

class RowanspanError(Exception):
    """What this package raises, but for arguments of a wrong type."""


class TooLong(RowanspanError, ValueError):
    """A key, a column or a number is out of its bounds, or a frame is. Nothing was done."""


class Closed(RowanspanError):
    """The index was closed by its method `close`, or at the end of its `with` block. Nothing was done."""


class WrongIndex(RowanspanError, ValueError):
    """A view of another index was given. Nothing was done. The number of a view can be given instead."""


class NoLibrary(RowanspanError):
    """The library of the embedded index isn't there, or is another one."""


class FolderFailed(RowanspanError, OSError):
    """The folder of an embedded index, or one of its files, can't be made, opened or read."""


class FolderBusy(RowanspanError, OSError):
    """Another index has the folder, in this process or another one."""

    errno = EBUSY


class FolderDamaged(RowanspanError, OSError):
    """The files of the folder are no logs of such an index, or rows or durable commits are missing. Nothing was changed
    in them. The message names the file."""


class NotWritten(RowanspanError, OSError):
    """The change was made in memory, and its commit was not written to the log in the folder. `commit` is its number,
    and `__cause__` is why. The next change writes it first, and so does `settle`."""

    def __init__(self, commit: int) -> None:
        self.commit = commit
        super().__init__(f"the change is in memory, and its commit {commit} was not written to the log")

    def __reduce__(self) -> Tuple[Any, ...]:
        return type(self), (self.commit,)


class NotDurable(RowanspanError, OSError):
    """A change with `durable=True` was made, and it isn't known to be durable: a crash may undo it. `commit` is the
    number of its commit; of a remove of a key without a row, that of the last commit which it saw. `__cause__` is why,
    or None if a server ended the wait: it stops, or its disk has failed."""

    def __init__(self, commit: int) -> None:
        self.commit = commit
        super().__init__(f"commit {commit} is made, and isn't known to be durable")

    def __reduce__(self) -> Tuple[Any, ...]:
        return type(self), (self.commit,)


class ConnectionLost(RowanspanError, ConnectionError):
    """There is no connection to a server, or it ended, or the timeout was over. It isn't known whether the last queries
    were done."""


class BadReply(RowanspanError):
    """What came from a server is no reply to what was asked. The connection is closed."""


class Unanswered(RowanspanError):
    """A query of a pipeline has no answer: it wasn't sent, or its connection was lost."""


class Refused(RowanspanError):
    """A call was refused: it changed no row, no commit and no view.

    `number` is that of the cause, as docs/WIRE.md lists them. `detail` is the number of a commit that goes with it: for
    `FeedFull` from which commit on the log is held, for `Behind` where the view is, or from which commit on the log
    has deltas, for `OtherVersion` the version that the row has (0: there is no row), for `DiskFailed` the last durable
    commit; else None.
    """

    number: ClassVar[int] = 0
    has_detail: ClassVar[bool] = False
    # the text of the message, with {0} for the detail
    cause: ClassVar[str] = ""

    def __init__(self, detail: Optional[int] = None) -> None:
        self.detail = detail
        super().__init__(self.cause.replace("{0}", "N" if detail is None else str(detail)))

    def __reduce__(self) -> Tuple[Any, ...]:
        # without it a copy, or one from another process, would have its own text as its detail
        return type(self), (self.detail,)


class NoMemory(Refused, MemoryError):
    number, cause = 1, "out of memory"


class KeyTooLong(Refused, TooLong):
    number, cause = 2, "a key has more than 1,024 bytes"


class BadColumn(Refused, ValueError):
    number, cause = 3, "a column doesn't exist or is named twice; an index has 1 to 16 columns"


class ColumnTooLong(Refused, TooLong):
    number, cause = 4, "a column has more than 64 bytes"


class BadLimit(Refused, ValueError):
    """A limit is not from 1 to 1000; or an embedded index was to be opened, and `log_capacity` is not from 1 to 65536,
    or `log_retention` is over 65536."""

    number, cause = 5, "a limit is not from 1 to 1000, or an option is out of its bounds"


class ArenaFull(Refused):
    number, cause = 6, "too few of the 4,294,967,295 nodes are free"


class FeedFull(Refused):
    number, has_detail, cause = 7, True, "the log is full: views or open calls hold it from commit {0} on"


class TooManyCalls(Refused):
    number, cause = 8, "too many calls are open"


class NoSuchCall(Refused):
    number, cause = 9, "no open call has this number"


class TooManyViews(Refused):
    number, cause = 10, "there are already 64 views"


class NoSuchView(Refused, LookupError):
    number, cause = 11, "no view has this number"


class Behind(Refused):
    number, has_detail, cause = 12, True, "the view is at commit {0}, or the log begins after it"


class BadRange(Refused):
    number, cause = 13, "the end of a range is not after its start"


class Spent(Refused):
    number, cause = 14, "a counter is at its greatest value"


class WrongPass(Refused):
    number, cause = 15, "the pass is not of this index, or the call is of another pass"


class OtherVersion(Refused):
    number, has_detail, cause = 16, True, "the row has version {0}, not the one asked for; 0 means no row"


REFUSALS: Dict[int, Type[Refused]] = {kind.number: kind for kind in Refused.__subclasses__()}


# ---- values

@dataclass(frozen=True)
class Row:
    """A row: the number of the commit that wrote it last, and its columns, in the order in which they were asked."""

    version: int
    columns: Tuple[bytes, ...]


Pairs = List[Tuple[bytes, Row]]


@dataclass(frozen=True)
class Page:
    """What a view shows: the number of commits at which it is, how many rows it has then, for each column the sum
    of its amounts (its bytes as a number, the highest first; over eight bytes count 0), and the rows asked for."""

    at: int
    count: int
    sums: Tuple[int, ...]
    rows: Pairs


@dataclass(frozen=True)
class Totals:
    """The totals of a view: the number of commits at which it is, how many rows it has then, and for each column the
    sum of its amounts, as of a `Page`."""

    at: int
    count: int
    sums: Tuple[int, ...]


@dataclass(frozen=True)
class Delta:
    """What a commit did to a key: the row before, and the row after, or None."""

    number: int
    key: bytes
    before: Optional[Row]
    after: Optional[Row]


class Tidied(enum.IntEnum):
    """What a tidy did."""

    NOTHING = 0
    EMPTY_BORDER = 1
    LONE_CHILD = 2
    LONE_ROOT_CHILD = 3
    EMPTY_LAYER = 4


# ---- views

@dataclass(frozen=True)
class AnyRow:
    """Each row."""


@dataclass(frozen=True)
class Equals:
    """The rows whose column is exactly these bytes."""

    column: int
    value: bytes


@dataclass(frozen=True)
class AtLeast:
    """The rows whose column, as a number with the highest byte first, is this at least."""

    column: int
    least: int


RowTest = Union[AnyRow, Equals, AtLeast]


@dataclass(frozen=True)
class Range:
    """The rows of the keys from `lo` on that are before `hi` (None: to the last key), and pass the test."""

    lo: bytes = b""
    hi: Optional[bytes] = None
    test: RowTest = AnyRow()


@dataclass(frozen=True)
class Prefix:
    """The rows of the keys that begin with `key`, and pass the test."""

    key: bytes
    test: RowTest = AnyRow()


ViewSpec = Union[Range, Prefix]


# ---- arguments

Sets = Union[bytes, Mapping[int, bytes], Sequence[Tuple[int, bytes]]]


def set_pairs(sets: Sets) -> List[Tuple[int, bytes]]:
    """The columns that a put sets, with their numbers: plain bytes are column 0. Raises TypeError for another type."""
    if isinstance(sets, (bytes, bytearray, memoryview)):
        return [(0, bytes(sets))]
    try:
        pairs = [(column, value) for column, value in (sets.items() if isinstance(sets, Mapping) else sets)]
    except (TypeError, ValueError):
        raise unfit_sets(sets) from None
    if isinstance(sets, str):
        raise unfit_sets(sets)
    return [(checked_column(column), checked_bytes(value, "a column")) for column, value in pairs]


def unfit_sets(sets: Any) -> TypeError:
    return TypeError("what a put sets must be bytes, a mapping of columns to bytes, or a sequence of such pairs, not "
                     + type(sets).__name__)


def checked_bytes(value: Any, what: str) -> bytes:
    """Bytes, copied if they could change. Raises TypeError for another type."""
    if type(value) is bytes:
        return value
    if not isinstance(value, (bytes, bytearray, memoryview)):
        raise TypeError(f"{what} must be bytes, not {type(value).__name__}")
    return bytes(value)


def checked_key(value: Any, what: str = "a key") -> bytes:
    """A key. Raises TypeError for another type, and `KeyTooLong` for one that no row can have."""
    key = checked_bytes(value, what)
    if len(key) > MAX_KEY_BYTES:
        raise KeyTooLong()
    return key


def checked_int(value: Any, what: str) -> int:
    """A number. Raises TypeError for another type."""
    try:
        return operator.index(value)
    except TypeError:
        raise TypeError(f"{what} must be an int, not {type(value).__name__}") from None


def checked_number(value: Any, what: str, most: int = MAX_NUMBER) -> int:
    """A number that fits its field. Raises TypeError for another type, and `TooLong` for one that doesn't fit."""
    number = checked_int(value, what)
    if not 0 <= number <= most:
        raise TooLong(f"{what} must be from 0 to {most}, not {number}")
    return number


def checked_view(number: Any) -> int:
    """The number of a view. Raises TypeError for another type, and `TooLong` for one that doesn't fit its field."""
    return checked_number(number, "the number of a view")


def checked_limit(limit: Any) -> int:
    """A limit. Raises TypeError for another type, and `BadLimit` for one that doesn't fit its field of two bytes."""
    number = checked_int(limit, "a limit")
    if not 0 <= number < 256 ** 2:
        raise BadLimit()
    return number


def checked_count(count: Any, what: str) -> int:
    """A count of rows, of any size. Raises TypeError for another type, and `TooLong` if it is negative."""
    number = checked_int(count, what)
    if number < 0:
        raise TooLong(f"{what} must be 0 or more, not {number}")
    return number


def checked_test(test: Any) -> RowTest:
    """A test of rows. Raises TypeError for another type."""
    if not isinstance(test, (AnyRow, Equals, AtLeast)):
        raise TypeError(f"a test must be AnyRow, Equals or AtLeast, not {type(test).__name__}")
    return test


def checked_spec(spec: Any) -> ViewSpec:
    """What a view is of. Raises TypeError for another type."""
    if not isinstance(spec, (Range, Prefix)):
        raise TypeError(f"a view must be of a Range or a Prefix, not {type(spec).__name__}")
    return spec


def checked_columns(columns: Any) -> List[int]:
    """Numbers of columns. Raises TypeError for what isn't a sequence of ints, and `BadColumn` for one above a byte."""
    try:
        listed = list(columns)
    except TypeError:
        raise TypeError(f"columns must be a sequence of ints, not {type(columns).__name__}") from None
    return [checked_column(column) for column in listed]


def checked_column(column: Any) -> int:
    """The number of a column. Raises TypeError for another type, and `BadColumn` for one above a byte."""
    number = checked_int(column, "the number of a column")
    if not 0 <= number <= 255:
        raise BadColumn()
    return number


# ---- the order of keys

def key_after(key: bytes) -> Optional[bytes]:
    """The least key after this one, of at most `MAX_KEY_BYTES` bytes; None if there is none."""
    if len(key) < MAX_KEY_BYTES:
        return key + b"\0"
    # no longer key begins with it, so the next key is greater in some byte: in the last one that can be greater
    return prefix_end(key)


def prefix_end(prefix: bytes) -> Optional[bytes]:
    """The least key after all those that begin with `prefix`; None if there is none."""
    front = prefix.rstrip(b"\xff")
    return front[:-1] + bytes((front[-1] + 1,)) if front else None
