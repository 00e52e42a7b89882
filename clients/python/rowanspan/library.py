"""The C library, through ctypes: its file, its functions and values, and how its answers are read."""
from __future__ import annotations

import ctypes
import os
from pathlib import Path
from types import SimpleNamespace
from typing import Any, Callable, Dict, List, Optional, Sequence, Tuple, TypeVar, Union

from .batches import Change, Condition
from .core import (AtLeast, Delta, Equals, NoLibrary, Page, Pairs, Row, RowTest, Sets, Totals, checked_bytes,
                   checked_column, checked_columns, checked_number, checked_test, set_pairs)
from .places import PACKAGE, checkout, none_at

Value = TypeVar("Value")


# ---- answers

class Reader:
    """Reads the fields of an answer, one after another: numbers have eight bytes, the highest first, and bytes and
    lists come after their count."""

    def __init__(self, answer: bytes) -> None:
        self._answer = answer
        self._at = 0

    def take(self, count: int) -> bytes:
        taken = self._answer[self._at:self._at + count]
        if len(taken) != count:
            raise NoLibrary("an answer ends inside a field")
        self._at += count
        return taken

    def number(self) -> int:
        return int.from_bytes(self.take(8), "big")

    def string(self) -> bytes:
        return self.take(self.number())

    def items(self, item: Callable[[], Value]) -> List[Value]:
        return [item() for _ in range(self.number())]

    def row(self) -> Row:
        version = self.number()
        return Row(version, tuple(self.items(self.string)))

    def maybe_row(self) -> Optional[Row]:
        return self.row() if self.number() else None

    def maybe_rows(self) -> List[Optional[Row]]:
        return self.items(self.maybe_row)

    def pair(self) -> Tuple[bytes, Row]:
        key = self.string()
        return key, self.row()

    def pairs(self) -> Pairs:
        return self.items(self.pair)

    def totals(self) -> Totals:
        at, count = self.number(), self.number()
        return Totals(at, count, tuple(self.items(lambda: self.number() << 64 | self.number())))

    def page(self) -> Page:
        totals = self.totals()
        return Page(totals.at, totals.count, totals.sums, self.pairs())

    def delta(self) -> Delta:
        number, key = self.number(), self.string()
        before = self.maybe_row()
        return Delta(number, key, before, self.maybe_row())

    def deltas(self) -> List[Delta]:
        return self.items(self.delta)


# ---- the library

NAME = "librowanspan.so"


class Handle(ctypes.Structure):
    _fields_ = [("at", ctypes.c_void_p), ("is_open", ctypes.c_bool)]


class LogHandle(ctypes.Structure):
    _fields_ = [("at", ctypes.c_void_p), ("is_open", ctypes.c_bool)]


class Log(ctypes.Structure):
    """What the library takes as the log of an index, and whether the log may lack a commit, which it doesn't read."""

    _fields_ = [("handle", LogHandle), ("lags", ctypes.c_bool)]


class KeyBytes(ctypes.Structure):
    _fields_ = [("at", ctypes.c_char_p), ("length", ctypes.c_size_t)]


class ColumnSet(ctypes.Structure):
    _fields_ = [("column", ctypes.c_uint8), ("at", ctypes.c_char_p), ("length", ctypes.c_size_t)]


class BatchCondition(ctypes.Structure):
    _fields_ = [("key", ctypes.c_char_p), ("key_length", ctypes.c_size_t), ("version", ctypes.c_uint64)]


class BatchChange(ctypes.Structure):
    _fields_ = [("key", ctypes.c_char_p), ("key_length", ctypes.c_size_t), ("sets", ctypes.POINTER(ColumnSet)),
                ("count", ctypes.c_size_t), ("removes", ctypes.c_bool)]


class ViewTest(ctypes.Structure):
    _fields_ = [("kind", ctypes.c_uint8), ("column", ctypes.c_uint8), ("least", ctypes.c_uint64),
                ("at", ctypes.c_char_p), ("length", ctypes.c_size_t)]


(DONE, BAD_BATCH, CLOSED, ABSENT, NO_ROOM, CURRENT, FOLDER_FAILED, FOLDER_BUSY, FOLDER_DAMAGED, DISK_FULL, DISK_FAILED,
 UNMET) = (0, 17, 100, 102, 103, 104, 106, 107, 108, 109, 110, 113)

HANDLE, LOG = ctypes.POINTER(Handle), ctypes.POINTER(LogHandle)
TOLD = ctypes.POINTER(ctypes.c_uint64)
U16, U32, U64 = ctypes.c_uint16, ctypes.c_uint32, ctypes.c_uint64
BYTES: List[Any] = [ctypes.c_char_p, ctypes.c_size_t]
ROOM: List[Any] = [ctypes.c_void_p, ctypes.c_size_t]

# of each function, the types of the parameters between the handle and the number that the call reports
PARAMETERS: Dict[str, List[Any]] = {
    "put": [*BYTES, ctypes.POINTER(ColumnSet), ctypes.c_size_t],
    "put_if": [*BYTES, ctypes.POINTER(ColumnSet), ctypes.c_size_t, U64],
    "remove": BYTES,
    "tidy": BYTES,
    "get": [*BYTES, *BYTES, *ROOM],
    "get_many": [ctypes.POINTER(KeyBytes), ctypes.c_size_t, *BYTES, *ROOM],
    "range": [*BYTES, U16, *BYTES, *ROOM],
    "range_back": [ctypes.c_bool, *BYTES, U16, *BYTES, *ROOM],
    "count": [*BYTES, ctypes.c_bool, *BYTES, U32],
    "build_prefix": [*BYTES, ctypes.POINTER(ViewTest)],
    "build_from": [*BYTES, ctypes.POINTER(ViewTest)],
    "build_between": [*BYTES, *BYTES, ctypes.POINTER(ViewTest)],
    "view": [U64, U64, *BYTES, U16, *ROOM],
    "totals": [U64, U64, *ROOM],
    "feed": [U64, U16, *ROOM],
    "apply": [U64],
    "drop": [U64],
    "advance": [],
    "collect": [],
    "commits": [],
    "len": [],
    "nodes": [],
    "columns": [],
}
# the types of the parameters of the function for batches: the last two are the numbers that the call reports
OF_BATCHES: List[Any] = [HANDLE, ctypes.POINTER(BatchCondition), ctypes.c_size_t, ctypes.POINTER(BatchChange),
                         ctypes.c_size_t, TOLD, ctypes.c_size_t, TOLD, TOLD]
# of each function for a folder, the types of its parameters
OF_FOLDERS: Dict[str, List[Any]] = {
    "open_folder": [HANDLE, LOG, *BYTES, U64, U64, U64, U64, *ROOM, TOLD],
    "log_commits": [HANDLE, LOG, TOLD],
    "log_sync": [LOG, TOLD],
    "log_durable": [LOG, TOLD],
    "log_checkpoint": [HANDLE, LOG, ctypes.c_bool, TOLD],
    "log_close": [LOG],
}


def paths(named: Optional[Union[str, Path]]) -> List[Path]:
    """Where the library may be: the path that the caller or ROWANSPAN_LIBRARY names, or else the package's own folder
    and the folder dist of the checkout."""
    path = named if named is not None else os.environ.get("ROWANSPAN_LIBRARY") or None
    if path is not None:
        return [Path(path)]
    top = checkout()
    return [PACKAGE / NAME] if top is None else [PACKAGE / NAME, top / "dist" / NAME]


def function(library: ctypes.CDLL, name: str, parameters: Sequence[Any]) -> Any:
    """A proved function of the library."""
    found = getattr(library, f"rowanspan_raw_{name}")
    found.restype, found.argtypes = U16, parameters
    return found


def loaded(named: Optional[Union[str, Path]]) -> SimpleNamespace:
    """The functions of the library, by their names. During a call ctypes releases the interpreter's lock."""
    tried = paths(named)
    found = next((path for path in tried if path.exists()), None)
    if found is None:
        raise NoLibrary(none_at("library", tried))
    try:
        # (absolute: a name without a slash would be looked up elsewhere)
        library = ctypes.CDLL(os.path.abspath(found))
        kinds: Dict[str, List[Any]] = {
            "open": [HANDLE, U64, U64, U64], "close": [HANDLE], "batch": OF_BATCHES, **OF_FOLDERS,
            **{name: [HANDLE, *parameters, TOLD] for name, parameters in PARAMETERS.items()}}
        return SimpleNamespace(**{name: function(library, name, kind) for name, kind in kinds.items()})
    except (OSError, AttributeError) as fault:
        raise NoLibrary(str(fault)) from fault


def spelled(value: Any, what: str) -> Tuple[bytes, int]:
    """Bytes and their length, as the library takes them."""
    checked = checked_bytes(value, what)
    return checked, len(checked)


def many_keys(keys: Sequence[bytes]) -> Tuple[Any, int]:
    """Keys, as the library takes them, and how many they are."""
    listed = [KeyBytes(key, len(key)) for key in keys]
    return (KeyBytes * max(1, len(listed)))(*listed), len(listed)


def column_numbers(columns: Optional[Sequence[int]]) -> Tuple[bytes, int]:
    """Numbers of columns, as the library takes them; none are all."""
    if columns is None:
        return b"", 0
    return spelled(bytes(checked_columns(columns)), "columns")


def column_sets(sets: Sets) -> Tuple[Any, int]:
    """Columns that are set, as the library takes them, and how many they are."""
    pairs = [ColumnSet(column, value, len(value)) for column, value in set_pairs(sets)]
    return (ColumnSet * max(1, len(pairs)))(*pairs), len(pairs)


def batch_conditions(conditions: Sequence[Condition]) -> Tuple[Any, int]:
    """The conditions of a batch, as the library takes them, and how many they are."""
    listed = [BatchCondition(key, len(key), version) for key, version in conditions]
    return (BatchCondition * max(1, len(listed)))(*listed), len(listed)


def batch_changes(changes: Sequence[Change]) -> Tuple[Any, int]:
    """The changes of a batch, as the library takes them, and how many they are."""
    listed = [BatchChange(key, len(key), *column_sets(() if sets is None else sets), sets is None)
              for key, sets in changes]
    return (BatchChange * max(1, len(listed)))(*listed), len(listed)


def view_test(test: RowTest) -> ViewTest:
    """A test of rows, as the library takes it."""
    checked = checked_test(test)
    if isinstance(checked, Equals):
        return ViewTest(1, checked_column(checked.column), 0, *spelled(checked.value, "a column"))
    if isinstance(checked, AtLeast):
        return ViewTest(2, checked_column(checked.column), checked_number(checked.least, "the least amount"), b"", 0)
    return ViewTest(0, 0, 0, b"", 0)
