"""Rowanspan inside this process, by librowanspan.so.

    from rowanspan import Index

    with Index() as index:
        commit = index.put(b"apple", b"red")       # plain bytes are column 0
        row = index.get(b"apple")                  # Row(version=commit, columns=(b"red",)), or None
        print(b"apple" in index, index[b"apple"])  # index[key] raises KeyError if there is no row
        for key, row in index.range(prefix=b"a"):
            print(key, row.columns)

The calls are those of the server's client, and so are the rows, the views and what is raised: to change from one to the
other, a program opens an `Index` or a `Client`. There are no pipelines here, and no queries as values. Batches and
transactions (batches.py), `feed`, `commits`, `nodes`, `columns`, `apply`, `keep_views`, `advance`, `collect` and
`checkpoint` are only here.

The rows of `Index(folder="rows")` are in a folder too, and survive the process (folder.py).

The library is the one that `Index` is given; without one, that of the environment's ROWANSPAN_LIBRARY; without it, that
in the package's own folder, or in the folder dist of the checkout. The most frequent calls are made by the extension
module (native.py), if it is there.

Any thread may call an index. It has a lock of its own, so its calls run one after another.
"""
from __future__ import annotations

import ctypes
from pathlib import Path
from types import TracebackType
from typing import Any, Callable, Iterable, List, Optional, Sequence, Tuple, Type, TypeVar, Union

from . import batches, core, mapping
# (the names that each of them lists in its `__all__` are names of this module too)
from .batches import *  # noqa: F401,F403
from .batches import BadBatch, Batch, Change, Condition, InFolder, Numbers, Transaction, Unmet, transacted
from .core import *  # noqa: F401,F403
from .core import (MAX_LIMIT, REFUSALS, Closed, Delta, NoLibrary, NotDurable, NotWritten, Page, Pairs, Prefix, Refused,
                   RowanspanError, Row, Sets, Tidied, Totals, ViewNo, ViewSpec, checked_bytes, checked_count,
                   checked_limit, checked_number, checked_spec, checked_view)
from .folder import CommitLog, Folder
from .former import client_of, is_of_client, options_of, signature_of
from .library import (ABSENT, BAD_BATCH, CLOSED, CURRENT, DONE, NO_ROOM, U64, UNMET, Handle, Reader, batch_changes,
                      batch_conditions, column_numbers, column_sets, loaded, many_keys, spelled, view_test)
from .mapping import *  # noqa: F401,F403
from .mapping import RowMap, View, number_of_view
from .native import calls_of
from .scans import bounds_of

__all__ = ["Index"]
__all__ += batches.__all__
__all__ += core.__all__
__all__ += mapping.__all__

# what a change returns: the number of its commit, or None if it has made none
Commit = TypeVar("Commit", bound=Optional[int])
# what is returned by what is done in a transaction
Value = TypeVar("Value")

# how many bytes of an answer there is room for at first
FIRST_ROOM = 4096
# what a count counts up to if it is given no number: no index has as many rows
ALL_ROWS = 2 ** 32 - 1
# after how many bytes more the log of a folder is shortened: 64 MiB
CHECKPOINT = 2 ** 26


class Index(RowMap):
    """An index in this process.

    It has `columns` columns (1 to 16). Its log holds up to `log_capacity` commits (1 to 65536) for the view that is
    furthest behind, and keeps the last `log_retention` for `feed`. Each change and each build brings the views to the
    newest commit, unless `keep_views` is False: then `apply` and the method `keep_views` do.

    A change that was made returns its number, also if memory ended before all views were at the newest commit. The
    views then lag, and the next change or build, or `keep_views`, brings them up to date.

    Its rows are in memory alone, and gone when the process ends, unless it is given a `folder`: then it has the rows of
    the folder, and the commit of each change is written to a log there. The folder is made if it is missing, but no
    folder above it. A crash of the process undoes no commit that was written, and no crash of the machine undoes those
    before a `settle`. The log is shortened after `checkpoint` bytes more, with the changes; if that is 0, only by the
    method `checkpoint`. If a commit can't be written, the change raises `NotWritten`, and is in memory alone. Each
    further change first writes what the log lacks, or raises `DiskFull` or `DiskFailed` and changes nothing. Reads
    continue.

    Any thread may call it, and close it. The index has a lock of its own, so calls run one after another, also those
    that only read: a call waits until that of another thread has ended. During a call of the library by ctypes, other
    threads of the program run. The extension module keeps the interpreter's lock, but while it writes to a folder: its
    calls are shorter than a change of threads, but for a page or a range of many rows.
    """

    def __new__(cls, *arguments: Any, **named: Any) -> Any:
        # for one release: a call as it was when `rowanspan.Index` was the client
        if cls is Index and is_of_client(arguments, named):
            return client_of(arguments, named)
        return super().__new__(cls)

    def __init__(self, columns: int = 1, log_capacity: int = 65536, log_retention: int = 0, *, keep_views: bool = True,
                 folder: Optional[Folder] = None, checkpoint: int = CHECKPOINT,
                 library: Optional[Union[str, Path]] = None, **former: int) -> None:
        capacity, retention = options_of(log_capacity, log_retention, former)
        asked = (checked_number(columns, "columns"), checked_number(capacity, "log_capacity"),
                 checked_number(retention, "log_retention"))
        least = checked_number(checkpoint, "checkpoint")
        self._library = loaded(library)
        self._handle = Handle()
        self._log = CommitLog(self._library, self._handle)
        # the calls of the extension module: each returns NotImplemented if it has done nothing
        self._native, self._lock = calls_of(self._library, self._handle, self._log.state, keep_views)
        self._room: Optional[ctypes.Array[ctypes.c_char]] = None
        self._keeps_views = keep_views
        self._views_lag = False
        if folder is None:
            self._raise_for(self._library.open(self._handle, *asked), 0)
        else:
            self._log.open(folder, *asked, least)

    __signature__ = signature_of(__init__)

    def __repr__(self) -> str:
        return f"<rowanspan.Index at {id(self):#x}{'' if self._handle.is_open else ', closed'}>"

    def __enter__(self) -> Index:
        return self

    def __exit__(self, kind: Optional[Type[BaseException]], fault: Optional[BaseException],
                 trace: Optional[TracebackType]) -> None:
        self.close()

    def __del__(self) -> None:
        # no other reference is left, so no call runs. The lock isn't taken: this may run in any thread, at any moment
        if hasattr(self, "_log"):
            self._log.close()
            self._library.close(self._handle)

    def close(self) -> None:
        """Ends the index, with its views, and frees its memory. With a folder, all commits are made durable, and the
        folder is free for others: a program that has to know whether they are calls `settle` before. Waits for the call
        of another thread to end. A second close does nothing."""
        with self._lock:
            self._log.close()
            self._library.close(self._handle)

    # -- calls of the library

    def _raise_for(self, status: int, told: int) -> None:
        if status == DONE:
            return
        if status == CLOSED:
            raise Closed("the index is closed")
        kind = REFUSALS.get(status)
        if kind is None:
            raise NoLibrary(f"the library answered {status}")
        raise kind(told) if kind.has_detail else kind()

    def _call(self, name: str, *arguments: Any) -> Tuple[int, int]:
        """Makes a call, for a caller that holds the lock; returns its status, if that is no refusal, and the number
        that the call reports."""
        told = U64()
        status: int = getattr(self._library, name)(self._handle, *arguments, told)
        if status not in (DONE, ABSENT, NO_ROOM, CURRENT):
            self._raise_for(status, told.value)
        return status, told.value

    def _number(self, name: str, *arguments: Any) -> int:
        """Makes a call; returns the number that it reports."""
        with self._lock:
            return self._call(name, *arguments)[1]

    def _read(self, name: str, *arguments: Any) -> Optional[Reader]:
        """Makes a call that answers with bytes, and copies them while it holds the lock; None if a key has no row."""
        with self._lock:
            # taken out while it is in use: a finalizer that calls the index in between makes one of its own
            room, self._room = self._room or ctypes.create_string_buffer(FIRST_ROOM), None
            try:
                status, length = self._call(name, *arguments, room, len(room))
                while status == NO_ROOM:
                    room = ctypes.create_string_buffer(2 * length)
                    status, length = self._call(name, *arguments, room, len(room))
                return None if status == ABSENT else Reader(ctypes.string_at(room, length))
            finally:
                self._room = room

    def _answer(self, name: str, *arguments: Any) -> Reader:
        reader = self._read(name, *arguments)
        if reader is None:
            raise NoLibrary("an answer is missing")
        return reader

    def _commit(self, name: str, *arguments: Any) -> Optional[int]:
        """Makes a change of a row, and writes its commit to the log of a folder; returns its number, or None if the key
        has no row."""
        with self._lock:
            self._log.begin()
            number = self._change(name, *arguments)
            if number is not None:
                self._log.end(number)
            return number

    def _durably(self, change: Callable[[], Commit]) -> Commit:
        """Makes a change, and its commit durable; if it made none, those that it saw. No call of another thread comes
        in between."""
        with self._lock:
            self._log.want_open()
            number = change()
            made: Optional[int] = number
            commit = self.commits() if made is None else made
            if self._log.durable() < commit:
                try:
                    self._log.sync()
                except RowanspanError as fault:
                    raise NotDurable(commit) from fault
            return number

    def _not_written(self, commit: int, status: int) -> None:
        """Raises what a change of the extension module does whose commit wasn't written."""
        with self._lock:
            try:
                self._log.fail(status)
            except RowanspanError as fault:
                raise NotWritten(commit) from fault

    def _change(self, name: str, *arguments: Any) -> Optional[int]:
        """Makes a change, and brings the views up to date after it; returns the number that the change reports, or None
        if a key has no row. What stops the views isn't raised: the change was made."""
        with self._lock:
            if self._views_lag:
                # before the change too: the log may be full of what they still need
                self._try_to_keep_views()
            status, number = self._call(name, *arguments)
            if status == ABSENT:
                return None
            if self._keeps_views:
                self._views_lag = True
                self._try_to_keep_views()
            return number

    def _try_to_keep_views(self) -> None:
        try:
            self._keep_views()
        except (Refused, MemoryError):
            pass

    def _keep_views(self) -> None:
        """Brings all views to the newest commit, for a caller that holds the lock."""
        while self._call("apply", 0)[0] == DONE:
            pass
        self._views_lag = False

    @staticmethod
    def _made(number: Optional[int]) -> int:
        """The number of a change that always reports one."""
        if number is None:
            raise NoLibrary("an answer is missing")
        return number

    # -- the calls of a map

    def _row(self, key: bytes, columns: Optional[Sequence[int]]) -> Optional[Row]:
        row: Optional[Row] = self._native.get(key, columns)
        if row is not NotImplemented:
            return row
        reader = self._read("get", *spelled(key, "a key"), *column_numbers(columns))
        return None if reader is None else reader.row()

    def get_many(self, keys: Iterable[bytes], columns: Optional[Sequence[int]] = None) -> List[Optional[Row]]:
        asked = [checked_bytes(key, "a key") for key in keys]
        rows = self._native_rows(asked, columns)
        if rows is not None:
            return rows
        return self._answer("get_many", *many_keys(asked), *column_numbers(columns)).maybe_rows()

    def _native_rows(self, keys: Sequence[bytes], columns: Optional[Sequence[int]]) -> Optional[List[Optional[Row]]]:
        """The rows of keys by the extension module, whose gets take less time than one call by ctypes; None if there is
        no module, or if it doesn't return each of them."""
        if not 0 < len(keys) <= MAX_LIMIT:
            return None
        rows: List[Optional[Row]] = []
        # no call of another thread comes in between
        with self._lock:
            for key in keys:
                row = self._native.get(key, columns)
                if row is NotImplemented:
                    return None
                rows.append(row)
        return rows

    def put(self, key: bytes, sets: Sets, *, durable: bool = False) -> int:
        if durable:
            return self._durably(lambda: self.put(key, sets))
        number: int = self._native.put(self, key, sets)
        if number is not NotImplemented:
            return number
        return self._made(self._commit("put", *spelled(key, "a key"), *column_sets(sets)))

    def put_if(self, key: bytes, sets: Sets, version: int, *, durable: bool = False) -> int:
        if durable:
            return self._durably(lambda: self.put_if(key, sets, version))
        number: int = self._native.put_if(self, key, sets, version)
        if number is not NotImplemented:
            return number
        return self._made(self._commit("put_if", *spelled(key, "a key"), *column_sets(sets),
                                       checked_number(version, "a version")))

    def remove(self, key: bytes, *, durable: bool = False) -> Optional[int]:
        if durable:
            return self._durably(lambda: self.remove(key))
        number: Optional[int] = self._native.remove(self, key)
        if number is not NotImplemented:
            return number
        return self._commit("remove", *spelled(key, "a key"))

    def _taken(self, key: bytes, durable: bool) -> Optional[Row]:
        # a get and a remove, between which no other thread's call comes
        with self._lock:
            return super()._taken(key, durable)

    # -- batches

    def batch(self) -> Batch:
        """A batch: changes that are made as one at the end of its `with` block, if its conditions hold. Raises
        nothing; the end of the block does."""
        return Batch(self)

    def transaction(self) -> Transaction:
        """A transaction: changes that are made as one at the end of its `with` block, if the rows that it has read are
        unchanged. Raises nothing; the end of the block does."""
        return Transaction(self)

    def transact(self, change: Callable[[Transaction], Value], tries: int = 100) -> Value:
        """Calls `change` with a transaction, makes that, and returns what `change` returned. If a row that it has read
        was changed meanwhile, nothing was changed, and it is called again, with a new transaction: so let it do nothing
        else. It is called at most `tries` times; then this raises `Unmet`. Raises what the end of a `Transaction` does.
        """
        return transacted(self, change, tries)

    def _batch(self, conditions: Sequence[Condition], changes: Sequence[Change]) -> Tuple[int, Numbers]:
        """Makes a batch, and brings the views up to date after it; returns the number of commits then, and those of its
        changes."""
        of_conditions, of_changes = batch_conditions(conditions), batch_changes(changes)
        numbers, told, found = (U64 * max(1, len(changes)))(), U64(), U64()
        with self._lock:
            if self._log.is_open:
                raise InFolder("an index with a folder makes no batches, and nothing changed")
            if self._views_lag:
                self._try_to_keep_views()
            status = self._library.batch(self._handle, *of_conditions, *of_changes, numbers, len(changes), told, found)
            if status == UNMET:
                raise Unmet(told.value, conditions[told.value][0], found.value)
            if status == BAD_BATCH:
                raise BadBatch()
            self._raise_for(status, told.value)
            if self._keeps_views:
                self._views_lag = True
                self._try_to_keep_views()
        return told.value, [number or None for number in numbers[:len(changes)]]

    # -- reads of several rows

    def first(self, start: bytes = b"", limit: int = MAX_LIMIT, columns: Optional[Sequence[int]] = None) -> Pairs:
        pairs: Pairs = self._native.range(start, limit, columns)
        if pairs is not NotImplemented:
            return pairs
        return self._answer("range", *spelled(start, "a key"), checked_limit(limit),
                            *column_numbers(columns)).pairs()

    def last(self, stop: Optional[bytes] = None, limit: int = MAX_LIMIT,
             columns: Optional[Sequence[int]] = None) -> Pairs:
        pairs: Pairs = self._native.range_back(stop, limit, columns)
        if pairs is not NotImplemented:
            return pairs
        before = spelled(b"" if stop is None else stop, "a key")
        return self._answer("range_back", stop is not None, *before, checked_limit(limit),
                            *column_numbers(columns)).pairs()

    def tidy(self, key: bytes) -> Tidied:
        """Takes out at most one node that is no longer wanted near the place of a key, after removes; returns which
        kind. Changes no row. `collect` frees it."""
        return Tidied(self._number("tidy", *spelled(key, "a key")))

    def count(self, start: bytes = b"", stop: Optional[bytes] = None, *, prefix: Optional[bytes] = None,
              most: Optional[int] = None) -> int:
        begin, end = bounds_of(start, stop, prefix)
        most_rows = ALL_ROWS if most is None else min(checked_count(most, "the most that is counted"), ALL_ROWS)
        number: int = self._native.count(begin, end, most_rows)
        if number is not NotImplemented:
            return number
        return self._number("count", *spelled(begin, "a key"), end is not None,
                            *spelled(b"" if end is None else end, "a key"), most_rows)

    def __len__(self) -> int:
        """How many rows there are, without a walk over them. An index without rows is false."""
        number: int = self._native.len()
        if number is not NotImplemented:
            return number
        return self._number("len")

    def _build(self, spec: ViewSpec) -> ViewNo:
        checked = checked_spec(spec)
        test = view_test(checked.test)
        if isinstance(checked, Prefix):
            number = self._change("build_prefix", *spelled(checked.key, "a key"), test)
        elif checked.hi is None:
            number = self._change("build_from", *spelled(checked.lo, "a key"), test)
        else:
            number = self._change("build_between", *spelled(checked.lo, "a key"), *spelled(checked.hi, "a key"), test)
        return ViewNo(self._made(number))

    def _page(self, number: int, floor: int, start: bytes, limit: int) -> Page:
        page: Page = self._native.view(number, floor, start, limit)
        if page is not NotImplemented:
            return page
        return self._answer("view", checked_view(number), checked_number(floor, "a floor"),
                            *spelled(start, "a key"), checked_limit(limit)).page()

    def _totals(self, number: int, floor: int) -> Totals:
        totals = self._native.totals(number, floor)
        if totals is not NotImplemented:
            return Totals(*totals)
        return self._answer("totals", checked_view(number), checked_number(floor, "a floor")).totals()

    def _drop(self, number: int) -> None:
        self._number("drop", checked_view(number))

    # -- views, by hand

    def apply(self, view: Union[View, int] = 0) -> Optional[int]:
        """Advances a view by one commit, or with 0 the one that is furthest behind. Returns the number of commits at
        which it then is, or None if there was nothing to do."""
        number = number_of_view(self, view)
        with self._lock:
            status, at = self._call("apply", number)
        return None if status == CURRENT else at

    def keep_views(self) -> None:
        """Brings all views to the newest commit. Raises what stops it, such as `NoMemory`; the commits that were
        applied by then stay applied."""
        with self._lock:
            self._keep_views()

    # -- the folder

    def settle(self) -> int:
        """Makes all commits durable: no crash undoes them. Returns the number of the last one. Raises `InMemory` if
        there is no folder, `DiskFull` and `DiskFailed`."""
        with self._lock:
            self._log.want_open()
            return self._log.sync()

    def durable(self) -> int:
        """The number of commits that are durable: no crash undoes them. Raises `InMemory` if there is no folder."""
        with self._lock:
            self._log.want_open()
            return self._log.durable()

    def checkpoint(self) -> None:
        """Shortens the log of the folder at once: it continues in the other file, to which all rows are copied. All
        commits are durable then. Raises `InMemory` if there is no folder, `DiskFull` and `DiskFailed`."""
        with self._lock:
            self._log.want_open()
            self._log.checkpoint()

    # -- commits and nodes

    def feed(self, from_: int = 0, limit: int = MAX_LIMIT) -> List[Delta]:
        """What the commits after the first `from_` did, in their order, 1 to 1000 of them at most. Raises `Behind`
        if some of them were trimmed, with the number after which they are there."""
        return self._answer("feed", checked_number(from_, "the number of a commit"), checked_limit(limit)).deltas()

    def commits(self) -> int:
        """How many commits were made."""
        return self._number("commits")

    def nodes(self) -> int:
        """How many numbers of nodes are occupied."""
        return self._number("nodes")

    def columns(self) -> int:
        """How many columns a row has."""
        return self._number("columns")

    def advance(self) -> int:
        """Begins the next epoch; returns its number."""
        return self._number("advance")

    def collect(self) -> int:
        """Frees the nodes that tidies took out; returns how many."""
        return self._number("collect")
