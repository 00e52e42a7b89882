"""The index of the stand-in: a plain dict of rows, its views, and perhaps a log of its commits. It follows docs/WIRE.md
alone."""
from __future__ import annotations

import threading
from typing import Any, Dict, List, Optional, Sequence, Tuple

import rowanspan as wire
from rowanspan import (AnswerKind, AnyRow, AtLeast, CountRange, Equals, Get, GetMany, GetRange, GetRangeBack, Listing,
                       Page, Pairs, Prefix, Put, PutIf, Query, Refused, Remove, Row, RowsAt, RowTest, Settled,
                       StandingView, Tidied, Tidy, ViewDrop, ViewNo, ViewRead, ViewSpec, Wait, Waited, WaitDurable,
                       set_pairs, spelled_number)
from stand_in_log import Change, FileLog, Log
from stand_in_wire import spelled_done, spelled_page, spelled_pairs, spelled_refusal, spelled_row, spelled_rows_at

MAX_COLUMN_BYTES = 64
MAX_VIEWS = 64


# ---- rows

def amount(column: bytes) -> int:
    return int.from_bytes(column, "big") if len(column) <= 8 else 0


def passes(test: RowTest, row: Row) -> bool:
    if isinstance(test, Equals):
        return row.columns[test.column] == test.value
    return not isinstance(test, AtLeast) or amount(row.columns[test.column]) >= test.least


def belongs(spec: ViewSpec, key: bytes, row: Row) -> bool:
    if isinstance(spec, Prefix):
        return key.startswith(spec.key) and passes(spec.test, row)
    return spec.lo <= key and (spec.hi is None or key < spec.hi) and passes(spec.test, row)


def shown(row: Row, columns: Sequence[int]) -> Row:
    return Row(row.version, tuple(row.columns[column] for column in columns)) if columns else row


# ---- the index

class PlainIndex:
    """The rows and the views, under one lock, and perhaps a log of the commits. Each answer is its bytes."""

    def __init__(self, columns: int, log: Optional[Log] = None) -> None:
        self._lock = threading.Lock()
        # says that there is another commit, that a view was dropped, or that the server ends
        self._changed = threading.Condition(self._lock)
        self.is_ending = False
        self._columns = columns
        self._rows: Dict[bytes, Row] = {}
        self._views: Dict[int, ViewSpec] = {}
        self._built = 0
        self.log = log
        self.commits = 0
        for change in log.changes if isinstance(log, FileLog) else ():
            self._commit(change)
        self.asked: List[Query[Any]] = []

    @property
    def events(self) -> int:
        """How many queries were asked."""
        return len(self.asked)

    def commits_and_rows(self) -> Tuple[int, int]:
        """How many commits and how many rows there are, at one moment."""
        with self._lock:
            return self.commits, len(self._rows)

    def answer(self, query: Query[Any]) -> bytes:
        with self._changed:
            self.asked.append(query)
            try:
                return self._answer(query)
            except Refused as refusal:
                return spelled_refusal(refusal)
            finally:
                self._changed.notify_all()

    def listing(self) -> Listing:
        """All views: each is up to date at once."""
        with self._lock:
            return Listing(self.commits, [StandingView(ViewNo(number), self.commits, len(self._members(spec)), spec)
                                          for number, spec in self._views.items()])

    def waited(self, query: Wait) -> Waited:
        """Waits until there are `commit` commits, at most the query's time. Raises `NoSuchView`."""
        with self._changed:
            self._changed.wait_for(lambda: self.is_ending or self.commits >= query.commit
                                   or query.view not in (None, *self._views), query.patience())
            if query.view is not None and query.view not in self._views:
                raise wire.NoSuchView()
            return Waited(self.commits >= query.commit, self.commits, 0 if query.view is None else self.commits)

    def settled(self, query: WaitDurable) -> Settled:
        """Waits until `commit` commits are durable, at most the query's time. Raises `InMemory`."""
        if self.log is None:
            raise wire.InMemory()
        log: Log = self.log
        with self._changed:
            self._changed.wait_for(lambda: self.is_ending or log.durable >= query.commit, query.patience())
            return Settled(log.durable >= query.commit, self.commits, log.durable)

    def hindrance(self) -> Optional[Refused]:
        """Why rows can't be changed now."""
        with self._lock:
            return None if self.log is None else self.log.hindrance()

    def sync(self) -> None:
        """All commits are durable now."""
        with self._changed:
            if self.log is not None:
                self.log.sync()
            self._changed.notify_all()

    def end(self) -> None:
        """Nobody waits any longer."""
        with self._changed:
            self.is_ending = True
            self._changed.notify_all()

    def _answer(self, query: Query[Any]) -> bytes:
        if isinstance(query, Get):
            return self._get(query)
        if isinstance(query, Put):
            return self._put(query.key, set_pairs(query.sets))
        if isinstance(query, PutIf):
            return self._put_if(query)
        if isinstance(query, Remove):
            return self._remove(query)
        if isinstance(query, GetRange):
            return self._range(query)
        if isinstance(query, Tidy):
            self._check_key(query.key)
            return self._done(AnswerKind.TIDIED, self.commits, spelled_number(Tidied.NOTHING, 1))
        return self._answer_of_moment(query)

    def _answer_of_moment(self, query: Query[Any]) -> bytes:
        if isinstance(query, GetMany):
            return self._get_many(query)
        if isinstance(query, GetRangeBack):
            return self._range_back(query)
        if isinstance(query, CountRange):
            return self._count(query)
        return self._answer_of_view(query)

    def _answer_of_view(self, query: Query[Any]) -> bytes:
        if isinstance(query, wire.Build):
            return self._build(query.spec)
        if isinstance(query, ViewRead):
            return self._view(query)
        assert isinstance(query, ViewDrop)
        if self._views.pop(query.view, None) is None:
            raise wire.NoSuchView()
        return spelled_number(AnswerKind.DROPPED, 1)

    def _done(self, kind: AnswerKind, from_: int, rest: bytes = b"") -> bytes:
        return spelled_done(kind, from_, self.commits, rest)

    def _commit(self, change: Change) -> None:
        self.commits += 1
        if change.row is None:
            self._rows.pop(change.key, None)
        else:
            self._rows[change.key] = change.row

    def _committed(self, change: Change) -> bytes:
        """Makes a commit, and writes it to the log."""
        self._commit(change)
        if self.log is not None:
            self.log.add(self.commits, change)
        return self._done(AnswerKind.COMMITTED, self.commits - 1, spelled_number(self.commits, 8))

    def _check_key(self, key: bytes) -> None:
        if len(key) > wire.MAX_KEY_BYTES:
            raise wire.KeyTooLong()

    def _check_columns(self, columns: Sequence[int]) -> None:
        if len(set(columns)) < len(columns) or any(column >= self._columns for column in columns):
            raise wire.BadColumn()

    def _check_bytes(self, value: bytes) -> None:
        if len(value) > MAX_COLUMN_BYTES:
            raise wire.ColumnTooLong()

    def _check_sets(self, key: bytes, sets: List[Tuple[int, bytes]]) -> None:
        self._check_key(key)
        self._check_columns([column for column, _ in sets])
        for _, value in sets:
            self._check_bytes(value)

    def _check_limit(self, limit: int) -> None:
        if not 1 <= limit <= wire.MAX_LIMIT:
            raise wire.BadLimit()

    def _check_test(self, test: RowTest) -> None:
        if not isinstance(test, AnyRow):
            self._check_columns([test.column])
        if isinstance(test, Equals):
            self._check_bytes(test.value)

    def _check_spec(self, spec: ViewSpec) -> None:
        if isinstance(spec, Prefix):
            self._check_key(spec.key)
            return self._check_test(spec.test)
        self._check_key(spec.lo)
        self._check_key(spec.hi or b"")
        self._check_test(spec.test)
        if spec.hi is not None and spec.hi <= spec.lo:
            raise wire.BadRange()

    def _get(self, query: Get) -> bytes:
        self._check_key(query.key)
        self._check_columns(query.columns)
        row = self._rows.get(query.key)
        if row is None:
            return self._done(AnswerKind.ABSENT, self.commits)
        return self._done(AnswerKind.ROW, self.commits, spelled_row(shown(row, query.columns)))

    def _get_many(self, query: GetMany) -> bytes:
        for key in query.keys:
            self._check_key(key)
        self._check_columns(query.columns)
        if len(query.keys) > wire.MAX_LIMIT:
            raise wire.BadLimit()
        rows = [self._rows.get(key) for key in query.keys]
        return spelled_rows_at(RowsAt(self.commits, [row and shown(row, query.columns) for row in rows]))

    def _put(self, key: bytes, sets: List[Tuple[int, bytes]]) -> bytes:
        self._check_sets(key, sets)
        before = self._rows.get(key)
        columns = list(before.columns) if before else [b""] * self._columns
        for column, value in sets:
            columns[column] = value
        return self._committed(Change(key, Row(self.commits + 1, tuple(columns))))

    def _put_if(self, query: PutIf) -> bytes:
        sets = set_pairs(query.sets)
        self._check_sets(query.key, sets)
        before = self._rows.get(query.key)
        found = before.version if before else 0
        if found != query.version:
            raise wire.OtherVersion(found)
        return self._put(query.key, sets)

    def _remove(self, query: Remove) -> bytes:
        self._check_key(query.key)
        if query.key not in self._rows:
            return self._done(AnswerKind.ABSENT, self.commits)
        return self._committed(Change(query.key, None))

    def _range(self, query: GetRange) -> bytes:
        self._check_key(query.start)
        self._check_columns(query.columns)
        self._check_limit(query.limit)
        keys = sorted(key for key in self._rows if key >= query.start)[:query.limit]
        pairs = [(key, shown(self._rows[key], query.columns)) for key in keys]
        return self._done(AnswerKind.ROWS, self.commits, spelled_pairs(pairs))

    def _range_back(self, query: GetRangeBack) -> bytes:
        self._check_key(query.stop or b"")
        self._check_columns(query.columns)
        self._check_limit(query.limit)
        keys = sorted((key for key in self._rows if query.stop is None or key < query.stop), reverse=True)
        pairs = [(key, shown(self._rows[key], query.columns)) for key in keys[:query.limit]]
        return self._done(AnswerKind.ROWS, self.commits, spelled_pairs(pairs))

    def _count(self, query: CountRange) -> bytes:
        if query.most > wire.MAX_COUNT:
            raise wire.BadLimit()
        self._check_key(query.start)
        self._check_key(query.stop or b"")
        count = sum(query.start <= key and (query.stop is None or key < query.stop) for key in self._rows)
        return self._done(AnswerKind.COUNTED, self.commits, spelled_number(min(count, query.most), 4))

    def _build(self, spec: ViewSpec) -> bytes:
        self._check_spec(spec)
        if len(self._views) == MAX_VIEWS:
            raise wire.TooManyViews()
        self._built += 1
        self._views[self._built] = spec
        return self._done(AnswerKind.BUILT, self.commits, spelled_number(self._built, 8))

    def _members(self, spec: ViewSpec) -> Pairs:
        return [(key, row) for key, row in sorted(self._rows.items()) if belongs(spec, key, row)]

    def _view(self, query: ViewRead) -> bytes:
        self._check_key(query.start)
        self._check_limit(query.limit)
        spec = self._views.get(query.view)
        if spec is None:
            raise wire.NoSuchView()
        if self.commits < query.floor:
            raise wire.Behind(self.commits)
        pairs = self._members(spec)
        sums = tuple(sum(amount(row.columns[place]) for _, row in pairs) for place in range(self._columns))
        rows = [pair for pair in pairs if pair[0] >= query.start][:query.limit]
        return spelled_page(Page(self.commits, len(pairs), sums, rows))
