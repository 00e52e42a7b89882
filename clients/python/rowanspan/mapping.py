"""An index as a map from keys to rows, and a view as an object: what the client and the embedded index share."""
from __future__ import annotations

import abc
import enum
from typing import Any, Callable, Iterable, Iterator, List, Optional, Sequence, Tuple, Type, TypeVar, Union, overload

from .core import (MAX_LIMIT, NoSuchView, OtherVersion, Page, Pairs, RowanspanError, Row, Sets, Tidied, Totals,
                   ViewNo, ViewSpec, WrongIndex, checked_bytes, checked_columns, checked_count, checked_key,
                   checked_number, checked_view, set_pairs)
from .scans import RowPairs, bounds_of, scanned, scanned_back

__all__ = ["RowMap", "View"]

Default = TypeVar("Default")


class NoDefault(enum.Enum):
    """What `pop` has as its default if it is given none."""

    NONE = enum.auto()


class RowMap(abc.ABC):
    """The calls of an index that are the same for the client of a server and for an index in this process.

    A key that isn't bytes is a TypeError.
    """

    # without them a loop over an index would ask for the keys 0, 1, .., or .., 1, 0
    __iter__ = None
    __reversed__ = None

    def __reduce_ex__(self, protocol: Any) -> Any:
        # a copy would have the same connection, or close the same index of the library while it is in use
        raise TypeError(f"{type(self).__name__} objects can't be copied or pickled")

    # -- rows

    @abc.abstractmethod
    def _row(self, key: bytes, columns: Optional[Sequence[int]]) -> Optional[Row]:
        """The row of a key; None if it has none."""

    @overload
    def get(self, key: bytes, default: None = None, columns: Optional[Sequence[int]] = None) -> Optional[Row]:
        ...

    @overload
    def get(self, key: bytes, default: Default, columns: Optional[Sequence[int]] = None) -> Union[Row, Default]:
        ...

    def get(self, key: bytes, default: Any = None, columns: Optional[Sequence[int]] = None) -> Any:
        """The row of a key, or `default` if it has none. `columns` are the numbers of those wanted, in this order;
        None means all."""
        row = self._row(key, columns)
        return default if row is None else row

    def __getitem__(self, key: bytes) -> Row:
        """The row of a key. Raises KeyError if it has none."""
        row = self._row(key, None)
        if row is None:
            raise KeyError(key)
        return row

    def __contains__(self, key: object) -> bool:
        """Whether a key has a row."""
        return self._row(checked_bytes(key, "a key"), (0,)) is not None

    def __setitem__(self, key: bytes, sets: Sets) -> None:
        """Sets columns of a key's row, as `put` does."""
        self.put(key, sets)

    def __delitem__(self, key: bytes) -> None:
        """Removes a key's row. Raises KeyError if it has none."""
        if self.remove(key) is None:
            raise KeyError(key)

    @abc.abstractmethod
    def get_many(self, keys: Iterable[bytes], columns: Optional[Sequence[int]] = None) -> List[Optional[Row]]:
        """The rows of keys, in their order, or None for a key that has none: all of one moment. `columns` are as of
        `get`. Raises `BadLimit` for more than 1000 keys. A client asks by one frame, and raises `TooLong` if they don't
        fit its 262,144 bytes."""

    @abc.abstractmethod
    def put(self, key: bytes, sets: Sets, *, durable: bool = False) -> int:
        """Sets columns of a key's row, by their numbers; plain bytes are column 0. The others stay as they were; those
        of a new row are empty. Returns the number of the commit.

        With `durable` it returns only after the commit is durable: no crash undoes it. A client waits for that, without
        end, as `wait` does: it isn't bound by the client's timeout. An index in this process makes all commits durable,
        as `settle` does. Raises `InMemory` if the rows are in memory alone; then nothing was changed. If the change was
        made, and its commit doesn't become durable, raises `NotDurable`."""

    @abc.abstractmethod
    def put_if(self, key: bytes, sets: Sets, version: int, *, durable: bool = False) -> int:
        """Sets columns as `put` does, but only if the key's row is of this version, or if `version` is 0 and the key
        has no row. Returns the number of the commit, which is the row's new version. Otherwise raises `OtherVersion`,
        whose detail is the version that the row has. `durable` is as of `put`."""

    def update(self, key: bytes, change: Callable[[Optional[Row]], Optional[Sets]], *,
               durable: bool = False) -> Optional[int]:
        """Changes a key's row by what it is: `change` gets the row (None: there is none), and returns the columns to
        set (None: nothing is put). If another caller has changed the row meanwhile, it is called again, without a
        bound: so let it do nothing else. Returns the number of the commit, or None if nothing was put. `durable` is as
        of `put`; if nothing is put, it waits for nothing."""
        if not callable(change):
            raise TypeError(f"what changes a row must be callable, not {type(change).__name__}")
        while True:
            row = self.get(key)
            sets = change(row)
            if sets is None:
                return None
            try:
                return self.put_if(key, sets, row.version if row else 0, durable=durable)
            except OtherVersion:
                pass

    @abc.abstractmethod
    def remove(self, key: bytes, *, durable: bool = False) -> Optional[int]:
        """Removes a key's row. Returns the number of the commit, or None if there was no row. `durable` is as of `put`;
        if there was no row, it waits for the commits that the call saw, so that no crash brings the row back."""

    def _taken(self, key: bytes, durable: bool) -> Optional[Row]:
        """Removes a key's row. Returns it as it was, or None if there was no row."""
        row = self._row(key, None)
        return None if row is None or self.remove(key, durable=durable) is None else row

    @overload
    def pop(self, key: bytes, *, durable: bool = False) -> Row:
        ...

    @overload
    def pop(self, key: bytes, default: Default, *, durable: bool = False) -> Union[Row, Default]:
        ...

    def pop(self, key: bytes, default: Any = NoDefault.NONE, *, durable: bool = False) -> Any:
        """Removes a key's row, and returns it. If there is none, returns `default`, or raises KeyError without one.
        `durable` is as of `put`; if there is no row, it waits for nothing.

        On an embedded index it is one call for all threads. On a client it is two, a get and a remove: a put of another
        client in between is removed too, and the row before it is returned. A row is returned to one caller only."""
        row = self._taken(key, durable)
        if row is not None:
            return row
        if default is NoDefault.NONE:
            raise KeyError(key)
        return default

    def setdefault(self, key: bytes, sets: Sets, *, durable: bool = False) -> Row:
        """The row of a key. If there is none, sets these columns first, by `put_if`: so the row of another caller is
        never changed. If another caller removes the row before it was read, it is put again. `durable` is as of `put`;
        if the row is there, it waits for nothing."""
        pairs = set_pairs(sets)
        while True:
            row = self._row(key, None)
            if row is not None:
                return row
            try:
                self.put_if(key, pairs, 0, durable=durable)
            except OtherVersion:
                pass

    @abc.abstractmethod
    def first(self, start: bytes = b"", limit: int = MAX_LIMIT, columns: Optional[Sequence[int]] = None) -> Pairs:
        """The first rows from the key `start` on, in the order of their keys, 1 to 1000 of them at most, by one call.
        Each key that was there during all of the call is there; each row was true at some moment of it."""

    @abc.abstractmethod
    def last(self, stop: Optional[bytes] = None, limit: int = MAX_LIMIT,
             columns: Optional[Sequence[int]] = None) -> Pairs:
        """The last rows whose keys are before `stop` (None: the last of all), the greatest key first, 1 to 1000 of them
        at most, by one call. They are those of one moment."""

    def range(self, start: bytes = b"", stop: Optional[bytes] = None, *, prefix: Optional[bytes] = None,
              limit: Optional[int] = None, columns: Optional[Sequence[int]] = None,
              reverse: bool = False) -> RowPairs:
        """The rows from the key `start` on, before `stop`, whose keys begin with `prefix`, in the order of their keys,
        at most `limit` of them. Returns an iterator over pairs of a key and its row. With `reverse` it returns these
        rows against that order, and `limit` keeps the last ones.

        It reads by calls of `first`, or with `reverse` of `last`, of 1000 rows at most. If something is changed between
        two calls, beyond the last key that was returned, the iterator may see it or not. Arguments are checked at
        once."""
        begin, end = bounds_of(start, stop, prefix)
        most = None if limit is None else checked_count(limit, "a limit")
        numbers = None if columns is None else checked_columns(columns)
        if reverse:
            return scanned_back(lambda key, count: self.last(key, count, numbers), begin, end, most)
        return scanned(lambda key, count: self.first(key, count, numbers), begin, end, most)

    def first_item(self, prefix: bytes = b"") -> Optional[Tuple[bytes, Row]]:
        """The least key that begins with `prefix`, and its row; None if there is none."""
        return next(self.range(prefix=prefix, limit=1), None)

    def last_item(self, prefix: bytes = b"") -> Optional[Tuple[bytes, Row]]:
        """The greatest key that begins with `prefix`, and its row; None if there is none."""
        return next(self.range(prefix=prefix, limit=1, reverse=True), None)

    @abc.abstractmethod
    def count(self, start: bytes = b"", stop: Optional[bytes] = None, *, prefix: Optional[bytes] = None,
              most: Optional[int] = None) -> int:
        """How many rows the `range` of these arguments has, all of one moment, counted up to `most`.

        It walks over the rows that it counts, and copies none. Changes of others wait until it returns: `most` bounds
        that. A server counts up to 1,000,000, also without `most`; for more a client raises `BadLimit`. The number of
        all rows is ready (`len(index)`), and so is the count of a view."""

    @abc.abstractmethod
    def __len__(self) -> int:
        """How many rows there are, without a walk over them."""

    def items(self) -> RowPairs:
        """All keys with their rows, in the order of the keys: a `range`, by calls of 1000 rows. Each row was true at
        some moment of its call, not all at one moment."""
        return self.range()

    def keys(self) -> Iterator[bytes]:
        """All keys in their order, as of `items`."""
        return (key for key, _ in self.range(columns=(0,)))

    def values(self) -> Iterator[Row]:
        """All rows in the order of their keys, as of `items`."""
        return (row for _, row in self.range())

    @abc.abstractmethod
    def tidy(self, key: bytes) -> Tidied:
        """Takes out at most one node that is no longer wanted near the place of a key, after removes; returns which
        kind. Changes no row."""

    # -- views

    @abc.abstractmethod
    def _build(self, spec: ViewSpec) -> ViewNo:
        """Builds a view; returns its number."""

    @abc.abstractmethod
    def _page(self, number: int, floor: int, start: bytes, limit: int) -> Page:
        """A page of a view."""

    def _totals(self, number: int, floor: int) -> Totals:
        """The totals of a view: here those of a page with the fewest rows that there are."""
        page = self._page(number, floor, b"", 1)
        return Totals(page.at, page.count, page.sums)

    @abc.abstractmethod
    def _drop(self, number: int) -> None:
        """Ends a view."""

    def build(self, spec: ViewSpec) -> View:
        """Builds a view of a `Range` or a `Prefix`, which follows each change until it is dropped. The cost is that of
        reading its range."""
        return View(self, self._build(spec))

    def view(self, number: int) -> View:
        """The view of this number. Asks nothing: if there is no such view, its calls raise `NoSuchView`."""
        return View(self, ViewNo(checked_view(number)))


class View:
    """A view of an index: the rows that pass its test, their count, and the sums of their columns.

        with index.build(Prefix(b"p")) as view:
            print(view.count, view.sums)

    `count`, `sums` and `at` ask for the totals each; those of one `totals` or `page` are of the same commit. A view
    ends by `drop`, or at the end of its `with` block.
    """

    # without it `key in view` would read all rows, and compare the key with pairs
    __contains__ = None

    def __init__(self, index: RowMap, number: ViewNo) -> None:
        self._index = index
        self._number = number

    def __repr__(self) -> str:
        return f"<rowanspan.View {self._number} of {self._index!r}>"

    def __eq__(self, other: object) -> bool:
        if not isinstance(other, View):
            return NotImplemented
        return self._index is other._index and self._number == other._number

    def __hash__(self) -> int:
        return hash((id(self._index), self._number))

    @property
    def index(self) -> RowMap:
        """The index of which it is a view."""
        return self._index

    @property
    def number(self) -> ViewNo:
        """Its number, by which other clients of the same server can read it: `index.view(number)`."""
        return self._number

    def page(self, floor: int = 0, start: bytes = b"", limit: int = MAX_LIMIT) -> Page:
        """Its count and sums, and its first rows from the key `start` on, 1 to 1000 of them at most, all at one commit.
        `floor` is the number of commits that it has to show at least, such as that of a put of yours. If it doesn't
        show them yet, raises `Behind`: ask again."""
        return self._index._page(self._number, floor, start, limit)

    def totals(self, floor: int = 0) -> Totals:
        """Its number of commits, its count and its sums, all at one commit; no row is read of an embedded index.
        `floor` is as of `page`."""
        return self._index._totals(self._number, floor)

    @property
    def at(self) -> int:
        """The number of commits that it shows now."""
        return self.totals().at

    @property
    def count(self) -> int:
        """How many rows it has now."""
        return self.totals().count

    @property
    def sums(self) -> Tuple[int, ...]:
        """For each column the sum of its amounts now."""
        return self.totals().sums

    def rows(self, floor: int = 0, start: bytes = b"") -> RowPairs:
        """Its rows from the key `start` on, page by page. Returns an iterator over pairs of a key and its row. Each
        page of 1000 rows is exact at a commit of its own; changes may come between two pages."""
        least, begin = checked_number(floor, "a floor"), checked_key(start)
        return scanned(lambda key, count: self.page(least, key, count).rows, begin)

    def __iter__(self) -> RowPairs:
        return self.rows()

    def drop(self) -> None:
        """Ends it. Its number isn't used again."""
        self._index._drop(self._number)

    def __enter__(self) -> View:
        return self

    def __exit__(self, kind: Optional[Type[BaseException]], *_: object) -> None:
        try:
            self.drop()
        except NoSuchView:
            pass
        except RowanspanError:
            # if the block was left by an exception, that one is raised
            if kind is None:
                raise


def number_of_view(index: RowMap, view: Union[View, int]) -> int:
    """The number of a view that is given as an object or as its number. Raises `WrongIndex` for one of another index,
    and TypeError for another type."""
    if not isinstance(view, View):
        return checked_view(view)
    if view.index is not index:
        raise WrongIndex(f"this is a view of another index: {view!r}")
    return view.number
