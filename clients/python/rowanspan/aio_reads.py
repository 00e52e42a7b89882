"""The calls of the asyncio client that read rows: gets, ranges in both orders, and counts."""
from __future__ import annotations

import abc
from typing import (Any, AsyncIterator, Awaitable, Callable, Iterable, List, Optional, Sequence, Tuple, TypeVar, Union,
                    overload)

from .core import MAX_LIMIT, Pairs, Row, checked_columns, checked_count, key_after
from .reads import GetMany, GetRangeBack, count_of
from .scans import bounds_of
from .wire import Get, GetRange, Query, Reply

Value = TypeVar("Value")
Default = TypeVar("Default")
RowPairs = AsyncIterator[Tuple[bytes, Row]]


class ReadCalls(abc.ABC):
    """What a client reads of the rows of a server."""

    @abc.abstractmethod
    async def call(self, query: Query[Value]) -> Reply[Value]:
        """Asks one query."""

    @overload
    async def get(self, key: bytes, default: None = None, columns: Optional[Sequence[int]] = None) -> Optional[Row]:
        ...

    @overload
    async def get(self, key: bytes, default: Default, columns: Optional[Sequence[int]] = None) -> Union[Row, Default]:
        ...

    async def get(self, key: bytes, default: Any = None, columns: Optional[Sequence[int]] = None) -> Any:
        """The row of a key, or `default` if it has none. `columns` are the numbers of those wanted, in this order; None
        means all."""
        row = (await self.call(Get(key, () if columns is None else columns))).value
        return default if row is None else row

    async def get_many(self, keys: Iterable[bytes], columns: Optional[Sequence[int]] = None) -> List[Optional[Row]]:
        """The rows of keys, in their order, or None for a key that has none: all of one moment. Raises `BadLimit` for
        more than 1000 keys."""
        asked = list(keys)
        if not asked:
            return []
        return (await self.call(GetMany(asked, () if columns is None else columns))).value.rows

    async def first(self, start: bytes = b"", limit: int = MAX_LIMIT,
                    columns: Optional[Sequence[int]] = None) -> Pairs:
        """The first rows from the key `start` on, in the order of keys, 1 to 1000 of them at most, by one call."""
        return (await self.call(GetRange(start, limit, () if columns is None else columns))).value

    async def last(self, stop: Optional[bytes] = None, limit: int = MAX_LIMIT,
                   columns: Optional[Sequence[int]] = None) -> Pairs:
        """The last rows whose keys are before `stop` (None: the last of all), the greatest key first, 1 to 1000 of them
        at most, by one call."""
        return (await self.call(GetRangeBack(stop, limit, () if columns is None else columns))).value

    def range(self, start: bytes = b"", stop: Optional[bytes] = None, *, prefix: Optional[bytes] = None,
              limit: Optional[int] = None, columns: Optional[Sequence[int]] = None,
              reverse: bool = False) -> RowPairs:
        """The rows from the key `start` on, before `stop`, whose keys begin with `prefix`, in the order of their keys,
        at most `limit` of them; with `reverse` these rows against that order, of which `limit` keeps the last ones. An
        asynchronous iterator, which reads by calls of `first` or `last`."""
        begin, end = bounds_of(start, stop, prefix)
        most = None if limit is None else checked_count(limit, "a limit")
        numbers = None if columns is None else checked_columns(columns)
        if reverse:
            return scanned_back(lambda key, count: self.last(key, count, numbers), begin, end, most)
        return scanned(lambda key, count: self.first(key, count, numbers), begin, end, most)

    def items(self) -> RowPairs:
        """All keys with their rows, in the order of the keys."""
        return self.range()

    def keys(self) -> AsyncIterator[bytes]:
        """All keys in their order, as of `items`."""
        return (key async for key, _ in self.range(columns=(0,)))

    def values(self) -> AsyncIterator[Row]:
        """All rows in the order of their keys, as of `items`."""
        return (row async for _, row in self.range())

    async def first_item(self, prefix: bytes = b"") -> Optional[Tuple[bytes, Row]]:
        """The least key that begins with `prefix`, and its row; None if there is none."""
        begin, end = bounds_of(b"", None, prefix)
        pairs = await self.first(begin, 1)
        return pairs[0] if pairs and (end is None or pairs[0][0] < end) else None

    async def last_item(self, prefix: bytes = b"") -> Optional[Tuple[bytes, Row]]:
        """The greatest key that begins with `prefix`, and its row; None if there is none."""
        begin, end = bounds_of(b"", None, prefix)
        pairs = await self.last(end, 1)
        return pairs[0] if pairs and pairs[0][0] >= begin else None

    async def count(self, start: bytes = b"", stop: Optional[bytes] = None, *, prefix: Optional[bytes] = None,
                    most: Optional[int] = None) -> int:
        """How many rows a `range` has, all of one moment, counted up to `most`: 1,000,000 at most, and without it.
        Raises `BadLimit` for more."""
        query = count_of(start, stop, prefix, most)
        return 0 if query is None else (await self.call(query)).value


async def scanned(read: Callable[[bytes, int], Awaitable[Pairs]], start: bytes, stop: Optional[bytes],
                  limit: Optional[int]) -> RowPairs:
    """The rows from a key on, before `stop`, at most `limit`, by a coroutine that reads the first rows from a key."""
    at: Optional[bytes] = start
    rest: Union[int, float] = float("inf") if limit is None else limit
    while at is not None and (stop is None or at < stop) and rest > 0:
        count = int(min(MAX_LIMIT, rest))
        pairs = await read(at, count)
        for key, row in pairs:
            if stop is not None and key >= stop:
                return
            yield key, row
        at = key_after(pairs[-1][0]) if len(pairs) == count else None
        rest -= len(pairs)


async def scanned_back(read: Callable[[Optional[bytes], int], Awaitable[Pairs]], start: bytes, stop: Optional[bytes],
                       limit: Optional[int]) -> RowPairs:
    """The rows from a key on, before `stop`, the greatest key first, at most `limit`, by a coroutine that reads the
    last rows before a key (None: the last of all)."""
    at, may_have_more = stop, True
    rest: Union[int, float] = float("inf") if limit is None else limit
    while may_have_more and (at is None or start < at) and rest > 0:
        count = int(min(MAX_LIMIT, rest))
        pairs = await read(at, count)
        for key, row in pairs:
            if key < start:
                return
            yield key, row
        may_have_more = len(pairs) == count
        at = pairs[-1][0] if pairs else at
        rest -= len(pairs)
