"""The rows of a range, some at a time: what `range` reads by."""
from __future__ import annotations

from typing import Callable, Iterator, Optional, Tuple

from .core import MAX_LIMIT, Pairs, Row, checked_key, key_after, prefix_end

# how many rows a range that has an end reads at first; each further call asks for four times as many, up to MAX_LIMIT
FIRST_ROWS = 60

RowPairs = Iterator[Tuple[bytes, Row]]


def bounds_of(start: bytes, stop: Optional[bytes], prefix: Optional[bytes]) -> Tuple[bytes, Optional[bytes]]:
    """The key from which on a range has rows, and the one before which it has them, if there is one."""
    front = b"" if prefix is None else checked_key(prefix, "a prefix")
    begin = max(front, checked_key(start))
    ends = [prefix_end(front), None if stop is None else checked_key(stop)]
    return begin, min((one for one in ends if one is not None), default=None)


def scanned(read: Callable[[bytes, int], Pairs], start: bytes, stop: Optional[bytes] = None,
            limit: Optional[int] = None) -> RowPairs:
    """The rows from a key on, before `stop`, at most `limit`, by a function that reads the first rows from a key on, up
    to a count."""
    at: Optional[bytes] = start
    size, rest = MAX_LIMIT if stop is None else FIRST_ROWS, limit
    while at is not None and (stop is None or at < stop) and rest != 0:
        count = size if rest is None else min(size, rest)
        pairs = read(at, count)
        yield from before(pairs, stop)
        at = key_after(pairs[-1][0]) if len(pairs) == count else None
        rest = None if rest is None else rest - len(pairs)
        size = min(4 * size, MAX_LIMIT)


def before(pairs: Pairs, stop: Optional[bytes]) -> Pairs:
    """Those pairs, which are in the order of their keys, whose keys are before `stop`."""
    if stop is None or pairs and pairs[-1][0] < stop:
        return pairs
    return [pair for pair in pairs if pair[0] < stop]


def scanned_back(read: Callable[[Optional[bytes], int], Pairs], start: bytes, stop: Optional[bytes],
                 limit: Optional[int]) -> RowPairs:
    """The rows from a key on, before `stop`, the greatest key first, at most `limit`, by a function that reads the last
    rows before a key (None: the last of all), up to a count. A range that has a start reads few rows at first, as one
    that has an end does in the order of keys."""
    at, may_have_more = stop, True
    size, rest = FIRST_ROWS if start else MAX_LIMIT, limit
    while may_have_more and (at is None or start < at) and rest != 0:
        count = size if rest is None else min(size, rest)
        pairs = read(at, count)
        yield from not_before(pairs, start)
        may_have_more = len(pairs) == count
        at = pairs[-1][0] if pairs else at
        rest = None if rest is None else rest - len(pairs)
        size = min(4 * size, MAX_LIMIT)


def not_before(pairs: Pairs, start: bytes) -> Pairs:
    """Those pairs, whose keys fall, that are from the key `start` on."""
    if not pairs or pairs[-1][0] >= start:
        return pairs
    return [pair for pair in pairs if pair[0] >= start]
