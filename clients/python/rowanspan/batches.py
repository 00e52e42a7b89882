"""Batches and transactions of an embedded index: several changes that are made as one."""
from __future__ import annotations

from typing import TYPE_CHECKING, Any, Callable, Dict, List, Mapping, Optional, Sequence, Tuple, Type, TypeVar

from .core import (BadColumn, Refused, RowanspanError, Row, Sets, TooLong, checked_bytes, checked_int, checked_number,
                   set_pairs)

if TYPE_CHECKING:
    from .embedded import Index

__all__ = ["MAX_BATCH", "BadBatch", "Unmet", "InFolder", "BatchEnded", "Batch", "Transaction"]

# the most conditions of a batch, and the most changes
MAX_BATCH = 1000

Value = TypeVar("Value")
# a key and the version that its row must have; 0: it has none
Condition = Tuple[bytes, int]
# a key, and the columns that are set, or None if the row is removed
Change = Tuple[bytes, Optional[Sequence[Tuple[int, bytes]]]]
# for each change the number of its commit, or None for a remove that found no row
Numbers = List[Optional[int]]


# ---- what can go wrong

class BadBatch(Refused, ValueError):
    """A batch has more than 1000 conditions, or more than 1000 changes, or two changes of one key. Nothing was changed.
    """

    number, cause = 17, "a batch has more than 1,000 conditions or changes, or changes a key twice"


class Unmet(RowanspanError):
    """A condition of a batch doesn't hold. Nothing was changed. `place` is the place of the first such condition, from
    0 on, `key` is its key, and `found` the version that the key's row has (0: there is no row)."""

    def __init__(self, place: int, key: bytes, found: int) -> None:
        self.place, self.key, self.found = place, key, found
        super().__init__(f"condition {place} doesn't hold: the row of {key!r} has version {found}; 0 means no row")

    def __reduce__(self) -> Tuple[Any, ...]:
        return type(self), (self.place, self.key, self.found)


class InFolder(RowanspanError):
    """An index with a folder makes no batches yet, since a crash could leave a part of a batch in the folder. Nothing
    was changed."""


class BatchEnded(RowanspanError):
    """The `with` block of a batch or a transaction has ended. Nothing was done."""


# ---- batches

class Ending:
    """What a batch and a transaction share: it ends with its `with` block, and is made then."""

    def __init__(self, index: Index) -> None:
        self._index = index
        self._has_ended = False
        # the number of its last commit, or of the newest commit if it made none; None before it is made
        self.commit: Optional[int] = None

    def __exit__(self, kind: Optional[Type[BaseException]], *_: object) -> None:
        if kind is None:
            self._end()
        self._has_ended = True

    def _end(self) -> None:
        self._want_open()
        self._has_ended = True
        self._make()

    def _want_open(self) -> None:
        if self._has_ended:
            raise BatchEnded("the batch has ended")

    def _make(self) -> None:
        """Makes the batch."""
        raise NotImplementedError


class Batch(Ending):
    """Changes that are made as one, if conditions hold.

        with index.batch() as batch:
            batch.require(b"apple", 3)
            batch.require_absent(b"kiwi")
            batch.put(b"pear", b"green")
            batch.remove(b"fig")
        print(batch.numbers, batch.commit)

    Each method adds a condition or a change, and asks nothing of the index. At the end of the `with` block the batch is
    made, unless an exception left the block: if all conditions hold, all changes are made as consecutive commits, first
    the puts in their order, and then the removes in theirs. Else nothing changes. No call of another thread comes in
    between.

    Then `commit` is the number of its last commit, or of the newest commit if it made none, and `numbers` has the
    number of each change's commit, in the order in which they were added, or None for a remove of a key without a row.

    The end of the block raises `Unmet` if a condition doesn't hold, `BadBatch` if there are more than 1000 conditions
    or 1000 changes, or two changes of one key, `InFolder` if the index has a folder, and what `put` and `remove` of the
    index raise. Nothing has changed then.

    A page of a view with `batch.commit` as its floor shows all of the batch. If the index doesn't keep its views at the
    newest commit by itself (`keep_views=False`), a page may show a part of a batch.
    """

    def __init__(self, index: Index) -> None:
        super().__init__(index)
        self._conditions: List[Condition] = []
        self._changes: List[Change] = []
        self.numbers: Numbers = []

    def __enter__(self) -> Batch:
        self._want_open()
        return self

    def _make(self) -> None:
        self.commit, self.numbers = self._index._batch(self._conditions, self._changes)

    def require(self, key: bytes, version: int) -> None:
        """Adds the condition that the key's row is of this version, or, if that is 0, that the key has no row."""
        self._want_open()
        self._conditions.append((checked_bytes(key, "a key"), checked_number(version, "a version")))

    def require_absent(self, key: bytes) -> None:
        """Adds the condition that the key has no row."""
        self.require(key, 0)

    def put(self, key: bytes, sets: Sets) -> None:
        """Adds a put: it sets columns of the key's row, as `put` of the index does."""
        self._want_open()
        self._changes.append((checked_bytes(key, "a key"), set_pairs(sets)))

    def remove(self, key: bytes) -> None:
        """Adds a remove of the key's row, if there is one."""
        self._want_open()
        self._changes.append((checked_bytes(key, "a key"), None))


# ---- transactions

class Transaction(Ending):
    """Reads and changes that are made as one: a batch whose conditions are that all rows that it read are unchanged.

        with index.transaction() as transaction:
            row = transaction.get(b"apple")
            transaction.put(b"apple", b"green" if row is None else row.columns[0] + b"!")

    A `get` reads the row at once, and notes its version. A `put` or `remove` waits for the end of the `with` block;
    before that only the gets of the transaction show it. At the end of the block the changes are made as one batch,
    unless an exception left the block. If a row that was read has been changed since, the end raises `Unmet`, and
    nothing changes: `Index.transact` tries again.

    The changes of a key are joined into one: a remove if that is the last of them, else a put. A transaction may read up
    to 1000 keys, and change up to 1000. The end raises what that of a `Batch` does.

    Then `commit` is as of a `Batch`, and `numbers` has the number of the commit of each key that was changed, or None
    for one that was removed and had no row.

    If other threads change the index, two rows that the block reads may be of different moments. The end raises `Unmet`
    then, also if the transaction changes nothing.
    """

    def __init__(self, index: Index) -> None:
        super().__init__(index)
        # the rows as they were read, and for each key that is changed its columns, or None if it is removed
        self._read: Dict[bytes, Optional[Row]] = {}
        self._changed: Dict[bytes, Optional[Dict[int, bytes]]] = {}
        self._width: Optional[int] = None
        self.numbers: Dict[bytes, Optional[int]] = {}

    def __enter__(self) -> Transaction:
        self._want_open()
        return self

    def _make(self) -> None:
        conditions = [(key, row.version if row else 0) for key, row in self._read.items()]
        changes: List[Change] = [(key, None if sets is None else list(sets.items()))
                                 for key, sets in self._changed.items()]
        self.commit, numbers = self._index._batch(conditions, changes)
        self.numbers = dict(zip(self._changed, numbers))

    def _columns(self) -> int:
        """How many columns a row has."""
        if self._width is None:
            self._width = self._index.columns()
        return self._width

    def get(self, key: bytes) -> Optional[Row]:
        """The row of a key; None if it has none. It is read by the first get of the key, and is the same for each later
        one, with what the transaction has put or removed since. Its version is that of the row that was read (0: there
        was none)."""
        self._want_open()
        asked = checked_bytes(key, "a key")
        if asked not in self._read:
            self._read[asked] = self._index.get(asked)
        row = self._read[asked]
        if asked not in self._changed:
            return row
        sets = self._changed[asked]
        return None if sets is None else self._shown(row, sets)

    def _shown(self, row: Optional[Row], sets: Mapping[int, bytes]) -> Row:
        """A row after a put."""
        columns = list(row.columns) if row else [b""] * self._columns()
        for column, value in sets.items():
            if column >= len(columns):
                raise BadColumn()
            columns[column] = value
        return Row(row.version if row else 0, tuple(columns))

    def put(self, key: bytes, sets: Sets) -> None:
        """Sets columns of the key's row at the end of the transaction, as `put` of the index does. After a remove in
        the same transaction, the other columns are empty. Raises `BadColumn` if a column is named twice."""
        self._want_open()
        put, pairs = checked_bytes(key, "a key"), set_pairs(sets)
        if len(dict(pairs)) < len(pairs):
            raise BadColumn()
        before: Optional[Dict[int, bytes]] = self._changed.get(put, {})
        # (a row that was removed has no columns that stay, so all are put)
        columns = dict.fromkeys(range(self._columns()), b"") if before is None else before
        self._changed[put] = {**columns, **dict(pairs)}

    def remove(self, key: bytes) -> None:
        """Removes the key's row at the end of the transaction, if there is one."""
        self._want_open()
        self._changed[checked_bytes(key, "a key")] = None


def transacted(index: Index, change: Callable[[Transaction], Value], tries: int) -> Value:
    """What `Index.transact` does."""
    if not callable(change):
        raise TypeError(f"what is done in a transaction must be callable, not {type(change).__name__}")
    left = checked_int(tries, "the number of tries")
    if left < 1:
        raise TooLong(f"the number of tries must be 1 or more, not {left}")
    while True:
        transaction = Transaction(index)
        value = change(transaction)
        left -= 1
        try:
            transaction._end()
            return value
        except Unmet:
            if left == 0:
                raise
