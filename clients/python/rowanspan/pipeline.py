"""Queries of a client that are sent together: a pipeline, and what it returns for each, a `Pending`."""
from __future__ import annotations

from typing import TYPE_CHECKING, Any, Callable, Generic, Iterable, List, Optional, Sequence, Type, TypeVar, Union

from .core import MAX_LIMIT, Page, Pairs, Refused, Row, Sets, Tidied, TooLong, Unanswered, ViewSpec
from .mapping import View, number_of_view
from .reads import MAX_COUNT, CountRange, GetMany, GetRangeBack, RowsAt
from .wire import (MAX_QUERIES, MAX_REQUEST_BODY, Build, Get, GetRange, Outcome, Put, PutIf, Query, Remove, Reply, Tidy,
                   ViewDrop, ViewRead, spelled_query)

if TYPE_CHECKING:
    from .client import Asker

__all__ = ["Pending", "Pipeline"]

Value = TypeVar("Value")


class Pending(Generic[Value]):
    """The answer to a query of a pipeline, after that was sent."""

    def __init__(self, made: Optional[Callable[[Any], Value]] = None) -> None:
        self._made = made
        self._outcome: Optional[Union[Reply[Value], Refused]] = None

    def settle(self, outcome: Outcome) -> Any:
        """Takes the answer. Returns its value, or the `Refused`, not raised."""
        if isinstance(outcome, Refused):
            self._outcome = outcome
            return outcome
        if self._made is not None:
            outcome = Reply(self._made(outcome.value), outcome.from_, outcome.to)
        self._outcome = outcome
        return outcome.value

    @property
    def reply(self) -> Reply[Value]:
        """The reply. Raises the `Refused` if the query was refused, and `Unanswered` if it has no answer."""
        if self._outcome is None:
            raise Unanswered("this query has no answer")
        if isinstance(self._outcome, Refused):
            raise self._outcome
        return self._outcome

    @property
    def value(self) -> Value:
        """The value, as the method of the index returns it. Raises as `reply` does."""
        return self.reply.value


def rows_of(found: RowsAt) -> List[Optional[Row]]:
    return found.rows


class Pipeline:
    """Up to 64 queries that are sent in one frame, and answered in one.

        with index.pipeline() as pipeline:
            color = pipeline.get(b"apple")
            pipeline.put(b"pear", b"green")
        print(color.value)

    Each method adds a query, and returns its `Pending`. At the end of the `with` block the queries are sent, unless an
    exception left it. The server does them one after another. A query that is refused doesn't stop the others: when
    each `Pending` has its answer, the end of the block raises the first refusal. `send` raises none, but returns them.
    Other clients' queries may come in between.
    """

    def __init__(self, index: Asker) -> None:
        self._index = index
        self._clear()

    def _clear(self) -> None:
        self._queries: List[Query[Any]] = []
        self._messages: List[bytes] = []
        self._pending: List[Pending[Any]] = []
        self._length = 2

    def __len__(self) -> int:
        return len(self._queries)

    def __enter__(self) -> Pipeline:
        return self

    def __exit__(self, kind: Optional[Type[BaseException]], *_: object) -> None:
        if kind is None:
            for value in self.send():
                if isinstance(value, Refused):
                    raise value

    # -- queries

    def add(self, query: Query[Value]) -> Pending[Value]:
        """Adds a query. If there are 64 already, or the frame would be too long, raises `TooLong`, and the pipeline is
        as it was."""
        return self._add(query, Pending())

    def _add(self, query: Query[Any], pending: Pending[Value]) -> Pending[Value]:
        message = spelled_query(query)
        if len(self._queries) == MAX_QUERIES or self._length + len(message) > MAX_REQUEST_BODY:
            raise TooLong("the pipeline is full")
        self._queries.append(query)
        self._messages.append(message)
        self._pending.append(pending)
        self._length += len(message)
        return pending

    def get(self, key: bytes, columns: Optional[Sequence[int]] = None) -> Pending[Optional[Row]]:
        """Adds a get: the row of a key, or None."""
        return self.add(Get(key, () if columns is None else columns))

    def put(self, key: bytes, sets: Sets) -> Pending[int]:
        """Adds a put: the number of the commit."""
        return self.add(Put(key, sets))

    def put_if(self, key: bytes, sets: Sets, version: int) -> Pending[int]:
        """Adds a conditional put: the number of the commit. Else it is refused as `OtherVersion`."""
        return self.add(PutIf(key, sets, version))

    def remove(self, key: bytes) -> Pending[Optional[int]]:
        """Adds a remove: the number of the commit, or None if there was no row."""
        return self.add(Remove(key))

    def first(self, start: bytes = b"", limit: int = MAX_LIMIT,
              columns: Optional[Sequence[int]] = None) -> Pending[Pairs]:
        """Adds a range of one call: the first rows from the key `start` on."""
        return self.add(GetRange(start, limit, () if columns is None else columns))

    def last(self, stop: Optional[bytes] = None, limit: int = MAX_LIMIT,
             columns: Optional[Sequence[int]] = None) -> Pending[Pairs]:
        """Adds a range against the order of keys, of one call: the last rows before the key `stop`."""
        return self.add(GetRangeBack(stop, limit, () if columns is None else columns))

    def get_many(self, keys: Iterable[bytes],
                 columns: Optional[Sequence[int]] = None) -> Pending[List[Optional[Row]]]:
        """Adds gets of 1000 keys at most: their rows at one moment."""
        return self._add(GetMany(list(keys), () if columns is None else columns), Pending(rows_of))

    def count(self, start: bytes = b"", stop: Optional[bytes] = None, most: int = MAX_COUNT) -> Pending[int]:
        """Adds a count of the rows from the key `start` on, before `stop`, up to `most`."""
        return self.add(CountRange(start, stop, most))

    def tidy(self, key: bytes) -> Pending[Tidied]:
        """Adds a tidy: what it did."""
        return self.add(Tidy(key))

    def build(self, spec: ViewSpec) -> Pending[View]:
        """Adds the build of a view: the `View`."""
        return self._add(Build(spec), Pending(self._index.view))

    def page(self, view: Union[View, int], floor: int = 0, start: bytes = b"",
             limit: int = MAX_LIMIT) -> Pending[Page]:
        """Adds a page of a view of this index, which may be given by its number."""
        return self.add(ViewRead(number_of_view(self._index, view), floor, start, limit))

    def drop(self, view: Union[View, int]) -> Pending[None]:
        """Adds the end of a view of this index, which may be given by its number."""
        return self.add(ViewDrop(number_of_view(self._index, view)))

    # -- answers

    def send(self) -> List[Any]:
        """Sends the queries and waits for their answers. Returns their values, in the order of the queries; for a query
        that was refused its `Refused`, not raised. Then the pipeline is empty, and can be used again."""
        queries, messages, pending = self._queries, self._messages, self._pending
        self._clear()
        if not queries:
            return []
        outcomes = self._index.exchange(queries, messages)
        return [one.settle(outcome) for one, outcome in zip(pending, outcomes)]
