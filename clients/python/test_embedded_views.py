"""Tests of views of an embedded index that lag, or are advanced by hand, over the built library. test_embedded.py runs
them."""
from __future__ import annotations

import copy
import pickle
from typing import Any, Callable

from rowanspan.embedded import Behind, ColumnTooLong, FeedFull, Index, NoMemory, Page, Prefix, Row
from rowanspan.native import NoCalls


def raises(kind: type, call: Callable[[], object]) -> BaseException:
    try:
        call()
    except kind as fault:
        return fault
    raise AssertionError(f"it raised no {kind.__name__}")


def views_by_hand() -> None:
    with Index(log_capacity=2, keep_views=False) as index:
        view = index.build(Prefix(b""))
        assert index.put(b"a", b"") == 1 and index.put(b"b", b"") == 2
        fault = raises(FeedFull, lambda: index.put(b"c", b""))
        assert isinstance(fault, FeedFull) and fault.detail == 0
        assert view.count == 0
        assert [index.apply(), index.apply(view), index.apply(), index.apply(view.number)] == [1, 2, None, None]
        assert view.count == 2 and index.put(b"c", b"") == 3


class RefusingLibrary:
    """A library whose calls by these names are refused as out of memory while there are `refusals` left; all other
    calls are made."""

    def __init__(self, library: Any, *names: str) -> None:
        self.refusals = 0
        self._library = library
        self._names = names

    def __getattr__(self, name: str) -> Callable[..., int]:
        symbol: Callable[..., int] = getattr(self._library, name)

        def call(*arguments: Any) -> int:
            if self.refusals == 0 or name not in self._names:
                return symbol(*arguments)
            self.refusals -= 1
            return NoMemory.number

        return call


def refusing(index: Index) -> RefusingLibrary:
    """Replaces the library of an index by one that may refuse to apply. The extension module makes no calls of it."""
    library = RefusingLibrary(index._library, "apply")
    index._library, index._native = library, NoCalls()
    return library


def changes_that_no_view_follows() -> None:
    """A change or build that was made returns its number, though the views can't be advanced after it."""
    with Index() as index:
        library = refusing(index)
        view = index.build(Prefix(b"a"))
        library.refusals = 1000
        assert index.put(b"a", b"\5") == 1 and index.put_if(b"ab", b"\6", 0) == 2
        assert index.get(b"a") == Row(1, (b"\5",)) and view.page() == Page(0, 0, (0,), [])
        other = index.build(Prefix(b"ab"))
        assert other.number == 2 and other.count == 1
        assert index.remove(b"a") == 3 and index.remove(b"a") is None
        fault = raises(Behind, lambda: view.page(floor=3))
        assert isinstance(fault, Behind) and fault.detail == 0
        raises(NoMemory, index.keep_views)
        library.refusals = 0
        index.keep_views()
        assert view.page(3) == other.page(3) == Page(3, 1, (6,), [(b"ab", Row(2, (b"\6",)))])
        library.refusals = 1
        assert index.put(b"a", b"\7") == 4 and view.at == 3
        assert index.put(b"b", b"") == 5 and view.page(5).sums == (13,)


def changes_after_the_log_was_full() -> None:
    """A later change brings views that lag up to date, also if they hold the whole log; one that is refused too."""
    with Index(log_capacity=2) as index:
        library = refusing(index)
        view = index.build(Prefix(b""))
        library.refusals = 1000
        assert index.put(b"a", b"") == 1 and index.put(b"b", b"") == 2
        raises(FeedFull, lambda: index.put(b"c", b""))
        library.refusals = 0
        assert index.put(b"c", b"") == 3 and view.page(3).count == 3
        library.refusals = 1
        assert index.put(b"d", b"") == 4 and view.at == 3
        raises(ColumnTooLong, lambda: index.put(b"e", bytes(65)))
        assert view.page(4).count == 4


def views_kept_by_hand() -> None:
    with Index(keep_views=False) as index:
        library = refusing(index)
        view = index.build(Prefix(b""))
        for number in range(5):
            index.put(b"%d" % number, b"")
        assert view.at == 0
        library.refusals = 1
        raises(NoMemory, index.keep_views)
        index.keep_views()
        assert view.page(5).count == 5
        index.put(b"5", b"")
        assert view.at == 5


def an_interrupt_before_the_views_follow() -> None:
    """The change is made; the next one brings the views up to date before it, though they hold the whole log."""
    with Index(log_capacity=1) as index:
        index._native = NoCalls()
        view = index.build(Prefix(b""))
        keep_views = index._keep_views

        def interrupted() -> None:
            raise KeyboardInterrupt

        index._keep_views = interrupted  # type: ignore[method-assign]
        raises(KeyboardInterrupt, lambda: index.put(b"a", b""))
        index._keep_views = keep_views  # type: ignore[method-assign]
        assert index.commits() == 1 and view.at == 0
        assert index.put(b"b", b"") == 2 and view.page(2).count == 2


def copies_of_an_index() -> None:
    with Index() as index:
        index.put(b"a", b"")
        for copying in (copy.copy, copy.deepcopy, pickle.dumps):
            raises(TypeError, lambda: copying(index))
        assert index.get(b"a") == Row(1, (b"",))


CASES = (an_interrupt_before_the_views_follow, copies_of_an_index, views_by_hand, changes_that_no_view_follows,
         changes_after_the_log_was_full, views_kept_by_hand)
