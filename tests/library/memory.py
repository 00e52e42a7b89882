"""The embedded index where memory ends inside the library's calls: `memory.py`, with wanting_memory.c preloaded.

A change that was made returns its number, or raises it if it wasn't written to a folder, and one that is refused
changed nothing. The last line is 'N passed, M failed'.
"""
from __future__ import annotations

import ctypes
import sys
import tempfile
import traceback
from pathlib import Path
from typing import Any, Callable, Dict

sys.path.insert(0, str(Path(__file__).resolve().parent.parent.parent / "clients" / "python"))

from rowanspan import Index, NoMemory, NotWritten, Prefix, Row  # noqa: E402
from rowanspan.native import NoCalls  # noqa: E402

PRELOADED = ctypes.PyDLL(None)


class WantingLibrary:
    """A library in whose calls by these names a number of allocations is made, and each after them is refused."""

    def __init__(self, library: Any) -> None:
        self.allowed: Dict[str, int] = {}
        self._library = library

    def __getattr__(self, name: str) -> Callable[..., int]:
        symbol: Callable[..., int] = getattr(self._library, name)

        def call(*arguments: Any) -> int:
            # the interpreter's own allocations are none of the call's
            PRELOADED.memory_ends_after(self.allowed.get(name, -1))
            try:
                return symbol(*arguments)
            finally:
                PRELOADED.memory_ends_after(-1)

        return call


def wanting(index: Index) -> WantingLibrary:
    """Puts a library that may be out of memory in the place of the index's own. The extension module makes no calls."""
    library = WantingLibrary(index._library)
    index._library, index._native = library, NoCalls()
    return library


def puts() -> None:
    """Puts where memory ends in the put, in the view after it, or in both."""
    with Index() as index:
        library, plain, lags, refusals = wanting(index), {}, 0, 0
        view = index.build(Prefix(b""))
        for number in range(4000):
            key, made = b"%06d" % (number * 7919 % 1000003), index.commits()
            library.allowed = {"put": number % 16 - 1, "apply": number // 16 % 2 - 1}
            try:
                commit = index.put(key, b"v")
                assert commit == index.commits() == made + 1
                plain[key] = Row(commit, (b"v",))
                lags += view.at < commit
            except NoMemory:
                refusals += 1
                assert index.commits() == made and index.get(key) == plain.get(key)
            assert len(index) == len(plain)
        library.allowed = {}
        index.keep_views()
        assert lags > 10 and refusals > 10, (lags, refusals)
        assert dict(index.range()) == plain and view.page(index.commits()).count == len(plain)


def builds() -> None:
    """A build in which memory ends, or in the views that lag."""
    with Index() as index:
        library, built, refusals = wanting(index), 0, 0
        for number in range(100):
            index.put(b"%06d" % number, b"v")
        for number in range(63):
            library.allowed = {"build_prefix": number % 21 - 1, "apply": 0}
            try:
                built += 1
                view = index.build(Prefix(b"00000"))
                assert view.number == built and view.count == 10
            except NoMemory:
                built -= 1
                refusals += 1
            library.allowed = {"apply": 0}
            index.put(b"000000", b"w")
        library.allowed = {}
        index.keep_views()
        assert built > 2 and refusals > 2, (built, refusals)
        for number in range(1, built + 1):
            assert index.view(number).page(index.commits()).count == 10


def reads_back() -> None:
    """Reads against the order of keys, while memory ends in them: each returns its rows, or is refused."""
    with Index() as index:
        library, refusals = wanting(index), 0
        for number in range(100):
            index.put(b"%06d" % number, b"v")
        rows = list(index.range())[::-1]
        for allowed in range(2000):
            library.allowed = {"range_back": allowed}
            try:
                assert index.last(b"000070", 50) == rows[30:80]
                assert index.last_item(b"00000") == rows[90]
                assert list(index.range(reverse=True)) == rows
                break
            except NoMemory:
                refusals += 1
        assert 2 < refusals < 1999, refusals


def counts() -> None:
    """Counts of rows in layers, while memory ends in them: each is right, or is refused."""
    with Index() as index:
        library, refusals = wanting(index), 0
        for number in range(100):
            index.put(b"a" * (number // 10 * 8) + b"%06d" % number, b"v")
        for allowed in range(2000):
            library.allowed = {"count": allowed}
            try:
                assert index.count() == 100 and index.count(prefix=b"a" * 72) == 10
                break
            except NoMemory:
                refusals += 1
        assert 2 < refusals < 1999, refusals


def gets_of_many() -> None:
    """Rows of many keys, while memory ends in the call: it returns them all, or is refused."""
    with Index() as index:
        library, refusals = wanting(index), 0
        rows = [Row(index.put(b"%06d" % number, b"v"), (b"v",)) for number in range(1000)]
        for allowed in range(2000):
            library.allowed = {"get_many": allowed}
            try:
                assert index.get_many([b"%06d" % number for number in range(-1, 999)]) == [None, *rows[:-1]]
                break
            except NoMemory:
                refusals += 1
        assert 2 < refusals < 1999, refusals


def batches() -> None:
    """Batches where memory ends in the batch, in the view after it, or in both: each is made as a whole, or changes
    nothing."""
    with Index() as index:
        library, plain, made, lags, refusals = wanting(index), {}, 0, 0, 0
        view = index.build(Prefix(b""))
        for number in range(2000):
            commits, first = index.commits(), 10 * number
            keys = [b"%06d" % (at * 7919 % 1000003) for at in range(first, first + 10)]
            library.allowed = {"batch": number % 400 - 1, "apply": number % 2 - 1}
            batch = index.batch()
            try:
                with batch:
                    for key in keys[:9]:
                        batch.put(key, b"v")
                    batch.remove(keys[9])
                    for key in list(plain)[:3]:
                        batch.remove(key)
            except NoMemory:
                refusals += 1
                assert index.commits() == commits and not any(index.get_many(keys))
            else:
                made += 1
                assert batch.numbers[:10] == [*range(commits + 1, commits + 10), None]
                assert batch.commit == index.commits() == commits + len(batch.numbers) - 1
                for key in list(plain)[:3]:
                    del plain[key]
                for at, key in enumerate(keys[:9], commits + 1):
                    plain[key] = Row(at, (b"v",))
                lags += view.at < batch.commit
            assert len(index) == len(plain)
        library.allowed = {}
        index.keep_views()
        assert made > 10 and lags > 10 and refusals > 10, (made, lags, refusals)
        assert dict(index.range()) == plain and view.page(index.commits()).count == len(plain)


def folders() -> None:
    """Puts of an index with a folder, where memory ends in the put, in the write of its commit, or in both. What wasn't
    written is written before the next put, or that is refused."""
    plain, unwritten, refusals = {}, 0, 0
    with tempfile.TemporaryDirectory() as place:
        with Index(folder=f"{place}/rows") as index:
            library = index._log._library = wanting(index)
            for number in range(4000):
                key, made = b"%06d" % (number * 7919 % 1000003), index.commits()
                library.allowed = {"put": number % 16 - 1, "log_commits": number // 16 % 16 - 1}
                try:
                    commit = index.put(key, b"v")
                except NotWritten as fault:
                    unwritten += 1
                    commit = fault.commit
                    assert isinstance(fault.__cause__, NoMemory)
                except NoMemory:
                    refusals += 1
                    assert index.commits() == made and index.get(key) == plain.get(key)
                    continue
                assert commit == index.commits() == made + 1
                plain[key] = Row(commit, (b"v",))
            library.allowed = {}
            assert index.settle() == index.durable() == index.commits() and dict(index.range()) == plain
        with Index(folder=f"{place}/rows") as index:
            assert dict(index.range()) == plain and index.commits() == len(plain)
    assert unwritten > 10 and refusals > 10, (unwritten, refusals)


def wanted(allowed: int, call: Callable[[], Any]) -> Any:
    """What a call of the extension module returns if memory ends after a number of allocations."""
    PRELOADED.memory_ends_after(allowed)
    try:
        return call()
    except MemoryError:
        return None
    finally:
        PRELOADED.memory_ends_after(-1)


def calls_of_the_module() -> None:
    """Calls of the extension module where memory ends: each is made, also if the view lags then, or has done nothing.
    The next put is made by ctypes if the view holds the whole log, and brings the view up to date before."""
    with Index(log_capacity=1) as index:
        calls, plain, lags, refusals, ends = index._native, {}, 0, 0, 0
        if isinstance(calls, NoCalls):
            return
        view = index.build(Prefix(b""))
        for number in range(4000):
            key, made = b"%06d" % (number * 7919 % 1000003), index.commits()
            commit = wanted(number % 20 - 1, lambda: calls.put(index, key, b"v"))
            if commit is NotImplemented:
                refusals += 1
                assert index.commits() == made and index.get(key) == plain.get(key)
                commit = index.put(key, b"v")
                assert view.at == commit
            assert commit == index.commits() == made + 1
            plain[key] = Row(commit, (b"v",))
            if view.at < commit:
                lags += 1
                assert index._views_lag
        first, last = index.first(b"", 100), index.last(None, 100)
        for allowed in range(200):
            for limit in (1, 100):
                pairs = wanted(allowed, lambda: calls.range(b"", limit, None))
                ends += pairs is None or pairs is NotImplemented
                assert pairs is None or pairs is NotImplemented or pairs == first[:limit]
                pairs = wanted(allowed, lambda: calls.range_back(None, limit, None))
                ends += pairs is None or pairs is NotImplemented
                assert pairs is None or pairs is NotImplemented or pairs == last[:limit]
                count = wanted(allowed, lambda: calls.count(b"", None, limit))
                ends += count is None or count is NotImplemented
                assert count is None or count is NotImplemented or count == limit
        index.keep_views()
        assert lags > 10 and refusals > 10 and ends > 1, (lags, refusals, ends)
        assert dict(index.range()) == plain and view.page(index.commits()).count == len(plain)


CASES = (puts, builds, reads_back, counts, gets_of_many, batches, folders, calls_of_the_module)


def main() -> int:
    failed = 0
    for case in CASES:
        try:
            case()
            print(f"ok {case.__name__}")
        except Exception:
            failed += 1
            print(f"FAILED {case.__name__}: {traceback.format_exc()}")
    print(f"{len(CASES) - failed} passed, {failed} failed")
    return 1 if failed else 0


if __name__ == "__main__":
    sys.exit(main())
