"""Mirrors of small prefixes of etcd: what bad input gets, and what a value of each kind becomes."""
from __future__ import annotations

import time
from base64 import b64encode
from typing import Callable, Dict, List, Sequence

from engines import Etcd
# (it puts the package on the path)
from running import SECONDS, Mirror, Server, rows_of, want, want_same

from rowanspan import mirror
from rowanspan.mirror.etcd import ROWS


def spelled(raw: bytes) -> str:
    return b64encode(raw).decode()


class Prefixes:
    """The source, the server, and prefixes, each with a mirror of its own."""

    def __init__(self, etcd: Etcd, server: Server) -> None:
        self.etcd, self.server = etcd, server
        self.index = server.index()

    def put(self, key: bytes, value: bytes) -> int:
        """Puts a key; returns the revision."""
        said = self.etcd.ask("kv/put", {"key": spelled(key), "value": spelled(value)})
        return int(said["header"]["revision"])

    def mirror(self, name: str, *words: str) -> Mirror:
        """A mirror of the keys `NAME/`, which isn't started yet."""
        return Mirror(self.server.port, name, ["etcd", "--url", self.etcd.url, "--prefix", f"{name}/", *words])

    def rows(self, name: str, columns: int = 1) -> List[object]:
        return rows_of(self.index, name.encode() + b"/", columns)

    def want_end(self, it: Mirror, status: int, why: str) -> None:
        got = it.status()
        want_same(f"status ({it.said()!r})", got, status)
        want(why in it.said(), f"{why!r} isn't in {it.said()!r}")


def values_of_all_kinds(it: Prefixes) -> None:
    """Bytes, numbers, JSON; removed keys; several changes of one transaction."""
    it.put(b"json/a", b'{"cents": 258, "price": 1.05, "more": 1}')
    at = it.put(b"cut/a", b"\xff" * 100)
    with it.mirror("json", "--value", "json", "--column", "cents", "--column", "price:dec2") as json, \
            it.mirror("cut", "--value", "cut") as cut:
        json.reach(it.index, at - 1)
        cut.reach(it.index, at)
        want_same("rows", (it.rows("json", 2), it.rows("cut")),
                  ([(b"json/a", (b"\1\2", b"\x69"))], [(b"cut/a", (b"\xff" * 64,))]))
        said = it.etcd.ask("kv/txn", {"success": [
            {"requestPut": {"key": spelled(b"cut/b"), "value": spelled(b"2")}},
            {"requestDeleteRange": {"key": spelled(b"cut/a")}}]})
        cut.reach(it.index, int(said["header"]["revision"]))
        want_same("rows", it.rows("cut"), [(b"cut/b", (b"2",))])


def more_keys_than_a_range(it: Prefixes) -> None:
    """A copy of several ranges, of which a later one has a value that doesn't fit at first."""
    keys, bad = [b"many/%05d" % number for number in range(2 * ROWS + 100)], b"many/%05d" % (ROWS + 7)
    for begin in range(0, len(keys), 100):
        it.etcd.ask("kv/txn", {"success": [{"requestPut": {"key": spelled(key), "value": spelled(b"7")}}
                                           for key in keys[begin:begin + 100]]})
    it.put(bad, b"-1")
    with it.mirror("many", "--value", "uint") as copied:
        it.want_end(copied, 1, "isn't from 0")
        at = it.put(bad, b"7")
        copied.start()
        copied.reach(it.index, at)
        want_same("rows", it.rows("many"), [(key, (b"\7",)) for key in keys])


def values_that_do_not_fit(it: Prefixes) -> None:
    """The mirror stops before the revision."""
    for name, why, key, value, kind in (
            ("long", "at most 64", b"long/1", b"x" * 65, "text"),
            ("far", "at most 1024", b"far/" + b"x" * 1100, b"", "text"),
            ("sum", "isn't from 0", b"sum/1", b"-1", "uint"), ("json2", "no object of JSON", b"json2/1", b"5", "json")):
        at = it.put(f"{name}/0".encode(), b"{}" if kind == "json" else b"1")
        with it.mirror(name, "--value", kind, *(["--column", "a"] if kind == "json" else [])) as stopped:
            stopped.reach(it.index, at)
            it.put(key, value)
            it.want_end(stopped, 1, why)
            found = mirror.position(it.index, name)
            want(found is not None and (found.at, found.state) == (at, mirror.State.EXACT), f"it is at {found}")


def refused(it: Prefixes) -> None:
    """Command lines that don't fit."""
    for why, words in (("no kind of column", ["--value", "float"]), ("need each other", ["--value", "json"]),
                       ("--columns 5", ["--value", "json", *["--column", "a"] * 5])):
        with it.mirror("refused", *words) as stopped:
            it.want_end(stopped, 1, why)


def compaction(it: Prefixes) -> None:
    """What a mirror would need next is compacted while it is away: all rows are copied again."""
    it.put(b"old/1", b"a")
    at = it.put(b"old/2", b"b")
    with it.mirror("old") as away:
        away.reach(it.index, at)
        away.kill()
        it.etcd.ask("kv/deleterange", {"key": spelled(b"old/2")})
        at = it.put(b"old/1", b"c")
        it.etcd.ask("kv/compaction", {"revision": str(at), "physical": True})
        away.start()
        away.reach(it.index, at)
        want("has compacted" in away.said(), away.said())
        want_same("rows", it.rows("old"), [(b"old/1", (b"c",))])


def two_of_one_name(it: Prefixes) -> None:
    """One of them stops, sooner or later; every position is right, and so are the rows at the end."""
    at = it.put(b"two/0", b"0")
    with it.mirror("two") as one, it.mirror("two") as other:
        one.reach(it.index, at)
        end, number = time.monotonic() + SECONDS, 0
        while one.process.poll() is None and other.process.poll() is None:
            want(time.monotonic() < end, "both run on")
            number += 1
            it.put(b"two/%d" % (number % 7), b"%d" % number)
            time.sleep(0.05)
        stopped, left = (one, other) if one.process.poll() is not None else (other, one)
        it.want_end(stopped, 1, "of the name two")
        at = it.put(b"two/0", b"last")
        left.reach(it.index, at)
        wanted = {b"two/%d" % (n % 7): (b"%d" % n,) for n in range(number + 1)}
        want_same("rows", it.rows("two"), sorted({**wanted, b"two/0": (b"last",)}.items()))


def a_server_that_ends(it: Prefixes) -> None:
    """The mirror notices it without a change of the source."""
    at = it.put(b"gone/1", b"1")
    with Server(it.server.program) as server:
        words: Sequence[str] = ["etcd", "--url", it.etcd.url, "--prefix", "gone/"]
        with Mirror(server.port, "gone", words) as left:
            with server.index() as index:
                left.reach(index, at)
            server.end()
            it.want_end(left, 3, "the server: ")


def a_source_that_ends(it: Prefixes) -> None:
    """The mirror ends, and so does its next start."""
    at = it.put(b"end/1", b"1")
    with it.mirror("end") as left:
        left.reach(it.index, at)
        it.etcd.end()
        it.want_end(left, 4, "the source")
        left.start()
        it.want_end(left, 4, "the source")


# (the last ends etcd)
CASES: Dict[str, Callable[[Prefixes], None]] = {
    "values of all kinds": values_of_all_kinds, "more keys than a range": more_keys_than_a_range,
    "values that do not fit": values_that_do_not_fit,
    "refused before the copy": refused, "compaction": compaction, "two mirrors of one name": two_of_one_name,
    "a server that ends": a_server_that_ends, "a source that ends": a_source_that_ends}
