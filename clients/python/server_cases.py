"""Cases of the queries of a server, over any server of version 3: the stand-in, or a build of mtserve.

`CASES` are functions of a `Start`, which runs a server with these tokens and two columns, without end. Each is a test
alone, and raises what is wrong.
"""
from __future__ import annotations

import socket
import threading
import time
from contextlib import ExitStack
from typing import Any, Callable, ContextManager, Dict, List, Mapping, Sequence

from rowanspan import (AnyRow, AtLeast, BadLimit, Build, Client, ConnectionLost, CountRange, Equals, Get, GetInfo,
                       GetMany, GetRange, GetRangeBack, Hello, InMemory, ListViews, NoSuchView, NotAllowed, Outcome,
                       Ping, Prefix, Put, PutIf, Query, Range, Refused, Remove, Reply, Role, Row, StandingView, Stop,
                       Tidy, TooMuchAtOnce, ViewDrop, ViewRead, Wait, WaitDurable, read_replies, receive_body,
                       request_frame)

# a token of each role
READER, WRITER, OWNER = b"reader-0123456789", b"writer-0123456789", b"owner-0123456789a"
TOKENS: Dict[bytes, Role] = {READER: Role.READ, WRITER: Role.WRITE, OWNER: Role.ALL}
OPEN: Mapping[bytes, Role] = {}
SECONDS = 20.0
COLUMNS = 2

# yields the port of a running server, until the end of its block
Start = Callable[[Mapping[bytes, Role]], ContextManager[int]]
Case = Callable[[Start], None]

READS: Sequence[Query[Any]] = (Get(b"a"), GetRange(), GetMany([b"a"]), GetRangeBack(), CountRange(), ViewRead(1),
                               Ping(5), GetInfo())
LISTS: Sequence[Query[Any]] = (ListViews(), Wait(0))
WRITES: Sequence[Query[Any]] = (Put(b"b", b"v"), PutIf(b"c", b"v", 0), Remove(b"b"), Tidy(b"b"), Build(Prefix(b"")),
                                ViewDrop(2))


def want(is_so: bool, why: str) -> None:
    if not is_so:
        raise AssertionError(why)


def want_same(what: str, got: object, wanted: object) -> None:
    want(got == wanted, f"{what}: {str(got)[:300]} instead of {str(wanted)[:300]}")


def want_refused(what: str, outcome: object, kind: type) -> None:
    want(isinstance(outcome, kind), f"{what}: {outcome!r} instead of {kind.__name__}")


def client(port: int, **given: Any) -> Client:
    return Client(port, timeout=SECONDS, **given)


def not_admitted(port: int, token: bytes) -> NotAllowed:
    """Why a client with this token isn't admitted."""
    try:
        client(port, token=token).close()
    except NotAllowed as fault:
        return fault
    raise AssertionError(f"a client is admitted with a token of {len(token)} bytes")


def asked(connection: socket.socket, version: int, queries: Sequence[Query[Any]]) -> List[Outcome]:
    """The answers to a frame in this version. For readers of version 3, they are as those of version 3."""
    connection.sendall(request_frame([query.spelled() for query in queries], version))
    body = receive_body(connection)
    want_same("the version of the reply", body[0], version)
    # (each reads what is refused)
    return read_replies(bytes((max(query.since for query in queries),)) + body[1:], queries)


# ---- hello

def hello_without_tokens(start: Start) -> None:
    """Who says no hello may do all, and hello says what the server is."""
    with start(OPEN) as port, client(port, name="a case") as index, client(port) as other:
        first = index.hello
        want_same("hello", (first.version, first.role, first.columns, first.commits), (3, Role.ALL, COLUMNS, 0))
        want_same("the bytes of the run", len(first.run), 16)
        want_same("a put", other.put(b"a", b"v"), 1)
        want_same("a later hello", (other.hello.run, other.hello.commits), (first.run, 1))
        want_same("the first again", index.hello, first)
    with start(OPEN) as port, client(port) as index:
        want(index.hello.run != first.run, "another run has the same name")


def hello_with_tokens(start: Start) -> None:
    """Each token grants its role, and no other bytes grant any."""
    with start(TOKENS) as port:
        for token, role in TOKENS.items():
            with client(port, token=token) as index:
                want_same(f"the role of {role.name}", index.hello.role, role)
        with client(port, token=OWNER.decode(), name="a case") as index:
            want_same("the role by a text", index.hello.role, Role.ALL)
        for wrong in (b"", OWNER[:-1], OWNER + b"\0", bytes(len(OWNER)), OWNER.upper(), b"x" * 500):
            not_admitted(port, wrong)
        with client(port, token=READER) as index:
            want_same("a get afterwards", index.get(b"a"), None)


def nothing_before_hello(start: Start) -> None:
    """Without hello each query is refused, in each version, and nothing is done."""
    with start(TOKENS) as port:
        for query in (*READS, *WRITES, Stop(), Stop(True)):
            for version in range(query.since, 4):
                with socket.create_connection(("127.0.0.1", port), SECONDS) as connection:
                    try:
                        (outcome,) = asked(connection, version, [query])
                        want_refused(f"{query} in version {version}", outcome, NotAllowed)
                        want_same("what comes then", connection.recv(1), b"")
                    except ConnectionError:
                        # (a server may also end the connection at once)
                        pass
        with client(port, token=OWNER) as index:
            want_same("the commits", index.ping(), 0)
            want_refused("a page", index.call_all([ViewRead(1)])[0], NoSuchView)


def what_a_reader_may(start: Start) -> None:
    with start(TOKENS) as port, client(port, token=OWNER) as owner, client(port, token=READER) as index:
        owner.put(b"a", b"v")
        owner.build(Prefix(b""))
        for query in READS:
            want_refused(str(query), index.call_all([query])[0], Reply)
        for query in (*WRITES, Stop(), Stop(True)):
            want_refused(str(query), index.call_all([query])[0], NotAllowed)
        both = index.call_all([Get(b"a"), Put(b"a", b"w")])
        want_same("a get beside a put", [type(outcome) for outcome in both], [NotAllowed, NotAllowed])
        want_same("the row", index.get(b"a"), Row(1, (b"v", b"")))
        want_same("the commits", index.ping(), 1)
        want_refused("a page of another view", index.call_all([ViewRead(2)])[0], NoSuchView)


def what_a_writer_may(start: Start) -> None:
    with start(TOKENS) as port, client(port, token=WRITER) as index:
        for query in (Build(Prefix(b"")), *READS, *WRITES):
            want_refused(str(query), index.call_all([query])[0], Reply)
        for query in (Stop(), Stop(True)):
            want_refused(str(query), index.call_all([query])[0], NotAllowed)
        want_same("the commits", index.ping(), 3)


def hello_again(start: Start) -> None:
    """A second hello grants another role; one that is refused leaves the role as it was, or ends the connection."""
    with start(TOKENS) as port, client(port, token=READER) as index:
        want_same("the role", index.call(Hello(WRITER)).value.role, Role.WRITE)
        want_same("a put", index.put(b"a", b"v"), 1)
        try:
            want_refused("a wrong token", index.call_all([Hello(b"wrong")])[0], NotAllowed)
            want_same("another put", index.put(b"a", b"v"), 2)
        except ConnectionLost:
            pass


def versions_after_hello(start: Start) -> None:
    """After hello, frames of each version are answered in it."""
    with start(TOKENS) as port:
        with socket.create_connection(("127.0.0.1", port), SECONDS) as connection:
            want_refused("hello", asked(connection, 3, [Hello(WRITER)])[0], Reply)
            for number, version in enumerate((1, 2, 3, 1)):
                (put,) = asked(connection, version, [Put(b"a", b"v")])
                want_same("a put", put, Reply(number + 1, number, number + 1))
            want_same("a put by its version", asked(connection, 3, [PutIf(b"a", b"v", 4)]), [Reply(5, 4, 5)])


# ---- what the server says of itself

def alone_in_its_frame(start: Start) -> None:
    """A query of the server that has others in its frame is refused, and the others are done."""
    with start(OPEN) as port, client(port) as index:
        for number, query in enumerate((Ping(1), GetInfo(), Stop(), Hello())):
            put, refused, got = index.call_all([Put(b"a", b"v"), query, Get(b"a", (0,))])
            want_refused(str(query), refused, TooMuchAtOnce)
            want_same("the put and the get", [put, got], [Reply(number + 1, number, number + 1),
                                                          Reply(Row(number + 1, (b"v",)), number + 1, number + 1)])


def pings(start: Start) -> None:
    with start(OPEN) as port, client(port) as index:
        want_same("a ping", index.ping(), 0)
        index.put(b"a", b"v")
        want_same("a ping after a put", index.ping(), 1)
        for number in (0, 258, 2 ** 64 - 1):
            want_same("the number of a ping", index.call(Ping(number)).value.number, number)


def info(start: Start) -> None:
    with start(OPEN) as port, client(port) as index, client(port) as other:
        want_same("no rows", (len(index), index.info()["rows"], bool(index)), (0, 0, True))
        other.put(b"a", b"v")
        before = index.info()
        want({"commits", "connections", "connections_all", "queries", "uptime_ms"} <= set(before), f"it has {before}")
        want_same("numbers", tuple(before[name] for name in ("commits", "rows", "connections")), (1, 1, 2))
        other.put(b"b", b"v")
        after = index.info()
        want(after["queries"] > before["queries"] and after["uptime_ms"] >= before["uptime_ms"], f"{before}, {after}")
        want_same("commits and rows", (after["commits"], after["rows"]), (2, 2))
        # a put over a row adds none, and what is refused or finds no row changes nothing
        for queries, count in (([Put(b"a", b"w"), PutIf(b"c", b"v", 9)], 2),
                               ([Put(b"%02d" % (number % 40), b"v") for number in range(64)], 42),
                               ([Remove(b"a"), Remove(b"a")], 41),
                               ([Remove(b"%02d" % number) for number in range(40)], 1), ([Remove(b"b")], 0)):
            other.call_all(queries)
            want_same(f"the rows after {queries[-1]}", (len(index), index.info()["rows"], len(other)), (count,) * 3)


# ---- reads of one moment

def reads_of_one_moment(start: Start) -> None:
    """Gets of many keys, ranges back and counts, against a sorted list."""
    keys = [b"%04d" % number for number in range(1200)]
    rows = [Row(number, (key, b"")) for number, key in enumerate(keys, 1)]
    with start(OPEN) as port, client(port) as index, client(port) as other:
        want_same("no rows", (index.get_many([b"a", b""]), index.last(), index.count()), ([None, None], [], 0))
        for at in range(0, len(keys), 64):
            other.call_all([Put(key, key) for key in keys[at:at + 64]])
        want_same("gets", index.get_many([b"a", *keys[999:0:-1]]), [None, *rows[999:0:-1]])
        want_same("gets of a column", index.get_many([keys[5], keys[5]], [1]), [Row(6, (b"",))] * 2)
        want_same("a range back", list(index.range(reverse=True)), list(zip(keys, rows))[::-1])
        want_same("one between keys", [key for key, _ in index.range(keys[100], keys[1150], reverse=True)],
                  keys[1149:99:-1])
        want_same("counts", (index.count(), index.count(keys[7], keys[900]), index.count(prefix=b"01", most=50)),
                  (1200, 893, 50))
        refused = index.call_all([GetMany([b""] * 1001), GetRangeBack(None, 1001), CountRange(most=1_000_001),
                                  Get(b"a")])
        want_same("what is refused", [type(one) for one in refused], [BadLimit] * 3 + [Reply])


def reads_among_changes(start: Start) -> None:
    """Two rows that are changed one after the other: no answer has the second change without the first."""
    with start(OPEN) as port, client(port) as index, client(port) as other:
        ended: List[int] = []

        def change() -> None:
            for number in range(1, 301):
                value = number.to_bytes(2, "big")
                other.put(b"a", value)
                other.put(b"b", value)
            ended.append(300)

        changing, seen = later(0, change), 0
        while not ended:
            found = [0 if row is None else int.from_bytes(row.columns[0], "big")
                     for row in index.get_many([b"b", b"a"])]
            want(seen <= found[0] <= found[1] <= found[0] + 1, f"{found} after {seen}")
            pairs = {key: int.from_bytes(row.columns[0], "big") for key, row in index.last()}
            want(found[1] <= pairs.get(b"a", 0) <= pairs.get(b"b", 0) + 1, f"{pairs} after {found}")
            seen = pairs.get(b"b", 0)
        changing.join()
        want_same("the count afterwards", index.count(b"a", b"b"), 1)


# ---- the list of views

def lists_by_role(start: Start) -> None:
    """Every client that was admitted may list and wait, in a frame of one query."""
    with start(TOKENS) as port, client(port, token=READER) as index:
        for query in LISTS:
            want_refused(str(query), index.call_all([query])[0], Reply)
            want_refused(f"{query} beside a get", index.call_all([query, Get(b"a")])[0], TooMuchAtOnce)
            with socket.create_connection(("127.0.0.1", port), SECONDS) as connection:
                want_refused(f"{query} before hello", asked(connection, 3, [query])[0], NotAllowed)


SPECS = (Prefix(b""), Prefix(b"a", Equals(1, b"v")), Range(b"a"), Range(b"", b"b", AtLeast(0, 2 ** 64 - 1)),
         Range(b"a", b"b" * 1024, AnyRow()), Prefix(b"\xff" * 1024, Equals(0, bytes(64))))


def views(start: Start) -> None:
    with start(OPEN) as port, client(port) as index, client(port) as other:
        want_same("no views", index.views(), [])
        built = [other.build(spec) for spec in SPECS]
        other.put(b"a", {1: b"v"})
        other.put(b"b", b"\1")
        want_same("the pages", [view.page(2).at for view in built], [2] * len(SPECS))
        rows = (2, 1, 2, 0, 2, 0)
        want_same("the views", index.views(), [StandingView(view.number, 2, count, spec)
                                               for view, count, spec in zip(built, rows, SPECS)])
        want_same("the commits of the list", index.call(ListViews()).value.commits, 2)
        built[0].drop()
        want_same("those that are left", [view.number for view in index.views()], [view.number for view in built[1:]])


# ---- waiting

def later(seconds: float, work: Callable[[], object]) -> threading.Thread:
    """Does something after a while, in a thread of its own."""
    def run() -> None:
        time.sleep(seconds)
        work()

    thread = threading.Thread(target=run, daemon=True)
    thread.start()
    return thread


def wait_for_commits(start: Start) -> None:
    with start(OPEN) as port, client(port) as index, client(port) as other:
        want_same("none is waited for", index.wait(0, timeout=0), True)
        want_same("one that isn't there", index.wait(1, timeout=0), False)
        began = time.monotonic()
        want_same("one that doesn't come", index.wait(1, timeout=0.3), False)
        want(0.29 <= time.monotonic() - began < SECONDS, "it has waited for another time")
        putting = later(0.2, lambda: other.put(b"a", b"v"))
        want_same("one that comes", index.wait(1, timeout=SECONDS), True)
        putting.join()
        want_same("the row", index.get(b"a"), Row(1, (b"v", b"")))
        putting = later(0.2, lambda: other.put(b"a", b"w"))
        want_same("the next one", index.wait(timeout=SECONDS), True)
        putting.join()
        want_same("one of before", (index.wait(1), index.wait(3, timeout=0)), (True, False))
        waited = index.call(Wait(3, None, 0)).value
        want_same("what it says", (waited.is_reached, waited.commits, waited.view_commits), (False, 2, 0))


def wait_for_a_view(start: Start) -> None:
    with start(OPEN) as port, client(port) as index, client(port) as other:
        view = index.build(Prefix(b"a"))
        putting = later(0.2, lambda: other.put(b"a", b"v"))
        want_same("a view", index.wait(1, view, SECONDS), True)
        putting.join()
        want_same("its page", view.page(1).count, 1)
        waited = index.call(Wait(1, view.number, 0)).value
        want_same("what it says", (waited.is_reached, waited.commits, waited.view_commits), (True, 1, 1))
        want_same("the next commit", index.wait(view=view.number, timeout=0.1), False)
        want_refused("no such view", index.call_all([Wait(0, 99, 1000)])[0], NoSuchView)
        dropping = later(0.2, lambda: other.view(view.number).drop())
        want_refused("a view that is dropped", index.call_all([Wait(2, view.number, 10_000)])[0], NoSuchView)
        dropping.join()


def waits_of_many(start: Start) -> None:
    """Many wait at once, and others are served meanwhile."""
    count = 6
    with start(OPEN) as port, client(port) as other, ExitStack() as opened:
        waiting = [opened.enter_context(client(port)) for _ in range(count)]
        found: List[bool] = []
        threads = [later(0, lambda index=index: found.append(index.wait(20, timeout=SECONDS))) for index in waiting]
        for number in range(20):
            want_same("a put meanwhile", other.put(b"a", b"v"), number + 1)
        for thread in threads:
            thread.join(SECONDS)
        want_same("what they found", found, [True] * count)


def nothing_is_durable(start: Start) -> None:
    """A server without a folder refuses at once to wait for a durable commit, and no change that is to wait is made."""
    with start(TOKENS) as port, client(port, token=WRITER) as index, client(port, token=READER) as reader:
        index.put(b"a", b"v")
        for asker in (index, reader):
            for call in (asker.durable, asker.settle, lambda: asker.wait(1, durable=True)):
                try:
                    raise AssertionError(f"{call()} is answered")
                except InMemory as refusal:
                    want_same("its detail", refusal.detail, None)
        for change in (lambda: index.put(b"a", b"w", durable=True), lambda: index.remove(b"a", durable=True),
                       lambda: index.put_if(b"a", b"w", 1, durable=True)):
            try:
                raise AssertionError(f"{change()} is answered")
            except InMemory:
                want_same("the row", index.get(b"a"), Row(1, (b"v", b"")))
        want_same("what info says", index.info()["durable"], 0)
        both = index.call_all([WaitDurable(), Get(b"a")])
        want_refused("a wait beside a get", both[0], TooMuchAtOnce)
        want(not isinstance(both[1], Refused), f"a get beside a wait: {both[1]}")


# ---- the end

def want_ended(port: int) -> None:
    """Nobody is served any more."""
    end = time.monotonic() + SECONDS
    while time.monotonic() < end:
        try:
            client(port).close()
        except ConnectionLost:
            return
        time.sleep(0.05)
    raise AssertionError("the server doesn't end")


def stops(start: Start) -> None:
    for at_once in (False, True):
        with start(TOKENS) as port, client(port, token=OWNER) as index:
            index.put(b"a", b"v")
            want_same("a stop", index.stop(at_once), 1)
            want_ended(port)
            try:
                index.get(b"a")
            except ConnectionLost:
                continue
            raise AssertionError("a get after a stop is answered")


CASES: List[Case] = [
    hello_without_tokens, hello_with_tokens, nothing_before_hello, what_a_reader_may, what_a_writer_may, hello_again,
    versions_after_hello, alone_in_its_frame, pings, info, reads_of_one_moment, reads_among_changes, lists_by_role,
    views, wait_for_commits, wait_for_a_view, waits_of_many, nothing_is_durable, stops]
