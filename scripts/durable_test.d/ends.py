"""Cases: what is there after a server has ended and was started again, and what it says of itself."""
from __future__ import annotations

import asyncio
import signal
import time
from typing import Callable, Dict, List, Tuple

from histories import History
from running import SECONDS, Server, Setting, want, want_raised, want_same

from rowanspan import InMemory, Pool, Prefix, Put, Role, Row, aio, read_replies, receive_body, request_frame

# of each policy: the words for it, and whether each commit is durable before it is answered
POLICIES: Dict[str, Tuple[Tuple[str, ...], bool]] = {
    "the default": ((), True), "always": (("--sync", "always"), True), "never": (("--sync", "never"), False),
    "a minute": (("--sync", "60000"), False), "20 ms": (("--sync", "20"), False)}
# in seconds: within this a wait of 50 milliseconds has to end, once in five times; and what a wait may be late by
PROMPT, TIMES = 0.25, 5


# ---- how it ends

def by_end_of_input(server: Server, commits: int) -> None:
    want_same("the commits at the end", server.stop(), commits)


def by_stop(server: Server, commits: int) -> None:
    with server.index() as index:
        want_same("the answer to stop", index.stop(), commits)
    want_same("the commits at the end", server.ended(), commits)


def by_stop_at_once(server: Server, commits: int) -> None:
    with server.index() as index:
        want_same("the answer to stop", index.stop(at_once=True), commits)
    want_same("the commits at the end", server.ended(), commits)


ENDS: Tuple[Callable[[Server, int], None], ...] = (by_end_of_input, by_stop, by_stop_at_once)


def each_end_under_each_policy(setting: Setting) -> None:
    """A server that ends by itself has all commits when it is started again."""
    history = History()
    for words, is_durable in POLICIES.values():
        for end in ENDS:
            with setting.server(*words) as server:
                with server.index() as index:
                    history.want_all(index)
                    want_same("what is durable at the start", index.durable(), history.commits)
                    for size in (1, 20):
                        history.work(index, 5, size)
                        if is_durable:
                            want_same("what is durable after an answer", index.durable(), history.commits)
                    want_same("info", index.info()["commits"], history.commits)
                end(server, history.commits)
    with setting.server() as server, server.index() as index:
        history.want_all(index)


def sigterm_of_rowan_serve(setting: Setting) -> None:
    """A signal to `rowan serve` lets the server end, under each policy."""
    history = History(2)
    for words, _ in POLICIES.values():
        with setting.server_by_rowan(*words) as server:
            with server.index() as index:
                history.want_all(index)
                history.work(index, 10, 1)
            server.process.send_signal(signal.SIGTERM)
            want_same("the commits at the end", server.ended(), history.commits)
    with setting.server() as server, server.index() as index:
        history.want_all(index)


def frames_that_came_before_a_stop(setting: Setting) -> None:
    """They are answered, and what was answered is there."""
    frames = 10
    with setting.server() as server, server.index() as index, server.index() as other:
        queries = [Put(b"%d" % number, {0: b"v"}) for number in range(64)]
        connection = index._connection
        assert connection is not None
        connection.sendall(request_frame([query.spelled() for query in queries]) * frames)
        commits = read_replies(receive_body(connection), queries)
        want_same("the first frame", commits[63].value, 64)  # type: ignore[union-attr]
        other.ping()
        server.end_input()
        for _ in range(frames - 1):
            receive_body(connection)
        want_same("the commits at the end", server.ended(), 64 * frames)
    with setting.server() as server, server.index() as index:
        want_same("the commits", (index.ping(), index.durable()), (64 * frames,) * 2)
        want_same("the rows", [row.version for _, row in index.range()],
                  [64 * (frames - 1) + int(key) + 1 for key, _ in index.range()])


def kills_between_answers(setting: Setting) -> None:
    """What was answered is there after a kill, row by row, with its version."""
    history = History(3)
    for number in range(10):
        with setting.server() as server:
            with server.index() as index:
                history.want_all(index)
                for size in (1, 64):
                    history.work(index, 3, size)
                    want_same("what is durable after an answer", index.durable(), history.commits)
            if number % 2:
                server.kill()
            else:
                server.stop()


# ---- what it says of itself

def info_and_hello(setting: Setting) -> None:
    runs = set()
    for number in range(3):
        with setting.server() as server, server.index() as index:
            runs.add(index.hello.run)
            want_same("hello", (index.hello.commits, index.hello.columns, index.hello.role), (number, 2, Role.ALL))
            names = list(index.info())
            want_same("the last names of info", names[-6:],
                      ["output_bytes", "durable", "wrong_secrets", "buffered_bytes", "resident_bytes", "uptime_ms"])
            want_same("what is durable", index.info()["durable"], number)
            want_same("a put", index.put(b"a", {0: b"v"}), number + 1)
            want_same("what is durable after it", index.info()["durable"], number + 1)
            want_same("a settle", index.settle(timeout=0), True)
    want_same("how many names of runs there are", len(runs), 3)


def views_are_built_again(setting: Setting) -> None:
    """No view is there after a start, and a new one is of all rows."""
    for number in range(3):
        with setting.server() as server, server.index() as index:
            want_same("the views", index.views(), [])
            with index.build(Prefix(b"a")) as view:
                want_same("its rows", view.count, number)
                index.put(b"a%d" % number, {0: b"\1"})
                page = view.page(number + 1)
                want_same("its page", (page.count, page.sums[0]), (number + 1, number + 1))
            index.build(Prefix(b""))


def greatest_rows(setting: Setting) -> None:
    """Frames of the longest rows, of sixteen columns."""
    columns = tuple(bytes((0, 1, 255, column)) * 16 for column in range(16))
    keys = [bytes((number,)) * 1024 for number in range(64)]
    words = ("--columns", "16")
    with setting.server(*words) as server, server.index() as index:
        outcomes = index.call_all([Put(key, dict(enumerate(columns))) for key in keys])
        want_same("the commits", [outcome.value for outcome in outcomes],  # type: ignore[union-attr]
                  list(range(1, 65)))
        server.kill()
    with setting.server(*words) as server, server.index() as index:
        want_same("the rows", list(index.range()), [(key, Row(number + 1, columns)) for number, key in enumerate(keys)])


def tidies_and_many_keys(setting: Setting) -> None:
    """Many rows come and go, so that nodes do."""
    count = 3000
    with setting.server("--sync", "never") as server, server.index() as index:
        for at in range(0, count, 60):
            with index.pipeline() as pipeline:
                for number in range(at, at + 60):
                    pipeline.put(b"%05d" % (number * 7919 % count), {0: b"%d" % number})
        for at in range(0, count, 60):
            with index.pipeline() as pipeline:
                for number in range(at, at + 60):
                    if number % 3:
                        pipeline.remove(b"%05d" % number)
        rows, commits = list(index.range()), index.ping()
        server.stop()
    want_same("how many rows there are", len(rows), count // 3)
    with setting.server() as server, server.index() as index:
        want_same("the commits", index.ping(), commits)
        want(list(index.range()) == rows, "the rows are others")
        want_same("a put", index.put(b"00000", {1: b"w"}), commits + 1)


# ---- waits

def waits_with_milliseconds(setting: Setting) -> None:
    """With --sync 50 nobody waits, and each commit is durable soon."""
    took = []
    with setting.server("--sync", "50") as server, server.index() as index:
        for number in range(TIMES):
            commit = index.put(b"a", {0: b"%d" % number})
            began = time.monotonic()
            want_same("a wait", index.wait(commit, timeout=SECONDS, durable=True), True)
            took.append(time.monotonic() - began)
            want(index.durable() >= commit, "the commit that was waited for isn't durable")
        want(min(took) < PROMPT, f"the waits took {took}")
        commit = index.put(b"a", {0: b"v"})
        time.sleep(2 * PROMPT)
        want_same("what is durable, if nobody waits", index.durable(), commit)
        server.kill()
    with setting.server() as server, server.index() as index:
        want_same("the row", index.get(b"a"), Row(commit, (b"v", b"")))


def waits_without_syncs(setting: Setting) -> None:
    """With a long time, or never, puts are answered at once, and nothing is durable before the end."""
    commits = 0
    for words in (("--sync", "never"), ("--sync", "60000")):
        with setting.server(*words) as server, server.index() as index:
            commits = index.put(b"a", {0: b"v"})
            before = index.durable()
            want_same("a wait", index.wait(commits, timeout=0.3, durable=True), before >= commits)
            want_same("a settle", index.settle(timeout=0.1), before >= commits)
            want_same("a wait for a commit", index.wait(commits, timeout=0), True)
            want_same("info", index.info()["durable"], before)
            server.stop()
    with setting.server() as server, server.index() as index:
        want_same("what is durable after the end", (index.ping(), index.durable()), (commits, commits))


def waits_of_others(setting: Setting) -> None:
    """A client that waits is answered when another's commit is durable; and a pool settles."""
    with setting.server("--sync", "100") as server, server.index() as index, Pool(server.port, timeout=SECONDS) as pool:
        want_same("a wait that is too short", index.wait(1, timeout=0.05, durable=True), False)
        want_same("a put", pool.put(b"a", {0: b"v"}), 1)
        want_same("a settle", pool.settle(timeout=SECONDS), True)
        want_same("a wait", index.wait(1, timeout=0, durable=True), True)


def changes_that_wait(setting: Setting) -> None:
    """A change of each client that is to be durable is that when it returns, and is there after a kill."""
    commits, tasks = 0, 20
    for words in ((), ("--sync", "50")):
        with setting.server(*words) as server, server.index() as index, Pool(server.port, timeout=SECONDS) as pool:
            for asker in (index, pool):
                calls: Tuple[Callable[[], object], ...] = (
                    lambda: asker.put(b"a", {0: b"v"}, durable=True),
                    lambda: asker.put_if(b"a", {0: b"w"}, commits, durable=True),
                    lambda: asker.update(b"a", lambda row: {1: b"x"}, durable=True),
                    lambda: asker.remove(b"a", durable=True))
                for call in calls:
                    found, commits = call(), commits + 1
                    want_same("the commit", found, commits)
                    want(asker.durable() >= commits, f"commit {commits} isn't durable")
                want_same("a remove of nothing", asker.remove(b"a", durable=True), None)
            found = asyncio.run(put_by_tasks(server.port, tasks))
            want_same("the commits of tasks", sorted(found), list(range(commits + 1, commits + tasks + 1)))
            server.kill()
        commits += tasks
        with setting.server() as server, server.index() as index:
            want_same("the commits and the rows", (index.ping(), len(index)), (commits, tasks))
            server.kill()


async def put_by_tasks(port: int, count: int) -> List[int]:
    """The commits of puts that tasks make at once."""
    async with aio.Client(port, timeout=SECONDS) as index:
        return await asyncio.gather(*(index.put(b"%d" % number, {0: b"v"}, durable=True) for number in range(count)))


def in_memory(setting: Setting) -> None:
    """Without a folder nothing is durable, and no change that is to be durable is made."""
    with setting.server_in_memory() as server, server.index() as index:
        index.put(b"a", {0: b"v"})
        for call in (index.durable, index.settle, lambda: index.wait(1, timeout=0, durable=True),
                     lambda: index.put(b"a", {0: b"w"}, durable=True), lambda: index.remove(b"a", durable=True)):
            want_raised("a wait", call, InMemory)
        want_same("the row", index[b"a"], Row(1, (b"v", b"")))
        want_same("info", index.info()["durable"], 0)
        server.stop()
    with setting.server_in_memory() as server, server.index() as index:
        want_same("the commits", index.ping(), 0)


CASES = (each_end_under_each_policy, sigterm_of_rowan_serve, frames_that_came_before_a_stop, kills_between_answers,
         info_and_hello, views_are_built_again, greatest_rows, tidies_and_many_keys, waits_with_milliseconds,
         waits_without_syncs, waits_of_others, changes_that_wait, in_memory)
