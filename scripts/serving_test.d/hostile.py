"""Cases of clients that a server has to bear, over a build of mtserve: strangers, connections that are too many or say
nothing, views that are left behind, puts without end, and giant answers that nobody reads, or slowly.

`CASES` are functions of a `Start`, as those of operating.py.
"""
from __future__ import annotations

import re
import resource
import select
import socket
import subprocess
import tempfile
import threading
import time
from contextlib import ExitStack, contextmanager
from pathlib import Path
from typing import Any, Callable, Dict, Iterator, List, Sequence, Type

from operating import FORMS, OWNER, READER, SECONDS, Start, ends_told, next_read, want, want_same
from rowanspan import (MAX_KEY_BYTES, MAX_REQUEST_BODY, Build, Client, ConnectionLost, Get, GetRange, Hello, NoMemory,
                       NotAllowed, Outcome, Prefix, Put, Refused, Remove, Reply, Row, Sets, TooManyViews, read_replies,
                       receive_body, request_frame)

WRITER = b"writer-0123456789"
TOKENS = b"read " + READER + b"\nwrite " + WRITER + b"\nall " + OWNER + b"\n"


# ---- servers and clients

@contextmanager
def with_tokens(start: Start, *words: str) -> Iterator[Any]:
    """A server that has a secret for each role."""
    with tempfile.TemporaryDirectory() as folder:
        path = Path(folder, "tokens")
        path.write_bytes(TOKENS)
        with start("--token-file", str(path), *words) as server:
            yield server


def connected(port: int) -> socket.socket:
    """A connection without a client."""
    return socket.create_connection(("127.0.0.1", port), SECONDS)


def want_ended(what: str, connection: socket.socket) -> None:
    """Nothing comes any more but the end. A reset is an end too."""
    try:
        want_same(what, connection.recv(1), b"")
    except ConnectionResetError:
        pass


def until(what: str, is_so: Callable[[], bool]) -> None:
    """Asks again and again, until it is so."""
    end = time.monotonic() + SECONDS
    while not is_so():
        want(time.monotonic() < end, f"{what} in {SECONDS:.0f} seconds")
        time.sleep(0.02)


def values(outcomes: Sequence[Outcome]) -> List[Any]:
    """The values of replies. Raises the first refusal, if there is one."""
    found = []
    for outcome in outcomes:
        if isinstance(outcome, Refused):
            raise outcome
        found.append(outcome.value)
    return found


def want_refused(what: str, call: Callable[[], object], kind: Type[Refused]) -> None:
    try:
        found = call()
    except kind:
        return
    raise AssertionError(f"{what}: {found} instead of {kind.__name__}")


def put_all(index: Client, keys: Sequence[bytes], sets: Sets) -> None:
    """Puts a row for each of these keys, 64 in a frame."""
    for at in range(0, len(keys), 64):
        values(index.call_all([Put(key, sets) for key in keys[at:at + 64]]))


def info_of_now(index: Client) -> Dict[str, int]:
    """What info says once the resident memory was read again. (It is at most a second old.)"""
    later = index.info()["uptime_ms"] + 2_000
    until("its time doesn't go on", lambda: index.info()["uptime_ms"] >= later)
    return index.info()


# ---- clients that have said no hello

# how many bytes are kept of the frame of such a client, and how many of these clients there are
KEPT, STRANGERS = 2_048, 100
# all but a byte of the longest frame
UNENDED = MAX_REQUEST_BODY.to_bytes(4, "big") + b"\3\x40" + bytes(MAX_REQUEST_BODY - 3)
HELLO = request_frame([Hello(WRITER).spelled()], 3)


def send_some(connection: socket.socket, sent: bytes) -> None:
    """Sends as much of it as the server lets it."""
    try:
        connection.sendall(sent)
    except ConnectionError:
        pass


def strangers_with_long_frames(start: Start) -> None:
    """Of the frame of a client that has said no hello at most 2,048 bytes are kept: with more its connection ends.
    Another client is served meanwhile, also with long answers."""
    keys = [b"%08d" % number + bytes(24) for number in range(1000)]
    # (each of these is served by the one worker)
    words = ("--log", "pairs", "--workers", "1", "--hello-timeout", "0", "--frame-timeout", "0")
    with with_tokens(start, *words) as server, ExitStack() as opened:
        next_read(server, "listening", "info")
        index = opened.enter_context(Client(server.port, timeout=SECONDS, token=WRITER))
        put_all(index, keys, bytes(64))
        quiet = [opened.enter_context(connected(server.port)) for _ in range(STRANGERS)]
        for connection in quiet:
            connection.sendall(UNENDED[:KEPT])
        until("what strangers send isn't kept", lambda: index.info()["buffered_bytes"] >= KEPT * STRANGERS)
        kept = []
        loud = [opened.enter_context(connected(server.port)) for _ in range(STRANGERS)]
        for connection in loud:
            send_some(connection, UNENDED)
            kept.append(index.info()["buffered_bytes"])
        for number, connection in enumerate(loud):
            want_ended("what is answered to a long frame before hello", connection)
            if number % 10 == 0:
                want_same("the keys of a long range", [key for key, _ in index.first()], keys)
        want(max(kept) <= 2 * KEPT * STRANGERS, f"{max(kept)} bytes are kept of strangers")
        want_same("how many are ended that have sent less", len(select.select(quiet, [], [], 0)[0]), 0)
        for connection in quiet[::2]:
            send_some(connection, UNENDED[KEPT:KEPT + 1])
            want_ended("what is answered to a byte too many", connection)
        ended = STRANGERS + len(quiet[::2])
        ends_told(server, ended, 8)
        want_same("the faults", index.info()["faults"], ended)
        for connection in quiet[1::2]:
            connection.close()
        until("the bytes of strangers aren't freed", lambda: index.info()["buffered_bytes"] == 0)
        want_same("a put afterwards", index.put(b"a", b"v"), len(keys) + 1)


def hello_and_more_at_once(start: Start) -> None:
    """After a right hello frames are answered however long they are, also those that come in one piece with it or with
    its last byte."""
    puts = [Put(b"%08d" % number + bytes(1000), b"v") for number in range(64)]
    frame = request_frame([put.spelled() for put in puts])
    with with_tokens(start, "--workers", "1") as server:
        commits = 0
        for cut in (0, 1, len(HELLO) - 1):
            with connected(server.port) as connection:
                connection.sendall(HELLO[:cut])
                # (that the server reads the pieces one by one is likely, and not needed)
                time.sleep(0.1 if cut else 0)
                connection.sendall(HELLO[cut:] + frame * 4 + frame[:-1])
                values(read_replies(receive_body(connection), [Hello(WRITER)]))
                for number in range(5):
                    if number == 4:
                        time.sleep(0.1)
                        connection.sendall(frame[-1:])
                    want_same("the commits of a frame", values(read_replies(receive_body(connection), puts)),
                              list(range(commits + 1, commits + 65)))
                    commits += 64


def hello_too_late(start: Start) -> None:
    """With --hello-timeout a client that says nothing is ended, and one whose hello has begun. One that has said hello
    stays."""
    with with_tokens(start, "--log", "pairs", "--workers", "1", "--hello-timeout", "1") as server:
        next_read(server, "listening", "info")
        with Client(server.port, timeout=SECONDS, token=READER) as index:
            began = time.monotonic()
            with connected(server.port) as silent, connected(server.port) as slow:
                slow.sendall(HELLO[:-1])
                want_ended("what comes without hello", silent)
                want_ended("what comes with a part of hello", slow)
            want(time.monotonic() - began >= 0.9, "they are ended too early")
            ends = [next_read(server, "ended", "warn") for _ in range(2)]
            want_same("whose ends they are", {(end["connection"], end["fault"]) for end in ends},
                      {("2", "8"), ("3", "8")})
            want_same("a get of the first", index.get(b"a"), None)
            want_same("its connections", index.info()["connections"], 1)


# ---- who may reach the server

def open_to_others(start: Start) -> None:
    """At an address that other machines reach a server starts only with secrets, or with --open."""
    with start() as server:
        program = server.process.args[0]
    for address in ("0.0.0.0:0", "[::]:0", "127.0.0.1:0,0.0.0.0:0"):
        for form in FORMS:
            done = subprocess.run([program, "--listen", address, "--log", form], stdin=subprocess.DEVNULL,
                                  capture_output=True, timeout=SECONDS, check=False)
            want_same(f"the status and the output at {address}", (done.returncode, done.stdout), (3, b""))
            want(done.stderr.count(b"\n") == 1 and b"--token-file" in done.stderr and b"--open" in done.stderr,
                 f"at {address} it says {done.stderr!r}")
    with start("--listen", "0.0.0.0:0", "--open") as server:
        with Client(server.port, timeout=SECONDS) as index:
            want_same("a put of everyone", index.put(b"a", b"v"), 1)
    with with_tokens(start, "--listen", "0.0.0.0:0") as server:
        with Client(server.port, timeout=SECONDS, token=WRITER) as index:
            want_same("a put with a secret", index.put(b"a", b"v"), 1)


# ---- many connections

# how many descriptors a server is allowed, and how many of them are for others than connections
DESCRIPTORS, OTHERS = 120, 64
# how many connections say nothing, and at least; and how many bytes each may take at most
IDLE, LEAST_IDLE, EACH = 10_000, 2_000, 10_000


def want_turned_away(port: int) -> None:
    with connected(port) as connection:
        want_ended("what comes on a connection too many", connection)


def let_in(port: int) -> Client:
    """A client that is served. It comes again while it is turned away."""
    end = time.monotonic() + SECONDS
    while True:
        index = Client(port, timeout=SECONDS)
        try:
            index.ping()
            return index
        except ConnectionLost as fault:
            want(time.monotonic() < end, f"no connection is let in: {fault}")
            time.sleep(0.02)


def few_descriptors(start: Start) -> None:
    """If the system allows few descriptors, a server says how many connections it serves at most. One more is turned
    away; after some have left, others are served."""
    most = DESCRIPTORS - OTHERS
    for form in FORMS:
        with start("--log", form, "--workers", "2", descriptors=DESCRIPTORS) as server, ExitStack() as opened:
            if form == "plain":
                want_same("its second line", server.next_line(),
                          f"connections: at most {most}, since the system allows {DESCRIPTORS} descriptors")
            else:
                next_read(server, "listening", "info")
                want_same("what it says of descriptors", next_read(server, "few_descriptors", "warn"),
                          {"connections": str(most), "descriptors": str(DESCRIPTORS)})
            clients = [opened.enter_context(Client(server.port, timeout=SECONDS)) for _ in range(most)]
            for number, index in enumerate(clients):
                want_same("a put", index.put(b"a", b"v"), number + 1)
            for _ in range(3):
                want_turned_away(server.port)
                if form == "pairs":
                    want_same("how many are served", next_read(server, "turned_away", "warn"),
                              {"connections": str(most)})
            for index in clients[:10]:
                index.close()
            clients[:10] = [opened.enter_context(let_in(server.port)) for _ in range(10)]
            want_turned_away(server.port)
            for number, index in enumerate(clients):
                want_same("a put afterwards", index.put(b"a", b"v"), most + number + 1)
            want_same("how many are open", clients[0].info()["connections"], most)


def enough_descriptors(start: Start) -> None:
    """If the system allows enough descriptors, a server says nothing of them, and serves as many as it was told."""
    for most in (3, DESCRIPTORS - OTHERS):
        words = ("--log", "pairs", "--connections", str(most))
        with start(*words, descriptors=DESCRIPTORS) as server, ExitStack() as opened:
            next_read(server, "listening", "info")
            for _ in range(most):
                opened.enter_context(Client(server.port, timeout=SECONDS)).ping()
            want_turned_away(server.port)
            want_same("how many are served", next_read(server, "turned_away", "warn"), {"connections": str(most)})


@contextmanager
def many_descriptors(wanted: int) -> Iterator[int]:
    """This process and the servers that it starts are allowed so many descriptors, or as many as may be. Returns how
    many they are allowed."""
    soft, hard = resource.getrlimit(resource.RLIMIT_NOFILE)
    allowed = wanted if hard == resource.RLIM_INFINITY else min(wanted, hard)
    if soft != resource.RLIM_INFINITY and soft < allowed:
        resource.setrlimit(resource.RLIMIT_NOFILE, (allowed, hard))
    try:
        yield allowed
    finally:
        resource.setrlimit(resource.RLIMIT_NOFILE, (soft, hard))


def ask_some(index: Client) -> None:
    """A hundred puts and gets, which the server answers at once."""
    began = time.monotonic()
    for _ in range(100):
        commit = index.put(b"a", b"v")
        want_same("a get", index.get(b"a"), Row(commit, (b"v",)))
    seconds = time.monotonic() - began
    want(seconds < SECONDS / 4, f"a hundred puts and gets take {seconds:.1f} seconds")


def thousands_that_say_nothing(start: Start) -> None:
    """A client is served at once beside ten thousand that say nothing, or as many as the system allows. Each takes
    little of the server's memory."""
    with many_descriptors(IDLE + 500) as allowed:
        count = min(IDLE, allowed - 300)
        want(count >= LEAST_IDLE, f"the system allows {allowed} descriptors, too few for this case")
        with start("--workers", "2", "--connections", str(count + 10)) as server, ExitStack() as opened:
            index = opened.enter_context(Client(server.port, timeout=SECONDS))
            ask_some(index)
            before = info_of_now(index)
            with ExitStack() as idle:
                connections = []
                for number in range(count):
                    connections.append(idle.enter_context(connected(server.port)))
                    if number % 1000 == 0:
                        index.put(b"a", b"v")
                until("not all are accepted", lambda: index.info()["connections"] == count + 1)
                ask_some(index)
                each = (info_of_now(index)["resident_bytes"] - before["resident_bytes"]) / count
                want(each <= EACH, f"each of {count} takes {each:.0f} bytes")
                row = Row(index.put(b"a", b"w"), (b"w",))
                for connection in connections[::1000]:
                    connection.sendall(request_frame([Get(b"a").spelled()]))
                    found = values(read_replies(receive_body(connection), [Get(b"a")]))
                    want_same("a get of one of them", found, [row])
            until("not all have left", lambda: index.info()["connections"] == 1)
            ask_some(index)


# ---- views that are left behind

def views_of_one_that_left(start: Start) -> None:
    """When a client has built as many views as there may be and has left, others list them, and drop one to build
    another. One that may only read can do neither."""
    specs = [Prefix(b"%02d" % number) for number in range(64)]
    with with_tokens(start, "--workers", "2") as server:
        with Client(server.port, timeout=SECONDS, token=WRITER) as index:
            index.put(b"07", b"v")
            numbers = values(index.call_all([Build(spec) for spec in specs]))
        with Client(server.port, timeout=SECONDS, token=READER) as reader, \
                Client(server.port, timeout=SECONDS, token=WRITER) as other:
            views = dict(zip(numbers, specs))
            want_same("the views", {view.number: view.spec for view in reader.views()}, views)
            want_same("how many there are", reader.info()["views"], 64)
            want_same("the keys of one", [key for key, _ in reader.view(numbers[7]).page().rows], [b"07"])
            want_refused("one view more", lambda: other.build(Prefix(b"a")), TooManyViews)
            want_refused("a reader's build", lambda: reader.build(Prefix(b"a")), NotAllowed)
            want_refused("a reader's drop", reader.view(numbers[7]).drop, NotAllowed)
            other.view(numbers[7]).drop()
            want_refused("a reader's build after the drop", lambda: reader.build(Prefix(b"a")), NotAllowed)
            del views[numbers[7]]
            views[other.build(Prefix(b"a")).number] = Prefix(b"a")
            want_same("the views afterwards", {view.number: view.spec for view in reader.views()}, views)
            want_refused("one view more afterwards", lambda: other.build(Prefix(b"b")), TooManyViews)


# ---- puts without end

# the limit of the memory, the bytes of a key, and how many rows are more than enough
MEMORY, KEY_BYTES, ROWS = 40_000_000, 500, 1_000_000


def key_of(number: int) -> bytes:
    return number.to_bytes(8, "big") + bytes(KEY_BYTES - 8)


def fill_up(index: Client, rows: int) -> int:
    """Puts rows after so many, 64 in a frame, until frames are refused for more than a second. Each is done or refused
    as a whole. Returns how many rows there are. (A refused frame's memory is freed, so that another may be done.)"""
    refused = 0
    while refused < 20:
        want(rows < ROWS, f"{rows} rows of {KEY_BYTES} bytes are put, and none is refused")
        outcomes = index.call_all([Put(key_of(rows + number), bytes(64)) for number in range(64)])
        kinds = {type(outcome) for outcome in outcomes}
        want(kinds in ({Reply}, {NoMemory}), f"puts of one frame are answered {kinds}")
        if kinds == {Reply}:
            rows += 64
        else:
            refused += 1
            time.sleep(0.06)
    return rows


def puts_until_refused(start: Start) -> None:
    """With --memory puts are done until more is resident, and then refused. Gets, ranges and removes are answered, and
    no row is lost or there that was refused."""
    with start("--log", "pairs", "--workers", "2", "--memory", str(MEMORY)) as server:
        next_read(server, "listening", "info")
        with Client(server.port, timeout=SECONDS) as index:
            rows = fill_up(index, 0)
            full = next_read(server, "memory_full", "warn")
            want(int(full["resident_bytes"]) > MEMORY, f"it is full at {full}")
            want_same("the commits and the rows", (index.ping(), len(index), index.count()), (rows,) * 3)
            for number in (0, rows // 2, rows - 1):
                want_same("a row", index.get(key_of(number)), Row(number + 1, (bytes(64),)))
            want_same("a row that was refused", index.get(key_of(rows)), None)
            want_same("the last rows", [key for key, _ in index.last(limit=100)],
                      [key_of(rows - number - 1) for number in range(100)])
            removes = [Remove(key_of(number)) for number in range(64)]
            want_same("removes", values(index.call_all(removes)), list(range(rows + 1, rows + 65)))
            want_same("the first row afterwards", [key for key, _ in index.first(limit=1)], [key_of(64)])
            want_same("the rows afterwards", len(index), rows - 64)


# ---- giant answers

# how many clients never read, how many bytes the answer of each has at most, and the limit of buffers, which two pass
DEAF, ANSWER, BUFFERS = 20, 71_000_000, 120_000_000


def most_resident(server: Any) -> int:
    """How many bytes of a server's process were resident at most, since its start."""
    text = Path(f"/proc/{server.process.pid}/status").read_text(encoding="ascii")
    return int(re.findall(r"VmHWM:\s*(\d+) kB", text)[0]) * 1024


def long_rows_that_nobody_reads(start: Start) -> None:
    """Of clients that ask for 64 ranges of long rows and never read, those whose answers pass the limit of buffers are
    ended. The memory stays within it, but for one answer that is made meanwhile: its rows, its bytes and a copy of what
    isn't written yet. Another client is served."""
    keys = [b"%08d" % number + bytes(MAX_KEY_BYTES - 8) for number in range(1000)]
    giant = request_frame([GetRange().spelled()] * 64)
    words = ("--log", "pairs", "--workers", "2", "--write-timeout", "0", "--buffers", str(BUFFERS))
    with start(*words) as server, ExitStack() as opened:
        next_read(server, "listening", "info")
        index = opened.enter_context(Client(server.port, timeout=SECONDS))
        put_all(index, keys, bytes(64))
        before = info_of_now(index)["resident_bytes"]
        for _ in range(DEAF):
            opened.enter_context(connected(server.port)).sendall(giant)
        info, end = index.info(), time.monotonic() + SECONDS
        while info["faults"] < DEAF - 1:
            want(time.monotonic() < end, f"{info['faults']} of {DEAF} are ended in {SECONDS:.0f} seconds")
            want_same("a put beside them", index.put(b"a", b"v"), info["commits"] + 1)
            info = index.info()
        ends_told(server, DEAF - 1, 10)
        most = most_resident(server)
        want(most <= before + BUFFERS + 3 * ANSWER, f"{most} bytes were resident at most, and {before} before")
        info = info_of_now(index)
        want(info["buffered_bytes"] <= ANSWER, f"{info['buffered_bytes']} bytes are kept of one client")
        now = info["resident_bytes"]
        want(now <= before + BUFFERS, f"{now} bytes are resident at the end, and {before} were before")


# how many clients read giant answers slowly, for how many seconds, and how many gets of another client are answered meanwhile
SLOW, READING, SERVED = 7, 6.0, 100


def read_slowly(opened: socket.socket, until: float) -> None:
    """Reads a little, again and again, until a time."""
    opened.settimeout(SECONDS)
    while time.monotonic() < until:
        opened.recv(65_536)
        time.sleep(0.001)


def slow_readers(start: Start) -> None:
    """Clients that read giant answers slowly don't keep their worker from others."""
    keys = [b"%08d" % number + bytes(MAX_KEY_BYTES - 8) for number in range(1000)]
    giant = request_frame([GetRange().spelled()] * 64)
    with start("--workers", "1", "--columns", "16") as server, ExitStack() as opened:
        index = opened.enter_context(Client(server.port, timeout=SECONDS))
        put_all(index, keys, {column: bytes(64) for column in range(16)})
        clients = [opened.enter_context(socket.socket()) for _ in range(SLOW)]
        for client in clients:
            # (before it is connected, so that the system keeps little for it)
            client.setsockopt(socket.SOL_SOCKET, socket.SO_RCVBUF, 4096)
            client.connect(("127.0.0.1", server.port))
            client.sendall(giant)
        until = time.monotonic() + READING
        readers = [threading.Thread(target=read_slowly, args=(client, until)) for client in clients]
        for reader in readers:
            reader.start()
        time.sleep(READING / 3)
        served = 0
        while time.monotonic() < until:
            want(index.get(keys[served % 1000]) is not None, "a row isn't there")
            served += 1
        for reader in readers:
            reader.join()
        want(served >= SERVED, f"another client was answered {served} gets")


CASES: List[Callable[[Start], None]] = [
    strangers_with_long_frames, hello_and_more_at_once, hello_too_late, open_to_others, few_descriptors,
    enough_descriptors, thousands_that_say_nothing, views_of_one_that_left, puts_until_refused,
    long_rows_that_nobody_reads, slow_readers]
