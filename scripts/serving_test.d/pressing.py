"""Cases of clients that press a server at its limits, over a build of mtserve: descriptors that are used up, long
frames that miss a byte, long secrets, frames before hello; and writers beside hostile clients, of whose answers none is
lost.

`CASES` are functions of a `Start`, as those of operating.py.
"""
from __future__ import annotations

import os
import random
import resource
import socket
import struct
import tempfile
import time
from concurrent.futures import ThreadPoolExecutor
from contextlib import ExitStack, contextmanager
from pathlib import Path
from typing import Any, Callable, Dict, Iterator, List, Sequence, Tuple

from hostile import UNENDED, WRITER, connected, ends_told, until, values, want_ended, with_tokens
from operating import BAD_FRAME, SECONDS, Start, next_read, want, want_same
from rowanspan import (Build, Client, CountRange, Get, GetRange, Hello, NotAllowed, Prefix, Put, Query, Remove, Row,
                       Wait, WaitDurable, read_replies, receive_body, request_frame)


# ---- descriptors

# how many connections are served at first, and how many come when there is no descriptor
SERVED, LATER = 10, 20


@contextmanager
def without_descriptors(server: Any) -> Iterator[None]:
    """Meanwhile the system allows the server no descriptor more than it has."""
    process = server.process.pid
    before = resource.prlimit(process, resource.RLIMIT_NOFILE)
    resource.prlimit(process, resource.RLIMIT_NOFILE, (len(os.listdir(f"/proc/{process}/fd")), before[1]))
    try:
        yield
    finally:
        resource.prlimit(process, resource.RLIMIT_NOFILE, before)


def seconds_of(server: Any) -> float:
    """For how long a server has used a processor."""
    fields = Path(f"/proc/{server.process.pid}/stat").read_text(encoding="ascii").rpartition(")")[2].split()
    return (int(fields[11]) + int(fields[12])) / os.sysconf("SC_CLK_TCK")


def descriptors_used_up(start: Start) -> None:
    """While the system has no descriptor for a server, connections wait to be accepted, those that are open are served,
    and it says so once. When it has some again, those that wait are served."""
    with start("--log", "pairs", "--workers", "2") as server, ExitStack() as opened:
        next_read(server, "listening", "info")
        index, *others = [opened.enter_context(Client(server.port, timeout=SECONDS)) for _ in range(SERVED)]
        for other in (index, *others):
            other.ping()
        with without_descriptors(server):
            waiting = [opened.enter_context(connected(server.port)) for _ in range(LATER)]
            for connection in waiting:
                connection.sendall(request_frame([Put(b"a", b"v").spelled()]))
            failed = next_read(server, "accept_failed", "error")
            want("descriptor" in failed["reason"] or "open files" in failed["reason"], f"it says {failed}")
            used = seconds_of(server)
            for other in others:
                other.put(b"b", b"v")
            time.sleep(1)
            want(seconds_of(server) - used < 0.5, f"it used a processor for {seconds_of(server) - used:.1f} seconds")
            want_same("the commits", index.ping(), len(others))
        for connection in waiting:
            values(read_replies(receive_body(connection), [Put(b"a", b"v")]))
        want_same("the commits afterwards", index.ping(), len(others) + LATER)
        want_same("how many are open", index.info()["connections"], SERVED + LATER)
        index.stop()
        next_read(server, "stopping", "info")


# ---- long frames

# how many clients send the longest frame but for a byte, and how many bytes are kept of all
ENDLESS, KEPT = 40, 2_000_000


def long_frames_without_their_last_byte(start: Start) -> None:
    """Of the longest frames that miss a byte no more is kept than may be, and a client is served beside them. Each is
    ended when it takes too long, and nothing is kept of it."""
    words = ("--log", "pairs", "--workers", "2", "--buffers", str(KEPT), "--frame-timeout", "2")
    with start(*words) as server, ExitStack() as opened:
        next_read(server, "listening", "info")
        index = opened.enter_context(Client(server.port, timeout=SECONDS))
        endless, most = [opened.enter_context(connected(server.port)) for _ in range(ENDLESS)], 0
        for connection in endless:
            connection.setblocking(False)
        ends = time.monotonic() + SECONDS
        sent = dict.fromkeys(endless, 0)
        while index.info()["faults"] < ENDLESS:
            want(time.monotonic() < ends, f"{index.info()['faults']} of {ENDLESS} are ended")
            for connection in endless:
                try:
                    sent[connection] += connection.send(UNENDED[sent[connection]:])
                except OSError:
                    # (no room, or it is ended)
                    pass
            most = max(most, index.info()["buffered_bytes"])
            index.put(b"a", b"v")
        want(most >= KEPT / 2, f"only {most} bytes were kept")
        # (a connection may have 16 KiB of input, whatever is kept)
        want(most <= KEPT + 2 * 16_384 * ENDLESS, f"{most} bytes were kept, and {KEPT} may be")
        ends_told(server, ENDLESS, 3)
        until("what is kept isn't freed", lambda: index.info()["buffered_bytes"] == 0)
        want_same("how many are open", index.info()["connections"], 1)


# ---- secrets, and what comes before them

# more than is kept of the frame of a client that has said no hello
TOO_LONG = 2_048


def long_secrets(start: Start) -> None:
    """A long secret admits its client, and no other of its length does. Of one that is longer than what is kept before
    hello, the connection ends without an answer."""
    secret = bytes(random.Random(7).choices(range(33, 127), k=1_900))
    with tempfile.TemporaryDirectory() as folder:
        path = Path(folder, "tokens")
        path.write_bytes(b"all " + secret + b"\nread " + WRITER + b"\n")
        with start("--log", "pairs", "--token-file", str(path)) as server:
            next_read(server, "listening", "info")
            with Client(server.port, timeout=SECONDS, token=secret) as index:
                for wrong in (secret[:-1], secret + b"x", b"x" + secret[1:], secret[:-1] + b"\0"):
                    with connected(server.port) as connection:
                        connection.sendall(request_frame([Hello(wrong).spelled()], 3))
                        (refused,) = read_replies(receive_body(connection), [Hello(wrong)])
                        want(isinstance(refused, NotAllowed), f"a wrong secret is answered {refused}")
                        want_ended("what comes after the refusal", connection)
                    next_read(server, "wrong_secret", "warn")
                    want_same("its fault", next_read(server, "ended", "warn")["fault"], "8")
                for length in (TOO_LONG, 20_000, 65_535):
                    with connected(server.port) as connection:
                        try:
                            # (without its last byte it is no frame: so nothing but its length is known)
                            connection.sendall(request_frame([Hello(bytes(length)).spelled()], 3)[:-1])
                        except ConnectionError:
                            pass
                        want_ended(f"what comes after {length} bytes", connection)
                    want_same("its fault", next_read(server, "ended", "warn")["fault"], "8")
                want_same("the wrong secrets", index.info()["wrong_secrets"], 4)
                want_same("a put", index.put(b"a", b"v"), 1)


def frames_beside_hello(start: Start) -> None:
    """Before hello a wait isn't waited for, and a hello that isn't alone in its frame is none: each query is refused,
    and the connection ends."""
    put, hello = Put(b"a", b"v"), Hello(WRITER)
    frames: Sequence[List[Query[Any]]] = (
        [Wait(1, None, 600_000)], [Wait(1, 1, 600_000)], [WaitDurable(1, 600_000)], [hello, put], [put, hello],
        [hello, hello], [Get(b"a"), Build(Prefix(b"")), put, Remove(b"a"), CountRange()] * 12)
    with with_tokens(start) as server:
        with Client(server.port, timeout=SECONDS, token=WRITER) as index:
            for queries in frames:
                with connected(server.port) as connection:
                    connection.sendall(request_frame([query.spelled() for query in queries], 3)
                                       + request_frame([hello.spelled()], 3) + request_frame([put.spelled()], 3))
                    outcomes = read_replies(receive_body(connection), queries)
                    want_same(f"the answers to {queries[:5]}", {type(outcome) for outcome in outcomes}, {NotAllowed})
                    want_ended("what comes after the refusals", connection)
            want_same("the commits and the views", (index.ping(), index.views()), (0, []))


# ---- nothing that was answered is lost

HOSTILE, WRITERS, PRESSING = 3, 4, 4.0


def send_badly(port: int, chance: random.Random) -> None:
    """What one hostile client does: it sends nonsense, is cut off, resets, never reads, or sends a part of a frame."""
    frame = request_frame([Put(b"hostile", b"v").spelled()])
    with connected(port) as connection:
        kind = chance.randrange(5)
        if kind == 0:
            connection.sendall(BAD_FRAME)
            want_ended("the answer to a bad frame", connection)
        elif kind == 1:
            connection.sendall(frame[:chance.randrange(1, len(frame))])
        elif kind == 2:
            connection.sendall(request_frame([GetRange(b"", 100).spelled()] * 8))
            connection.setsockopt(socket.SOL_SOCKET, socket.SO_LINGER, struct.pack("ii", 1, 0))
        elif kind == 3:
            connection.sendall(chance.randbytes(200))
        else:
            connection.sendall(request_frame([GetRange(b"", 100).spelled()] * 8))
            time.sleep(0.05)


def press(port: int, seed: int, is_over: Callable[[], bool]) -> None:
    """Hostile clients, one after the other."""
    chance = random.Random(seed)
    while not is_over():
        try:
            send_badly(port, chance)
        except OSError:
            # (the server has ended its connection first)
            pass


def write(port: int, own: int, ends: float, found: Dict[bytes, Row], commits: List[int]) -> None:
    """One that puts and removes rows of its own, and notes what it was answered."""
    chance = random.Random(own)
    with Client(port, timeout=SECONDS) as index:
        while time.monotonic() < ends:
            keys = [b"%d/%03d" % (own, chance.randrange(200)) for _ in range(chance.randint(1, 20))]
            queries: List[Query[Any]] = [Remove(key) if chance.random() < 0.2 else Put(key, chance.randbytes(8))
                                         for key in keys]
            for query, commit in zip(queries, values(index.call_all(queries))):
                if isinstance(query, Put):
                    found[query.key] = Row(commit, (query.sets,))
                elif isinstance(query, Remove):
                    want_same("whether there was a row", commit is not None, found.pop(query.key, None) is not None)
                if commit is not None:
                    commits.append(commit)


def answers_beside_hostile_clients(start: Start) -> None:
    """What writers were answered is there at the end, and no more, whatever hostile clients do meanwhile. No commit has
    another's number."""
    with start("--workers", "2", "--write-timeout", "1", "--frame-timeout", "1") as server:
        ends = time.monotonic() + PRESSING
        parts: List[Tuple[Dict[bytes, Row], List[int]]] = [({}, []) for _ in range(WRITERS)]
        with ThreadPoolExecutor(HOSTILE + WRITERS) as threads:
            working = [threads.submit(press, server.port, seed, lambda: time.monotonic() >= ends)
                       for seed in range(HOSTILE)]
            working += [threads.submit(write, server.port, own, ends, *part) for own, part in enumerate(parts)]
            for one in working:
                one.result()
        commits = sorted(commit for _, numbers in parts for commit in numbers)
        with Client(server.port, timeout=SECONDS) as index:
            want_same("the numbers of the commits", commits, list(range(1, len(commits) + 1)))
            want_same("the rows", dict(index.range()), {key: row for rows, _ in parts for key, row in rows.items()})
            want_same("the commits", index.ping(), len(commits))
            info = index.info()
            want(info["faults"] > 0 and info["connections_all"] > 10, f"nobody was hostile: {info}")
        want(len(commits) > 100, f"{len(commits)} commits were made")


CASES: List[Callable[[Start], None]] = [
    descriptors_used_up, long_frames_without_their_last_byte, long_secrets, frames_beside_hello,
    answers_beside_hostile_clients]
