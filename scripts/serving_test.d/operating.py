"""Cases of what an operator sees of a server, over a build of mtserve: the lines of `--log pairs`, wrong
secrets, the limits of buffers and of memory, and long frames.

`CASES` are functions of a `Start`, which runs a server with these words, without end. Each raises what is wrong.
"""
from __future__ import annotations

import datetime
import re
import select
import shlex
import socket
import subprocess
import tempfile
import time
from contextlib import ExitStack
from pathlib import Path
from typing import Any, Callable, ContextManager, Dict, List, Tuple

from rowanspan import (Build, Client, Get, GetRange, Hello, NoMemory, Prefix, Put, Remove, Reply, Tidied, read_replies, receive_body,
                       request_frame)

SECONDS = 60.0
# as many lines of a kind are written in a second at most
MOST = 10
FORMS = ("plain", "pairs")
BAD_FRAME = b"\0\0\0\x02\x01\x00"
READER, OWNER = b"reader-0123456789", b"owner-0123456789a"

# runs a server with these words; what it returns has a port, `next_line`, `rest_of_lines`, `ended` and `process`
Start = Callable[..., ContextManager[Any]]


def want(is_so: bool, why: str) -> None:
    if not is_so:
        raise AssertionError(why)


def want_same(what: str, got: object, wanted: object) -> None:
    want(got == wanted, f"{what}: {str(got)[:300]} instead of {str(wanted)[:300]}")


# ---- lines

Line = Tuple[datetime.datetime, str, str, Dict[str, str]]


def read_line(line: str) -> Line:
    """The time, the level, the word and the pairs of a line."""
    time_text, level, *words = shlex.split(line)
    want(re.fullmatch(r"\d{4}-\d\d-\d\dT\d\d:\d\d:\d\dZ", time_text) is not None, f"{time_text!r} is no time")
    want(level in ("info", "warn", "error"), f"{level!r} is no level")
    pairs = dict(word.split("=", 1) for word in words if "=" in word)
    named = [word for word in words if "=" not in word]
    want(len(named) == 1 and len(pairs) + 1 == len(words), f"{line!r} isn't one word and pairs")
    return datetime.datetime.strptime(time_text, "%Y-%m-%dT%H:%M:%SZ"), level, named[0], pairs


def next_read(server: Any, word: str, level: str) -> Dict[str, str]:
    """The pairs of the next line, which has this word and level, and is of these seconds."""
    line = server.next_line()
    at, found_level, found, pairs = read_line(line)
    want_same(f"the word and the level of {line!r}", (found, found_level), (word, level))
    now = datetime.datetime.now(datetime.timezone.utc).replace(tzinfo=None)
    want(abs((now - at).total_seconds()) < SECONDS, f"{line!r} is dated wrongly at {now}")
    return pairs


def send_bad(port: int) -> int:
    """Sends a bad frame over a connection of its own, and waits for its end. Returns the port of the client."""
    with socket.create_connection(("127.0.0.1", port), SECONDS) as connection:
        connection.sendall(BAD_FRAME)
        want_same("the answer to a bad frame", connection.recv(1), b"")
        return int(connection.getsockname()[1])


def lines_of_pairs(start: Start) -> None:
    """What a server says from its start to a stop that a client asks for."""
    with start("--log", "pairs", "--workers", "2") as server:
        listening = next_read(server, "listening", "info")
        want_same("the address", listening, {"address": f"127.0.0.1:{server.port}"})
        with Client(server.port, timeout=SECONDS) as index:
            want_same("a put", index.put(b"a", b"v"), 1)
        peer = send_bad(server.port)
        ended = next_read(server, "ended", "warn")
        want_same("the end of the second connection", ended,
                  {"connection": "2", "fault": "6", "reason": "the body of a frame is not a list of queries",
                   "queries": "0", "peer": f"127.0.0.1:{peer}"})
        with Client(server.port, timeout=SECONDS) as index:
            index.get(b"a")
            index.stop()
        stopping = next_read(server, "stopping", "info")
        want_same("who stopped it", (stopping["connection"], stopping["by"]), ("3", "query"))
        events, commits = server.ended()
        stopped = next_read(server, "stopped", "info")
        want_same("its end", stopped, {"events": str(events), "commits": str(commits)})
        want_same("what comes after the end", server.rest_of_lines(), [])


def lines_of_the_end_of_input(start: Start) -> None:
    """A stop at the end of input, and a connection too many."""
    words = ("--log", "pairs", "--connections", "1", "--stop-at-end-of-input")
    with start(*words, stdin=subprocess.PIPE) as server:
        next_read(server, "listening", "info")
        with Client(server.port, timeout=SECONDS) as index:
            index.put(b"a", b"v")
            with socket.create_connection(("127.0.0.1", server.port), SECONDS) as other:
                want_same("what comes on a connection too many", other.recv(1), b"")
        want_same("a connection too many", next_read(server, "turned_away", "warn"), {"connections": "1"})
        server.process.stdin.close()
        want_same("who stopped it", next_read(server, "stopping", "info"), {"by": "end of input"})
        next_read(server, "stopped", "info")


def left_out_by(line: str, fault: int, form: str) -> int:
    """How many ends of connections a line counts that were left out; 0 if it tells of one, by this fault."""
    if form == "plain":
        counts = re.fullmatch(r"left out: (\d+) lines of ended", line)
        want(counts is not None or line.startswith(f"session fault {fault}: "), f"{line!r} instead of fault {fault}")
        return 0 if counts is None else int(counts[1])
    _, level, word, pairs = read_line(line)
    want_same(f"the word and the level of {line!r}", (word, level), ("ended", "warn"))
    want_same(f"the fault of {line!r}", pairs.get("fault", str(fault)), str(fault))
    return int(pairs.get("left_out", 0))


def ends_told(server: Any, count: int, fault: int, form: str = "pairs") -> Tuple[int, int]:
    """Reads lines until they tell of so many ends by this fault. Returns how many lines that were, and how many of the
    ends they count alone."""
    lines = told = left_out = 0
    while told < count:
        more = left_out_by(server.next_line(), fault, form)
        lines, told, left_out = lines + 1, told + (more or 1), left_out + more
    want_same("how many ends were told of", told, count)
    return lines, left_out


def many_bad_frames(start: Start) -> None:
    """Of a thousand faults at most ten a second are written, and a line of a later second counts the others."""
    count = 1000
    for form in FORMS:
        with start("--log", form, "--workers", "2") as server:
            if form == "pairs":
                next_read(server, "listening", "info")
            began = time.monotonic()
            for _ in range(count):
                send_bad(server.port)
            seconds = int(time.monotonic() - began) + 2
            lines, left_out = ends_told(server, count, 6, form)
            want(lines <= MOST * (seconds + 1), f"{lines} lines in {seconds} seconds with --log {form}")
            want(left_out > 0, f"no line was left out with --log {form}")
            with Client(server.port, timeout=SECONDS) as index:
                want_same("a put afterwards", index.put(b"a", b"v"), 1)


def faults_at_the_end(start: Start) -> None:
    """At its end a server says how many lines it has left out, also in the last second."""
    for form in FORMS:
        with start("--log", form, "--stop-at-end-of-input", stdin=subprocess.PIPE) as server:
            if form == "pairs":
                next_read(server, "listening", "info")
            for _ in range(100):
                send_bad(server.port)
            server.process.stdin.close()
            server.ended()
            lines = server.rest_of_lines()
            if form == "pairs":
                words = [read_line(line)[2] for line in lines]
                want_same("the last line", words[-1], "stopped")
                lines = [line for line, word in zip(lines, words) if word == "ended"]
            told = sum(left_out_by(line, 6, form) or 1 for line in lines)
            want_same(f"how many faults were told of with --log {form}", told, 100)


def standard_error_that_fails(start: Start) -> None:
    """A server whose standard error is closed serves, whatever it has to say."""
    with start() as server:
        program = server.process.args[0]
    for form in FORMS:
        words = [program, "--log", form, "--forever"]
        with subprocess.Popen(words, stdout=subprocess.DEVNULL, stderr=subprocess.PIPE) as process:
            try:
                assert process.stderr is not None
                port = int(process.stderr.readline().split()[1])
                process.stderr.close()
                for _ in range(30):
                    send_bad(port)
                with Client(port, timeout=SECONDS) as index:
                    want_same(f"a put with --log {form}", index.put(b"a", b"v"), 1)
            finally:
                process.kill()


# ---- wrong secrets

def wrong_secrets(start: Start) -> None:
    """A hello with a wrong secret is answered a second later, also that of a client that was admitted. Then the
    connection ends. Another client isn't delayed."""
    with tempfile.TemporaryDirectory() as folder:
        path = Path(folder, "tokens")
        path.write_bytes(b"read " + READER + b"\nall " + OWNER + b"\n")
        with start("--log", "pairs", "--workers", "1", "--token-file", str(path)) as server:
            next_read(server, "listening", "info")
            with Client(server.port, timeout=SECONDS, token=OWNER) as index:
                for number, first in enumerate((b"", Hello(READER).spelled())):
                    with socket.create_connection(("127.0.0.1", server.port), SECONDS) as guess:
                        if first:
                            guess.sendall(request_frame([first], 3))
                            receive_body(guess)
                        began = time.monotonic()
                        guess.sendall(request_frame([Hello(b"a wrong secret..").spelled()], 3) * 5)
                        said = next_read(server, "wrong_secret", "warn")
                        want_same("how many there were", said["wrong_secrets"], str(number + 1))
                        meanwhile = 0
                        while not select.select([guess], [], [], 0)[0]:
                            index.put(b"a", b"v")
                            meanwhile += 1
                        want(time.monotonic() - began >= 0.9, "a wrong secret is answered too early")
                        want(meanwhile > 10, f"another client was answered {meanwhile} times meanwhile")
                        receive_body(guess)
                        want_same("what comes after one refusal", guess.recv(1), b"")
                    ended = next_read(server, "ended", "warn")
                    want_same("its end", (ended["connection"], ended["fault"]), (said["connection"], "8"))
                index.stop()
            server.ended()


# ---- the limit of buffers

DEAF, BUFFERS = 20, 8_000_000


def giant_answers(start: Start) -> None:
    """Of clients that ask for giant answers and never read, those whose answers pass the limit are ended; another one
    is served meanwhile, and afterwards."""
    giant = request_frame([GetRange().spelled()] * 64)
    with start("--log", "pairs", "--workers", "2", "--buffers", str(BUFFERS)) as server, ExitStack() as deaf:
        next_read(server, "listening", "info")
        with Client(server.port, timeout=SECONDS) as index:
            for at in range(0, 1000, 50):
                with index.pipeline() as pipeline:
                    for number in range(at, at + 50):
                        pipeline.put(number.to_bytes(2, "big"), bytes(64))
            connections = []
            for _ in range(DEAF):
                connection = deaf.enter_context(socket.create_connection(("127.0.0.1", server.port), SECONDS))
                connection.sendall(giant)
                connections.append(connection)
                index.get(b"no such key")
            for _ in range(DEAF // 2):
                ended = next_read(server, "ended", "warn")
                want_same("its fault", (ended["fault"], ended["reason"]), ("10", "too much output"))
            for number in range(100):
                want_same("a put beside them", index.put(b"a", b"v"), 1001 + number)
            for connection in connections:
                connection.close()
            want_same("a range afterwards", len([*index.range()]), 1001)


def inputs_beyond_the_limit(start: Start) -> None:
    """Of frames that lack a byte as many bytes are read as may be kept, and more when others have gone. A small one is
    answered meanwhile."""
    put = Put(b"k" * 1000, b"v")
    frame = request_frame([put.spelled()] * 64)
    count, kept = 6, 3
    with start("--workers", "1", "--buffers", str(4 * len(frame))) as server, ExitStack() as open_ones:
        with Client(server.port, timeout=SECONDS) as index:
            connections = []
            for _ in range(count):
                connection = open_ones.enter_context(socket.create_connection(("127.0.0.1", server.port), SECONDS))
                connection.sendall(frame[:-1])
                connections.append(connection)
            want_same("a put beside them", index.put(b"a", b"v"), 1)
            for connection in connections[kept:]:
                connection.close()
            for connection in connections[:kept]:
                connection.sendall(frame[-1:])
            for connection in connections[:kept]:
                want_same("the answers", len(read_replies(receive_body(connection), [put] * 64)), 64)
            want_same("the commits", index.put(b"a", b"v"), 2 + 64 * kept)


# ---- the limit of memory

MEMORY, GREEDY = 40_000_000, 40


def want_refused(index: Client) -> None:
    """A frame with a put or a build is refused as a whole. All else is answered."""
    for what, grow in (("a put", lambda: index.put(b"a", b"v")), ("a conditional put", lambda: index.put_if(b"a", b"v", 0)),
                       ("a build", lambda: index.build(Prefix(b"")))):
        try:
            grow()
        except NoMemory:
            continue
        raise AssertionError(f"{what} is done while the memory is full")
    outcomes = index.call_all([Get(b"a"), Remove(number_key(1)), Put(b"a", b"v")])
    want([type(outcome) for outcome in outcomes] == [NoMemory] * 3, f"a frame with a put is answered {outcomes}")
    commits = index.ping()
    want_same("a remove", index.remove(number_key(2)), commits + 1)
    want_same("a get", index.get(number_key(1)).columns, (bytes(64),))
    want_same("a range", len([*index.range()]), 999)
    want(isinstance(index.tidy(number_key(2)), Tidied), "a tidy isn't answered")


def number_key(number: int) -> bytes:
    return number.to_bytes(2, "big")


def limit_of_memory(start: Start) -> None:
    """While more is resident than may be, nothing may grow. When clients whose answers were kept have gone, it may."""
    giant = request_frame([GetRange().spelled()] * 64)
    words = ("--log", "pairs", "--workers", "2", "--memory", str(MEMORY))
    with start(*words) as server, ExitStack() as greedy:
        next_read(server, "listening", "info")
        with Client(server.port, timeout=SECONDS) as index:
            for at in range(0, 1000, 50):
                with index.pipeline() as pipeline:
                    for number in range(at, at + 50):
                        pipeline.put(number_key(number), bytes(64))
            view = index.build(Prefix(b""))
            want(0 < index.info()["resident_bytes"] < MEMORY, "the resident memory isn't told")
            connections = [greedy.enter_context(socket.create_connection(("127.0.0.1", server.port), SECONDS))
                           for _ in range(GREEDY)]
            for connection in connections:
                connection.sendall(giant)
            full = next_read(server, "memory_full", "warn")
            want(int(full["resident_bytes"]) > MEMORY, f"it is full at {full}")
            want_same("the limit", full["most"], str(MEMORY))
            want_refused(index)
            want_same("a page", view.count, 999)
            for connection in connections:
                connection.close()
            line = read_line(server.next_line())
            while line[2] == "ended":
                line = read_line(server.next_line())
            _, level, word, usable = line
            want_same("the line of the memory", (word, level), ("memory_usable", "info"))
            want(int(usable["resident_bytes"]) <= MEMORY, f"it is usable at {usable}")
            want_same("a put", index.put(b"a", b"v"), 1002)
            want_same("a frame", [type(one) for one in index.call_all([Get(b"a"), Put(b"b", b"v")])], [Reply, Reply])


# ---- long frames

LONG_ROWS = 150_000


def long_frames(start: Start) -> None:
    """While a view is built, another connection of the only worker is answered. Frames after the build are answered after
    it, and a build that has come before a stop is answered."""
    build, after = Build(Prefix(b"")), [Put(b"z", b"v"), Get(b"z")]
    frame = request_frame([build.spelled()])
    with start("--workers", "1") as server:
        with Client(server.port, timeout=SECONDS) as index:
            for at in range(0, LONG_ROWS, 50):
                with index.pipeline() as pipeline:
                    for number in range(at, at + 50):
                        pipeline.put(number.to_bytes(4, "big"), b"v")
            with socket.create_connection(("127.0.0.1", server.port), SECONDS) as slow:
                slow.sendall(frame + request_frame([query.spelled() for query in after]))
                meanwhile = 0
                while not select.select([slow], [], [], 0)[0]:
                    index.get(b"z")
                    meanwhile += 1
                want(meanwhile > 10, f"another client was answered {meanwhile} times while a view was built")
                built = read_replies(receive_body(slow), [build])[0]
                row = read_replies(receive_body(slow), after)[1].value
                want_same("the row after the build", row.columns, (b"v",))
                want_same("the rows of the view", index.view(built.value).count, LONG_ROWS + 1)
                slow.sendall(frame)
                index.stop()
                want_same("a build before a stop", len(read_replies(receive_body(slow), [build])), 1)
        server.ended()


CASES: List[Callable[[Start], None]] = [lines_of_pairs, lines_of_the_end_of_input, many_bad_frames, faults_at_the_end,
                                        standard_error_that_fails, wrong_secrets, giant_answers,
                                        inputs_beyond_the_limit, limit_of_memory, long_frames]
