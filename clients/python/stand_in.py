#!/usr/bin/env python3
"""A stand-in of the server for tests: a plain dict that answers the wire, one query at a time. It follows docs/WIRE.md
alone, and takes the command line of `mtserve`, so that the tests of the server can be tried on it."""
from __future__ import annotations

import argparse
import os
import select
import socket
import sys
import threading
import time
from dataclasses import dataclass, field
from pathlib import Path
from types import TracebackType
from typing import Any, Callable, Dict, List, Mapping, Optional, Sequence, Type

import rowanspan as wire
from rowanspan import Query, Role, Stop
from stand_in_index import PlainIndex
from stand_in_keeper import Keeper
from stand_in_log import BadLog, FileLog, Log, Policy
from stand_in_wire import NO_HELLO, WRITE_FAILED, SessionFault, next_body, read_queries, reply_frame

__all__ = ["Options", "PlainIndex", "StandIn"]

# how many connections it serves at once, if it isn't told how many there are
CONNECTIONS = 32


# ---- sessions

def serve(connection: socket.socket, keeper: Keeper, newest: int) -> None:
    """Answers the frames of a connection, to its end; raises `SessionFault`."""
    session = keeper.session()
    body = next_body(connection)
    while body is not None:
        queries = read_queries(body, newest)
        frame = reply_frame(keeper.answers(session, queries), body[0])
        keeper.count(body, frame)
        try:
            connection.sendall(frame)
        except OSError as fault:
            raise SessionFault(WRITE_FAILED) from fault
        if session.role is None:
            raise SessionFault(NO_HELLO)
        body = None if is_last(connection, keeper, queries) else next_body(connection)


def is_last(connection: socket.socket, keeper: Keeper, queries: Sequence[Query[Any]]) -> bool:
    """Whether no frame after this one is answered: after a stop those are that came before it, unless it is at once."""
    if not keeper.is_ending:
        return False
    return keeper.is_at_once or isinstance(queries[0], Stop) or not select.select([connection], [], [], 0)[0]


@dataclass(frozen=True)
class Options:
    """Those of the server's command line; `sessions` is None for a server that serves until it is killed. With a path
    it listens there, at a Unix socket. `newest` is the greatest version of the wire that it knows. Without a log it
    keeps its rows in memory alone."""

    port: int = 0
    workers: int = 1
    sessions: Optional[int] = None
    columns: int = 1
    tokens: Mapping[bytes, Role] = field(default_factory=dict)
    path: Optional[str] = None
    newest: int = wire.SERVER_VERSION
    log: Optional[Log] = None


def listening(options: Options) -> socket.socket:
    if options.path is None:
        return socket.create_server(("127.0.0.1", options.port))
    return socket.create_server(options.path, family=socket.AF_UNIX)


class StandIn:
    """A server in threads of this process, at `port` of this machine, or at the path that it was given."""

    def __init__(self, options: Options = Options(), tell: Callable[[str], None] = lambda line: None) -> None:
        self.index = PlainIndex(options.columns, options.log)
        self.keeper = Keeper(self.index, options.tokens, options.columns)
        self.keeper.stop = lambda at_once: self.stop()
        self.faults: List[int] = []
        self._tell, self._newest, self._sessions = tell, options.newest, options.sessions
        self._listener = listening(options)
        self.port: int = 0 if options.path is not None else self._listener.getsockname()[1]
        self._open: List[socket.socket] = []
        self._workers = [threading.Thread(target=self._work, daemon=True) for _ in range(options.workers)]
        for worker in self._workers:
            worker.start()

    def __enter__(self) -> StandIn:
        return self

    def __exit__(self, kind: Optional[Type[BaseException]], fault: Optional[BaseException],
                 trace: Optional[TracebackType]) -> None:
        try:
            # (a worker that waits for a connection would wait on after a close, and keep the number of a file)
            self._listener.shutdown(socket.SHUT_RDWR)
        except OSError:
            # (it was stopped before)
            pass
        self._listener.close()

    def stop(self) -> None:
        """Nothing is accepted or read any more."""
        self.index.end()
        self._listener.shutdown(socket.SHUT_RDWR)
        for connection in self._open:
            connection.shutdown(socket.SHUT_RD)

    def join(self) -> None:
        """Waits until each worker has served its sessions."""
        for worker in self._workers:
            worker.join()

    def _work(self) -> None:
        served = 0
        while served != self._sessions:
            try:
                connection, _ = self._listener.accept()
            except OSError:
                return
            self._serve(connection)
            served += 1

    def _serve(self, connection: socket.socket) -> None:
        with connection:
            self._open.append(connection)
            try:
                self.keeper.open_connections += 1
                serve(connection, self.keeper, self._newest)
            except SessionFault as fault:
                self.faults.append(fault.number)
                self.keeper.faults += 1
                self._tell(f"session fault {fault.number}: {fault}")
            finally:
                self.keeper.open_connections -= 1
                self._open.remove(connection)


# ---- the command line

def bounded(low: int, high: int) -> Callable[[str], int]:
    def read(word: str) -> int:
        if not low <= int(word) <= high:
            raise ValueError(word)
        return int(word)
    return read


def read_tokens(path: str) -> Dict[bytes, Role]:
    """The tokens of a file with lines ROLE TOKEN."""
    parts = [line.partition(b" ") for line in Path(path).read_bytes().splitlines() if line]
    return {token: Role[role.decode().upper()] for role, _, token in parts}


def parser() -> argparse.ArgumentParser:
    made = argparse.ArgumentParser(description="A stand-in of the server, for tests of its tests.")
    made.add_argument("--port", type=bounded(0, 65_535), default=0)
    made.add_argument("--workers", type=bounded(1, 16), default=1)
    made.add_argument("--sessions", type=bounded(0, 65_535))
    made.add_argument("--forever", action="store_true")
    made.add_argument("--columns", type=bounded(1, 16), default=1)
    made.add_argument("--token-file", type=read_tokens, default={})
    made.add_argument("--data", type=Path)
    made.add_argument("--sync", type=Policy.read, metavar="always|never|MILLISECONDS")
    made.add_argument("--stop-at-end-of-input", action="store_true")
    made.add_argument("--log-capacity", "--feed", type=bounded(1, 65_536), default=4096)
    made.add_argument("--log-retention", "--keep", type=bounded(0, 65_536), default=0)
    return made


def tell(line: str) -> None:
    print(line, file=sys.stderr, flush=True)


def parsed() -> argparse.Namespace:
    made = parser()
    given = made.parse_args()
    if given.sync is not None and given.data is None:
        made.error("--sync is for --data")
    return given


def in_a_thread(work: Callable[[], None]) -> None:
    threading.Thread(target=work, daemon=True).start()


def sync_again(server: StandIn, milliseconds: int) -> None:
    while True:
        time.sleep(milliseconds / 1000)
        server.index.sync()


def stop_at_end(server: StandIn) -> None:
    """Stops it when standard input ends."""
    while os.read(0, 4096):
        pass
    server.stop()


def started(given: argparse.Namespace) -> StandIn:
    """Raises `BadLog` and OSError."""
    sessions = None if given.forever else given.sessions
    # (a worker has one connection at a time here)
    workers = given.workers if sessions is not None else max(given.workers, CONNECTIONS)
    policy = given.sync or Policy()
    log = None if given.data is None else FileLog(given.data, policy, given.columns)
    server = StandIn(Options(given.port, workers, sessions, given.columns, given.token_file, log=log), tell)
    if log is not None and policy.milliseconds is not None:
        in_a_thread(lambda: sync_again(server, policy.milliseconds or 1))
    if given.stop_at_end_of_input:
        in_a_thread(lambda: stop_at_end(server))
    return server


def main() -> int:
    given = parsed()
    try:
        server = started(given)
    except (BadLog, OSError) as fault:
        tell(f"stand_in: {fault}")
        return 3
    with server:
        tell(f"listening {server.port}")
        server.join()
    if server.index.log is not None:
        server.index.log.close()
    print(f"events {server.index.events} commits {server.index.commits}")
    return 0


if __name__ == "__main__":
    sys.exit(main())
