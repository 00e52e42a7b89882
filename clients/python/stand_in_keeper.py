"""The part of the stand-in that answers as a server and not as its index: who may ask what, and its own queries. It
follows docs/WIRE.md alone."""
from __future__ import annotations

import os
import threading
import time
from dataclasses import dataclass
from typing import TYPE_CHECKING, Any, Callable, Dict, List, Mapping, Optional, Sequence, Union

from rowanspan import (CountRange, DiskFailed, Get, GetInfo, GetMany, GetRange, GetRangeBack, Greeting, Hello, ListViews,
                       NotAllowed, Ping, Pong, Put, PutIf, Query, Refused, Remove, Role, Stop, TooMuchAtOnce, ViewRead,
                       Wait, WaitDurable)
from stand_in_wire import (DISK_FAILED, SessionFault, spelled_greeting, spelled_info, spelled_listing, spelled_pong,
                           spelled_refusal, spelled_settled, spelled_stopped, spelled_waited)

if TYPE_CHECKING:
    from stand_in_index import PlainIndex

RUN_BYTES = 16
READS = (Get, GetRange, GetMany, GetRangeBack, CountRange, ViewRead, Ping, GetInfo, ListViews, Wait, WaitDurable)
CHANGES = (Put, PutIf, Remove)


def may(role: Role, query: Query[Any]) -> bool:
    """Whether a client of this role may ask a query."""
    return isinstance(query, READS) if role is Role.READ else role is Role.ALL or not isinstance(query, Stop)


@dataclass
class Session:
    """What is known of a connection: the role of its client, or None before it was admitted, and the name that it
    gave."""

    role: Optional[Role]
    name: bytes = b""


class Keeper:
    """Answers frames: those of the index are left to it, if the client may ask them."""

    def __init__(self, index: PlainIndex, tokens: Mapping[bytes, Role], columns: int) -> None:
        self._index, self._tokens, self._columns = index, dict(tokens), columns
        self.run = os.urandom(RUN_BYTES)
        # of each connection since the start
        self.sessions: List[Session] = []
        self.open_connections = self.faults = self.frames = self.input_bytes = self.output_bytes = 0
        self.wrong_secrets = 0
        # how the server ends, once it was asked to, and whether nothing more is answered then
        self.is_at_once = False
        self.stop: Callable[[bool], None] = lambda at_once: None
        self._began = time.monotonic()
        self._lock = threading.Lock()

    @property
    def is_ending(self) -> bool:
        return self._index.is_ending

    def session(self) -> Session:
        """A new connection."""
        session = Session(None if self._tokens else Role.ALL)
        with self._lock:
            self.sessions.append(session)
        return session

    def count(self, body: bytes, frame: bytes) -> None:
        """A frame with this body was answered by this frame."""
        with self._lock:
            self.frames += 1
            self.input_bytes += 4 + len(body)
            self.output_bytes += len(frame)

    def answers(self, session: Session, queries: Sequence[Query[Any]]) -> List[bytes]:
        """The answers to a frame. Raises `SessionFault` if its changes can't become durable any more."""
        query = queries[0]
        if len(queries) == 1 and isinstance(query, Hello):
            return [self._greet(session, query)]
        if session.role is None or not all(may(session.role, one) for one in queries):
            return [spelled_refusal(NotAllowed()) for _ in queries]
        if len(queries) == 1 and query.is_alone:
            return [self._answer(query)]
        changes = any(isinstance(one, CHANGES) for one in queries)
        hindrance = self._index.hindrance() if changes else None
        if hindrance is not None:
            return [spelled_refusal(hindrance) for _ in queries]
        answers = [spelled_refusal(TooMuchAtOnce()) if one.is_alone else self._index.answer(one) for one in queries]
        if changes:
            self._make_durable()
        return answers

    def _make_durable(self) -> None:
        log = self._index.log
        if log is not None and log.policy.is_always:
            self._index.sync()
            if isinstance(log.refusal, DiskFailed):
                raise SessionFault(DISK_FAILED)

    def _greet(self, session: Session, hello: Hello) -> bytes:
        token, session.name = bytes_of(hello.token), bytes_of(hello.name)
        role = self._tokens.get(token) if self._tokens else Role.ALL
        if role is None:
            self.wrong_secrets += 1
            return spelled_refusal(NotAllowed())
        session.role = role
        commits = self._index.commits
        return spelled_greeting(Greeting(min(hello.newest, 3), role, self._columns, self.run, commits, commits))

    def _answer(self, query: Query[Any]) -> bytes:
        if isinstance(query, Ping):
            return spelled_pong(Pong(query.number, self._index.commits))
        if isinstance(query, GetInfo):
            return spelled_info(self._counts())
        if isinstance(query, ListViews):
            return spelled_listing(self._index.listing())
        if isinstance(query, (Wait, WaitDurable)):
            return self._wait(query)
        assert isinstance(query, Stop)
        self.is_at_once = query.at_once
        self.stop(query.at_once)
        return spelled_stopped(self._index.commits)

    def _wait(self, query: Union[Wait, WaitDurable]) -> bytes:
        try:
            if isinstance(query, Wait):
                return spelled_waited(self._index.waited(query))
            return spelled_settled(self._index.settled(query))
        except Refused as refusal:
            return spelled_refusal(refusal)

    def _counts(self) -> Dict[str, int]:
        commits, rows = self._index.commits_and_rows()
        return {"commits": commits, "rows": rows, "nodes": 1, "feed_from": commits,
                "connections": self.open_connections, "connections_all": len(self.sessions), "turned_away": 0,
                "frames": self.frames, "queries": self._index.events, "faults": self.faults,
                "views": len(self._index.listing().views), "input_bytes": self.input_bytes,
                "output_bytes": self.output_bytes,
                "durable": 0 if self._index.log is None else self._index.log.durable,
                "wrong_secrets": self.wrong_secrets, "buffered_bytes": 0,  # (each frame is answered before the next is read)
                "resident_bytes": 0, "uptime_ms": int(1000 * (time.monotonic() - self._began))}


def bytes_of(value: Any) -> bytes:
    return value.encode() if isinstance(value, str) else value
