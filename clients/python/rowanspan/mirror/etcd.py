"""etcd as a source of a mirror: a range at a revision, then a watch from the next one, over its gateway of HTTP and
JSON."""
from __future__ import annotations

import functools
import http.client
import json
import queue
import socket
import threading
from base64 import b64decode, b64encode
from contextlib import contextmanager
from typing import Any, Callable, Dict, Iterator, List, Optional, Sequence
from urllib.parse import urlsplit

from ..core import prefix_end
from .errors import BadMapping, BadRow, CopyAgain, NeedsDecision, SourceLost
from .frames import spelled_change
from .rows import Column, read_columns
from .source import Changes, Copy, Group, Sets, Source, TakePuts
from .template import checked_key_bytes

__all__ = ["EtcdSource", "Events", "value_reader"]

# rows of a range; lines of a watch that are one group at most; seconds until an answer, and between two groups
ROWS, LINES, TIMEOUT, REST = 5000, 64, 30.0, 0.5
# the numbers of errors that another start doesn't end: a bad argument, no permission, no password
LASTING = (3, 7, 16)
ReadValue = Callable[[bytes], Sets]


# ---- values

def in_base64(key: bytes) -> str:
    return b64encode(key).decode()


def field_text(field: Any) -> Optional[str]:
    """A field of JSON as text; None for null, or no field."""
    return field if field is None or isinstance(field, str) else json.dumps(field)


def value_reader(kind: str, words: Sequence[str]) -> ReadValue:
    """How the columns are read of a value: of the fields of its JSON, or column 0 of all of it. Raises `BadMapping`."""
    if (kind == "json") != bool(words):
        raise BadMapping("--value json and --column need each other")
    if kind != "json":
        column = read_columns([f"the value:{kind}"])[0]
        # (a text may have any bytes)
        return lambda value: {0: column.bytes_of(value.decode(errors="surrogateescape"))}
    columns = read_columns(words)
    return lambda value: fields_of(value, columns)


def fields_of(value: bytes, columns: Sequence[Column]) -> Sets:
    try:
        # (floats are kept as they are written)
        row = json.loads(value, parse_float=str)
    except ValueError:
        row = None
    if not isinstance(row, dict):
        raise BadRow(f"{value[:80]!r} is no object of JSON")
    return {number: column.bytes_of(field_text(row.get(column.name))) for number, column in enumerate(columns)}


# ---- events

class Events:
    """Reads the lines of a watch."""

    def __init__(self, read_value: ReadValue) -> None:
        self._read_value = read_value

    def group(self, line: bytes) -> Optional[Group]:
        """The changes of a line, which are those of whole revisions; None if it has none. Raises `CopyAgain` and
        `SourceLost`."""
        said = json.loads(line)
        if "error" in said:
            raise SourceLost(f"the source: {said['error']}")
        said = said["result"]
        if said.get("canceled"):
            if "compact_revision" in said:
                raise CopyAgain(f"the source has compacted the revisions before {said['compact_revision']}")
            raise SourceLost(f"the source cancelled the watch: {said.get('cancel_reason', '')}")
        events = said.get("events", ())
        if not events:
            # (it says that nothing comes any more of the revisions up to this one, unless it is the watch's first line)
            return None if said.get("created") else Group(int(said["header"]["revision"]))
        # the revision of the header may be later than what was sent
        at, changes = 0, self._changes(events)
        for event in events:
            at = max(at, int(event["kv"]["mod_revision"]))
        return Group(at, changes)

    def _changes(self, events: List[Dict[str, Any]]) -> Changes:
        changes: Changes = {}
        for event in events:
            pair = event["kv"]
            key = checked_key_bytes(b64decode(pair["key"]))
            is_gone = event.get("type") == "DELETE"
            changes[key] = None if is_gone else self._read_value(b64decode(pair.get("value", "")))
        return changes


# ---- the source

@contextmanager
def source_faults() -> Iterator[None]:
    """Raises what a connection raises as `SourceLost`."""
    try:
        yield
    except (OSError, http.client.HTTPException, ValueError, KeyError) as fault:
        raise SourceLost(f"the source: {fault or type(fault).__name__}") from fault


class Watch:
    """The lines of a watch, which a thread reads."""

    def __init__(self, address: str, port: int, query: Dict[str, Any]) -> None:
        self._connection = http.client.HTTPConnection(address, port, timeout=TIMEOUT)
        self._connection.request("POST", "/v3/watch", json.dumps({"create_request": query}))
        self._socket: socket.socket = self._connection.sock
        self._answer = self._connection.getresponse()
        self._socket.settimeout(None)
        self._socket.setsockopt(socket.SOL_SOCKET, socket.SO_KEEPALIVE, 1)
        # None at the end
        self._lines: queue.Queue[Optional[bytes]] = queue.Queue(LINES)
        threading.Thread(target=self._read, daemon=True).start()

    def _read(self) -> None:
        try:
            for line in iter(self._answer.readline, b""):
                self._lines.put(line)
        except (OSError, http.client.HTTPException, ValueError):
            # (a ValueError, if it was closed meanwhile)
            pass
        self._lines.put(None)

    def lines(self, seconds: float) -> List[bytes]:
        """The lines that have come; if there is none, it waits for one. Raises `SourceLost` at the end of the watch."""
        made: List[bytes] = []
        try:
            while len(made) < LINES:
                line = self._lines.get(timeout=seconds) if not made else self._lines.get_nowait()
                if line is None:
                    raise SourceLost("the source ended the watch")
                made.append(line)
        except queue.Empty:
            pass
        return made

    def close(self) -> None:
        """Ends the watch, and with it the thread."""
        try:
            self._socket.shutdown(socket.SHUT_RDWR)
        except OSError:
            # it has ended already
            pass
        self._connection.close()


class EtcdSource(Source):
    """The keys with a prefix, which are the server's keys too."""

    def __init__(self, url: str, prefix: str, read_value: ReadValue) -> None:
        parts = urlsplit(url)
        if parts.scheme != "http" or not parts.hostname:
            raise BadMapping(f"'{url}' is no address such as http://127.0.0.1:2379")
        if not prefix:
            raise BadMapping("a prefix is needed, which names what this mirror owns, such as 'shop/'")
        self._host, self._port = parts.hostname, parts.port or 2379
        self._prefix, self._read_value = prefix.encode(), read_value
        self._calls = http.client.HTTPConnection(self._host, self._port, timeout=TIMEOUT)
        self._watch: Optional[Watch] = None

    def close(self) -> None:
        self._calls.close()
        if self._watch is not None:
            self._watch.close()

    @property
    def _range(self) -> Dict[str, Any]:
        end = prefix_end(self._prefix)
        assert end is not None
        return {"key": in_base64(self._prefix), "range_end": in_base64(end)}

    def _ask(self, query: Dict[str, Any]) -> Dict[str, Any]:
        self._send(query)
        return self._receive()

    def _send(self, query: Dict[str, Any]) -> None:
        with source_faults():
            self._calls.request("POST", "/v3/kv/range", json.dumps(query))

    def _receive(self) -> Dict[str, Any]:
        with source_faults():
            said: Dict[str, Any] = json.loads(self._calls.getresponse().read())
        if "error" not in said:
            return said
        text = f"the source: {said['error']}"
        if "compacted" in text:
            raise CopyAgain(text)
        raise (NeedsDecision if said.get("code") in LASTING else SourceLost)(text)

    @property
    def identity(self) -> str:
        """The number of the cluster."""
        return str(self._ask({**self._range, "count_only": True})["header"]["cluster_id"])

    @property
    def prefix(self) -> bytes:
        return self._prefix

    def copy(self) -> Copy:
        revision = int(self._ask({**self._range, "count_only": True})["header"]["revision"])
        return Copy(revision, lambda take: self._copy_rows(revision, take))

    def _copy_rows(self, revision: int, take: TakePuts) -> None:
        query: Dict[str, Any] = {**self._range, "revision": revision, "limit": ROWS}
        is_last = False
        self._send(query)
        try:
            while not is_last:
                said = self._receive()
                pairs, is_last = said.get("kvs", ()), not said.get("more")
                if not is_last:
                    # (the source reads the next rows while these are written)
                    query["key"] = in_base64(b64decode(pairs[-1]["key"]) + b"\0")
                    self._send(query)
                take([self._put(pair) for pair in pairs])
        except BaseException:
            # (an answer may be on its way)
            self._calls.close()
            raise

    def _put(self, pair: Dict[str, Any]) -> bytes:
        """The put of a key and its value."""
        key, value = b64decode(pair["key"]), b64decode(pair.get("value", ""))
        return spelled_change(checked_key_bytes(key), self._read_value(value))

    def follow(self, start: int) -> Iterator[Group]:
        reached = int(self._ask({**self._range, "count_only": True})["header"]["revision"])
        if reached < start:
            raise CopyAgain(f"the source is at revision {reached}, before the rows: it was restored")
        events, at = Events(self._read_value), start
        watch = self._watched(start)
        while True:
            # (what comes while a group is written is in the next one)
            with source_faults():
                groups = [group for line in watch.lines(REST) for group in [events.group(line)] if group is not None]
            whole = functools.reduce(Group.then, groups, Group(at))
            at = whole.at
            yield whole

    def _watched(self, start: int) -> Watch:
        """A watch of the changes after a revision."""
        with source_faults():
            if self._watch is not None:
                self._watch.close()
            self._watch = Watch(self._host, self._port, {**self._range, "start_revision": str(start + 1),
                                                         "progress_notify": True})
        return self._watch

    def confirm(self, at: int) -> None:
        """etcd keeps nothing for a watch: what it compacts is lost, and then all rows are copied again."""
