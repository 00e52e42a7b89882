"""The board's HTTP server: its page, its files, the stream of events, and the two forms."""
from __future__ import annotations

import json
import socket
import sys
import threading
from html import escape
from http import HTTPStatus
from http.server import BaseHTTPRequestHandler, ThreadingHTTPServer
from pathlib import Path
from string import Template
from typing import Any, Dict, Mapping, NamedTuple, Optional, Union

from ..core import BadReply, ConnectionLost, Refused, RowanspanError, TooLong, ViewNo
from .forms import MAX_FORM, BadForm, read_form, read_view
from .guard import ADDRESS, HEADERS, refusal
from .poller import Busy, Poller
from .state import Board, Full, Sent

HERE = Path(__file__).resolve().parent
# connections at once, and how many of them may be streams of events
MAX_CONNECTIONS = 48
MAX_STREAMS = 32
# in seconds: how long a browser may take to send or receive something, and after which silence a stream sends a comment
PATIENCE = 10.0
SILENCE = 15.0
FORM_TYPE = "application/x-www-form-urlencoded"
JSON = "application/json"


class File(NamedTuple):
    """A file of the page."""

    name: str
    kind: str


PAGE = File("page.html", "text/html; charset=utf-8")
FILES: Dict[str, File] = {
    **{f"/{name}": File(name, "text/javascript; charset=utf-8")
       for name in ("board.js", "card.js", "form.js", "line.js", "notation.js")},
    "/board.css": File("board.css", "text/css; charset=utf-8"), "/icon.svg": File("icon.svg", "image/svg+xml")}


class Served:
    """What all requests share: the board, its poller, the page, and the count of streams."""

    def __init__(self, board: Board, poller: Poller, columns_as: str) -> None:
        self.board, self.poller = board, poller
        self.streams = threading.BoundedSemaphore(MAX_STREAMS)
        values = {"token": board.tokens.of("build"), "instance": board.instance, "server": board.server,
                  "rows": str(board.rows), "columns_as": columns_as}
        page = Template((HERE / PAGE.name).read_text(encoding="utf-8"))
        self.page = page.substitute({name: escape(value) for name, value in values.items()}).encode()
        self.files = {path: (HERE / file.name).read_bytes() for path, file in FILES.items()}


class BoardServer(ThreadingHTTPServer):
    """Listens on 127.0.0.1, for a bounded number of connections at once. Port 0 takes any free port."""

    daemon_threads = True
    block_on_close = False
    # how many may come at the same moment; a browser whose connection finds no room tries again a second later
    request_queue_size = 128

    def __init__(self, port: int) -> None:
        self.served: Optional[Served] = None
        self._connections = threading.BoundedSemaphore(MAX_CONNECTIONS)
        super().__init__((ADDRESS, port), Handler)

    def server_bind(self) -> None:
        """Binds the port, and looks up no name, as the class above would."""
        self.socket.setsockopt(socket.SOL_SOCKET, socket.SO_REUSEADDR, 1)
        self.socket.bind(self.server_address)
        self.server_address = self.socket.getsockname()
        self.server_name, self.server_port = ADDRESS, self.server_address[1]

    def process_request(self, request: Any, client_address: Any) -> None:
        """Answers a connection in a thread of its own; one too many is closed."""
        if not self._connections.acquire(blocking=False):
            self.shutdown_request(request)
            return
        super().process_request(request, client_address)

    def process_request_thread(self, request: Any, client_address: Any) -> None:
        try:
            super().process_request_thread(request, client_address)
        finally:
            self._connections.release()

    def handle_error(self, request: Any, client_address: Any) -> None:
        """Writes what a request has met; but a browser that is gone, or doesn't read, is no fault of the board."""
        if not isinstance(sys.exc_info()[1], OSError):
            super().handle_error(request, client_address)


class Handler(BaseHTTPRequestHandler):
    """One request on one connection, which ends after it."""

    server: BoardServer
    timeout = PATIENCE

    # -- requests

    def do_GET(self) -> None:
        path = self.path.partition("?")[0]
        served = self._allowed(path)
        if served is None:
            return
        if path == "/":
            self._reply(HTTPStatus.OK, PAGE.kind, served.page)
        elif path in FILES:
            self._reply(HTTPStatus.OK, FILES[path].kind, served.files[path])
        elif path == "/events":
            self._stream(served)
        else:
            self._say(HTTPStatus.NOT_FOUND, "there is no such page")

    def do_POST(self) -> None:
        # (read before it is refused, since a reply to a form that wasn't read may be lost)
        body = self._body()
        served = self._allowed(self.path)
        if served is None:
            return
        try:
            fields = self._fields(body)
            if self.path == "/build":
                self._answer(self._build(served, fields))
            elif self.path == "/drop":
                self._answer(self._drop(served, fields))
            else:
                self._say(HTTPStatus.NOT_FOUND, "there is no such form")
        except BadForm as fault:
            self._say(HTTPStatus.BAD_REQUEST, str(fault))
        except PermissionError as fault:
            self._say(HTTPStatus.FORBIDDEN, str(fault))
        except (ConnectionLost, BadReply, Busy) as fault:
            self._say(HTTPStatus.SERVICE_UNAVAILABLE, str(fault))
        except (Refused, TooLong, Full) as fault:
            self._say(HTTPStatus.CONFLICT, str(fault))
        except RowanspanError as fault:
            self._say(HTTPStatus.INTERNAL_SERVER_ERROR, str(fault))

    def _allowed(self, path: str) -> Optional[Served]:
        """What is served, if the request may be answered; otherwise it has been refused."""
        served = self.server.served
        why = "the board isn't there yet" if served is None else refusal(
            self.server.server_port, self.command, path, self.headers)
        if why is None:
            return served
        self._say(HTTPStatus.FORBIDDEN, why)
        return None

    # -- forms

    def _body(self) -> Optional[bytes]:
        """The body of a form; None if it has no length, or is too long."""
        length = self.headers.get("Content-Length", "")
        if not (length.isascii() and length.isdigit()) or len(length) > 9 or int(length) > MAX_FORM:
            return None
        body = self.rfile.read(int(length))
        return body if len(body) == int(length) else None

    def _fields(self, body: Optional[bytes]) -> Mapping[str, str]:
        """The fields of the form that was sent. Raises `BadForm`."""
        if self.headers.get_content_type() != FORM_TYPE or "Transfer-Encoding" in self.headers:
            raise BadForm(f"a form is of the type {FORM_TYPE}")
        if body is None:
            raise BadForm(f"a form says how many bytes it has, which are at most {MAX_FORM:,}")
        return read_form(body)

    def _check_token(self, served: Served, action: str, fields: Mapping[str, str]) -> None:
        """Raises PermissionError if the form hasn't the token of its action."""
        if not served.board.tokens.fits(action, fields.get("token", "")):
            raise PermissionError("the form has no token of this board: load the page again")

    def _build(self, served: Served, fields: Mapping[str, str]) -> Dict[str, Any]:
        self._check_token(served, "build", fields)
        asked, poller = read_view(fields), served.poller
        card = (poller.watch(ViewNo(asked.view), asked.name) if isinstance(asked.view, int)
                else poller.build(asked.view, asked.name))
        return {"id": card.id, "number": str(card.number)}

    def _drop(self, served: Served, fields: Mapping[str, str]) -> Dict[str, Any]:
        word = fields.get("id", "")
        self._check_token(served, f"drop {word}", fields)
        card = served.board.card(int(word))
        if card is not None and not card.is_own() and "hide" in fields:
            served.board.hide(card)
        elif card is not None:
            served.poller.drop(card)
        return {"id": int(word)}

    # -- the stream

    def _stream(self, served: Served) -> None:
        """Sends events as long as the browser reads them."""
        if not served.streams.acquire(blocking=False):
            self._say(HTTPStatus.SERVICE_UNAVAILABLE, "too many pages of the board are open")
            return
        try:
            self._head(HTTPStatus.OK, "text/event-stream")
            self.wfile.write(b"retry: 1000\n\n")
            self._send_events(served.board)
        except OSError:
            pass
        finally:
            served.streams.release()

    def _send_events(self, board: Board) -> None:
        sent = Sent()
        while board.wait(sent, SILENCE):
            events = board.events(sent)
            self.wfile.write(b"".join(event.spelled() for event in events) if events else b": still here\n\n")

    # -- replies

    def _head(self, status: HTTPStatus, kind: str, length: Optional[int] = None) -> None:
        self.send_response(status)
        self.send_header("Content-Type", kind)
        if length is not None:
            self.send_header("Content-Length", str(length))
        for name, value in HEADERS.items():
            self.send_header(name, value)
        self.end_headers()

    def _reply(self, status: HTTPStatus, kind: str, body: bytes) -> None:
        self._head(status, kind, len(body))
        if self.command != "HEAD":
            self.wfile.write(body)

    def _answer(self, value: Mapping[str, Any]) -> None:
        self._reply(HTTPStatus.OK, JSON, json.dumps(value).encode())

    def _say(self, status: HTTPStatus, why: str) -> None:
        """A reply that says why it is no other."""
        self._reply(status, JSON, json.dumps({"error": why}).encode())

    def send_error(self, code: Union[int, HTTPStatus], message: Optional[str] = None,
                   explain: Optional[str] = None) -> None:
        """What the class above replies to what it can't read, without repeating any of it."""
        self.close_connection = True
        status = HTTPStatus(code)
        self._say(status, status.phrase)

    def version_string(self) -> str:
        return "rowan"

    def log_message(self, format: str, *args: Any) -> None:
        """Nothing is logged."""
