"""Cases of the board without its page: requests that are refused, other pages, too many connections, the command."""
from __future__ import annotations

import http.server
import json
import random
import re
import signal
import socket
import subprocess
import sys
import threading
import time
from contextlib import ExitStack
from typing import Dict, List, Optional, Sequence, Tuple

from chromium import REBOUND, Browser
from running import CLIENTS, FORM_TYPE, SECONDS, Board, Server, want, want_no_view, want_same
from seeing import seen, wait_for_cards

sys.path.insert(0, str(CLIENTS))

from rowanspan import Client, Prefix  # noqa: E402

FORM = {"kind": "prefix", "key": "a"}
# what no reply of the board is without
WANTED = {"X-Content-Type-Options": "nosniff", "X-Frame-Options": "DENY", "Referrer-Policy": "no-referrer",
          "Cross-Origin-Resource-Policy": "same-origin", "Cache-Control": "no-store"}
# a page of another origin that tries what it can; `found` is what it could do
OTHER_PAGE = """<!DOCTYPE html><title>other</title><body><script>
const board = "%(board)s";
const form = (path, fields) => {
  const it = document.createElement("form");
  Object.assign(it, { action: board + path, method: "post", target: "frame" });
  for (const [name, value] of Object.entries(fields)) {
    it.append(Object.assign(document.createElement("input"), { name, value }));
  }
  document.body.append(it);
  it.submit();
};
const tries = {
  read: () => fetch(board).then((reply) => reply.text()),
  events: () => fetch(board + "events").then((reply) => reply.text()),
  stream: () => new Promise((done, fail) => {
    const events = new EventSource(board + "events");
    events.onopen = done;
    events.onerror = () => { events.close(); fail(); };
  }),
  script: () => new Promise((done, fail) => {
    const src = board + "board.js";
    document.head.append(Object.assign(document.createElement("script"), { src, onload: done, onerror: fail }));
  }),
  picture: () => new Promise((done, fail) => {
    const src = board + "icon.svg";
    document.body.append(Object.assign(document.createElement("img"), { src, onload: done, onerror: fail }));
  }),
  opaque: () => fetch(board + "build", { method: "POST", mode: "no-cors", body: new URLSearchParams(%(form)s) })
    .then(() => Promise.reject()),
  frame: () => new Promise((done, fail) => {
    const frame = Object.assign(document.createElement("iframe"), { name: "frame", src: board });
    frame.onload = () => {
      try {
        frame.contentDocument.body.textContent.includes("Rowanspan") ? done() : fail();
      } catch {
        fail();
      }
    };
    document.body.append(frame);
  }),
  form: () => { form("build", %(form)s); form("drop", { id: 1, token: "%(token)s" }); return Promise.reject(); },
};
window.found = [];
window.tried = Promise.all(Object.entries(tries).map(([name, attempt]) =>
  attempt().then(() => window.found.push(name), () => null))).then(() => new Promise((done) => setTimeout(done, 1500)));
</script></body>"""


def next_view(index: Client) -> int:
    """The number that the next view has; it uses one."""
    with index.build(Prefix(b"none")) as view:
        return view.number


def refused_requests(serve: Sequence[str]) -> str:
    """Requests with a wrong host, a wrong origin or without the token are refused and change nothing."""
    with Server(serve) as server, server.index() as index:
        with Board(server.port, "--text", "--build", "prefix a any") as board:
            token, before = board.token(), next_view(index)
            count = want_refused_hosts(board) + want_refused_posts(board, token)
            want_same("views that were built meanwhile", next_view(index) - before, 1)
            want_same("the view", index.view(1).page().count, 0)
            # with all of it right, a view is built and is dropped
            reply = board.post("/build", {**FORM, "token": token})
            want_same("a form as the page sends it", (reply.status, json.loads(reply.body)),
                      (200, {"id": 2, "number": "4"}))
            reply = board.post("/build", {**FORM, "token": token}, Host=f"localhost:{board.port}",
                               Origin=f"http://localhost:{board.port}")
            want_same("a form by another name of this machine", reply.status, 200)
            want_headers(board)
    return f"{count} requests"


def want_refused_hosts(board: Board) -> int:
    """Requests that read, with a host, an origin or a site that isn't the board's."""
    port = board.port
    wrong: List[Dict[str, str]] = [{"Host": host} for host in (
        "evil.example", f"evil.example:{port}", f"127.0.0.1.evil.example:{port}", "127.0.0.1", f"127.0.0.1:{port + 1}",
        f"[::1]:{port}", f"0.0.0.0:{port}", "", f"127.0.0.1:{port}@evil.example")]
    wrong += [{}] + [{"Host": board.host, "Origin": origin} for origin in (
        "http://evil.example", "null", f"https://127.0.0.1:{port}", f"http://localhost:{port}",
        f"http://127.0.0.1:{port + 1}", "")]
    wrong += [{"Host": board.host, "Sec-Fetch-Site": site} for site in ("cross-site", "same-site", "")]
    for headers in wrong:
        for path in ("/", "/events", "/board.js"):
            reply = board.ask("GET", path, headers)
            want_same(f"GET {path} with {headers}", (reply.status, reply.headers["Content-Type"]),
                      (403, "application/json"))
    visit = {"Host": board.host, "Sec-Fetch-Site": "cross-site", "Sec-Fetch-Mode": "navigate"}
    want_same("a link of another site", [board.ask("GET", path, visit).status for path in ("/", "/events")], [200, 403])
    return 3 * len(wrong)


def want_refused_posts(board: Board, token: str) -> int:
    """Forms that are refused, each for one thing that is wrong."""
    right = {**FORM, "token": token}
    wrong: List[Tuple[str, Dict[str, str], Dict[str, Optional[str]], int]] = [
        ("/build", right, {"Host": f"evil.example:{board.port}"}, 403), ("/build", right, {"Host": None}, 403),
        ("/build", right, {"Origin": "http://evil.example"}, 403), ("/build", right, {"Origin": None}, 403),
        ("/build", right, {"Origin": "null"}, 403), ("/build", right, {"Sec_Fetch_Site": "same-site"}, 403),
        ("/build", FORM, {}, 403), ("/build", {**FORM, "token": ""}, {}, 403),
        ("/build", {**FORM, "token": token[:-1]}, {}, 403), ("/build", {**FORM, "token": "é"}, {}, 403),
        ("/drop", {"id": "1", "token": token}, {}, 403), ("/drop", {"id": "1"}, {}, 403),
        ("/drop", {"token": token}, {}, 403), ("/build", right, {"Content_Type": "text/plain"}, 400),
        ("/build", right, {"Transfer_Encoding": "chunked"}, 400), ("/build", {**right, "kind": "x"}, {}, 400),
        ("/build", {**right, "name": "n" * 81}, {}, 400), ("/build", {**right, "key": "a" * 40_000}, {}, 400),
        ("/other", right, {}, 404), ("/events", right, {}, 404)]
    for path, fields, changed, status in wrong:
        reply = board.post(path, fields, **changed)
        want_same(f"POST {path} {fields} {changed}", reply.status, status)
        want("error" in json.loads(reply.body), reply.body)
    for method in ("PUT", "DELETE", "OPTIONS", "HEAD", "TRACE"):
        want_same(method, board.ask(method, "/", board.headers()).status, 501)
    return len(wrong) + 5


def want_headers(board: Board) -> None:
    """Each reply has the headers that keep other pages out, and the policy allows nothing inline."""
    for method, path in (("GET", "/"), ("GET", "/events"), ("GET", "/board.css"), ("GET", "/none"), ("PUT", "/")):
        headers = board.ask(method, path, board.headers()).headers
        want_same(f"headers of {path}", {name: headers.get(name) for name in WANTED}, WANTED)
        policy = headers["Content-Security-Policy"]
        want("default-src 'none'" in policy and "frame-ancestors 'none'" in policy and "unsafe" not in policy, policy)


class OtherPage:
    """A server of another origin, with one page."""

    def __init__(self, text: str) -> None:
        body = text.encode()

        class Handler(http.server.BaseHTTPRequestHandler):
            def do_GET(self) -> None:
                self.send_response(200)
                self.send_header("Content-Type", "text/html")
                self.end_headers()
                self.wfile.write(body)

            def log_message(self, format: str, *args: object) -> None:
                pass

        self._server = http.server.ThreadingHTTPServer(("127.0.0.1", 0), Handler)
        self.address = f"http://127.0.0.1:{self._server.server_port}/"

    def __enter__(self) -> OtherPage:
        threading.Thread(target=self._server.serve_forever, daemon=True).start()
        return self

    def __exit__(self, *_: object) -> None:
        self._server.shutdown()
        self._server.server_close()


def other_pages(serve: Sequence[str], browser: Browser) -> None:
    """A page of another origin, in the same browser, can read nothing of the board and change nothing. Nor can one
    whose name leads to the board (DNS rebinding)."""
    with Server(serve) as server, server.index() as index:
        with Board(server.port, "--text", "--build", "prefix a any") as board:
            own = browser.page(board.address)
            wait_for_cards(own, 1)
            text = OTHER_PAGE % {"board": board.address, "form": json.dumps(FORM), "token": "0" * 64}
            before = next_view(index)
            with OtherPage(text) as other:
                page = browser.page(other.address)
                page.value("window.tried")
                want_same("what another page could do", page.value("window.found"), [])
                page.close()
            renamed = browser.page(f"http://{REBOUND}:{board.port}/")
            want_same("the page under another name", renamed.value("document.body.textContent"),
                      '{"error": "the host isn\'t that of the board"}')
            renamed.close()
            want_same("views that were built meanwhile", next_view(index) - before, 1)
            want_same("the views of the board", [card.title for card in seen(own)], ["prefix a"])
            want_same("the view", index.view(1).page().count, 0)
            own.close()


def many_connections(serve: Sequence[str]) -> str:
    """More connections than the board serves are closed, and it works again when they have ended."""
    with Server(serve) as server, Board(server.port, "--text", "--build", "prefix a any") as board:
        idle = [socket.create_connection(("127.0.0.1", board.port), SECONDS) for _ in range(100)]
        time.sleep(0.5)
        closed = sum(is_closed(one) for one in idle)
        want(40 <= closed < 100, f"{closed} of 100 idle connections were closed")
        for one in idle:
            one.close()
        wait_until_answers(board)
    return f"{closed} of 100 closed"


def many_streams(serve: Sequence[str]) -> str:
    """More streams of events than the board serves are refused, and its page is still served."""
    with Server(serve) as server, Board(server.port, "--text", "--build", "prefix a any") as board:
        before = board.memory()
        with ExitStack() as opened:
            replies = [opened.enter_context(Stream(board)).status() for _ in range(40)]
            want_same("replies to streams", replies, [b"200"] * 32 + [b"503"] * 8)
            want_same("the page meanwhile", board.ask("GET", "/", {"Host": board.host}).status, 200)
            time.sleep(1)
            grown = board.memory() - before
        want(grown < 16 << 20, f"the board has grown by {grown} bytes")
    return f"8 of 40 refused, and {grown / 2 ** 20:.1f} MB more for 32"


def bad_bytes(board: Board) -> List[bytes]:
    """What is no request that the board can answer."""
    head = f"POST /build HTTP/1.1\r\nHost: {board.host}\r\nOrigin: http://{board.host}\r\nContent-Type: {FORM_TYPE}\r\n"
    lengths = [f"{head}Content-Length: {length}\r\n\r\nkind=prefix".encode()
               for length in ("-1", "1e3", "99999999999", "9" * 5000, "\u0661", "", "100", "11\r\nContent-Length: 5")]
    chance = random.Random(5)
    return [b"", b"\r\n\r\n", b"GET\r\n\r\n", b"GET /\r\n\r\n", b"GET / HTTP/9.9\r\n\r\n", b"GET / HTTP/1.1\r\n\r\n",
            b"GET /\xff\0 HTTP/1.1\r\nHost: x\r\n\r\n", b"GET " + b"/" * 70_000, b"<b> / HTTP/1.1\r\n\r\n",
            b"GET / HTTP/1.1\r\nHost: " + b"a" * 70_000, b"GET / HTTP/1.1\r\n" + b"A: b\r\n" * 200 + b"\r\n",
            f"{head}Transfer-Encoding: chunked\r\n\r\n5\r\nkind=\r\n0\r\n\r\n".encode(), head.encode() + b"\r\n",
            *lengths, *(chance.randbytes(chance.randrange(1, 2000)) for _ in range(100))]


def no_requests(serve: Sequence[str]) -> str:
    """Bytes that are no request are refused or answered by nothing, and the board writes of no fault of its own."""
    with Server(serve) as server, server.index() as index, Board(server.port) as board:
        before, sent = next_view(index), bad_bytes(board)
        replies = [reply_to(board, request) for request in sent]
        strange = [reply for reply in replies if reply and not re.match(rb"HTTP/1\.0 [45]|\{\"error\"", reply)]
        want_same("replies that refuse nothing", strange, [])
        want_same("views that were built meanwhile", next_view(index) - before, 1)
        want_same("the page", board.ask("GET", "/", {"Host": board.host}).status, 200)
        want_same("what the board wrote", board.rest(), b"")
    return f"{len(sent)} of them, {sum(bool(reply) for reply in replies)} answered"


def reply_to(board: Board, request: bytes) -> bytes:
    """The reply to these bytes, after which nothing comes."""
    with socket.create_connection(("127.0.0.1", board.port), SECONDS) as connection:
        try:
            connection.sendall(request)
            connection.shutdown(socket.SHUT_WR)
            return b"".join(iter(lambda: connection.recv(65_536), b""))
        except (ConnectionResetError, BrokenPipeError):
            return b""


class Stream:
    """A stream of events that nobody reads."""

    def __init__(self, board: Board) -> None:
        self._connection = socket.create_connection(("127.0.0.1", board.port), SECONDS)
        self._connection.sendall(f"GET /events HTTP/1.1\r\nHost: {board.host}\r\n\r\n".encode())

    def __enter__(self) -> Stream:
        return self

    def __exit__(self, *_: object) -> None:
        self._connection.close()

    def status(self) -> bytes:
        return self._connection.recv(12)[-3:]


def is_closed(connection: socket.socket) -> bool:
    connection.settimeout(0.01)
    try:
        return connection.recv(1) == b""
    except ConnectionResetError:
        return True
    except socket.timeout:
        return False


def wait_until_answers(board: Board) -> None:
    """Waits until the board has noticed that connections have ended."""
    end, status = time.monotonic() + SECONDS, 0
    while status != 200:
        try:
            status = board.ask("GET", "/", {"Host": board.host}).status
        except OSError:
            want(time.monotonic() < end, "the board doesn't answer any more")
            time.sleep(0.1)


def run(*words: str) -> Tuple[int, str, str]:
    """Runs the command to its end."""
    done = subprocess.run([sys.executable, str(CLIENTS / "rowan"), "board", *words], stdin=subprocess.DEVNULL,
                          text=True, capture_output=True, timeout=SECONDS, check=False)
    return done.returncode, done.stdout, done.stderr


def command_lines(serve: Sequence[str]) -> None:
    """What is wrong with a command line, a port or a view is one line and a status. At its end the board drops the
    views that it built."""
    with Server(serve) as server:
        given = ["-p", str(server.port), "--http", "0"]
        with socket.create_server(("127.0.0.1", 0)) as taken:
            port = taken.getsockname()[1]
            want_said(run("-p", str(server.port), "--http", str(port)), 3, f"port {port} of 127.0.0.1 is taken")
        want_said(run("-p", str(port), "--http", "0"), 3, f"no connection to 127.0.0.1, port {port}")
        want_said(run(*given, "--view", "77"), 1, "--view 77: no view has this number")
        want_said(run(*given, "--build", "range 62 61 any"), 1, "--build 'range 62 61 any': the end of a range is not")
        for words, part in ((["--view", "x"], "expected a number"), (["--view", "0"], "from 1 to"),
                            (["--build", "nonsense"], "expected range or prefix"), (["--rows", "101"], "from 0 to 100"),
                            (["--http", "65536"], "invalid port value")):
            status, output, errors = run(*given, *words)
            want(status == 2 and output == "" and part in errors.splitlines()[-1], f"{words}: {status} {errors}")
        want_end_by(server, signal.SIGTERM, 143)
        want_end_by(server, signal.SIGINT, 130)


def want_end_by(server: Server, number: int, status: int) -> None:
    """A board that a signal ends has dropped its views, and no other."""
    with server.index() as index:
        first = index.build(Prefix(b"a")).number
        with Board(server.port, "--view", str(first), "--build", "prefix 61 any", "--build", "prefix 62 any") as board:
            want_same("a view of the board", index.view(first + 2).page().count, 0)
            want_same(f"the status after signal {number}", board.end(number), status)
        want_same("the view of another client", index.view(first).page().count, 0)
        want_no_view(index, first + 1)
        want_no_view(index, first + 2)


def want_said(ended: Tuple[int, str, str], status: int, part: str) -> None:
    """One line on standard error, and this status."""
    want_same("the status", (ended[0], ended[1], ended[2].count("\n")), (status, "", 1))
    want(ended[2].startswith("rowan board: ") and part in ended[2], ended[2])
