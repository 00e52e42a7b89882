"""What the tests of the board run: a server, boards, a writer, a reader of pages, and requests by hand."""
from __future__ import annotations

import http.client
import random
import re
import select
import signal
import subprocess
import sys
import threading
from pathlib import Path
from typing import Dict, NamedTuple, Optional, Sequence
from urllib.parse import urlencode

TOP = Path(__file__).resolve().parent.parent.parent
CLIENTS = TOP / "clients" / "python"
sys.path.insert(0, str(CLIENTS))

from rowanspan import Client, HelloUnanswered, NoSuchView, Page  # noqa: E402

SECONDS = 30.0
FORM_TYPE = "application/x-www-form-urlencoded"


class Failed(Exception):
    """A case isn't as it is wanted."""


def want(is_so: bool, why: str) -> None:
    if not is_so:
        raise Failed(why)


def want_same(what: str, got: object, wanted: object) -> None:
    want(got == wanted, f"{what}: {str(got)[:400]} instead of {str(wanted)[:400]}")


def want_no_view(index: Client, number: int) -> None:
    """The server has no view of this number."""
    try:
        index.view(number).page(limit=1)
    except NoSuchView:
        return
    raise Failed(f"view {number} is still there")


class Program:
    """A program that runs until the end of its `with` block, and says on a line at which port it listens."""

    def __init__(self, command: Sequence[str], said: str) -> None:
        self.process = subprocess.Popen(command, stdin=subprocess.DEVNULL, stdout=subprocess.PIPE,
                                        stderr=subprocess.STDOUT)
        self.port = int(self._first_line(said))

    def _first_line(self, said: str) -> str:
        """The group of the first line that the program writes."""
        assert self.process.stdout is not None
        is_ready = select.select([self.process.stdout], [], [], SECONDS)[0]
        line = self.process.stdout.readline().decode(errors="replace") if is_ready else ""
        match = re.fullmatch(said, line)
        if match is None:
            self.end()
            raise Failed(f"{self.process.args}: its first line is {line!r}")
        return match[1]

    def __exit__(self, *_: object) -> None:
        self.end()

    def end(self, by: int = signal.SIGTERM) -> int:
        """Ends the program by a signal; returns its status."""
        if self.process.poll() is None:
            self.process.send_signal(by)
        try:
            return self.process.wait(SECONDS)
        except subprocess.TimeoutExpired:
            self.process.kill()
            return self.process.wait()
        finally:
            if self.process.stdout is not None:
                self.process.stdout.close()

    def rest(self) -> bytes:
        """Ends the program; returns what it wrote after its first line."""
        assert self.process.stdout is not None
        self.process.terminate()
        return self.process.stdout.read()

    def memory(self) -> int:
        """The bytes of memory that the process has."""
        text = Path(f"/proc/{self.process.pid}/status").read_text(encoding="ascii")
        return int(re.findall(r"VmRSS:\s*(\d+) kB", text)[0]) * 1024


class Server(Program):
    """A server of two columns."""

    def __init__(self, command: Sequence[str], port: int = 0) -> None:
        super().__init__([*command, "--port", str(port), "--forever", "--workers", "8", "--columns", "2"],
                         r"listening (\d+)\n")

    def __enter__(self) -> Server:
        return self

    def index(self) -> Client:
        return Client(self.port, timeout=SECONDS)

    def lists_views(self) -> bool:
        """Whether it lists its views, so that a board shows all of them and knows what they are of. Its `info` counts
        them then."""
        try:
            with self.index() as index:
                return index.hello.version >= 3 and "views" in index.info()
        except HelloUnanswered:
            return False


class Answer(NamedTuple):
    """What the board replied to a request."""

    status: int
    headers: Dict[str, str]
    body: str


class Board(Program):
    """A board over a server, at a free port if none is named."""

    def __init__(self, port: int, *options: str, http_port: int = 0) -> None:
        command = [sys.executable, str(CLIENTS / "rowan"), "board", "-p", str(port), "--http", str(http_port), *options]
        super().__init__(command, r"board at http://127\.0\.0\.1:(\d+)/\n")
        self.address = f"http://127.0.0.1:{self.port}/"
        self.host = f"127.0.0.1:{self.port}"

    def __enter__(self) -> Board:
        return self

    def ask(self, method: str, path: str, headers: Dict[str, str], body: str = "") -> Answer:
        """A request with these headers and no others, but for the length."""
        connection = http.client.HTTPConnection("127.0.0.1", self.port, timeout=SECONDS)
        try:
            connection.putrequest(method, path, skip_host=True, skip_accept_encoding=True)
            for name, value in headers.items():
                connection.putheader(name, value)
            if method == "POST":
                connection.putheader("Content-Length", str(len(body)))
            connection.endheaders(body.encode())
            reply = connection.getresponse()
            is_stream = reply.getheader("Content-Type") == "text/event-stream"
            text = "" if is_stream else reply.read().decode()
            return Answer(reply.status, {name: value for name, value in reply.getheaders()}, text)
        finally:
            connection.close()

    def headers(self, **changed: Optional[str]) -> Dict[str, str]:
        """Those of the board's own page, with some of them changed, or left out."""
        named = {"Host": self.host, "Origin": self.address.rstrip("/"), "Content-Type": FORM_TYPE}
        named.update({name.replace("_", "-"): value for name, value in changed.items() if value is not None})
        return {name: value for name, value in named.items() if changed.get(name, "") is not None}

    def token(self) -> str:
        """The token of the form that builds."""
        return re.findall(r'name="token" value="(\w+)"', self.ask("GET", "/", {"Host": self.host}).body)[0]

    def post(self, path: str, fields: Dict[str, str], **changed: Optional[str]) -> Answer:
        return self.ask("POST", path, self.headers(**changed), urlencode(fields))


class Writer(threading.Thread):
    """Puts and removes rows at random until it is stopped, as many a second as is said."""

    def __init__(self, port: int, rate: float, keys: Sequence[bytes]) -> None:
        super().__init__(daemon=True)
        self._index = Client(port, timeout=SECONDS)
        self._pause, self._keys = 1 / rate, keys
        self._chance = random.Random(7)
        self._is_ending = threading.Event()
        self.fault: Optional[BaseException] = None

    def run(self) -> None:
        try:
            while not self._is_ending.wait(self._pause):
                self._step()
        except BaseException as fault:
            self.fault = fault
        self._index.close()

    def _step(self) -> None:
        key = self._chance.choice(self._keys)
        if self._chance.random() < 0.3:
            self._index.remove(key)
        else:
            amount = self._chance.randrange(1 << 20)
            self._index.put(key, {0: amount.to_bytes(3, "big"), 1: self._chance.randbytes(2)})

    def __enter__(self) -> Writer:
        self.start()
        return self

    def __exit__(self, *_: object) -> None:
        self._is_ending.set()
        self.join(SECONDS)
        want(self.fault is None, f"the writer: {self.fault}")


class PageReader(threading.Thread):
    """Reads the pages of a view as fast as it can, and keeps each by its commit: the last 100,000 of them."""

    KEPT = 100_000

    def __init__(self, port: int, view: int, limit: int) -> None:
        super().__init__(daemon=True)
        self._index = Client(port, timeout=SECONDS)
        self._view, self._limit = self._index.view(view), limit
        self._is_ending = threading.Event()
        self.pages: Dict[int, Page] = {}
        self.fault: Optional[BaseException] = None

    def run(self) -> None:
        try:
            while not self._is_ending.wait(0.001):
                self._keep(self._view.page(limit=self._limit))
        except BaseException as fault:
            self.fault = fault
        self._index.close()

    def _keep(self, page: Page) -> None:
        self.pages[page.at] = page
        if len(self.pages) > self.KEPT:
            del self.pages[next(iter(self.pages))]

    def __enter__(self) -> PageReader:
        self.start()
        return self

    def __exit__(self, *_: object) -> None:
        self._is_ending.set()
        self.join(SECONDS)
        want(self.fault is None, f"the reader: {self.fault}")
