"""What the tests of the mirrors run: a server, and a mirror that can be killed and started again."""
from __future__ import annotations

import re
import select
import subprocess
import sys
import tempfile
import time
from pathlib import Path
from typing import List, Optional, Sequence

TOP = Path(__file__).resolve().parent.parent.parent
CLIENTS = TOP / "clients" / "python"
for folder in (CLIENTS, TOP / "scripts"):
    sys.path.insert(0, str(folder))

from rowanspan import Client, mirror  # noqa: E402

# only a case that fails waits so long, however slow the machine is
SECONDS = 240.0


class Failed(Exception):
    """A case isn't as it is wanted."""


def want(is_so: bool, why: str) -> None:
    if not is_so:
        raise Failed(why)


def want_same(what: str, got: object, wanted: object) -> None:
    want(got == wanted, f"{what}: {str(got)[:400]} instead of {str(wanted)[:400]}")


class Server:
    """A server of four columns at a free port."""

    def __init__(self, program: str) -> None:
        self.program = program
        self._process = subprocess.Popen([program, "--port", "0", "--forever", "--workers", "12", "--columns", "4"],
                                         stdin=subprocess.DEVNULL, stdout=subprocess.DEVNULL, stderr=subprocess.PIPE)
        assert self._process.stderr is not None
        is_ready = select.select([self._process.stderr], [], [], SECONDS)[0]
        line = self._process.stderr.readline().decode(errors="replace") if is_ready else ""
        found = re.fullmatch(r"listening (\d+)\n", line)
        if found is None:
            self.end()
            raise Failed(f"{program}: its first line is {line!r}")
        self.port = int(found[1])

    def __enter__(self) -> Server:
        return self

    def __exit__(self, *_: object) -> None:
        self.end()

    def index(self) -> Client:
        return Client(self.port, timeout=SECONDS)

    def end(self) -> None:
        self._process.kill()
        self._process.wait()
        if self._process.stderr is not None:
            self._process.stderr.close()


class Mirror:
    """A mirror of a name, over a server. What all its runs have said is in one file."""

    def __init__(self, port: int, name: str, words: Sequence[str]) -> None:
        self.name = name
        self.words = words
        self._command = [sys.executable, str(CLIENTS / "rowan"), "mirror", words[0], "-p", str(port), "--name", name,
                         *words[1:]]
        self._log = tempfile.TemporaryFile("w+", encoding="utf-8")
        self._process: Optional[subprocess.Popen[bytes]] = None

    def __enter__(self) -> Mirror:
        self.start()
        return self

    def __exit__(self, *_: object) -> None:
        self.kill()
        self._log.close()

    def start(self) -> None:
        self._process = subprocess.Popen(self._command, stdin=subprocess.DEVNULL, stderr=self._log)

    @property
    def process(self) -> subprocess.Popen[bytes]:
        assert self._process is not None
        return self._process

    def kill(self) -> None:
        """Ends it at once, wherever it is."""
        self.process.kill()
        self.process.wait()

    def status(self) -> Optional[int]:
        """The status with which it ended; None if it runs on."""
        try:
            return self.process.wait(SECONDS)
        except subprocess.TimeoutExpired:
            return None

    def want_running(self) -> None:
        want(self.process.poll() is None, f"the mirror ended with {self.process.poll()}: {self.said()[-400:]}")

    def said(self) -> str:
        self._log.flush()
        return Path(f"/proc/self/fd/{self._log.fileno()}").read_text(encoding="utf-8")

    def reach(self, index: Client, position: int, seconds: float = SECONDS) -> int:
        """Waits until it has all up to a position; fails at once if it ends before."""
        end = time.monotonic() + seconds
        while True:
            try:
                return mirror.wait(index, self.name, position, 0.2)
            except mirror.NotYet as fault:
                self.want_running()
                want(time.monotonic() < end, f"{fault}: {self.said()[-400:]}")


def rows_of(index: Client, prefix: bytes, columns: int) -> List[object]:
    """The rows of the keys with a prefix, with their first columns."""
    return [(key, row.columns[:columns]) for key, row in index.range(prefix=prefix)]
