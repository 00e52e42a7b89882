"""What the tests of rows that survive run: a server over a folder, which is stopped, killed and started again."""
from __future__ import annotations

import os
import queue
import re
import resource
import signal
import subprocess
import sys
import threading
from dataclasses import dataclass
from pathlib import Path
from typing import Any, Callable, Dict, List, Optional, Sequence, Tuple

TOP = Path(__file__).resolve().parent.parent.parent
CLIENTS = TOP / "clients" / "python"
sys.path.insert(0, str(CLIENTS))

from rowanspan import Client  # noqa: E402

# only a case that fails waits so long
SECONDS = 60.0
COLUMNS = 2
# the files of a folder's logs: those of even generations, and of odd ones
FILES = LOG, OTHER = "even-wal", "odd-wal"
# with it a server ends when its standard input does
STOPS = "--stop-at-end-of-input"


class Failed(Exception):
    """A case isn't as it is wanted."""


class Skipped(Exception):
    """A case can't be run here."""


def want(is_so: bool, why: str) -> None:
    if not is_so:
        raise Failed(why)


def want_same(what: str, got: object, wanted: object) -> None:
    want(got == wanted, f"{what}: {str(got)[:400]} instead of {str(wanted)[:400]}")


def want_raised(what: str, call: Callable[[], object], *kinds: type) -> Any:
    """The exception, of one of these kinds, that a call raises."""
    names = " or ".join(kind.__name__ for kind in kinds)
    try:
        found = call()
    except Exception as fault:
        want(isinstance(fault, kinds), f"{what}: {type(fault).__name__}: {fault} instead of {names}")
        return fault
    raise Failed(f"{what}: {str(found)[:200]} instead of {names}")


@dataclass(frozen=True)
class Setting:
    """What a case is given: the programs, a folder of its own, and how much is asked for."""

    serve: str
    check: Optional[str]
    reads: Optional[str]
    folder: Path
    kills: int
    seed: int

    @property
    def data(self) -> Path:
        return self.folder / "data"

    @property
    def log(self) -> Path:
        """The log of a folder in which no checkpoint was made."""
        return self.data / LOG

    def command(self, *words: str) -> List[str]:
        """The command of a server over the folder, with these options besides."""
        return [self.serve, *options("--data", str(self.data), *words)]

    def server(self, *words: str, **given: Any) -> Server:
        return Server([*self.command(*words), STOPS], **given)

    def server_in_memory(self) -> Server:
        return Server([self.serve, *options(), STOPS])

    def server_by_rowan(self, *words: str) -> Server:
        """`rowan serve`, which runs the server as its child."""
        return Server([sys.executable, str(CLIENTS / "rowan"), "serve", *self.command(*words)[1:]],
                      environment={"ROWANSPAN_MTSERVE": self.serve})

    def refused(self, status: int, *words: str, **given: Any) -> str:
        """What a server writes on standard error that ends at once, with these options, by this status."""
        try:
            # (one that would start ends at once, by status 0)
            done = subprocess.run([self.serve, *options(*words), STOPS], input=b"", capture_output=True,
                                  timeout=SECONDS, check=False, **given)
        except subprocess.TimeoutExpired:
            raise Failed(f"it runs on with {' '.join(words)}") from None
        errors = done.stderr.decode(errors="replace")
        told = f"with {' '.join(words)}, which says {errors[:300]!r}"
        want_same(f"the status {told}", done.returncode, status)
        want_same(f"the output {told}", done.stdout, b"")
        want(errors.strip() != "", f"it says nothing {told}")
        return errors


def options(*words: str) -> List[str]:
    columns = [] if "--columns" in words else ["--columns", str(COLUMNS)]
    return ["--port", "0", *columns, *words]


class Server:
    """A running server. It is killed at the end of the `with` block, if it still runs. With `file_size` no file of it
    can be longer than this."""

    def __init__(self, words: Sequence[str], file_size: Optional[int] = None,
                 environment: Optional[Dict[str, str]] = None) -> None:
        # (without `restore_signals` a file that is too long is an error, and no signal)
        self.process = subprocess.Popen(
            words, stdin=subprocess.PIPE, stdout=subprocess.PIPE, stderr=subprocess.PIPE,
            restore_signals=file_size is None, env={**os.environ, **(environment or {})},
            preexec_fn=None if file_size is None else lambda: limit_files(file_size))
        # None where there are no more
        self._lines: queue.Queue[Optional[str]] = queue.Queue()
        self._reader = threading.Thread(target=self._read_lines, daemon=True)
        self._reader.start()
        self.port = 0

    def __enter__(self) -> Server:
        try:
            line = self.next_line()
            want(re.fullmatch("listening [0-9]+", line) is not None, f"its first line is {line!r}")
            self.port = int(line.split()[1])
        except BaseException:
            self.kill()
            raise
        return self

    def __exit__(self, *_: object) -> None:
        self.kill()

    def _read_lines(self) -> None:
        assert self.process.stderr is not None
        for line in self.process.stderr:
            text = line.decode(errors="replace").rstrip("\n")
            # (of how many descriptors the system allows all programs a case knows nothing)
            if not re.search(" few_descriptors |^connections: at most", text):
                self._lines.put(text)
        self._lines.put(None)

    def next_line(self) -> str:
        """The next line on standard error."""
        try:
            line = self._lines.get(timeout=SECONDS)
        except queue.Empty:
            raise Failed(f"no line on standard error in {SECONDS:.0f} seconds") from None
        if line is None:
            raise Failed(f"the server has ended with {self.process.wait(SECONDS)}, without a line on standard error")
        return line

    def rest_of_lines(self) -> List[str]:
        """The lines on standard error that weren't asked for, after the end."""
        lines = iter(lambda: self._lines.get(timeout=SECONDS), None)
        return [line for line in lines if line is not None]

    def index(self, **given: Any) -> Client:
        return Client(self.port, timeout=SECONDS, **given)

    # -- the end

    def kill(self) -> None:
        """Ends it at once, wherever it is."""
        if self.process.poll() is None:
            self.process.send_signal(signal.SIGKILL)
        self.process.wait()
        for stream in (self.process.stdin, self.process.stdout):
            if stream is not None:
                stream.close()

    def end_input(self) -> None:
        """It is to finish what has come, and to end."""
        assert self.process.stdin is not None
        self.process.stdin.close()

    def ended(self) -> int:
        """Waits for the server's own end; returns its number of commits."""
        assert self.process.stdout is not None
        try:
            status = self.process.wait(SECONDS)
        except subprocess.TimeoutExpired:
            raise Failed("the server doesn't end") from None
        output = self.process.stdout.read()
        lines = self.rest_of_lines()
        want_same(f"the status, and {lines}", status, 0)
        found = re.fullmatch(rb"events [0-9]+ commits ([0-9]+)\n", output)
        if found is None:
            raise Failed(f"its output is {output[:200]!r}")
        return int(found[1])

    def stop(self) -> int:
        """Lets it end; returns its number of commits."""
        self.end_input()
        return self.ended()


def limit_files(size: int) -> None:
    resource.setrlimit(resource.RLIMIT_FSIZE, (size, size))


def at_once(parts: Sequence[Callable[[], None]]) -> None:
    """All parts at once, each in a thread of its own; raises what the first of them raised."""
    faults: List[BaseException] = []

    def guarded(part: Callable[[], None]) -> None:
        try:
            part()
        except BaseException as fault:
            faults.append(fault)

    threads = [threading.Thread(target=guarded, args=(part,), daemon=True) for part in parts]
    for thread in threads:
        thread.start()
    for thread in threads:
        thread.join(2 * SECONDS)
    want(not any(thread.is_alive() for thread in threads), "a client isn't served")
    if faults:
        raise faults[0]


def files_of(folder: Path) -> List[Tuple[str, bytes]]:
    """The files of a folder, and what they have."""
    return [(path.name, path.read_bytes()) for path in sorted(folder.iterdir())]
