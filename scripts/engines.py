"""PostgreSQL and etcd for tests, measures and examples: each on a free port, in a folder of its own that is removed."""
from __future__ import annotations

import json
import os
import pwd
import shutil
import signal
import socket
import subprocess
import sys
import tempfile
import time
import urllib.request
from pathlib import Path
from types import TracebackType
from typing import Any, Callable, Dict, List, Optional, Sequence, Type

TOP = Path(__file__).resolve().parent.parent
ROWAN = TOP / "clients" / "python" / "rowan"
# the packages of Debian
PACKAGES = {"PostgreSQL": "postgresql", "psycopg2": "python3-psycopg2", "etcd": "etcd-server"}
SECONDS = 240.0
# how often an engine is started, if another program takes the port that was free
STARTS = 3
SYSTEM_PYTHON = "/usr/bin/python3"


class Failed(Exception):
    """An engine didn't start."""


def find(name: str) -> Optional[str]:
    """The path of a program: that of the newest PostgreSQL if Debian has installed one, else of the search path."""
    of_debian = sorted(Path("/usr/lib/postgresql").glob(f"*/bin/{name}"), key=lambda path: int(path.parts[-3]))
    return str(of_debian[-1]) if of_debian else shutil.which(name)


def missing() -> List[str]:
    """The packages that aren't installed."""
    has = {"PostgreSQL": find("initdb") and find("postgres"), "psycopg2": has_driver(), "etcd": find("etcd")}
    return [PACKAGES[name] for name, found in has.items() if not found]


def has_driver() -> bool:
    try:
        import psycopg2  # noqa: F401
    except ImportError:
        return False
    return True


def use_driver() -> None:
    """Starts this program again with the system's Python if that one has psycopg2, and this one hasn't."""
    if has_driver() or not Path(SYSTEM_PYTHON).is_file() or os.path.samefile(sys.executable, SYSTEM_PYTHON):
        return
    if subprocess.run([SYSTEM_PYTHON, "-c", "import psycopg2"], stderr=subprocess.DEVNULL, check=False).returncode == 0:
        os.execv(SYSTEM_PYTHON, [SYSTEM_PYTHON, *sys.argv])


def end_by_signals() -> None:
    """A SIGTERM raises SystemExit, so that what was started is ended."""
    def end(number: int, _: object) -> None:
        raise SystemExit(128 + number)

    signal.signal(signal.SIGTERM, end)


def free_port() -> int:
    with socket.create_server(("127.0.0.1", 0)) as listener:
        port: int = listener.getsockname()[1]
        return port


def user() -> Optional[pwd.struct_passwd]:
    """As whom the engines run: root may not run PostgreSQL."""
    if os.geteuid() != 0:
        return None
    for name in ("postgres", "nobody"):
        try:
            return pwd.getpwnam(name)
        except KeyError:
            pass
    raise Failed("there is no user postgres or nobody")


class Engine:
    """A program with its data in a folder, until the end of its `with` block."""

    def __init__(self, name: str) -> None:
        self.name = name
        self.folder = Path(tempfile.mkdtemp(prefix=f"rowan-{name}-"))
        self.port = free_port()
        self._user = user()
        if self._user is not None:
            os.chown(self.folder, self._user.pw_uid, self._user.pw_gid)
        self._log = open(self.folder / "log", "ab")
        self._process: Optional[subprocess.Popen[bytes]] = None

    def _as_user(self) -> Dict[str, Any]:
        own: Dict[str, Any] = {} if self._user is None else {
            "user": self._user.pw_uid, "group": self._user.pw_gid, "extra_groups": []}
        # (a Ctrl-C reaches this program alone, which ends the others in their order)
        return {**own, "cwd": self.folder, "stdin": subprocess.DEVNULL, "stdout": self._log, "stderr": self._log,
                "start_new_session": True}

    def run(self, words: Sequence[str]) -> None:
        subprocess.run(words, check=True, timeout=SECONDS, **self._as_user())

    def start(self, words: Sequence[str], is_ready: Callable[[], object]) -> None:
        """Starts the program, and waits until it is ready: until the function raises nothing."""
        self._process = subprocess.Popen(words, **self._as_user())
        end = time.monotonic() + SECONDS
        while True:
            try:
                is_ready()
                return
            except Exception as fault:
                if self._process.poll() is not None or time.monotonic() > end:
                    raise Failed(f"{self.name} isn't ready: {fault}\n{self.log()[-2000:]}") from fault
                time.sleep(0.05)

    def start_at_any_port(self, begin: Callable[[], None]) -> None:
        """Starts the program by this function; if that fails, at another port."""
        for left in reversed(range(STARTS)):
            try:
                return begin()
            except Failed:
                if left == 0:
                    raise
                self.port = free_port()

    def log(self) -> str:
        return (self.folder / "log").read_text(errors="replace")

    def end(self, by: int = signal.SIGINT) -> None:
        """Ends the program; its data stay until the end of the block."""
        process, self._process = self._process, None
        if process is None or process.poll() is not None:
            return
        process.send_signal(by)
        try:
            process.wait(20)
        except subprocess.TimeoutExpired:
            process.kill()
            process.wait()

    def __exit__(self, kind: Optional[Type[BaseException]], fault: Optional[BaseException],
                 trace: Optional[TracebackType]) -> None:
        self.end()
        self._log.close()
        shutil.rmtree(self.folder, ignore_errors=True)


class Postgres(Engine):
    """A PostgreSQL that keeps a log for logical slots. Its superuser is `postgres`, without a password."""

    def __init__(self) -> None:
        super().__init__("postgres")

    def __enter__(self) -> Postgres:
        try:
            self.run([find("initdb") or "initdb", "-D", str(self.folder / "data"), "-A", "trust", "-U", "postgres",
                      "--no-sync", "-E", "UTF8", "--locale", "C"])
            self.start_at_any_port(self.begin)
        except BaseException:
            self.__exit__(None, None, None)
            raise
        return self

    def begin(self) -> None:
        """Starts it, also again after an end."""
        self.start([find("postgres") or "postgres", "-D", str(self.folder / "data"), "-p", str(self.port), "-k",
                    str(self.folder), "-c", "listen_addresses=127.0.0.1", "-c", "wal_level=logical", "-c",
                    "max_replication_slots=64", "-c", "max_wal_senders=64"], lambda: self.connected().close())

    @property
    def dsn(self) -> str:
        return f"host=127.0.0.1 port={self.port} user=postgres dbname=postgres"

    def connected(self) -> Any:
        """A connection in which each statement is a transaction."""
        import psycopg2

        made = psycopg2.connect(self.dsn)
        made.autocommit = True
        return made


class Etcd(Engine):
    """An etcd of one member."""

    def __init__(self) -> None:
        super().__init__("etcd")

    @property
    def url(self) -> str:
        return f"http://127.0.0.1:{self.port}"

    def __enter__(self) -> Etcd:
        try:
            self.start_at_any_port(self.begin)
        except BaseException:
            self.__exit__(None, None, None)
            raise
        return self

    def begin(self) -> None:
        """Starts it without data."""
        peer = f"http://127.0.0.1:{free_port()}"
        shutil.rmtree(self.folder / "data", ignore_errors=True)
        self.start([find("etcd") or "etcd", "--data-dir", str(self.folder / "data"),
                    "--listen-client-urls", self.url, "--advertise-client-urls", self.url, "--listen-peer-urls", peer,
                    "--initial-advertise-peer-urls", peer, "--initial-cluster", f"default={peer}"],
                   lambda: self.ask("kv/range", {"key": "YQ=="}))

    def ask(self, path: str, query: Dict[str, Any]) -> Dict[str, Any]:
        """Asks its gateway."""
        request = urllib.request.Request(f"{self.url}/v3/{path}", json.dumps(query).encode(), method="POST")
        with urllib.request.urlopen(request, timeout=SECONDS) as answer:
            said: Dict[str, Any] = json.loads(answer.read())
        return said
