"""The programs of the package: the server mtserve, which is run so that a signal ends it gracefully, and mtfolder,
which reads the folder of a server."""
from __future__ import annotations

import os
import signal
import subprocess
from pathlib import Path
from typing import List, NoReturn, Optional, Sequence, Tuple, Union

from .core import RowanspanError
from .places import PACKAGE, checkout, none_at

__all__ = ["NoServer", "server_paths", "serve", "read_folder"]

# with it the server finishes what has come and ends, when its standard input ends
STOPS = "--stop-at-end-of-input"
# with these the server says something and ends; or another process holds its standard input
ALONE = {"-h", "--help", "-V", "--version", STOPS}


class NoServer(RowanspanError):
    """The program mtserve, or mtfolder, isn't there, or can't be run."""


def server_paths() -> List[Path]:
    """Where mtserve may be: the path that ROWANSPAN_MTSERVE names, or else the package's own folder bin and the place
    where a checkout builds it."""
    return program_paths("mtserve")


def program_paths(name: str) -> List[Path]:
    """The same of a program: ROWANSPAN_NAME is the variable that names its path."""
    named = os.environ.get(f"ROWANSPAN_{name.upper()}")
    if named:
        return [Path(named)]
    own, top = PACKAGE / "bin" / name, checkout()
    return [own] if top is None else [own, top / "crates" / name / "out" / name]


def serve(options: Sequence[str]) -> int:
    """Runs mtserve with these options until it ends, and returns its status. At SIGTERM or SIGINT the server finishes
    what has come, and ends; at a second one it is killed. If this process is killed, the server ends too. Raises
    `NoServer` if there is none, or it can't run."""
    if ALONE.intersection(options):
        become("mtserve", options)
    program, stop = find_program("mtserve"), Stop()
    for number in (signal.SIGTERM, signal.SIGINT):
        signal.signal(number, stop)
    try:
        file, kept = runnable(program)
        # (a session of its own: the terminal's signals come to this process alone)
        with subprocess.Popen(["mtserve", *options, STOPS], executable=file, pass_fds=kept, stdin=subprocess.PIPE,
                              start_new_session=True) as server:
            stop.of(server)
            status = server.wait()
    except (OSError, ValueError) as fault:
        raise NoServer(f"{program} can't be run: {fault}") from fault
    return status if status >= 0 else 128 - status


class Stop:
    """What a signal does: the first ends the standard input of a server, the second kills it."""

    def __init__(self) -> None:
        self._server: Optional[subprocess.Popen[bytes]] = None
        self._signals = 0

    def of(self, server: subprocess.Popen[bytes]) -> None:
        """The server has started. A signal may have come before."""
        self._server = server
        self._act()

    def __call__(self, *_: object) -> None:
        self._signals += 1
        self._act()

    def _act(self) -> None:
        if self._server is None or self._signals == 0:
            return
        if self._signals > 1:
            self._server.kill()
        elif self._server.stdin is not None:
            self._server.stdin.close()


def read_folder(words: Sequence[str]) -> NoReturn:
    """Runs mtfolder with these words instead of this process. Raises `NoServer` if there is none, or it can't run."""
    become("mtfolder", words)


def become(name: str, words: Sequence[str]) -> NoReturn:
    """Runs a program with these words instead of this process. Raises `NoServer` if there is none, or it can't run."""
    program = find_program(name)
    # Python ignores these signals, and a program that it becomes would ignore them too
    signal.signal(signal.SIGPIPE, signal.SIG_DFL)
    signal.signal(signal.SIGXFSZ, signal.SIG_DFL)
    try:
        os.execv(runnable(program)[0], [name, *words])
    except (OSError, ValueError) as fault:
        raise NoServer(f"{program} can't be run: {fault}") from fault


def find_program(name: str) -> Path:
    """The program of this name. Raises `NoServer` if there is none."""
    tried = program_paths(name)
    program = next((path for path in tried if path.is_file()), None)
    if program is None:
        raise NoServer(none_at("server" if name == "mtserve" else f"program {name}", tried))
    return program


def runnable(program: Path) -> Tuple[Union[Path, str], Tuple[int, ...]]:
    """The path by which a program can be run, and the descriptors that have to stay open for it."""
    if may_run(program):
        return program, ()
    copy = copy_in_memory(program)
    os.set_inheritable(copy, True)
    return f"/proc/self/fd/{copy}", (copy,)


def may_run(program: Path) -> bool:
    """Whether a program can be run where it is. An installer may have dropped its mode: then it is set, if that is
    allowed."""
    if not os.access(program, os.X_OK):
        try:
            program.chmod(program.stat().st_mode | 0o111)
        except OSError:
            pass
    return os.access(program, os.X_OK)


def copy_in_memory(program: Path) -> int:
    """A copy of a program that can be run, in a file that has no name; returns its descriptor."""
    copy = os.memfd_create("mtserve", 0)
    with open(copy, "wb", closefd=False) as file:
        file.write(program.read_bytes())
    return copy
