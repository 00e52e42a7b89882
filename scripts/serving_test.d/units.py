"""Cases of how a server is run, over a build of mtserve: by the unit for systemd of examples/operating, as it is and
with secrets.

`CASES` are functions of a `Start`, as those of operating.py.
"""
from __future__ import annotations

import os
import shlex
import shutil
import signal
import subprocess
import sys
import tempfile
from pathlib import Path
from typing import Callable, Dict, List

from operating import OWNER, READER, SECONDS, Start, want, want_same
from rowanspan import Client

TOP = Path(__file__).resolve().parent.parent.parent
UNIT = TOP / "examples" / "operating" / "rowanspan.service"
ROWAN, PORT = "/usr/local/bin/rowan", "7070"
# in the unit these lines are comments
INSTEAD = ("#LoadCredential=", "#ExecStart=", "#ExecStartPost=")


def with_secrets(lines: List[str]) -> List[str]:
    """The unit with the lines that its comment says."""
    kept = [line for line in lines if not line.startswith(("ExecStart=", "ExecStartPost="))]
    return [line[1:] if line.startswith(INSTEAD) else line for line in kept]


def words_of(lines: List[str], name: str, places: Dict[str, str]) -> List[str]:
    """The words of a command of the unit, on this machine."""
    (line,) = [line for line in lines if line.startswith(f"{name}=")]
    text = line.partition("=")[2]
    for place, here in places.items():
        text = text.replace(place, here)
    return [sys.executable, *shlex.split(text)]


def want_verified(lines: List[str], folder: str) -> None:
    """systemd has nothing to say of the unit, if it is there."""
    if shutil.which("systemd-analyze") is None:
        return
    path = Path(folder, "verified.service")
    path.write_text("\n".join(lines).replace(ROWAN, "/bin/true") + "\n")
    done = subprocess.run(["systemd-analyze", "verify", str(path)], capture_output=True, timeout=SECONDS, check=False)
    # (of the machine's other units it may say something too)
    said = [line for line in done.stderr.decode().splitlines() if path.name in line]
    want_same("what systemd says of the unit", said, [])


def run_unit(serve: str, lines: List[str], token: bytes) -> None:
    """The server starts by ExecStart, answers by ExecStartPost, and finishes at SIGTERM. Its rows are there again."""
    with tempfile.TemporaryDirectory() as folder:
        want_verified(lines, folder)
        Path(folder, "tokens").write_bytes(b"read " + READER + b"\nall " + OWNER + b"\n")
        Path(folder, "reader").write_bytes(READER + b"\n")
        places = {ROWAN: str(TOP / "clients" / "python" / "rowan"), "${STATE_DIRECTORY}": str(Path(folder, "rows")),
                  "${CREDENTIALS_DIRECTORY}": folder, f"--port {PORT}": "--port 0", f"0.0.0.0:{PORT}": "127.0.0.1:0"}
        for commits in (1, 2):
            words = words_of(lines, "ExecStart", places)
            with subprocess.Popen(words, stdout=subprocess.DEVNULL, stderr=subprocess.PIPE,
                                  env={**os.environ, "ROWANSPAN_MTSERVE": serve}) as process:
                try:
                    assert process.stderr is not None
                    port = process.stderr.readline().decode().split()[1]
                    ready = words_of(lines, "ExecStartPost", {**places, f"-p {PORT}": f"-p {port}"})
                    done = subprocess.run(ready, capture_output=True, timeout=SECONDS, check=False)
                    want_same("its status when it is ready", done.returncode, 0)
                    want_same("what it says then", done.stdout, b"commits %d\n" % (commits - 1))
                    with Client(int(port), timeout=SECONDS, token=token or None) as index:
                        want_same("a put", index.put(b"a", b"v"), commits)
                    process.send_signal(signal.SIGTERM)
                    want_same("the status", process.wait(SECONDS), 0)
                finally:
                    process.kill()


def unit(start: Start) -> None:
    with start() as server:
        serve = str(server.process.args[0])
    lines = UNIT.read_text().splitlines()
    run_unit(serve, lines, b"")
    changed = with_secrets(lines)
    want(changed != lines, "the unit has no lines for secrets")
    run_unit(serve, changed, OWNER)


CASES: List[Callable[[Start], None]] = [unit]
