"""What `gate_cost` and `progress` share: the crates of crates.txt, and the kit's checks among the running processes."""
from __future__ import annotations

import os
from dataclasses import dataclass
from pathlib import Path
from typing import Dict, List, Optional

TOP = Path(__file__).resolve().parent.parent
PROC = Path("/proc")
TICKS = os.sysconf("SC_CLK_TCK")

# what a check is of a crate; a quick pass proves nothing
PROOF, TESTS, EDITS, QUICK = "proof", "tests", "edits", "quick pass"


@dataclass(frozen=True)
class Check:
    """A check that runs: of which crate, of which kind, when it began (in ticks since the machine did), its seconds."""

    crate: str
    kind: str
    began: int
    seconds: float


def libraries(text: Optional[str] = None) -> Dict[str, List[str]]:
    """The crates, in the order of crates.txt, each with those of the repository that it uses."""
    text = (TOP / "crates.txt").read_text() if text is None else text
    lines = [line.partition(":") for line in text.splitlines() if ":" in line and not line.startswith("#")]
    named = {before.split()[0]: after.split() for before, _, after in lines}
    return {crate: [it for it in uses if it in named] for crate, uses in named.items()}


def below(top: int, proc: Path = PROC) -> List[int]:
    """The processes that a process has started, and those that these have."""
    above = {}
    for entry in proc.iterdir():
        if entry.name.isdigit():
            try:
                above[int(entry.name)] = int(entry.joinpath("stat").read_text().rpartition(")")[2].split()[1])
            except (OSError, IndexError, ValueError):
                pass
    found = []
    for process in above:
        at = process
        while at in above and at != top:
            at = above[at]
        if at == top and process != top:
            found.append(process)
    return found


def kind_of(words: List[str], folder: str) -> str:
    """What a check is, by its words and the folder in which it runs."""
    if "--only" in words:
        return QUICK
    if os.path.basename(folder).startswith("rt-edit-"):
        return EDITS
    return TESTS if "--test" in words else PROOF


def check_of(process: int, proc: Path = PROC) -> Optional[Check]:
    """The check that a process is; none if it is no check."""
    try:
        words = (proc / str(process) / "cmdline").read_bytes().decode(errors="replace").split("\0")
        if os.path.basename(words[0]) != "rattle" or "--crate-name" not in words:
            return None
        crate = words[words.index("--crate-name") + 1]
        fields = (proc / str(process) / "stat").read_text().rpartition(")")[2].split()
        folder = os.readlink(proc / str(process) / "cwd")
        return Check(crate, kind_of(words, folder), int(fields[19]), (int(fields[11]) + int(fields[12])) / TICKS)
    except (OSError, IndexError, ValueError):
        return None
