"""Runs a program of which some allocations are refused, by the library that refuse.c makes."""
from __future__ import annotations

import os
import subprocess
from dataclasses import dataclass
from pathlib import Path
from typing import Dict, List, Optional, Sequence, Tuple

SECONDS = 120.0
SOURCE = Path(__file__).resolve().parent / "refuse.c"


class Hung(Exception):
    """A program doesn't end."""


@dataclass(frozen=True)
class Told:
    """An allocation: its number, its size, and how many bytes of standard output were written before it."""

    number: int
    size: int
    written: int


@dataclass(frozen=True)
class Run:
    """How a program ended, what it wrote, and what was reported of its allocations."""

    status: int
    output: bytes
    errors: bytes
    told: Tuple[Told, ...]

    def answers(self) -> List[str]:
        lines = self.output.decode("latin-1").split("\n")
        return lines[:-1] if lines[-1] == "" else lines


def built(source: Path, room: Path) -> Path:
    """Builds a library to preload, in this folder."""
    library = room / f"{source.stem}.so"
    words = [os.environ.get("CC", "cc"), "-std=c11", "-O2", "-Wall", "-Wextra", "-Werror", "-shared", "-fPIC"]
    subprocess.run([*words, "-o", str(library), str(source)], check=True)
    return library


class Shim:
    """The library, built in a folder, and the program that it is preloaded to."""

    def __init__(self, program: Path, room: Path) -> None:
        self.program = program.resolve()
        self.room = room
        self.library = built(SOURCE, room)

    def environment(self, more: Dict[str, str]) -> Dict[str, str]:
        """The environment of a program whose allocations are counted."""
        return {"LD_PRELOAD": str(self.library), "PATH": os.environ.get("PATH", ""), **more}

    def run(self, words: Sequence[str], given: bytes, refused: Sequence[int] = (), large: Optional[int] = None) -> Run:
        """Runs the program on this standard input; the allocations of these numbers, which rise, are refused. Tells of
        those, and of all that are large."""
        paths = {name: self.room / name for name in ("given", "these", "told", "output")}
        paths["given"].write_bytes(given)
        paths["these"].write_text("".join(f"{number}\n" for number in refused))
        paths["told"].write_bytes(b"")
        environment = self.environment({"REFUSE_THESE": str(paths["these"]), "REFUSE_TELL": str(paths["told"]),
                                        **({} if large is None else {"REFUSE_LARGE": str(large)})})
        with open(paths["given"], "rb") as source, open(paths["output"], "wb") as output:
            try:
                done = subprocess.run([str(self.program), *words], stdin=source, stdout=output, stderr=subprocess.PIPE,
                                      env=environment, timeout=SECONDS, check=False)
            except subprocess.TimeoutExpired:
                raise Hung(f"it doesn't end in {SECONDS:.0f} seconds") from None
        told = tuple(Told(*map(int, line.split())) for line in paths["told"].read_text().splitlines())
        return Run(done.returncode, paths["output"].read_bytes(), done.stderr, told)


def is_one_line(errors: bytes, program: Path) -> bool:
    """Whether a program wrote one line of open text, which begins with its name."""
    name = program.name.split(".")[0].encode()
    return errors.count(b"\n") == 1 and errors.endswith(b"\n") and errors.startswith(name + b": ") and len(errors) < 200

