"""What the scripts that measure share: how their programs are built, what they tell of the machine, their tables."""
from __future__ import annotations

import argparse
import hashlib
import importlib.machinery
import importlib.util
import os
import shutil
import statistics
import subprocess
import sys
import tempfile
from pathlib import Path
from typing import Any, Dict, Iterable, Iterator, List, Optional, Sequence

TOP = Path(__file__).resolve().parent.parent
SCRIPTS = TOP / "scripts"
LINES_OF_LOG = 20


class Failed(Exception):
    """Something can't be built or measured. Its text says why."""


# ---- the map's sides, in Rust

def cargo_built(folder: Path, name: str, room: str, **environment: str) -> Path:
    """A program in Rust, built into a folder. It takes no network."""
    words = ["cargo", "build", "--release", "--offline", "--quiet", "--target-dir", room,
             "--manifest-path", str(folder / "Cargo.toml")]
    subprocess.run(words, check=True, env={**os.environ, **environment})
    return Path(room) / "release" / name


def figures(words: Sequence[str], **environment: str) -> Dict[str, float]:
    """What one run of a program tells, in lines of a figure, a tab and its name."""
    said = subprocess.run(words, check=True, stdout=subprocess.PIPE, text=True, env={**os.environ, **environment})
    lines = (line.split("\t") for line in said.stdout.splitlines())
    return {name: float(figure) for figure, name in lines}


# ---- the index's sides, in Rattle: no crates of crates.txt, but built over the libraries that a run of the gate has left

def kit() -> Any:
    """The library of the kit's rt."""
    program = shutil.which("rt")
    if program is None:
        raise Failed("the kit's rt is not on the path")
    path = Path(os.path.realpath(program)).with_name("rtlib.py")
    loader = importlib.machinery.SourceFileLoader("rtlib", str(path))
    spec = importlib.util.spec_from_loader("rtlib", loader)
    assert spec is not None
    module = importlib.util.module_from_spec(spec)
    sys.modules["rtlib"] = module
    loader.exec_module(module)
    return module


def sources(folder: Path) -> Iterator[Path]:
    """The program's own files and those that such programs share. `.in` stands behind their names, since `rt ci` reads a
    .rt file in the crates of crates.txt alone."""
    yield from sorted((folder / "src").glob("*.in"))
    yield from sorted((SCRIPTS / "measuring.d").glob("*.in"))


def lay_out(name: str, folder: Path, over: Path, room: Path) -> None:
    """Makes a repository of the crates of another, by links, and of the program."""
    for crate in (over / "crates").iterdir():
        for part in ("src", "out"):
            if (crate / part).is_dir():
                (room / "crates" / crate.name).mkdir(parents=True, exist_ok=True)
                (room / "crates" / crate.name / part).symlink_to(crate / part)
    own = room / "crates" / name
    (own / "src").mkdir(parents=True)
    (own / "out").mkdir()
    for source in sources(folder):
        shutil.copy(source, own / "src" / source.stem)
    uses = (folder / "uses").read_text()
    (room / "crates.txt").write_text((over / "crates.txt").read_text() + f"{name}: {uses}")


def stamp_of(crate: Any, folder: Path) -> str:
    """A sum of the program's files and of what tells the libraries below it apart from others."""
    whole = hashlib.sha256()
    for source in (folder / "uses", *sources(folder)):
        whole.update(source.name.encode() + source.read_bytes())
    for below in crate.below():
        for file in sorted(Path(below.rlib).rglob("*")):
            told = file.stat()
            whole.update(f"{below.name} {file.name} {told.st_size} {told.st_mtime_ns}".encode())
    return whole.hexdigest()


def compile_in(rtlib: Any, crate: Any, room: Path) -> None:
    """Lets the kit prove, compile and link the program, as `rt run` would."""
    with open(room / "log", "w+", encoding="utf-8") as crate.out:
        status = crate.compile(["--jobs", "1"], f"out/{crate.name}.o")
        if status == 0:
            words = ["--target", "x86_64-unknown-linux-gnu", "--toolchain", f"{rtlib.KIT}/toolchain"]
            words += ["-o", f"out/{crate.name}", f"out/{crate.name}.o"]
            words += [f"{rtlib.KIT}/c/libos_c.a", f"{rtlib.KIT}/c/liblibc_c.a"]
            status = crate.call(f"{rtlib.KIT}/bin/rattle-link", *words)
        if status:
            crate.out.seek(0)
            sys.stderr.writelines(crate.out.readlines()[-LINES_OF_LOG:])
            raise Failed(f"the program {crate.name} isn't built")


def built_over(over: Path, name: str) -> Path:
    """The program of scripts/NAME.d/index, which stays in its out/: it is proved and built only where something has
    changed since that it is made of."""
    if not (over / "crates.txt").is_file():
        raise Failed(f"there is no repository in {over}")
    folder = SCRIPTS / f"{name}.d" / "index"
    program, stamp = folder / "out" / name, folder / "out" / "stamp"
    with tempfile.TemporaryDirectory() as made:
        # (not a link, since the kit goes by the paths themselves)
        room, rtlib = Path(made).resolve(), kit()
        lay_out(name, folder, over, room)
        crate = rtlib.Crate(str(room / "crates" / name), str(room), {})
        lacking = [below.name for below in crate.below() if not os.path.isdir(below.rlib)]
        if lacking:
            raise Failed(f"{', '.join(lacking)} aren't built in {over}: run rt ci there, or name another by --over")
        now = stamp_of(crate, folder)
        if not (program.is_file() and stamp.is_file() and stamp.read_text() == now):
            print(f"{name}: proves and builds its program; that takes some minutes", file=sys.stderr)
            compile_in(rtlib, crate, room)
            program.parent.mkdir(exist_ok=True)
            shutil.copy(room / "crates" / name / "out" / name, program)
            stamp.write_text(now)
    return program


# ---- arguments and output

def numbers(word: str) -> List[int]:
    return [int(part) for part in word.split(",") if part]


def counts(word: str) -> List[int]:
    """Numbers of threads."""
    named = numbers(word)
    if not named or min(named) < 1:
        raise argparse.ArgumentTypeError("one number or several, from 1 on")
    return named


def parser(about: Optional[str]) -> argparse.ArgumentParser:
    """What every script takes that builds a program over the gate's libraries."""
    made = argparse.ArgumentParser(description=about, formatter_class=argparse.RawDescriptionHelpFormatter)
    made.add_argument("--runs", type=int, default=5, help="how many runs of each side")
    made.add_argument("--over", type=Path, default=TOP, help="the repository in which rt ci has left its libraries")
    return made


def row(cells: Sequence[str]) -> str:
    """A row of a table in Markdown."""
    return "| " + " | ".join(cells) + " |"


def head(cells: Sequence[str]) -> str:
    """The head of a table."""
    return row(cells) + "\n" + "|---" * len(cells) + "|"


def median_ratio(ours: Iterable[float], theirs: Iterable[float]) -> float:
    """The median of the runs' ratios."""
    return statistics.median(our / their for our, their in zip(ours, theirs))


def conditions(runs: int) -> str:
    """Of how many runs the figures are, and what the machine was at."""
    load = os.getloadavg()[0]
    processors = len(os.sched_getaffinity(0))
    return f"Medians of {runs} runs; {processors} processors, {load:.1f} at work at the end, this one among them."
