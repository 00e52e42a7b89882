"""Cases: crashes of the machine, which lose what wasn't synced: any part of it, byte by byte."""
from __future__ import annotations

import random
import shutil
import subprocess
import sys
from pathlib import Path
from typing import List, Set

from checkpoint_faults import Disk, Step, steps_of
from frames import Header
from killing import Audit, LIMIT
from running import FILES, SECONDS, Setting, Skipped, want, want_same
from working import COLUMNS, DURABLE, RECEIPT

from rowanspan import Index

WORKER = Path(__file__).resolve().with_name("working.py")
# how many commits are made, and how many crashes are tried
COMMITS, CRASHES = 1500, 60


def traced(setting: Setting) -> List[Step]:
    """The calls of the disk of a process that makes commits. Its receipts never say more than the disk has synced."""
    strace, told = shutil.which("strace"), setting.folder / "told"
    if strace is None:
        raise Skipped("Debian package strace is missing")
    done = subprocess.run(
        [strace, "-f", "-y", "-xx", "-s", str(1 << 26), "-e", "trace=pwrite64,fsync,fdatasync", "-o", str(told),
         sys.executable, str(WORKER), str(setting.data), str(setting.seed), str(COMMITS), str(LIMIT)],
        capture_output=True, timeout=SECONDS, check=False)
    if b"ptrace" in done.stderr:
        raise Skipped(f"strace can't trace: {done.stderr.decode(errors='replace').strip()[:100]}")
    want_same(f"the status, with {done.stderr.decode(errors='replace')[-300:]}", done.returncode, 0)
    receipts = [number for kind, number in RECEIPT.iter_unpack(done.stdout) if kind == DURABLE]
    steps, disk = steps_of(told.read_text()), Disk()
    durable: Set[int] = {0}
    for step in steps:
        disk.do(step)
        durable.add(disk.durable)
    want(set(receipts) <= durable and len(receipts) > 5, f"{receipts} are told to be durable, and {durable} are")
    return steps


def crashes_of_the_machine(setting: Setting) -> str:
    """After a crash in any step, also in those of a checkpoint, the rows after the first m commits are there, and m
    is at least the last number that was durable."""
    steps, chance, disk = traced(setting), random.Random(setting.seed), Disk()
    checkpoints = [number for number, step in enumerate(steps)
                   if isinstance(step.entry, Header) and step.entry.generation > 0]
    want(len(checkpoints) > 2, f"{len(checkpoints)} checkpoints are traced")
    places = chance.choices(range(len(steps)), k=CRASHES // 2)
    places += [min(max(0, begin + chance.randrange(-3, 8)), len(steps) - 1)
               for begin in chance.choices(checkpoints, k=CRASHES // 2)]
    more = 0
    for number, step in enumerate(steps):
        disk.do(step)
        for _ in range(places.count(number)):
            for name in FILES:
                (setting.data / name).write_bytes(disk.left(name, chance))
            more += want_front(setting, disk.durable, max(disk.written.values())) - disk.durable
    return f"{CRASHES} crashes, {len(checkpoints)} checkpoints, {more} commits more than the synced ones"


def want_front(setting: Setting, least: int, most: int) -> int:
    """The folder has the rows after some commits, at least and at most so many, and another one can be made. Returns
    how many there are."""
    with Index(COLUMNS, folder=setting.data) as index:
        commits = index.commits()
        want(least <= commits <= most, f"{commits} commits are there, of {most}; {least} are durable")
        audit = Audit(setting.data, setting.seed)
        audit.advance(commits)
        audit.want_rows_of(index)
        want_same("the next commit", index.put(b"new", b"v"), commits + 1)
    with Index(COLUMNS, folder=setting.data) as index:
        want_same("the commits after that", (index.commits(), index[b"new"].version), (commits + 1, commits + 1))
    return commits


CASES = (crashes_of_the_machine,)
