"""Cases: crashes in each step of a checkpoint, and disks that fail or are full in one."""
from __future__ import annotations

import random
import re
import shutil
from dataclasses import dataclass
from typing import Dict, Iterator, List, Optional, Sequence, Tuple, Union

from disks import MIB, ballast, refusal_of, small_disk, traced
from frames import Commits, Entry, Header, Sealed, frame_at
from histories import History
from logs import want_front_found
from moving import (LIMIT, MANY, SHORT, generation_of, stop, used, want_all_found, work_until,
                    work_until_shortened)
from running import FILES, OTHER, SECONDS, Failed, Server, Setting, want, want_same

from rowanspan import ConnectionLost, DiskFailed, Put, Refused

# how many crashes are tried
CRASHES = 16
# calls of the new file that fail: zeros, the header, what follows, and their syncs
FAULTS = ("pwrite64:error=ENOSPC:when=1", "pwrite64:error=EIO:when=2", "pwrite64:error=EIO:when=3",
          "fdatasync:error=EIO:when=1", "fdatasync:error=EIO:when=2", "fdatasync:error=EIO:when=3")


# ---- crashes

@dataclass(frozen=True)
class Step:
    """A call of the disk: a write of these bytes at this place of a file, or a sync."""

    name: str
    at: int = 0
    data: Optional[bytes] = None

    @property
    def entry(self) -> Optional[Entry]:
        """What a frame that is written says."""
        frame = None if self.data is None else frame_at(self.data, 0)
        return None if frame is None else frame.entry


def steps_of(told: str) -> List[Step]:
    """The calls that strace tells of, of the files of logs."""
    steps = []
    for line in calls_of(told):
        found = re.match(r'\w+\(\d+<([^>]*)>(?:, "([^"]*)", (\d+), (\d+))?\) += (\d+)', line)
        name = "" if found is None else unquoted(found[1]).decode().rpartition("/")[2]
        if found is None or name not in FILES:
            continue
        data = None if found[2] is None else unquoted(found[2])
        want(data is None or int(found[5]) == len(data), f"a part was written: {line[-100:]}")
        steps.append(Step(name, int(found[4] or 0), data))
    return steps


def calls_of(told: str) -> Iterator[str]:
    """The lines of strace, each with the whole of a call."""
    begun: Dict[str, str] = {}
    for line in told.splitlines():
        number, _, said = line.partition(" ")
        said, end = said.strip(), " <unfinished ...>"
        if said.endswith(end):
            begun[number] = said[:-len(end)]
        elif said.startswith("<... "):
            yield begun.pop(number) + said.partition(" resumed>")[2]
        else:
            yield said


def unquoted(text: str) -> bytes:
    return bytes.fromhex(text.replace("\\x", "")) if text.startswith("\\x") else text.encode()


class Disk:
    """Both files as they are, and as they were when they were synced."""

    def __init__(self) -> None:
        self.now = {name: bytearray() for name in FILES}
        self.synced = {name: b"" for name in FILES}
        # the numbers of the last commits that were written, in a file, and that are durable
        self.written, self.durable = {name: 0 for name in FILES}, 0

    def do(self, step: Step) -> None:
        if step.data is None:
            self.synced[step.name] = bytes(self.now[step.name])
            self.durable = max(self.durable, self.written[step.name])
            return
        file, entry = self.now[step.name], step.entry
        file.extend(bytes(max(0, step.at + len(step.data) - len(file))))
        file[step.at:step.at + len(step.data)] = step.data
        if isinstance(entry, Commits):
            self.written[step.name] = entry.last

    def left(self, name: str, chance: random.Random) -> bytes:
        """What a crash may leave of a file: of what was written since the last sync, each byte or the one before."""
        unit, lost = chance.choice((1, 16, 512)), chance.choice((0.0, 0.02, 0.5, 0.9, 1.0))
        left = bytearray(self.now[name])
        before = self.synced[name].ljust(len(left), b"\0")
        for begin in range(0, len(left), 512):
            if left[begin:begin + 512] != before[begin:begin + 512]:
                for at in range(begin, min(begin + 512, len(left)), unit):
                    if chance.random() < lost:
                        left[at:at + unit] = before[at:at + unit]
        return bytes(left)


def crashes_in_a_checkpoint(setting: Setting) -> str:
    """A crash of the machine in each step of a checkpoint: what was durable is there, and no part of a commit."""
    history, chance, told = History(26, MANY[:400]), random.Random(setting.seed), setting.folder / "told"
    options = ("-y", "-xx", "-s", str(1 << 26), "-o", str(told))
    with traced(setting, SHORT, *options, calls="pwrite64,fsync,fdatasync") as server, server.index() as index:
        work_until_shortened(setting, history, index, times=2)
        history.work(index, 3, 1)
        stop(server, history)
    steps = steps_of(told.read_text())
    places = steps_of_checkpoints(steps)
    # (some steps more than once)
    crashes = [*chance.sample(places, min(CRASHES, len(places))), *chance.choices(places, k=CRASHES)][:CRASHES]
    disk, found = Disk(), []
    for number, step in enumerate(steps[:max(crashes) + 1]):
        disk.do(step)
        for _ in range(crashes.count(number)):
            for name in FILES:
                (setting.data / name).write_bytes(disk.left(name, chance))
            try:
                found.append(want_front_found(setting, history, disk.durable) - disk.durable)
            except Failed as wrong:
                raise Failed(f"after the {said_of(step)} of {step.name}: {wrong}") from None
    return f"{len(places)} steps, after which {sum(found)} commits more than the synced ones were there"


def said_of(step: Step) -> str:
    if step.entry is not None:
        return f"{type(step.entry).__name__} at byte {step.at}"
    return "sync" if step.data is None else f"{len(step.data)} zeros"


def steps_of_checkpoints(steps: Sequence[Step]) -> List[int]:
    """The numbers of the writes of a checkpoint, and of those around it."""
    headers = [number for number, step in enumerate(steps)
               if isinstance(step.entry, Header) and step.entry.generation > 0]
    seals = [number for number, step in enumerate(steps) if isinstance(step.entry, Sealed)]
    want_same("how many checkpoints are traced", (len(headers), len(seals)), (2, 2))
    return [number for header, seal in zip(headers, seals) for number in range(header - 3, min(seal + 4, len(steps)))
            if steps[number].data is not None]


# ---- disks that fail

def disks_that_fail_in_checkpoints(setting: Setting) -> str:
    """If a call fails that a checkpoint makes of the new file, the log goes on, or no row can be changed any more; the
    next start has what was durable."""
    told = []
    for fault in FAULTS:
        history = History(27, MANY[:300])
        shutil.rmtree(setting.data, ignore_errors=True)
        with setting.server(*SHORT) as server, server.index() as index:
            history.work(index, 2, 20)
            stop(server, history)
        options = ("-P", str(setting.data / OTHER), "-o", "/dev/null", "-e", f"inject={fault}")
        with traced(setting, SHORT, *options, calls="pwrite64,fdatasync") as server:
            durable, met = worked(server, history)
            server.end_input()
            status, lines = server.process.wait(SECONDS), server.rest_of_lines()
        want(met is not None or status == 0, f"with {fault} it ends with {status}, and says {lines}")
        want(any(line.startswith(("checkpoint: ", "log: ")) for line in lines), f"with {fault} it says {lines}")
        try:
            want_front_found(setting, history, durable)
        except Failed as wrong:
            raise Failed(f"after {fault} ({met!r}, {lines}): {wrong}") from None
        told.append(f"{fault}: {'goes on' if met is None else type(met).__name__}")
    return ", ".join(told)


def full_disks_in_checkpoints(setting: Setting) -> str:
    """Without room for the other file the log continues where it is. Once there is room it is shortened."""
    history = History(28, MANY[:100])
    with small_disk(setting, 4 * MIB) as small:
        with small.server(*SHORT) as server, server.index() as index:
            work_until("many bytes", history, index, lambda: used(small)[FILES[0]] > 5 * LIMIT)
            want_same("the generation", generation_of(small), 0)
            history.want_all(index)
            full = history.commits
            ballast(small.folder).unlink()
            work_until("a shorter log", history, index, lambda: generation_of(small) > 0)
            stop(server, history)
        want_all_found(small, history)
    return f"{full} commits, and shortened {history.commits - full} commits after there was room"


def worked(server: Server, history: History) -> Tuple[int, Union[Refused, ConnectionLost, None]]:
    """Puts rows until that is refused, or until checkpoints should have been made. Returns how many commits are durable
    then, and how the last puts were refused."""
    met: Union[Refused, ConnectionLost, None] = None
    with server.index() as index:
        for _ in range(40):
            frame = [Put(key, {1: history.chance.randbytes(64)}) for key in history.chance.sample(history.keys, 40)]
            met = refusal_of(index, history, frame)
            if met is not None:
                break
    with server.index() as index:
        durable = index.durable()
        least = history.commits - (40 if isinstance(met, ConnectionLost) else 0)
        want(durable >= least, f"{durable} commits are durable, and {least} were answered")
        if met is not None:
            want(isinstance(met, (ConnectionLost, DiskFailed)), f"it is met by {met!r}")
            history.want_front_read(index, durable)
    return durable, met


CASES = (crashes_in_a_checkpoint, disks_that_fail_in_checkpoints, full_disks_in_checkpoints)
