"""Cases: disks that are full or fail, and whether the disk is asked to sync at all."""
from __future__ import annotations

import dataclasses
import re
import shutil
import subprocess
import time
from contextlib import contextmanager
from pathlib import Path
from typing import Callable, Iterator, List, Sequence, Tuple, Union

from ends import POLICIES
from histories import History
from running import SECONDS, Failed, Server, Setting, Skipped, want, want_raised, want_same

from rowanspan import Client, ConnectionLost, DiskFailed, DiskFull, Get, Prefix, Put, Refused

MIB = 1 << 20
# more frames than a small disk has room for, and how many puts each has
FRAMES, PUTS = 1000, 60
# in seconds: how long the frame may wait that meets a full disk. Its changes are made then, and aren't answered before
# there is room for them
WAITS = 5.0


def fill(server: Server, history: History) -> Union[Refused, ConnectionLost]:
    """Puts rows until the disk has no room; returns how that is met. Of a frame that is refused nothing may be done."""
    with Client(server.port, timeout=WAITS) as index:
        return fill_by(index, history)


def fill_by(index: Client, history: History) -> Union[Refused, ConnectionLost]:
    for _ in range(FRAMES):
        met = refusal_of(index, history, [Put(b"k%d" % number, {0: history.chance.randbytes(64), 1: bytes(64)})
                                          for number in range(PUTS)])
        if met is not None:
            return met
    raise Failed(f"{history.commits} commits have found room")


def refusal_of(index: Client, history: History, frame: Sequence[Put]) -> Union[Refused, ConnectionLost, None]:
    """Asks a frame of puts; returns how it is refused, if it is."""
    try:
        outcomes = index.call_all(frame)
    except ConnectionLost as fault:
        history.assume(frame)
        return fault
    if isinstance(outcomes[0], Refused):
        want(all(isinstance(outcome, type(outcomes[0])) for outcome in outcomes), f"it answers {outcomes}")
        return outcomes[0]
    for query, outcome in zip(frame, outcomes):
        history.take(query, outcome)
    return None


def want_read_only(server: Server, history: History, durable: int) -> Refused:
    """No row can be changed, and all can be read. Returns how a change is refused."""
    with server.index() as index, server.index() as other:
        commits = history.want_front_read(index, durable)
        kinds = (DiskFull, DiskFailed)
        refusals: List[Refused] = [want_raised("a change", call, *kinds) for call in (
            lambda: index.put(b"a", {0: b"v"}), lambda: other.remove(b"k1"), lambda: other.put_if(b"k1", b"v", 1))]
        both = index.call_all([Get(b"k1"), Put(b"k2", {0: b"v"})])
        want(all(isinstance(outcome, kinds) for outcome in both), f"a get beside a put: {both}")
        for refusal in refusals:
            if isinstance(refusal, DiskFailed):
                want(durable <= refusal.durable <= commits, f"it says that {refusal.durable} commits are durable, of "
                                                            f"{commits}, and {durable} were")
        with index.build(Prefix(b"k")) as view:
            want_same("a view", view.count, len([key for key in history.rows if key.startswith(b"k")]))
        want_same("the commits", (index.ping(), other.info()["commits"]), (commits, commits))
        want(index.durable() >= durable, "fewer commits are durable")
        return refusals[0]


# ---- full disks

@contextmanager
def small_disk(setting: Setting, size: int) -> Iterator[Setting]:
    """A disk of `size` bytes, of which more than half are in use. Raises `Skipped`."""
    place = setting.folder / "disk"
    place.mkdir(exist_ok=True)
    mounted = subprocess.run(["mount", "-t", "tmpfs", "-o", f"size={size}", "tmpfs", str(place)], capture_output=True,
                             check=False)
    if mounted.returncode != 0:
        raise Skipped(f"no file system can be mounted: {mounted.stderr.decode(errors='replace').strip()}")
    try:
        ballast(place).write_bytes(bytes(size * 5 // 8))
        yield dataclasses.replace(setting, folder=place)
    finally:
        subprocess.run(["umount", "-l", str(place)], check=True)


def ballast(place: Path) -> Path:
    return place / "ballast"


def full_disks(setting: Setting) -> str:
    """On a full disk rows are read, and can be changed once there is room."""
    told = []
    for name in ("always", "20 ms"):
        history, words = History(11), POLICIES[name][0]
        with small_disk(setting, 4 * MIB) as small:
            with small.server(*words) as server:
                met = fill(server, history)
                first = history.commits
                want_full(server, history)
                ballast(small.folder).unlink()
                with server.index() as index:
                    until_put(index, history)
                    want_same("whether all is durable once there is room", index.settle(SECONDS), True)
                    history.want_all(index)
                fill(server, history)
                durable = want_full(server, history)
                server.kill()
            with small.server(*words) as server, server.index() as index:
                want(index.durable() >= durable, "fewer commits are durable after a start on a full disk")
                history.want_front_read(index, durable)
                server.kill()
            shutil.rmtree(setting.data, ignore_errors=True)
            shutil.copytree(small.data, setting.data)
        with setting.server(*words) as server, server.index() as index:
            history.want_all(index)
            until_put(index, history)
        told.append(f"{name}: {first} commits, {type(met).__name__}, then {history.commits - first} more")
    return "; ".join(told)


def want_full(server: Server, history: History) -> int:
    """The disk is full, and what a change waits for isn't lost. Returns how many commits are durable."""
    with server.index() as index:
        durable = index.durable()
    refusal = want_read_only(server, history, durable)
    want(isinstance(refusal, DiskFull), f"a change is refused by {refusal!r}")
    return durable


def until_put(index: Client, history: History) -> None:
    """A change can be made soon."""
    until, query = time.monotonic() + SECONDS, Put(b"a", {0: b"v"})
    while True:
        (outcome,) = index.call_all([query])
        if not isinstance(outcome, DiskFull):
            return history.take(query, outcome)
        want(time.monotonic() < until, "a disk that has room is still full")
        time.sleep(0.05)


def files_that_are_too_long(setting: Setting) -> str:
    """If the log can't grow, rows are read, and what was durable is there after the next start."""
    told = []
    for name, (words, is_durable) in POLICIES.items():
        history = History(12)
        shutil.rmtree(setting.data, ignore_errors=True)
        with setting.server(*words, file_size=MIB * 5 // 4) as server:
            met = fill(server, history)
            answered = history.commits - (PUTS if isinstance(met, ConnectionLost) else 0)
            refusal = want_read_only(server, history, answered if is_durable else 0)
            with server.index() as index:
                durable = index.durable()
            server.kill()
        told.append(f"{name}: {type(met).__name__}, {type(refusal).__name__}, {durable} durable of {history.commits}")
        with setting.server() as server, server.index() as index:
            history.want_front(index, durable)
            history.work(index, 5, 1)
    return "; ".join(told)


# ---- what the disk is asked, and what if it fails

STRACE = "strace"
SYNCS = "fsync,fdatasync"


def traced(setting: Setting, words: Tuple[str, ...], *options: str, calls: str = SYNCS) -> Server:
    """A server of which these calls are traced. Raises `Skipped`."""
    if shutil.which(STRACE) is None:
        raise Skipped("Debian package strace is missing")
    tried = subprocess.run([STRACE, "-o", "/dev/null", "true"], capture_output=True, check=False)
    if tried.returncode != 0:
        raise Skipped(f"strace can't trace: {tried.stderr.decode(errors='replace').strip()[:100]}")
    return Server([STRACE, "-f", "-e", f"trace={calls}", *options, *setting.command(*words),
                   "--stop-at-end-of-input"])


def syncs_of(setting: Setting, words: Tuple[str, ...], work: Callable[[Client], None]) -> int:
    """How often a server asks the disk to sync, from its start to its end."""
    told = setting.folder / "told"
    with traced(setting, words, "-c", "-o", str(told)) as server:
        with server.index() as index:
            work(index)
        server.stop()
    found = re.findall(r"^ *[0-9.]+ +[0-9.]+ +[0-9]+ +([0-9]+) .*sync$", told.read_text(), re.M)
    return sum(map(int, found))


def syncs_are_made(setting: Setting) -> str:
    """A kill shows nothing of the disk's own memory, so it is counted how often the disk is asked to sync: with always
    at least once for each answer."""
    count = 50

    def put_all(index: Client) -> None:
        for _ in range(count):
            index.put(b"a", {0: b"v"})

    found = {name: syncs_of(setting, words, put_all) for name, (words, _) in POLICIES.items()}
    for name, (_, is_durable) in POLICIES.items():
        want(found[name] >= (count if is_durable else 1), f"{count} puts make {found}")
    want(found["never"] < count // 2, f"{count} puts make {found}")
    return ", ".join(f"{name}: {number}" for name, number in found.items())


def disks_that_fail(setting: Setting) -> str:
    """After a sync that failed no change is answered, rows are read, and the next start has what was durable."""
    told = []
    base = syncs_of(setting, ("--sync", "always"), lambda index: None)
    for first in (base + 1, base + 2, base + 30):
        history = History(13)
        shutil.rmtree(setting.data, ignore_errors=True)
        options = ("-o", "/dev/null", "-e", f"inject={SYNCS}:error=EIO:when={first}+")
        with traced(setting, ("--sync", "always"), *options) as server:
            met = fill(server, history)
            durable = history.commits - (PUTS if isinstance(met, ConnectionLost) else 0)
            want(isinstance(met, (ConnectionLost, DiskFailed)), f"it is met by {met!r}")
            refusal = want_read_only(server, history, durable)
            want(isinstance(refusal, DiskFailed), f"a change is refused by {refusal!r}")
            with server.index() as index:
                want_same("a wait for what isn't durable", index.wait(history.commits + 1, timeout=0.2, durable=True),
                          False)
            server.end_input()
            server.process.wait(SECONDS)
            lines = server.rest_of_lines()
        want(isinstance(met, DiskFailed) or any(line.startswith("session fault 12: ") for line in lines),
             f"it says {lines}")
        with setting.server() as server, server.index() as index:
            history.want_front(index, durable)
            history.work(index, 5, 1)
            told.append(f"{durable} durable")
    return ", ".join(told)


CASES = (full_disks, files_that_are_too_long, syncs_are_made, disks_that_fail)
