"""Cases: `mtfolder cut` makes folders that aren't opened ones that a server opens, with the first commits alone."""
from __future__ import annotations

import random
import subprocess
from dataclasses import dataclass
from typing import Dict, Sequence

from folders import Said, said, want_opened
from frames import Commits, Entry, Header, Sealed, bytes_of
from histories import History
from later_logs import Folder, folder_of, padded
from logs import LENGTH, written
from running import COLUMNS, FILES, LOG, OTHER, SECONDS, Setting, Skipped, files_of, want, want_same

# how many places of a log are tried, and a byte of the title in a header
PLACES, TITLE_BYTE = 4, 8
# what a cut says that is refused
NOTHING = "mtfolder: nothing was cut: "


@dataclass(frozen=True)
class Wanted:
    """What a cut is to leave: the place from which on each file that it cuts is zero, and the first commits."""

    places: Dict[str, int]
    left: History


def cut(setting: Setting, commit: int) -> Said:
    """Runs `mtfolder cut` over the folder."""
    if setting.reads is None:
        raise Skipped("no mtfolder is named")
    done = subprocess.run([setting.reads, "cut", str(setting.data), "--at", str(commit)], capture_output=True,
                          timeout=SECONDS, check=False)
    return Said(done.returncode, done.stdout.decode().splitlines(), done.stderr.decode())


def bytes_in(setting: Setting) -> Dict[str, bytes]:
    return {name: (setting.data / name).read_bytes() for name in FILES}


def want_no_cut(setting: Setting, what: str, commit: int, status: int, why: str) -> None:
    """Nothing is cut, and that is said."""
    before = files_of(setting.data)
    want_same(what, cut(setting, commit), Said(status, [], f"{NOTHING}{why}\n"))
    want(files_of(setting.data) == before, f"{what}: the files are others afterwards")


def want_cut(setting: Setting, what: str, wanted: Wanted) -> None:
    """A cut leaves exactly these commits, if their number is named, and is made once."""
    before, left = bytes_in(setting), wanted.left
    count = f"rows {len(left.rows)} commits {left.commits}"
    verified = said(setting, "verify")
    want_same(f"{what}: the last line of verify", (verified.status, verified.lines[-1]),
              (1, f"cut --at {left.commits} leaves {count}"))
    for other in {max(left.commits - 1, 0), left.commits + 1, 0, (1 << 64) - 1} - {left.commits}:
        want_no_cut(setting, f"{what}: {other} commits", other, 4,
                    f"the last commit that would be left is {left.commits}")
    lines = [f"{name} cut from {place} gone {len(before[name][place:]) - before[name].count(0, place)}"
             for name, place in sorted(wanted.places.items())]
    want_same(f"{what}: the cut", cut(setting, left.commits), Said(0, [*lines, f"left {count}"], ""))
    after = bytes_in(setting)
    for name, whole in before.items():
        place = wanted.places.get(name)
        is_cut = whole if place is None else whole[:place].ljust(max(len(whole), place + 1), b"\0")
        want(after[name] == is_cut, f"{what}: {name} has other bytes after the cut")
    want_no_cut(setting, f"{what}: a second cut", left.commits, 1, "a server opens the folder as it is")
    want_opened(setting, left)


def want_served(setting: Setting, left: History) -> None:
    """A server has exactly these commits, and goes on."""
    copied = left.front(left.commits)
    with setting.server() as server, server.index() as index:
        copied.want_all(index)
        copied.work(index, 3, 1)
        server.kill()
    with setting.server() as server, server.index() as index:
        copied.want_all(index)
        server.stop()


def changed(whole: bytes, place: int) -> bytes:
    """The same bytes but one, which is another, and no zero."""
    return whole[:place] + bytes((whole[place] ^ 0x40 or 1,)) + whole[place + 1:]


def zeroed(whole: bytes, place: int) -> bytes:
    return whole[:place] + b"\0" + whole[place + 1:]


# ---- one log

def logs_that_are_cut(setting: Setting) -> str:
    """The only log is damaged in its middle, or a zero is there, or the file ends: what follows is cut off."""
    log, chance = written(setting, 60), random.Random(setting.seed)
    begins = sorted({*chance.sample(log.ends[:-5], PLACES), log.ends[0]})
    for begin in begins:
        commits, end = log.commits_before(begin), min(end for end in log.ends if end > begin)
        wanted = Wanted({LOG: begin}, log.history.front(commits))
        tries = {"a changed byte": changed(log.whole, chance.randrange(begin + LENGTH, end)),
                 "a zero": zeroed(log.whole, chance.randrange(begin, end)),
                 "the end of the file in a frame": log.whole[:chance.randrange(begin + 1, end)],
                 "the end of the file after a frame": log.whole[:begin]}
        for what, whole in tries.items():
            setting.log.write_bytes(whole)
            want_cut(setting, f"{what}, after {commits} commits", wanted)
        want_served(setting, wanted.left)
    return f"{len(begins)} places"


def logs_that_need_no_cut(setting: Setting) -> None:
    """A folder that a server opens isn't changed, also if its last commits were torn. Nor is one that a server has."""
    log = written(setting, 20)
    count = log.history.commits
    sound = "a server opens the folder as it is"
    want_no_cut(setting, "a folder without a fault", count, 1, sound)
    want_no_cut(setting, "another number", 3, 1, sound)
    place = log.ends[-2] + 1
    setting.log.write_bytes(log.whole[:place] + bytes(len(log.whole) - place))
    want_no_cut(setting, "a torn end", log.commits_before(place), 1, sound)
    setting.log.write_bytes(log.whole)
    with setting.server() as server, server.index() as index:
        want_same("a folder that a server has", cut(setting, count),
                  Said(3, [], "mtfolder: the data folder is already in use\n"))
        log.history.want_all(index)
        server.stop()


def faults_that_no_cut_helps(setting: Setting) -> None:
    """Another fault than damage, or no log that would be left: nothing is cut, and no file is made."""
    data = "the data folder: "
    setting.data.mkdir()
    want_no_cut(setting, "no log", 0, 1, "a server opens the folder as it is")
    (setting.data / LOG).write_bytes(bytes(range(1, 200)))
    want_no_cut(setting, "no log, but another file", 0, 1, f"{data}{LOG}: the file is not a log")
    later = [Commits(6, 5, ((b"k", (b"a", b"")),))]
    (setting.data / LOG).write_bytes(b"")
    (setting.data / OTHER).write_bytes(padded(bytes_of(Header(COLUMNS, 1, 5), later)))
    missing = f"{data}{OTHER}: the log begins after commit 5, and what came before is missing"
    want_no_cut(setting, "missing rows", 6, 1, missing)
    want_no_cut(setting, "missing rows, and their last commit", 5, 1, missing)
    (setting.data / LOG).write_bytes(padded(bytes_of(Header(COLUMNS + 1, 0, 0), ())))
    want_no_cut(setting, "another number of columns", 5, 1, f"{data}{LOG}: the log is of an index with 3 columns")
    (setting.data / OTHER).write_bytes(b"")
    whole = padded(bytes_of(Header(COLUMNS, 0, 0), later))
    (setting.data / LOG).write_bytes(changed(whole, TITLE_BYTE))
    want_no_cut(setting, "the header of the only log", 0, 1, "no log would be left that a server opens")


# ---- two logs

def later_logs_that_are_cut(setting: Setting) -> str:
    """The newer log is damaged or has a zero: after its seal, in its checkpoint, or in its header."""
    folder, chance = folder_of(setting, 71), random.Random(setting.seed)
    name, log = folder.logs.name, folder.logs.current
    parts = [frame for frame in log.frames if frame.end <= folder.seal.end]
    after = [frame for frame in log.frames if frame.begin >= folder.seal.end]
    frames = [log.frames[0], *chance.sample(parts, 2), folder.seal, after[0], after[2]]
    for frame in frames:
        left = folder.history.front(log.commits_before(frame.begin))
        for whole in (changed(folder.whole, frame.end - 1), zeroed(folder.whole, frame.begin + 1)):
            folder.restore()
            folder.write(name, whole)
            if said(setting, "verify").status == 0:
                # (no frame after the zero says that a commit is missing)
                continue
            what = f"{type(frame.entry).__name__} from byte {frame.begin} on"
            want_cut(setting, what, Wanted({name: frame.begin}, left))
    want_served(setting, left)
    left = folder.history.front(folder.earlier.commits)
    heads = {"a changed header": changed(folder.whole, TITLE_BYTE), "no header": zeroed(folder.whole, 0)}
    for what, whole in heads.items():
        folder.restore()
        folder.write(name, whole)
        want_cut(setting, what, Wanted({name: 0}, left))
    want_served(setting, left)
    folder.restore()
    other = folder.logs.other_name
    folder.write(other, changed(folder.files[other], TITLE_BYTE))
    want_cut(setting, "a changed header of the log before", Wanted({other: 0}, folder.history))
    return f"{len(frames)} frames"


def logs_before_that_are_cut(setting: Setting) -> str:
    """The log before is needed, and damaged: it is cut, and the newer one, which comes after the gap, is set to zero
    as a whole."""
    folder, chance = folder_of(setting, 72, times=1), random.Random(setting.seed)
    name, other, log = folder.logs.name, folder.logs.other_name, folder.logs.current
    newer_logs = {"an unsealed log": padded(bytes_of(log.header, unsealed_entries(folder))),
                  "a damaged log": changed(folder.whole, folder.seal.end - 1)}
    frames = chance.sample([frame for frame in folder.earlier.frames if isinstance(frame.entry, Commits)], PLACES)
    for frame in frames:
        place, left = frame.begin, folder.history.front(folder.earlier.commits_before(frame.begin))
        whole = changed(folder.files[other], frame.end - 1)
        for what, newer in newer_logs.items():
            folder.write(other, whole)
            folder.write(name, newer)
            want_cut(setting, f"{what} after one that is damaged at byte {place}",
                     Wanted({other: place, name: 0}, left))
            # (a cut that was broken off is made again)
            half = bytes(0 if chance.random() < 0.5 else byte for byte in newer[:len(newer.rstrip(b"\0"))])
            for torn in (half, newer[:log.begin] + half[log.begin:], half[:log.begin] + newer[log.begin:]):
                folder.write(other, whole)
                folder.write(name, torn.ljust(len(newer), b"\0"))
                want_same("a cut that was broken off", cut(setting, left.commits).status, 0)
                want_opened(setting, left)
    want_served(setting, left)
    return f"{len(frames)} frames of {other}"


def unsealed_entries(folder: Folder) -> Sequence[Entry]:
    return [frame.entry for frame in folder.logs.current.frames if not isinstance(frame.entry, Sealed)]


CASES = (logs_that_are_cut, logs_that_need_no_cut, faults_that_no_cut_helps, later_logs_that_are_cut,
         logs_before_that_are_cut)
