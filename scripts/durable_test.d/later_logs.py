"""Cases: folders with two logs, as a crash, a decay or an error of people may leave them."""
from __future__ import annotations

import random
from dataclasses import dataclass
from typing import Dict, List, Sequence, Tuple

from frames import Closed, Commits, Entry, Frame, Header, LogOf, Part, Sealed, bytes_of
from histories import History
from logs import LENGTH, places_in, want_front_found, want_refused
from moving import MANY, Logs, logs_of, shortened, until, used, want_all_found
from running import FILES, Failed, Setting, want, want_same

from rowanspan import Put, Row

# how many places of a log are tried
PLACES = 12
# how many changes, one by one, a log has after its seal
AFTER = 6


@dataclass(frozen=True)
class Folder:
    """What a server left that was killed some changes after a checkpoint: the files of both logs, and what they say."""

    setting: Setting
    files: Dict[str, bytes]
    logs: Logs
    earlier: LogOf
    history: History

    @property
    def whole(self) -> bytes:
        """The current log's file."""
        return self.files[self.logs.name]

    @property
    def seal(self) -> Frame:
        assert self.logs.current.seal is not None
        return self.logs.current.seal

    def write(self, name: str, whole: bytes) -> None:
        (self.setting.data / name).write_bytes(whole)

    def restore(self) -> None:
        for name in FILES:
            self.write(name, self.files[name])

    def cut(self, place: int) -> History:
        """The current log ends here, as a crash may leave it. Returns what is there then."""
        self.write(self.logs.name, self.whole[:place] + bytes(len(self.whole) - place))
        return self.history.front(self.logs.current.commits_before(place))

    def set_current(self, entries: Sequence[Entry]) -> None:
        """The current log has these entries."""
        self.write(self.logs.name, padded(bytes_of(self.logs.current.header, entries)))

    def entries_before(self, place: int) -> List[Entry]:
        return [frame.entry for frame in self.logs.current.frames if frame.begin < place]

    def want_missing(self, what: str) -> None:
        """The folder isn't opened, since the current log isn't sealed, and the log before is another."""
        said = want_refused(self.setting, what)
        want_same(what, said, f"mtserve: the data folder: {self.logs.name}: the log begins after commit "
                              f"{self.logs.current.header.base}, and what came before is missing\n")


def folder_of(setting: Setting, seed: int, times: int = 2) -> Folder:
    """Makes the folder of a server that has made so many checkpoints."""
    history = History(seed, MANY)
    logs = shortened(setting, history, times, AFTER)
    if logs.other is None or not logs.is_sealed:
        raise Failed(f"the log of generation {logs.generation} isn't sealed")
    return Folder(setting, {name: (setting.data / name).read_bytes() for name in FILES}, logs, logs.other, history)


def padded(log: bytes) -> bytes:
    """A log with zeros after it."""
    return log.ljust(max(len(log) + 1, 1 << 20), b"\0")


# ---- logs that aren't sealed

def unsealed_logs(setting: Setting) -> str:
    """The end of a log is torn before its seal: the log before has the rows, until they are copied again."""
    folder, chance = folder_of(setting, 31), random.Random(setting.seed)
    current, seal = folder.logs.current, folder.seal
    places = [current.begin, current.begin + 1, seal.begin, seal.begin + 1, seal.end - 1,
              *chance.sample(range(current.begin, seal.end), 3)]
    for place in places:
        folder.restore()
        left = folder.cut(place)
        for _ in range(2):
            with setting.server() as server, server.index() as index:
                left.want_all(index)
                left.work(index, 3, 1)
                server.kill()
        with setting.server() as server, server.index() as index:
            left.want_all(index)
            until("a seal", lambda: logs_of(setting).is_sealed)
            left.work(index, 3, 1)
            server.kill()
        logs = logs_of(setting)
        want_same("the header", logs.current.header, current.header)
        want(any(isinstance(frame.entry, Closed) for frame in logs.current.frames), "nothing says where it began again")
        # (nothing of the log before is needed any more)
        folder.write(logs.other_name, b"\0" + chance.randbytes(5000))
        want_all_found(setting, left)
    return f"{len(places)} places"


def rows_that_a_crash_undid(setting: Setting) -> None:
    """Rows were copied with versions whose commits a crash has undone: they never show."""
    folder = folder_of(setting, 32)
    entries = folder.entries_before(folder.seal.begin)
    left = folder.history.front(folder.logs.current.commits_before(folder.seal.begin))
    key, row = min(left.rows.items())
    newest = left.commits
    undone = ((key, Row(newest + 2, (b"undone", b""))), (b"never", Row(newest + 1, (b"undone", b""))),
              (b"zero", Row(newest + 3, (b"undone", b""))))
    want(row.version <= newest, f"the row of {key!r} is {row}")
    folder.set_current([*entries, Part(newest + 3, undone)])
    with setting.server() as server, server.index() as index:
        left.want_all(index)
        # (others have their numbers now)
        left.work(index, 20, 1)
        until("a seal", lambda: logs_of(setting).is_sealed)
        left.work(index, 5, 1)
        server.kill()
    want_all_found(setting, left)
    folder.write(folder.logs.other_name, bytes(1000))
    want_all_found(setting, left)


def missing_predecessors(setting: Setting) -> str:
    """A log that isn't sealed isn't opened without the log before, or with another one, and nothing is changed."""
    folder = folder_of(setting, 33, times=3)
    name, earlier = folder.logs.other_name, folder.earlier
    whole, header = folder.files[name], earlier.header
    entries = [frame.entry for frame in earlier.frames]
    last = max(frame.begin for frame in earlier.frames if isinstance(frame.entry, Commits))
    others = {
        "a zero in its header": b"\0" + whole[1:], "another zero in its header": whole[:20] + b"\0" + whole[21:],
        "nothing": b"", "zeros": bytes(len(whole)), "a log that ends before": whole[:last] + bytes(len(whole) - last),
        "a log without a seal": padded(bytes_of(header, without_seal(entries))),
        "a log of an earlier generation": padded(bytes_of(Header(2, header.generation - 2, header.base), entries)),
        "a new log": padded(bytes_of(Header(2, 0, 0), ()))}
    want_same("the generations", (folder.logs.generation, header.generation), (3, 2))
    for place in (folder.logs.current.begin, folder.seal.begin):
        folder.cut(place)
        for what, other in others.items():
            folder.write(name, other)
            folder.want_missing(f"{what}, and a log that is cut at byte {place}")
    for place in (folder.logs.current.begin, folder.seal.begin):
        folder.restore()
        want_all_found(setting, folder.cut(place))
    return f"{2 * len(others)} folders"


def logs_that_went_on(setting: Setting) -> str:
    """The log before goes on after the current one begins: then the current one has no commit, or it isn't opened."""
    folder, told = folder_of(setting, 39), []
    current, earlier, name = folder.logs.current, folder.earlier, folder.logs.other_name
    more = Commits(earlier.commits + 1, earlier.commits, ((b"more", (b"a", b"")),))
    went_on = padded(bytes_of(earlier.header, [*(frame.entry for frame in earlier.frames), more]))
    first = Commits(current.header.base + 1, current.header.base, ((b"other", (b"b", b"")),))
    folder.write(name, went_on)
    for entries in ((first,), (first, Part(first.last, ())), (Part(first.last, ()), first)):
        folder.set_current(entries)
        folder.want_missing(f"{told}, and a log that goes on")
    for entries in ((), (Part(earlier.commits, ()),), (Closed(current.header.base),)):
        folder.write(name, went_on)
        folder.set_current(entries)
        history = folder.history.front(earlier.commits)
        history.made(Put(b"more", {0: b"a"}))
        want_all_found(setting, history)
        want_same("the log that is continued", logs_of(setting).current.header, current.header)
        told.append(len(entries))
    return f"{len(told)} folders"


def without_seal(entries: Sequence[Entry]) -> List[Entry]:
    return [entry for entry in entries if not isinstance(entry, Sealed)]


def earlier_generations(setting: Setting) -> str:
    """The files of different times: the current log isn't sealed, and the other file has a log of long before."""
    folder = folder_of(setting, 34)
    old = {name: folder.files[name] for name in FILES}
    later = folder_again(folder, times=2)
    name, base = later.logs.other_name, later.logs.current.header.base
    want_same("the generations", (folder.logs.generation, later.logs.generation), (2, 4))
    later.cut(later.seal.begin)
    later.write(name, old[name])
    later.want_missing("a log of two generations before")
    want(base > folder.logs.current.header.base, f"no commits were made after {base}")
    later.restore()
    later.write(name, old[name])
    want_all_found(setting, later.history.front(later.history.commits))
    return f"bases {folder.logs.current.header.base} and {base}"


def folder_again(folder: Folder, times: int) -> Folder:
    """The same folder, after more checkpoints."""
    setting, history = folder.setting, folder.history
    folder.restore()
    logs = shortened(setting, history, times, AFTER)
    want(logs.other is not None and logs.is_sealed, "the log isn't sealed")
    assert logs.other is not None
    return Folder(setting, {name: (setting.data / name).read_bytes() for name in FILES}, logs, logs.other, history)


# ---- logs that are sealed

def other_files_of_sealed_logs(setting: Setting) -> str:
    """A sealed log is all that is needed: the other file may have anything that the making of a log can leave."""
    folder, chance = folder_of(setting, 35), random.Random(setting.seed)
    name = folder.logs.other_name
    whole, end = folder.files[name], folder.earlier.end
    begun = bytes_of(Header(2, folder.logs.generation + 1, folder.history.commits), ())
    others = [b"", bytes(10), bytes(1 << 20), b"\0" + chance.randbytes(100_000), bytes(200) + chance.randbytes(5000),
              begun[:-1] + bytes(1 << 20), begun[:3] + bytes(1 << 20), begun[:20] + b"\0" + begun[21:] + bytes(1 << 20)]
    for _ in range(PLACES):
        at = chance.randrange(end)
        begin, unit, lost = chance.choice((0, at)), chance.choice((1, 512)), chance.choice((0.1, 0.5, 1.0))
        left = bytearray(whole)
        for place in range(begin, end, unit):
            if chance.random() < lost:
                left[place:place + unit] = bytes(len(left[place:place + unit]))
        others.append(bytes(left))
    for other in others:
        folder.restore()
        folder.write(name, other)
        want_same(f"how many commits there are beside {other[:20]!r}",
                  want_front_found(setting, folder.history, folder.history.commits), folder.history.commits)
    # (the next checkpoint is made over it)
    folder.restore()
    folder.write(name, others[-1])
    history = folder.history.front(folder.history.commits)
    logs = shortened(setting, history, 1, 3)
    want_same("the file of the next one", (logs.name, logs.generation), (name, folder.logs.generation + 1))
    want_all_found(setting, history)
    return f"{len(others)} files"


def damaged_checkpoints(setting: Setting) -> str:
    """A byte of a sealed log is another, and no zero: it isn't opened, and the place is said."""
    folder, chance = folder_of(setting, 36), random.Random(setting.seed)
    changes: List[Tuple[Frame, int, int]] = []
    for frame in frames_of_each_kind(folder, chance):
        at = chance.sample(range(frame.begin + LENGTH, frame.end), 3)
        changes += [(frame, place, chance.choice([byte for byte in range(1, 256) if byte != folder.whole[place]]))
                    for place in (*at, frame.end - 1)]
        changes += [(frame, frame.begin + chance.randrange(LENGTH), byte) for byte in (0x01, 0x81)]
    return want_each_named(folder, changes)


def zeros_in_checkpoints(setting: Setting) -> str:
    """A byte of a sealed log is zero, and what follows says that its commits were durable: it isn't opened."""
    folder, chance = folder_of(setting, 37), random.Random(setting.seed)
    changes = [(frame, place, 0) for frame in frames_of_each_kind(folder, chance)
               for place in (frame.begin, *chance.sample(range(frame.begin, frame.end), 2))]
    return want_each_named(folder, changes)


def frames_of_each_kind(folder: Folder, chance: random.Random) -> List[Frame]:
    """Frames of a sealed log: commits before the seal, if there are some, parts, the seal, and the first commit after
    it."""
    frames = folder.logs.current.frames
    before = [frame for frame in frames if frame.end <= folder.seal.begin]
    parts = [frame for frame in before if isinstance(frame.entry, Part)]
    commits = [frame for frame in before if isinstance(frame.entry, Commits)]
    after = [frame for frame in frames if frame.begin >= folder.seal.end]
    want(len(parts) > 1 and len(after) >= AFTER, f"a log of {len(parts)} parts, and {len(after)} frames after them")
    return [*chance.sample(parts, 2), *chance.sample(commits, min(2, len(commits))), folder.seal, *after[:2]]


def want_each_named(folder: Folder, changes: Sequence[Tuple[Frame, int, int]]) -> str:
    """With each of these changes of a byte of the current log it isn't opened, and its place is said."""
    whole, name, wrong = folder.whole, folder.logs.name, []
    for frame, place, byte in changes:
        if whole[place] == byte:
            continue
        folder.write(name, whole[:place] + bytes((byte,)) + whole[place + 1:])
        what = f"{type(frame.entry).__name__} from byte {frame.begin} on, byte {place} as {byte:02x}"
        try:
            said = want_refused(folder.setting, what)
        except Failed as fault:
            wrong.append(f"{what}: {fault}")
            continue
        places = places_in(said, folder.setting)
        if f" {name}: " not in said or not any(frame.begin <= one <= folder.logs.current.end for one in places):
            wrong.append(f"{what}: it says {said!r}")
    want(not wrong, f"{len(wrong)} of {len(changes)}: {'; '.join(wrong)[:1500]}")
    folder.restore()
    want_all_found(folder.setting, folder.history.front(folder.history.commits))
    return f"{len(changes)} changes"


def lost_headers(setting: Setting) -> str:
    """A byte of the current log's header is zero: the older log beside it isn't taken for the newest."""
    folder = folder_of(setting, 38)
    name, opened = folder.logs.name, []
    for place in (0, 4, 20, folder.logs.current.begin - 1):
        folder.restore()
        folder.write(name, folder.whole[:place] + b"\0" + folder.whole[place + 1:])
        try:
            want_refused(setting, f"a zero at byte {place} of the header")
        except Failed as fault:
            opened.append(str(fault))
    want(not opened, f"{folder.history.commits} commits were durable, and the log before ends after "
                     f"{folder.earlier.commits}: {'; '.join(opened)[:600]}")
    folder.restore()
    want_all_found(setting, folder.history)
    return f"sizes {sorted(used(setting).values())}"


CASES = (unsealed_logs, rows_that_a_crash_undid, missing_predecessors, logs_that_went_on, earlier_generations,
         other_files_of_sealed_logs, damaged_checkpoints, zeros_in_checkpoints, lost_headers)
