"""Cases: folders and files as a crash, a decay or an error of people may leave them, and wrong command lines."""
from __future__ import annotations

import os
import pwd
import random
import re
import shutil
import stat
import subprocess
from dataclasses import dataclass
from typing import Any, Callable, Dict, List, Sequence, Tuple

from histories import History
from running import LOG, OTHER, Setting, Skipped, files_of, want, want_same

# how many places of a file are tried, and how many bytes of a frame are its length (crates/mt_frame/README.md)
PLACES, LENGTH = 12, 5


# ---- a torn tail

@dataclass(frozen=True)
class Written:
    """A log of a server that was killed: its bytes, where it ended after each commit, and the rows then."""

    whole: bytes
    ends: List[int]
    history: History

    def commits_before(self, at: int) -> int:
        """How many commits are whole before this byte."""
        return max(commits for commits, end in enumerate(self.ends) if end <= at)


def written(setting: Setting, commits: int) -> Written:
    """Makes commits, until there are `commits`."""
    history, ends = History(5), [0]
    with setting.server() as server, server.index() as index:
        ends[0] = end_of(setting.log.read_bytes())
        while history.commits < commits:
            history.ask(index, [history.change()])
            ends += [end_of(setting.log.read_bytes())] * (history.commits + 1 - len(ends))
        server.kill()
    return Written(setting.log.read_bytes(), ends, history)


def end_of(log: bytes) -> int:
    """Where the zeros at its end begin."""
    return len(log.rstrip(b"\0"))


def tails_that_are_zero(setting: Setting) -> str:
    """The end of the log is zero."""
    return torn_tails(setting, lambda whole, at: whole[:at] + bytes(len(whole) - at))


def tails_that_are_cut(setting: Setting) -> str:
    """The end of the file is cut off, as no crash does: it isn't opened."""
    log, chance = written(setting, 60), random.Random(setting.seed)
    cuts = [*chance.sample(range(log.ends[-5], log.ends[-1]), PLACES), log.ends[-3]]
    for at in cuts:
        setting.log.write_bytes(log.whole[:at])
        said = want_refused(setting, f"a file of {at} bytes")
        want(LOG in said and log.ends[log.commits_before(at)] in places_in(said, setting),
             f"a file of {at} bytes: it says {said!r}")
    return f"{len(cuts)} places"


def torn_tails(setting: Setting, tear: Callable[[bytes, int], bytes]) -> str:
    """The commits before a torn end are there, and the server goes on."""
    log, chance = written(setting, 60), random.Random(setting.seed)
    ends, end = log.ends, end_of(log.whole)
    want_same("where the log ends after the last commit", end, ends[-1])
    tails = [*chance.sample(range(ends[-5], end), PLACES), end - 1, ends[-2], ends[-2] + 1, ends[-2] + 4]
    for at in tails:
        least = log.commits_before(at)
        found = want_found(setting, tear(log.whole, at), log.history, least)
        want_same(f"how many commits are there, if the log is torn at byte {at} of {end}", found, least)
    return f"{len(tails)} places"


def want_found(setting: Setting, left: bytes, history: History, least: int) -> int:
    """With this log the server starts, has the first of these commits, and goes on. Returns how many it has."""
    setting.log.write_bytes(left)
    return want_front_found(setting, history, least)


def want_front_found(setting: Setting, history: History, least: int) -> int:
    """The same, with the logs that the folder has."""
    copied = history.front(history.commits)
    with setting.server() as server, server.index() as index:
        found = copied.want_front(index, least)
        copied.work(index, 3, 1)
        server.kill()
    with setting.server() as server, server.index() as index:
        copied.want_all(index)
        server.kill()
    return found


def tails_of_a_crash(setting: Setting) -> str:
    """A crash before the last sync: of what was written since the one before, each byte is there, or the zero that was
    there before. All commits that were synced are there, and no part of a commit."""
    history, chance, found = History(6), random.Random(setting.seed), []
    with setting.server("--sync", "always") as server, server.index() as index:
        history.work(index, 1, 1)
        synced = [(setting.log.read_bytes(), history.commits)]
        while len(synced) <= PLACES:
            history.work(index, 1, chance.choice((1, 8, 64)))
            if history.commits > synced[-1][1]:
                synced.append((setting.log.read_bytes(), history.commits))
        server.kill()
    for (before, least), (whole, commits) in zip(synced, synced[1:]):
        copied = history.front(commits)
        begin, end, unit = end_of(before), end_of(whole), chance.choice((1, 16, 512))
        lost, left = chance.choice((0.02, 0.5, 0.9)), bytearray(whole)
        for at in range(begin, end, unit):
            if chance.random() < lost:
                left[at:min(at + unit, end)] = bytes(min(at + unit, end) - at)
        found.append(want_found(setting, bytes(left), copied, least) - least)
    return f"{PLACES} crashes, after which {sum(found)} commits more than the synced ones were there"


# ---- what is no log

def want_refused(setting: Setting, what: str, *words: str) -> str:
    """The folder isn't opened, and is left as it was. Returns the line that is said."""
    before = files_of(setting.data)
    said = setting.refused(3, "--data", str(setting.data), *words)
    want(files_of(setting.data) == before, f"{what}: the files are others afterwards")
    want_same(f"{what}: how many lines it says", said.count("\n"), 1)
    return said


def places_in(said: str, setting: Setting) -> List[int]:
    """The numbers that a line has, without those of the folder's name."""
    return [int(word.replace(",", "")) for word in re.findall(r"\d[\d,]*", said.replace(str(setting.folder), ""))]


def changed_bytes(setting: Setting) -> str:
    """A byte in the middle of the log is another, and no zero: it isn't opened, and the place is said."""
    log, chance = written(setting, 60), random.Random(setting.seed)
    # (places of a frame, and places by chance, but for the length of a frame)
    places = {*range(log.ends[20], log.ends[21], 5), *chance.sample(range(log.ends[0], log.ends[50]), 2 * PLACES)}
    changes = [(at, chance.choice([byte for byte in range(1, 256) if byte != log.whole[at]])) for at in sorted(places)
               if at - log.ends[log.commits_before(at)] >= LENGTH]
    return want_each_refused(setting, log, changes)


def changed_lengths(setting: Setting) -> str:
    """The same, of the bytes that say how long a frame is."""
    log = written(setting, 60)
    return want_each_refused(setting, log, [(begin + at, other) for begin in log.ends[20:22] for at in range(LENGTH)
                                            for other in (0x01, 0x81, 0x84, 0xb4, 0xff)
                                            if log.whole[begin + at] != other])


def zeros_in_the_middle(setting: Setting) -> str:
    """A byte is zero, and what follows says that its commit was durable: no crash leaves that."""
    log, chance = written(setting, 60), random.Random(setting.seed)
    places = [*range(log.ends[20], log.ends[20] + LENGTH), *chance.sample(range(log.ends[0], log.ends[50]), 2 * PLACES)]
    return want_each_refused(setting, log, [(at, 0) for at in places])


def want_each_refused(setting: Setting, log: Written, changes: Sequence[Tuple[int, int]]) -> str:
    """With each of these changes of a byte the log isn't opened, its place is said, and it stays as it is."""
    whole, ends, wrong, opened = log.whole, log.ends, [], []
    for at, other in changes:
        setting.log.write_bytes(whole[:at] + bytes((other,)) + whole[at + 1:])
        before = log.commits_before(at)
        try:
            said = want_refused(setting, f"byte {at}")
        except Exception as fault:
            opened.append(f"byte {at} of commit {before + 1}, {at - ends[before]} bytes after its begin, "
                          f"{whole[at]:02x} as {other:02x}: {fault}")
            continue
        # (that of the damaged frame, or of a later one that shows what is missing)
        if LOG not in said or not any(ends[before] <= place <= ends[-1] for place in places_in(said, setting)):
            wrong.append(f"byte {at} of a frame from byte {ends[before]} on: {said!r}")
    want(not opened, f"of {len(changes)} changes {len(opened)} aren't refused: {'; '.join(opened)[:1500]}")
    want(not wrong, f"of {len(changes)} changes {len(wrong)} aren't named: {'; '.join(wrong)[:600]}")
    setting.log.write_bytes(whole)
    with setting.server() as server, server.index() as index:
        log.history.want_all(index)
    return f"{len(changes)} changes"


def changed_heads(setting: Setting) -> None:
    """The begin of the log is another's, or another file is there."""
    log = written(setting, 5)
    whole = log.whole
    for at in range(0, log.ends[0], 3):
        setting.log.write_bytes(whole[:at] + bytes((whole[at] ^ 0x41 or 1,)) + whole[at + 1:])
        want_refused(setting, f"byte {at}")
    for text in (b"x", b"no log\n" * 1000, b"\xff" * 4096):
        setting.log.write_bytes(text)
        want_refused(setting, f"a file that begins with {text[:8]!r}")


def other_columns(setting: Setting) -> None:
    """A folder of another number of columns isn't opened."""
    log = written(setting, 5)
    for columns in ("1", "3", "16"):
        said = want_refused(setting, f"{columns} columns", "--columns", columns)
        want("column" in said, f"it says {said!r}")
    with setting.server() as server, server.index() as index:
        log.history.want_all(index)


# ---- folders

def one_server_at_a_time(setting: Setting) -> None:
    """A second server on the folder ends at once, and the first serves on. After its end, or a kill, another starts."""
    history = History(7)
    for number in range(3):
        with setting.server() as server, server.index() as index:
            history.work(index, 5, 1)
            before = files_of(setting.data)
            for columns in ("2", "3"):
                said = setting.refused(3, "--data", str(setting.data), "--columns", columns)
                want_same("how many lines it says", said.count("\n"), 1)
            want(files_of(setting.data) == before, "the files are others")
            history.work(index, 5, 1)
            history.want_all(index)
            if number % 2:
                server.stop()
            else:
                server.kill()


def folders_that_are_none(setting: Setting) -> None:
    """A folder is made; what can't be one is refused."""
    setting.folder.joinpath("file").write_text("kept")
    for path in (setting.folder / "none" / "data", setting.folder / "file", setting.folder / "file" / "data"):
        setting.refused(3, "--data", str(path))
    want_same("the file", setting.folder.joinpath("file").read_text(), "kept")
    want_same("what is there", [path.name for path in setting.folder.iterdir()], ["file"])
    setting.data.mkdir()
    with setting.server() as server, server.index() as index:
        want_same("a put in a folder that was there", index.put(b"a", {0: b"v"}), 1)
        server.stop()
    want_same("its files", [name for name, _ in files_of(setting.data)], ["even", LOG, "odd", OTHER])
    with setting.server() as server, server.index() as index:
        want_same("the row", index[b"a"].version, 1)


def nobody(setting: Setting) -> Dict[str, Any]:
    """Who may write to no file of root's. Raises `Skipped`."""
    if os.geteuid() != 0:
        return {}
    try:
        account = pwd.getpwnam("nobody")
    except KeyError:
        raise Skipped("there is no account nobody") from None
    given = {"user": account.pw_uid, "group": account.pw_gid, "extra_groups": []}
    setting.folder.chmod(0o755)
    try:
        done = subprocess.run([setting.serve, "--help"], capture_output=True, check=False, **given)
    except OSError as fault:
        raise Skipped(f"another account can't run {setting.serve}: {fault}") from None
    if done.returncode != 0:
        raise Skipped(f"another account can't run {setting.serve}: {done.stderr.decode(errors='replace')[:100]}")
    return given


def folders_that_are_read_only(setting: Setting) -> None:
    """A folder or a log that can't be written isn't opened, and nothing is changed."""
    history, other = History(8), nobody(setting)
    setting.data.mkdir(mode=0o555)
    setting.refused(3, "--data", str(setting.data), **other)
    want_same("what is in a new folder", files_of(setting.data), [])
    setting.data.chmod(0o755)
    with setting.server() as server, server.index() as index:
        history.work(index, 10, 1)
        server.stop()
    before = files_of(setting.data)
    for path in setting.data.iterdir():
        path.chmod(stat.S_IRUSR | stat.S_IRGRP | stat.S_IROTH)
    setting.data.chmod(0o555)
    setting.refused(3, "--data", str(setting.data), **other)
    want(files_of(setting.data) == before, "the files are others")
    setting.data.chmod(0o755)
    for path in setting.data.iterdir():
        path.chmod(0o644)
    with setting.server() as server, server.index() as index:
        history.want_all(index)


def a_copied_folder(setting: Setting) -> None:
    """A folder is only its files: a copy has the same rows."""
    history = History(9)
    with setting.server() as server, server.index() as index:
        history.work(index, 30, 1)
        server.stop()
    shutil.copytree(setting.data, setting.folder / "copy")
    shutil.rmtree(setting.data)
    shutil.move(str(setting.folder / "copy"), str(setting.data))
    with setting.server() as server, server.index() as index:
        history.want_all(index)


# ---- command lines

def bad_command_lines(setting: Setting) -> None:
    for words in (["--sync", "always"], ["--sync", "never"], ["--sync", "50"], ["--data"], ["--sync"],
                  ["--checkpoint"]):
        setting.refused(2, *words)
    for word in ("", "often", "Always", "-1", "0", "1.5", "50ms", "86400001", "99999999999999999999"):
        setting.refused(2, "--data", str(setting.data), "--sync", word)
        want(not setting.data.exists(), f"--sync {word!r} has made a folder")
    for word in ("", "often", "-1", "1.5", "64M", "1099511627777", "99999999999999999999"):
        setting.refused(2, "--data", str(setting.data), "--checkpoint", word)
        want(not setting.data.exists(), f"--checkpoint {word!r} has made a folder")


def options_that_are_told(setting: Setting) -> None:
    done = subprocess.run([setting.serve, "--help"], capture_output=True, check=False)
    for word in (b"--data", b"--sync", b"always", b"never", b"--checkpoint"):
        want(word in done.stdout, f"--help doesn't say {word.decode()}")


CASES = (tails_that_are_zero, tails_that_are_cut, tails_of_a_crash, changed_bytes, changed_lengths,
         zeros_in_the_middle, changed_heads,
         other_columns, one_server_at_a_time, folders_that_are_none, folders_that_are_read_only, a_copied_folder,
         bad_command_lines, options_that_are_told)
