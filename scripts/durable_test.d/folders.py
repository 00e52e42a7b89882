"""Cases: what `mtfolder` says of folders that servers, crashes and decays have left. It changes nothing in them."""
from __future__ import annotations

import random
import re
import subprocess
from dataclasses import dataclass, replace
from pathlib import Path
from typing import List, Optional

from frames import Closed, Commits, Header, LogOf, Sealed, bytes_of, log_of
from histories import History, Rows
from later_logs import folder_of, padded
from logs import end_of, want_refused
from moving import logs_of
from running import COLUMNS, FILES, LOG, OTHER, SECONDS, Failed, Setting, Skipped, files_of, want, want_same

from rowanspan import Row

# the greatest generation of a log
LAST_GENERATION = (1 << 64) - 1
# formats of logs that no server knows; the bytes of some are escaped in a frame
OTHER_FORMATS = 0, 2, 257, 65_535


@dataclass(frozen=True)
class Said:
    """How a run of `mtfolder` ended, and what it printed."""

    status: int
    lines: List[str]
    errors: str


def said(setting: Setting, task: str, folder: Optional[Path] = None) -> Said:
    """Runs `mtfolder` over a folder, which must be as it was after that."""
    if setting.reads is None:
        raise Skipped("no mtfolder is named")
    folder = setting.data if folder is None else folder
    before = files_of(folder) if folder.is_dir() else []
    done = subprocess.run([setting.reads, task, str(folder)], capture_output=True, timeout=SECONDS, check=False)
    after = files_of(folder) if folder.is_dir() else []
    want(after == before, f"{task}: the files are others afterwards")
    return Said(done.returncode, done.stdout.decode().splitlines(), done.stderr.decode())


def want_shown(setting: Setting, reads: str) -> None:
    """`show` says what the logs of the folder have, and which of them a start reads."""
    shown = said(setting, "show")
    want_same("show: the status", (shown.status, shown.errors), (0, ""))
    wanted = [line for name in FILES for line in lines_of(name, log_of((setting.data / name).read_bytes()))]
    want_same("show: what the logs have", shown.lines[:-2], wanted)
    want_same("show: what a start reads", shown.lines[-2], reads)


def lines_of(name: str, log: Optional[LogOf]) -> List[str]:
    if log is None:
        return [f"{name} no log"]
    header, entries = log.header, [frame.entry for frame in log.frames]
    durable = max([entry.durable for entry in entries if isinstance(entry, Commits)], default=0)
    state = [word for word, is_so in (("sealed", log.seal is not None),
                                      ("closed", entries != [] and isinstance(entries[-1], Closed))) if is_so]
    return [f"{name} generation {header.generation} base {header.base} columns {header.columns} run {header.run}",
            " ".join([f"{name} commits {log.commits - header.base} last {log.commits}",
                      f"durable {max(durable, header.base)} bytes {log.end}", *state])]


def want_opened(setting: Setting, history: History) -> None:
    """The folder has these rows."""
    count = f"rows {len(history.rows)} commits {history.commits}"
    verified = said(setting, "verify")
    want_same("verify", verified, Said(0, [f"ok {count}"], ""))
    printed = said(setting, "rows")
    want_same("rows: the status", (printed.status, printed.errors), (0, ""))
    want_same("rows: the first line", printed.lines[0], count)
    want_same("rows: the keys in order", [line.partition(":")[0] for line in printed.lines[1:]],
              [spelled(key) for key in sorted(history.rows)])
    want_same("rows", rows_in(printed.lines[1:]), history.rows)


def spelled(text: bytes) -> str:
    return text.hex() or "-"


def rows_in(lines: List[str]) -> Rows:
    rows = {}
    for line in lines:
        key, version, values = line.split(":")
        rows[read(key)] = Row(int(version), tuple(read(value) for value in values.split(",")))
    return rows


def read(word: str) -> bytes:
    return b"" if word == "-" else bytes.fromhex(word)


def want_faults(setting: Setting, what: str, *parts: str, left: Optional[History] = None) -> None:
    """The folder isn't opened: `verify` and `rows` say so by the status 1, and `verify` has a line with each part, and
    one that says what a cut leaves, if it leaves something."""
    verified = said(setting, "verify")
    want_same(f"{what}: verify: the status, and {verified}", verified.status, 1)
    cuts = [] if left is None else [
        f"cut --at {left.commits} leaves rows {len(left.rows)} commits {left.commits}"]
    want_same(f"{what}: what a cut leaves, {verified.lines}", verified.lines[len(parts):], cuts)
    want_same(f"{what}: verify: how many lines, {verified.lines}", len(verified.lines), len(parts) + len(cuts))
    for part, line in zip(parts, verified.lines):
        want(part in line, f"{what}: verify says {line!r}, without {part!r}")
    printed = said(setting, "rows")
    want_same(f"{what}: rows", (printed.status, printed.lines, printed.errors.count("\n")), (1, [], 1))
    want(any(line in printed.errors for line in verified.lines), f"{what}: rows says {printed.errors!r}")
    shown = said(setting, "show")
    want_same(f"{what}: show", (shown.status, shown.lines[-1].startswith("not opened: ")), (0, True))
    server = setting.refused(3, "--data", str(setting.data))
    want_same(f"{what}: what a server says", server.replace("mtserve: ", "mtfolder: "), printed.errors)


# ---- folders that are opened

def folders_that_are_shown(setting: Setting) -> str:
    """A folder is fresh, or was left by a kill, or its server has ended: what is said of it is what a server finds."""
    history = History(51)
    with setting.server() as server, server.index():
        server.kill()
    want_opened(setting, history)
    want_shown(setting, f"reads {LOG}")
    with setting.server() as server, server.index() as index:
        history.work(index, 6, 20)
        server.kill()
    want_opened(setting, history)
    want_shown(setting, f"reads {LOG}")
    with setting.server() as server, server.index() as index:
        history.want_all(index)
        history.work(index, 5, 1)
        server.stop()
    want_opened(setting, history)
    want_shown(setting, f"reads {LOG}")
    return f"{history.commits} commits"


def torn_folders_that_are_shown(setting: Setting) -> str:
    """The tail of the log is torn: the commits before it are there, and the tail stays as it is."""
    history, chance = History(52), random.Random(setting.seed)
    ends = [0]
    with setting.server() as server, server.index() as index:
        ends[0] = end_of(setting.log.read_bytes())
        while history.commits < 30:
            history.work(index, 1, 1)
            ends += [end_of(setting.log.read_bytes())] * (history.commits + 1 - len(ends))
        server.kill()
    whole = setting.log.read_bytes()
    places = [*chance.sample(range(ends[-4], ends[-1]), 4), ends[-2], ends[-2] + 1]
    for place in places:
        setting.log.write_bytes(whole[:place] + bytes(len(whole) - place))
        want_opened(setting, history.front(max(number for number, end in enumerate(ends) if end <= place)))
    return f"{len(places)} places"


def checkpoints_that_are_shown(setting: Setting) -> str:
    """A log continues in the other file: with a seal it is read alone, without one after the log before."""
    folder = folder_of(setting, 53)
    current, other = folder.logs.name, folder.logs.other_name
    want_opened(setting, folder.history)
    want_shown(setting, f"reads {current}")
    for place in (folder.logs.current.begin, folder.seal.begin):
        folder.restore()
        left = folder.cut(place)
        want_opened(setting, left)
        want_shown(setting, f"reads {other} {current}")
    # (the log before may continue, if the later one has no commits)
    more = Commits(folder.earlier.commits + 1, folder.earlier.commits, ((b"more", (b"a", b"")),))
    entries = [*(frame.entry for frame in folder.earlier.frames), more]
    folder.write(other, padded(bytes_of(folder.earlier.header, entries)))
    folder.set_current(())
    history = folder.history.front(folder.earlier.commits)
    history.leave(b"more", Row(more.last, (b"a", b"")))
    want_opened(setting, history)
    want_shown(setting, f"reads {other}")
    return f"generation {logs_of(setting).generation}"


# ---- folders that are refused

def faults_that_are_named(setting: Setting) -> str:
    """A log is damaged, or its rows before are missing: that is said, as a server says it, and with the place."""
    folder = folder_of(setting, 54)
    name, other = folder.logs.name, folder.logs.other_name
    frame = folder.logs.current.frames[0]
    changed = bytearray(folder.whole)
    changed[frame.end - 1] ^= 0x40
    folder.write(name, bytes(changed))
    before = folder.history.front(folder.earlier.commits)
    want_faults(setting, "a changed byte", f"{name}: the log is damaged at byte {frame.begin}: ", left=before)
    # (then both logs are needed, and each has a fault)
    folder.restore()
    folder.set_current([entry for entry in folder.entries_before(folder.seal.end) if not isinstance(entry, Sealed)])
    whole, earlier = bytearray(folder.files[other]), folder.earlier.frames[0]
    whole[earlier.end - 1] ^= 0x40
    folder.write(other, bytes(whole))
    want_faults(setting, "a changed byte of the log before", f"{other}: the log is damaged at byte {earlier.begin}: ")
    folder.write(other, b"")
    want_faults(setting, "no log before", f"{name}: the log begins after commit {folder.logs.current.header.base}, ")
    folder.restore()
    folder.write(name, b"\0" + folder.whole[1:])
    want_faults(setting, "a lost header", f"{name}: commits after {folder.earlier.commits} are missing", left=before)
    folder.restore()
    want_opened(setting, folder.history)
    return f"{name}, and {other}"


def unknown_formats(setting: Setting) -> str:
    """A log has another format, and its frames are right: the file and the reason are said, and nothing is changed."""
    folder, reason = folder_of(setting, 58), "the log has an unknown format"
    for number in OTHER_FORMATS:
        others = {name: of_format(folder.files[name], number) for name in FILES}
        for names in ((LOG,), (OTHER,), FILES):
            what = f"the format {number} of {' and '.join(names)}"
            folder.restore()
            for name in names:
                folder.write(name, others[name])
            want_same(what, want_refused(setting, what), f"mtserve: the data folder: {names[0]}: {reason}\n")
            want_faults(setting, what, *(f"{name}: {reason}" for name in names))
            want_same(f"{what}: show", [line for line in said(setting, "show").lines[:-1] if line.endswith(reason)],
                      [f"{name} {reason}" for name in names])
    folder.restore()
    want_opened(setting, folder.history)
    return f"{3 * len(OTHER_FORMATS)} folders"


def of_format(whole: bytes, number: int) -> bytes:
    """A file with the log of this one, whose header says another format. All digests are right."""
    log = log_of(whole)
    if log is None:
        raise Failed("a file has no log")
    entries = [frame.entry for frame in log.frames]
    want(bytes_of(log.header, entries) == whole[:log.end], "the log isn't spelled as the server has written it")
    return padded(bytes_of(replace(log.header, format=number), entries))


def greatest_generations(setting: Setting) -> None:
    """No log continues one of the greatest generation, which is the newer one."""
    with setting.server() as server, server.index():
        server.kill()
    generation = LAST_GENERATION
    (setting.data / OTHER).write_bytes(padded(bytes_of(Header(COLUMNS, generation, 0), [commits_of(1, 3)])))
    (setting.data / LOG).write_bytes(padded(bytes_of(Header(COLUMNS, generation, 3), [commits_of(4, 2)])))
    want_faults(setting, "two logs of the greatest generation", f"{LOG}: the log begins after commit 3, ")
    # (the log of the greatest generation is the newer one)
    (setting.data / LOG).write_bytes(padded(bytes_of(Header(COLUMNS, generation - 1, 0), [commits_of(1, 3)])))
    (setting.data / OTHER).write_bytes(padded(bytes_of(Header(COLUMNS, generation, 3), [commits_of(4, 2)])))
    history = History(55)
    for number in range(1, 6):
        history.leave(b"%d" % number, Row(number, (b"a", b"")))
    want_opened(setting, history)
    want_shown(setting, f"reads {LOG} {OTHER}")


def commits_of(first: int, count: int) -> Commits:
    """Commits that put a row each."""
    return Commits(first, first - 1, tuple((b"%d" % number, (b"a", b"")) for number in range(first, first + count)))


def folders_that_are_in_use(setting: Setting) -> None:
    """A folder that a server has is refused, and the server isn't disturbed."""
    history = History(56)
    with setting.server() as server, server.index() as index:
        history.work(index, 5, 1)
        for task in ("show", "verify", "rows"):
            run = said(setting, task)
            want_same(task, run, Said(3, [], "mtfolder: the data folder is already in use\n"))
        history.work(index, 5, 1)
        history.want_all(index)
        server.stop()
    want_opened(setting, history)


def folders_that_are_missing(setting: Setting) -> None:
    """What is no folder is said, and nothing is made. A folder without a log has no rows."""
    for task in ("show", "verify", "rows"):
        run = said(setting, task)
        is_said = run.errors.startswith("mtfolder: the data folder: ")
        want(run.status == 3 and run.lines == [] and is_said, f"{task}: {run}")
        want(not setting.data.exists(), f"{task} has made the folder")
    setting.data.mkdir()
    want_opened(setting, History(57))
    want_same("show", said(setting, "show").lines,
              [f"{LOG} no log", f"{OTHER} no log", "reads no log", "rows 0 commits 0"])
    (setting.data / LOG).write_bytes(bytes(range(1, 200)))
    want_faults(setting, "a file that is no log", f"{LOG}: the file is not a log")
    run = said(setting, "show", setting.data / LOG)
    want(run.status == 3 and run.lines == [], f"a file in place of a folder: {run}")


def wrong_words(setting: Setting) -> None:
    """A bad command line has the status 2, and `--help` names each task."""
    if setting.reads is None:
        raise Skipped("no mtfolder is named")
    setting.data.mkdir()
    for words in ([], ["show"], ["shows", str(setting.data)], ["rows", str(setting.data), "more"], ["--columns", "2"],
                  ["cut", str(setting.data)], ["show", str(setting.data), "--at", "1"],
                  ["cut", str(setting.data), "--at", "one"], ["cut", str(setting.data), "--at", str(1 << 64)]):
        done = subprocess.run([setting.reads, *words], capture_output=True, timeout=SECONDS, check=False)
        want_same(f"the status with {words}", (done.returncode, done.stdout), (2, b""))
        want(done.stderr != b"", f"it says nothing with {words}")
    done = subprocess.run([setting.reads, "--help"], capture_output=True, timeout=SECONDS, check=False)
    want_same("the status of --help", done.returncode, 0)
    for task in (b"show", b"verify", b"rows", b"cut"):
        want(re.search(rb"\b" + task + rb"\b", done.stdout) is not None, f"--help doesn't name {task.decode()}")


CASES = (folders_that_are_shown, torn_folders_that_are_shown, checkpoints_that_are_shown, faults_that_are_named,
         unknown_formats, greatest_generations, folders_that_are_in_use, folders_that_are_missing, wrong_words)
