"""Cases: logs that are shortened by checkpoints while clients write, and servers that are killed in one."""
from __future__ import annotations

import random
import re
import time
from typing import Any, List, Set

from crowds import crowd_of, kill_again_and_again
from ends import POLICIES
from frames import Commits, Header, LogOf, Part, Sealed, frame_at, frame_of
from histories import History, Rows
from moving import (LIMIT, MANY, PAUSE, SHORT, Logs, generation_of, logs_of, shortened, stop, until, used,
                    want_all_found, work_until, work_until_shortened)
from running import FILES, OTHER, SECONDS, Failed, Setting, at_once, want, want_same

from rowanspan import MAX_QUERIES, Prefix, Put, PutIf, Query, Remove, Row

# the words of lines that a server without a fault writes
WORDS = ("checkpoint", "listening", "stopping", "stopped")
# how many rows a part has at most
PART = 256


# ---- how long logs get

def logs_stay_short(setting: Setting) -> str:
    """While clients put and remove rows, many checkpoints are made, and no log gets longer than some times the rows."""
    crowd, limit, frames = crowd_of(setting, ((16, True), (32, True), (64, False)), keys=700), 60_000, 300
    sizes: List[int] = []
    with setting.server("--checkpoint", str(limit), "--log", "pairs") as server:
        def work(number: int) -> None:
            with server.index() as index:
                crowd.writers[number].fill(index)
                for at in range(frames):
                    crowd.writers[number].ask(index)
                    if number == 0 and at % 4 == 0:
                        sizes.append(max(used(setting).values()))

        at_once([lambda number=number: work(number) for number in range(len(crowd.writers))])
        with server.index() as index:
            crowd.find_out(index)
        server.end_input()
        server.process.wait(SECONDS)
        lines = server.rest_of_lines()
    made = checkpoints_in(lines)
    logs = logs_of(setting)
    rows = max(rows_size(log) for log in (logs.current, logs.other) if log is not None)
    want(made >= 5, f"{made} checkpoints are made of {crowd.last} commits")
    want(logs.generation in (made, made + 1), f"there are {made} checkpoints, and the generation {logs.generation}")
    want(max(sizes) < 3 * max(limit, rows), f"a log has {max(sizes)} bytes, and its rows {rows}")
    with setting.server() as server, server.index() as index:
        crowd.find_out(index)
        want_same("the rows", dict(index.range()), crowd.rows())
        want_same("the commits", (index.ping(), index.hello.commits, index.durable()), (crowd.last,) * 3)
        want_same("how many rows it says", index.info()["rows"], len(crowd.rows()))
    return f"{crowd.last} commits, {made} checkpoints, at most {max(sizes)} bytes, {rows} of rows"


def checkpoints_in(lines: List[str]) -> int:
    """How many checkpoints these lines tell of, which tell of no fault."""
    made = 0
    for line in lines:
        found = re.fullmatch(r"\S+ info (\w+)(.*)", line)
        want(found is not None and found[1] in WORDS, f"it says {line!r}")
        if found is not None and found[1] == "checkpoint":
            said = re.fullmatch(r" (?:rows=\d+ commits=\d+|left_out=(\d+))", found[2])
            want(said is not None, f"it says {line!r}")
            made += int(said[1] or 1) if said is not None else 0
    return made


def rows_size(log: LogOf) -> int:
    """How many bytes of a log are rows of a checkpoint."""
    return sum(frame.end - frame.begin for frame in log.frames if isinstance(frame.entry, Part))


def checkpoints_under_each_policy(setting: Setting) -> str:
    """Logs are shortened whenever commits become durable."""
    history, told = History(20, MANY[:100]), []
    for name, (words, _) in POLICIES.items():
        with setting.server(*SHORT, *words) as server, server.index() as index:
            before = history.commits
            work_until_shortened(setting, history, index, times=2)
            told.append(f"{name}: {history.commits - before} commits")
            stop(server, history)
        want_all_found(setting, history)
    return ", ".join(told)


def logs_of_many_starts(setting: Setting) -> str:
    """Servers that end before their log has grown by the limit shorten it too, some starts later."""
    history, each = History(21, MANY[:100]), LIMIT // 4
    starts, most = 30, 0
    for _ in range(starts):
        with setting.server(*SHORT) as server, server.index() as index:
            begin = sum(used(setting).values())
            work_until(f"{each} bytes", history, index, lambda: abs(sum(used(setting).values()) - begin) > each)
            stop(server, history)
        most = max(most, *used(setting).values())
    # (each start is of a log that is as long as it may be, and may add so much)
    want(most < 4 * LIMIT, f"after {starts} starts, each of which adds {each} bytes, a log has {most} bytes; "
                           f"the limit is {LIMIT}")
    want_all_found(setting, history)
    return f"{starts} starts, {generation_of(setting)} checkpoints, at most {most} bytes"


def none_are_made(setting: Setting) -> None:
    """With --checkpoint 0, and before the limit, the other file stays without a log."""
    history = History(22, MANY[:100])
    for words in (("--checkpoint", "0"), ()):
        with setting.server(*words) as server, server.index() as index:
            work_until("many bytes", history, index, lambda: used(setting)[FILES[0]] > 5 * LIMIT)
            history.work(index, 10, 20)
            want_same("the other file", used(setting)[OTHER], 0)
            stop(server, history)
        logs = logs_of(setting)
        want_same("the log", (logs.generation, logs.current.header.base, logs.current.commits), (0, 0, history.commits))
    shortened(setting, history)
    before = generation_of(setting)
    with setting.server("--checkpoint", "0") as server, server.index() as index:
        work_until("many bytes", history, index, lambda: sum(used(setting).values()) > 10 * LIMIT)
        stop(server, history)
    want_same("the generation", generation_of(setting), before)
    want_all_found(setting, history)


# ---- what a checkpoint has

def bytes_of_checkpoints(setting: Setting) -> str:
    """The frames are those of crates/mt_frame/README.md, and the rows of a seal are the rows then."""
    history, told = History(23, MANY), 0
    for _ in range(3):
        logs = shortened(setting, history, after=3)
        for name in FILES:
            told += want_spelled(setting, name)
        current, other = logs.current, logs.other
        if other is None:
            raise Failed("there is no log before")
        want(other.is_whole, "the log before isn't whole")
        want_same("what the header says", current.header, Header(2, other.header.generation + 1, other.commits))
        want_sealed_rows(logs, history)
    return f"{told} frames"


def want_spelled(setting: Setting, name: str) -> int:
    """All bytes of a file are those of its frames, and zeros. Returns how many frames there are."""
    whole, log = (setting.data / name).read_bytes(), logs_of(setting)
    found = log.current if name == log.name else log.other
    assert found is not None
    header = frame_at(whole, 0)
    assert header is not None
    frames, generation = [header, *found.frames], found.header.generation
    for frame in frames:
        want_same(f"the frame at byte {frame.begin}", whole[frame.begin:frame.end],
                  frame_of(generation, frame.begin, frame.entry))
    want_same("what follows", whole[found.end:].strip(b"\0"), b"")
    return len(frames)


def want_sealed_rows(logs: Logs, history: History) -> None:
    """The parts before the seal, and the commits, make the rows after the last commit before it."""
    seal, newest, at = logs.current.seal, logs.current.header.base, 0
    assert seal is not None and isinstance(seal.entry, Sealed)
    rows: Rows = {}
    keys: Set[bytes] = set()
    for frame in logs.current.frames:
        entry = frame.entry
        if isinstance(entry, Part) and frame.begin < seal.begin:
            want(len(entry.rows) <= PART, f"a part has {len(entry.rows)} rows")
            want_same("the keys of a part", [key for key, _ in entry.rows], sorted(key for key, _ in entry.rows))
            rows.update(entry.rows)
            keys.update(key for key, _ in entry.rows)
            at = max(at, entry.at)
        elif isinstance(entry, Commits) and frame.begin < seal.begin:
            for newest, (key, columns) in enumerate(entry.records, entry.first):
                rows.pop(key, None)
                if columns is not None:
                    rows[key] = Row(newest, columns)
    want(newest >= at, f"it is sealed after {newest} commits, and a part has rows of {at}")
    want_same("the rows at the seal", rows, history.front(newest).rows)
    want_same("how many rows the seal says", seal.entry.rows, len(keys))


def parts_of_each_size(setting: Setting) -> str:
    """Checkpoints of no rows, of one, and of as many as a part has, or one more or less."""
    sizes, history = (0, 1, PART - 1, PART, PART + 1, 2 * PART - 1, 2 * PART), History(24)
    for size in sizes:
        keys = [b"%04d" % number for number in range(size)]
        with setting.server(*SHORT) as server, server.index() as index:
            for at in range(0, size, MAX_QUERIES):
                history.ask(index, [Put(key, {0: b"v"}) for key in keys[at:at + MAX_QUERIES]])

            def put_over() -> List[Query[Any]]:
                """(the rows stay as many)"""
                if not keys:
                    return [Put(b"a", {1: bytes(64)}), Remove(b"a")] * 30
                return [Put(history.chance.choice(keys), {1: bytes(64)}) for _ in range(60)]

            logs = work_until_shortened(setting, history, index, frame=put_over)
            server.kill()
        want_sealed_rows(logs, history)
        with setting.server() as server, server.index() as index:
            history.want_rows(index)
    return f"{', '.join(map(str, sizes))} rows, generation {generation_of(setting)}"


# ---- what is served right after a start

def first_calls_after_a_checkpoint(setting: Setting) -> None:
    """Rows of before a checkpoint and of after it, views, counts, ranges, and puts if they are of a version."""
    history = History(25, MANY)
    logs = shortened(setting, history, 2, 10)
    base = logs.current.header.base
    rows = sorted(history.rows.items(), key=lambda pair: pair[1].version)
    (old, of_old), (new, of_new) = rows[0], rows[-1]
    want(of_old.version <= base < of_new.version, f"the versions {of_old.version} and {of_new.version} of base {base}")
    with setting.server(*SHORT) as server, server.index() as index:
        want_same("an old row, and a new one", (index.get(old), index.get(new)), (of_old, of_new))
        want_same("a range", list(index.range(prefix=b"02")),
                  sorted((key, row) for key, row in history.rows.items() if key.startswith(b"02")))
        want_same("a count", index.count(prefix=b"01"), len([key for key in history.rows if key.startswith(b"01")]))
        want_same("the views", index.views(), [])
        with index.build(Prefix(b"01")) as view:
            want_same("a view", view.page(history.commits).count, index.count(prefix=b"01"))
        history.want_versions(index)
        for key, row in ((old, of_old), (new, of_new)):
            history.ask(index, [PutIf(key, {0: b"a"}, row.version)])
            history.ask(index, [PutIf(key, {0: b"b"}, row.version)])
        history.ask(index, [Remove(rows[1][0]), PutIf(rows[1][0], {0: b"c"}, 0), Remove(rows[-2][0])])
        stop(server, history)
    want_all_found(setting, history)


def waits_in_a_checkpoint(setting: Setting) -> str:
    """With --sync MILLISECONDS each commit is durable soon, also if a checkpoint has made it so."""
    crowd, waits = crowd_of(setting, ((8, False),), keys=8000), []
    (writer,) = crowd.writers
    with setting.server(*SHORT, "--sync", "300") as server, server.index() as index:
        writer.fill(index)
        for _ in range(3):
            before = generation_of(setting)
            last = writer.answered + 100_000
            while generation_of(setting) == before:
                want(writer.answered < last, "no checkpoint begins")
                writer.ask_all(index, [writer.put(writer.key(number))
                                       for number in writer.chance.sample(range(writer.keys), MAX_QUERIES)])
            began = time.monotonic()
            want(index.settle(5.0), f"{index.durable()} of {writer.answered} commits are durable after 5 seconds")
            waits.append(time.monotonic() - began)
            until("a seal", lambda: logs_of(setting).is_sealed)
        server.kill()
    with setting.server() as server, server.index() as index:
        crowd.find_out(index)
    return "waits of " + ", ".join(f"{wait:.2f} s" for wait in waits)


# ---- kills

def killed_in_checkpoints(setting: Setting) -> str:
    """The same as for other logs, while checkpoints are made again and again. Some kills are while rows are copied."""
    crowd, chance, unsealed = crowd_of(setting, keys=1000), random.Random(setting.seed), []
    with setting.server(*SHORT) as server, server.index() as index:
        for writer in crowd.writers:
            writer.fill(index)
        server.kill()

    def moment() -> None:
        """At the begin of a checkpoint, mostly, or soon after it."""
        before, end = generation_of(setting), time.monotonic() + chance.uniform(0.05, 2.0)
        while generation_of(setting) == before and time.monotonic() < end:
            time.sleep(PAUSE)
        time.sleep(chance.choice((0.0, chance.uniform(0.0, 0.05))))

    def killed() -> None:
        unsealed.append(not logs_of(setting).current.is_whole)

    said = kill_again_and_again(setting, crowd, chance, moment, *SHORT, look=killed)
    return f"{said}; {unsealed.count(True)} of the kills while rows were copied, generation {generation_of(setting)}"


CASES = (logs_stay_short, checkpoints_under_each_policy, logs_of_many_starts, none_are_made, bytes_of_checkpoints,
         parts_of_each_size, first_calls_after_a_checkpoint, waits_in_a_checkpoint, killed_in_checkpoints)
