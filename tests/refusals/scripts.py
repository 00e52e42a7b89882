"""The scripts whose allocations are refused: those of tests/, some made here, and what is added at their ends."""
from __future__ import annotations

from dataclasses import dataclass
from functools import partial
from pathlib import Path
from typing import Callable, Dict, List, Sequence, Tuple

from lines import MAX_KEY_BYTES, command_of, word_of
from reading import MARK, Gathering

TESTS = Path(__file__).resolve().parent.parent
# a call that waits for another's lock has ended after a further round
ROUNDS = 3
# a tidy takes one layer out, and seven layers have two keys below them
TIDIES = 4


@dataclass(frozen=True)
class Script:
    """The lines of a script, the options of the program, and from which line on allocations are refused."""

    name: str
    words: Tuple[str, ...]
    lines: Tuple[str, ...]
    begin: int = 0

    @property
    def columns(self) -> int:
        return int(self.words[self.words.index("--columns") + 1]) if "--columns" in self.words else 1


def marked(lines: Sequence[str]) -> List[str]:
    """The lines, with a mark behind each feed."""
    found: List[str] = []
    for line in lines:
        command = command_of(line)
        found.append(line)
        if command is not None and command.word == "feed":
            found.append(MARK)
    return found


def written(name: str) -> Script:
    """A script of tests/."""
    options = TESTS / f"{name}.args"
    words = tuple(options.read_text().split()) if options.exists() else ()
    lines = (TESTS / f"{name}.mt").read_bytes().decode("latin-1").split("\n")
    return Script(name, words, tuple(marked(lines[:-1] if lines[-1] == "" else lines)))


def put_all(count: int) -> List[str]:
    return [f"alone put {number:04x} 0={number % 256:02x}" for number in range(1, count + 1)]


def layers(nodes: int) -> List[str]:
    """Puts that make so many nodes below one entry of layer 0: two for each layer, and three more where the number
    is odd, by splits in the last layer."""
    if nodes == 0:
        return []
    depth = nodes // 2 if nodes % 2 == 0 else (nodes - 3) // 2
    above = "00" * (8 * depth)
    return [f"alone put {above}{last:02x} 0={last:02x}" for last in range(1, 3 if nodes % 2 == 0 else 25)]


def full_border(name: str, nodes: int) -> Script:
    """A key more than the border has room for, put by single steps, with gets between them and behind them. So many
    nodes in layers decide where the memory of nodes is full: at the new half, or at the new root."""
    lines = layers(nodes) + put_all(15)
    lines = lines[:-1] if nodes > 0 else lines
    call = len(lines) + 1
    last = f"{call:04x}"
    begin = len(lines)
    lines += [f"begin 1 put {last} 0=10", *[f"step {call}"] * 35, "begin 2 get 000f all", f"finish {call + 1}"]
    lines += [*[f"step {call}"] * 5, "alone get 000f all", f"finish {call}"]
    lines += [f"alone get {last} all", "alone get 0001 all"]
    return Script(name, (), tuple(lines), begin)


def full_interior(name: str, nodes: int) -> Script:
    """A key whose border's half is posted to an interior of sixteen children, put by single steps. So many nodes in
    layers decide where the memory of nodes is full: at the interior's new half, or at the new root."""
    count = 16 * 8 + 7
    lines = layers(nodes) + put_all(count)
    lines = lines[:-1] if nodes > 0 else lines
    call, begin = len(lines) + 1, len(lines)
    lines += [f"begin 1 put {count + 1:04x} 0=01", *[f"step {call}"] * 47, "begin 2 get 0001 all", f"finish {call + 1}"]
    lines += [*[f"step {call}"] * 3, f"finish {call}"]
    lines += [f"alone get {number:04x} all" for number in (1, count - 1, count + 1)]
    return Script(name, (), tuple(lines), begin)


def at_once(name: str, count: int, nodes: int) -> Script:
    """The last key of `full_border` or `full_interior`, put by a call alone, whose run makes the most of its split at
    once."""
    lines = layers(nodes) + put_all(count)
    lines = lines[:-1] if nodes > 0 else lines
    begin, last = len(lines), f"{count + 1:04x}"
    lines += [f"alone put {last} 0=10", f"alone get {last} all", "alone get 0001 all"]
    return Script(name, (), tuple(lines), begin)


def layers_at_once() -> Script:
    """Two keys that differ in their last byte alone, behind three slices: a call alone puts the second, and makes as
    many layers. Two more puts alone are over their rows."""
    first, second = ("61" * 24 + last for last in ("61", "62"))
    lines = [f"alone put {first} 0=-", f"alone put {second} 0=-", f"alone put {first} 0=01", f"alone put {second} 0=02"]
    lines += [f"alone get {first} all", f"alone get {second} all"]
    return Script("layers_at_once", (), tuple(lines), 1)


def twenty_layers() -> Script:
    """Two keys that differ in their last byte alone, behind twenty slices: the second put, by single steps, makes as
    many layers, and when both are removed they are taken out."""
    deep = 20
    first, second = ("61" * (8 * deep) + last for last in ("61", "62"))
    lines = [f"alone put {first} 0=-", f"begin 1 put {second} 0=-", *["step 2"] * (13 * deep + 10)]
    lines += [f"begin 1 get {second} all", *["step 3"] * (7 * deep + 8)]
    lines += [f"alone remove {first}", f"alone remove {second}", *[f"alone tidy {second}"] * (deep + 1), "collect"]
    return Script("twenty_layers", (), tuple(lines))


# by the number of nodes below layer 0: 5 has the memory of nodes full at the new root, 6 at the half; and of an
# interior 12 at the new root, 13 at its half, 14 at the border's half
MADE: Dict[str, Callable[[], Script]] = {
    **{f"full_border_{nodes}": partial(full_border, f"full_border_{nodes}", nodes) for nodes in (0, 5, 6)},
    **{f"full_interior_{nodes}": partial(full_interior, f"full_interior_{nodes}", nodes) for nodes in (12, 13, 14)},
    **{f"border_at_once_{nodes}": partial(at_once, f"border_at_once_{nodes}", 15, nodes) for nodes in (0, 5, 6)},
    **{f"interior_at_once_{nodes}": partial(at_once, f"interior_at_once_{nodes}", 135, nodes)
       for nodes in (12, 13, 14)},
    "layers_at_once": layers_at_once, "twenty_layers": twenty_layers}


def script_of(name: str) -> Script:
    return MADE[name]() if name in MADE else written(name)


def keys_of(lines: Sequence[str]) -> List[bytes]:
    """The keys that a script names, as far as they can be put."""
    keys = set()
    for line in lines:
        command = command_of(line)
        if command is not None and command.request is not None and command.request.is_change():
            keys.add(command.request.key)
    return sorted(key for key in keys if len(key) <= MAX_KEY_BYTES)


def ending(script: Script, gathered: Gathering, views: int) -> List[str]:
    """What is done after a script. All calls are finished, so no lock may be left. Each row is read, and each view
    once more where it has been taken on to the end. Each key is put: its border's lock is free. Then each is
    removed, what is empty is taken out and freed, and new keys make nodes again."""
    keys = [word_of(key) for key in keys_of(script.lines)]
    last = gathered.last_call + gathered.unsure + 1
    lines = [f"finish {call}" for _ in range(ROUNDS) for call in range(1, last + 1)]
    lines += ["apply 0"] * (min(400, views * (len(gathered.commits) + 1)))
    for view in range(1, views + 1):
        lines += [f"view {view} 0 - 1000", f"drop {view}"]
    lines += [f"alone get {key} all" for key in keys] + ["alone range - 1000 all"]
    lines += [f"alone put {key} 0=ee" for key in keys] + ["alone range - 1000 all"]
    lines += [f"alone remove {key}" for key in keys] + ["alone range - 1000 all"]
    lines += [f"alone tidy {key}" for _ in range(TIDIES) for key in keys] + ["advance", "collect"]
    return lines


def growing(count: int) -> List[str]:
    """Puts of so many new keys, which make nodes again: the memory of nodes grows at the same put wherever as many
    numbers of nodes were free before."""
    return [f"alone put ff{number:06x} -" for number in range(count)]
