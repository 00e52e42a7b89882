"""Refuses the allocations of a script one at a time, and judges each run: by the run without refusal, by a run
without the refused line, and by the plain map."""
from __future__ import annotations

from bisect import bisect_left, bisect_right
from collections import Counter
from dataclasses import dataclass
from typing import Dict, FrozenSet, List, Optional, Sequence, Tuple

from lines import Request
from reading import Held, Said, Wrong, said_of, want
from scripts import Script, ending, growing
from shim import Run, Shim, is_one_line

# a line that does nothing, instead of one that was refused; and a call that changes nothing, if its number counts
# (while it is open it holds the log: if a feed shows that, the plain map judges)
NOTHING = "drop 18446744073709551615"
GET = "get - all"
LARGE = 1500
REFUSED = "refused 1"
# new keys in their order split a border after each 8 of them
KEYS_OF_A_SPLIT = 8
KEYS_OF_NODES = 600
# the memory of nodes begins with room for 4, and is looked at from room for as many on: smaller pieces may be others
FIRST_NODES, FEWEST_NODES = 4, 16

# what a refusal came to
OWN = "ended the program"
SAME = "answered as without the line"
PLAIN = "answered as the plain map"
LEFT_OUT = "left out for later"
UNSEEN = "seen by none"


@dataclass(frozen=True)
class Played:
    """A run of lines, with the answer to each, and the byte of the output at which that begins."""

    lines: Tuple[str, ...]
    run: Run
    said: Tuple[Said, ...]
    begins: Tuple[int, ...]

    def at(self, written: int) -> Tuple[int, int]:
        """The lines that may be in work where so many bytes were written: the first and the last of them."""
        first, last = bisect_left(self.begins, written), bisect_right(self.begins, written) - 1
        want(first <= last, f"a part of an answer was written, to byte {written}")
        return first, last


def played(lines: Sequence[str], run: Run) -> Played:
    said = said_of(lines, run.answers())
    begins, at = [], 0
    for one in said:
        begins.append(at)
        at += sum(len(answer) + 1 for answer in one.answers)
    return Played(tuple(lines), run, tuple(said), tuple(begins))


def rooms_of(it: Played, node: int, begin: int) -> List[Tuple[int, int]]:
    """The pieces of memory that the nodes get from line `begin` on, each with the line and how many nodes have room."""
    return [(it.at(told.written)[0], told.size // node) for told in it.run.told
            if told.written >= it.begins[begin] and told.size % node == 0 and told.size // node >= FEWEST_NODES]


class Stepping:
    """A script with its ending, the run without refusal, and the runs in each of which one allocation is refused."""

    def __init__(self, shim: Shim, script: Script) -> None:
        self.shim, self.script = shim, script
        self.others: Dict[Tuple[Tuple[int, str], ...], Played] = {}
        self.counts: Counter[str] = Counter()
        self.node = self.size_of_node()
        plain = self.play(script.lines)
        held = Held(script.columns, plain.said)
        self.tail = len(script.lines)
        self.lines = list(script.lines) + ending(script, held.gathered, len(held.specs))
        self.grown = len(self.lines)
        # if room for nodes is returned, what is left of it depends on what was refused, and says nothing of numbers
        self.has_kept_room = self.keeps_room(self.play(self.lines))
        if self.has_kept_room:
            self.add_growing()
        self.whole = self.play(self.lines)
        self.held = Held(script.columns, self.whole.said)
        want(all(one.answer != REFUSED for one in self.whole.said), "memory is wanting without refusals")
        want(self.is_ended(self.whole), "a call after the script doesn't end")
        self.places = self.places_of_each()

    def play(self, lines: Sequence[str], refused: Sequence[int] = (), large: int = LARGE) -> Played:
        return played(lines, self.run(lines, refused, large))

    def run(self, lines: Sequence[str], refused: Sequence[int], large: int) -> Run:
        given = "".join(line + "\n" for line in lines).encode("latin-1")
        return self.shim.run(self.script.words, given, refused, large)

    def add_growing(self) -> None:
        """New keys at the end, until the memory of nodes grows by them, and grows once more: a run with a refusal may
        have had more nodes at once before."""
        count = 64
        while True:
            lines = self.lines[:self.grown] + growing(count)
            if len(self.growth_of(self.play(lines))) > 1:
                self.lines = lines
                return
            count *= 2
            want(count < 100_000, "the memory of nodes doesn't grow")

    def size_of_node(self) -> int:
        """The bytes of a node. The memory of the nodes of an index that is put in order is its greatest piece."""
        sizes = [told.size for told in self.play(growing(KEYS_OF_NODES)).run.told]
        first = min(size for size in sizes if max(sizes) % size == 0 and (max(sizes) // size).bit_count() == 1)
        want(first % FIRST_NODES == 0, "the memory of nodes doesn't begin with room for four")
        return first // FIRST_NODES

    def keeps_room(self, it: Played) -> bool:
        """Whether the memory of nodes only grows."""
        rooms = [room for _, room in rooms_of(it, self.node, 0)]
        return rooms == sorted(rooms)

    def growth_of(self, it: Played) -> List[Tuple[int, int]]:
        """The lines of new keys at which the memory of nodes grows, and to room for how many. It is greater than other
        pieces whose size is by chance a multiple of a node's."""
        found: List[Tuple[int, int]] = []
        for at, room in rooms_of(it, self.node, self.grown):
            if not found or room > found[-1][1]:
                found.append((at, room))
        return found

    def places_of_each(self) -> Dict[int, Tuple[int, int]]:
        """For each allocation the first and the last line that may be in work there, up to the end of the script."""
        all_told = self.play(self.lines, large=1).run.told
        want([told.number for told in all_told] == list(range(1, len(all_told) + 1)), "allocations aren't told")
        first, last = self.whole.begins[self.script.begin], self.whole.begins[self.tail]
        return {told.number: self.whole.at(told.written) for told in all_told
                if (self.script.begin == 0 or told.written >= first) and told.written < last}

    # -- one refusal

    def answered(self) -> int:
        """How many refusals didn't end the program."""
        return sum(count for kind, count in self.counts.items() if kind != OWN)

    def refuse(self, number: int) -> None:
        """Refuses one allocation, and judges what came of it."""
        run = self.run(self.lines, [number], LARGE)
        told = [one for one in run.told if one.number == number]
        want(len(told) == 1, "the allocation isn't made again")
        if run.status == 3:
            self.judge_own(run, told[0].written)
            self.counts[OWN] += 1
            return
        want(run.status == self.whole.run.status, f"it ended with status {run.status}")
        want(run.errors == b"", f"it wrote on standard error: {run.errors[:80]!r}")
        it = played(self.lines, run)
        want(self.whole.at(told[0].written) == self.places[number], "another line is in work")
        kind = self.judge(it, self.places[number])
        self.counts[kind] += 1
        want(self.is_ended(it), "a call after the script doesn't end")
        # a border that was not posted is found from its left alone, so no tidy takes it out
        if self.has_kept_room:
            self.judge_growth(it, [number], (0, 1) if kind == LEFT_OUT else (0,))

    def judge_growth(self, it: Played, refused: Sequence[int], nodes: Sequence[int]) -> int:
        """Behind the script, the memory of nodes grows at the same new key as without refusals, so no number of a
        node is lost; or there are more nodes, but as many as may be. Gives how many."""
        whole, count = self.whole, len(self.lines) - self.grown
        while not self.growth_of(it):
            # there were more nodes at once than ever without refusals: then it takes more new keys
            count *= 4
            want(count < 200_000, "the memory of nodes doesn't grow")
            lines = self.lines[:self.grown] + growing(count)
            whole, it = self.play(lines), self.play(lines, refused)
        wanted, (at, size) = self.growth_of(whole), self.growth_of(it)[-1]
        for more in nodes:
            if (at + more * KEYS_OF_A_SPLIT, size) in wanted:
                return more
        raise Wrong(f"numbers of nodes are lost: the memory of nodes grows at {(at, size)}, not at {wanted}")

    def judge_own(self, run: Run, written: int) -> None:
        """The program's own want: it ends there, with one line."""
        want(is_one_line(run.errors, self.shim.program), f"it wrote on standard error {run.errors[:80]!r}")
        want(run.output == self.whole.run.output[:written], "it has written something else than the answers so far")

    def judge(self, it: Played, place: Tuple[int, int]) -> str:
        refused = [at for at, one in enumerate(it.said) if REFUSED in one.answers]
        want(len(refused) <= 1, f"lines {refused} are refused")
        if not refused:
            return self.judge_unrefused(it, place)
        at = refused[0]
        command = it.said[at].command
        assert command is not None
        if command.word in ("step", "finish"):
            return self.judge_call(it, at, place, command.numbers[0])
        want(place[0] <= at <= place[1], f"line {at + 1} is refused, but it fell in line {place[0] + 1}")
        instead = [NOTHING] + ([f"alone {GET}"] if command.word == "alone" else [])
        if any(self.is_same(it, {at: line}, frozenset([at])) for line in instead):
            return SAME
        # a put that fails after it has split its border leaves the split
        is_put = command.word == "alone" and command.request is not None and command.request.kind == "put"
        want(is_put, f"line {at + 1} is refused, and what follows isn't as without it")
        Held(self.script.columns, it.said)
        return PLAIN

    def judge_call(self, it: Played, at: int, place: Tuple[int, int], call: int) -> str:
        """A call was refused at a later line than its begin: where it fell, or at a later step of the same call."""
        begin = next(line for line, one in enumerate(it.said) if one.answer == f"call {call}")
        own = [line for line, one in enumerate(it.said) if one.command is not None and line <= at
               and one.command.word in ("step", "finish") and one.command.numbers[0] == call]
        want(any(place[0] <= line <= place[1] for line in own), f"line {at + 1} is refused, it fell in {place[0] + 1}")
        words = it.said[begin].line.split(" ")
        # (in its place the get makes all its steps in the one line, so that nothing comes in between)
        lines = {begin: f"begin {words[1]} {GET}", **{line: NOTHING for line in own}, at: f"finish {call}"}
        if self.is_same(it, lines, frozenset([begin, *own])):
            return SAME
        Held(self.script.columns, it.said)
        return PLAIN

    def judge_unrefused(self, it: Played, place: Tuple[int, int]) -> str:
        """No line was refused: all is answered as without the refusal, but where a put has left out a posting. Then its
        steps are fewer, tidies find other nodes, and the same changes are committed."""
        differ = [at for at, one in enumerate(it.said) if one.answers != self.whole.said[at].answers]
        if not differ:
            return UNSEEN
        held = Held(self.script.columns, it.said)
        want(any(self.is_of_put(it, at) for at in range(place[0], place[1] + 1)), f"line {place[0] + 1} posts nothing")
        want(differ[0] >= place[0], "a line before it is answered otherwise")
        for at in differ:
            words = it.said[at].line.split(" ")
            want(words[0] in ("step", "finish", "collect") or words[:2] == ["alone", "tidy"],
                 f"line {at + 1} is answered otherwise, and none is refused")
        want(changes_of(held) == changes_of(self.held), "other changes are committed")
        return LEFT_OUT

    def is_of_put(self, it: Played, at: int) -> bool:
        """Whether a line continues with a put."""
        command = it.said[at].command
        if command is None:
            return False
        if command.word in ("step", "finish"):
            begin = [one.command for one in it.said if one.answer == f"call {command.numbers[0]}"][0]
            return begin is not None and begin.request is not None and begin.request.kind == "put"
        return command.word == "alone" and command.request is not None and command.request.kind == "put"

    def is_same(self, it: Played, instead: Dict[int, str], skipped: FrozenSet[int]) -> bool:
        """Whether all other lines are answered as where these stand in the place of some."""
        key = tuple(sorted(instead.items()))
        if key not in self.others:
            other = self.play([instead.get(at, line) for at, line in enumerate(self.lines)])
            Held(self.script.columns, other.said)
            self.others[key] = other
        other = self.others[key]
        return all(one.answers == other.said[at].answers for at, one in enumerate(it.said) if at not in skipped)

    def is_ended(self, it: Played) -> bool:
        """Whether each call after the script has ended, so that no lock and no call is left."""
        alone = [one.answer for one in it.said[self.tail:] if one.line.startswith("alone ")]
        return all(answer.startswith("done ") for answer in alone)


def changes_of(held: Held) -> Counter[Request]:
    """The changes that were committed, each as often as it was."""
    return Counter(one.request for one in held.gathered.commits.values())


def refuse_all(stepping: Stepping, numbers: Sequence[int]) -> Optional[str]:
    """Refuses each of these; why it is wrong, or nothing."""
    for number in numbers:
        try:
            stepping.refuse(number)
        except Wrong as wrong:
            return f"with allocation {number} refused, in line {stepping.places[number][0] + 1}: {wrong}"
    return None
