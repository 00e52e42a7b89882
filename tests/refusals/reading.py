"""Holds the answers to a script against a plain map: each call, commit, row, range, view and delta.

The answers are read twice. `Gathering` goes over them once, and finds each call's begin and end, each commit's number
and the lines among which it was made. Then `Held` folds the commits, and asks of each answer whether a plain map gives
it: of a get or range at some number of commits from its begin to its end, of a page of a view at the number of its
own commits.
"""
from __future__ import annotations

from dataclasses import dataclass, field
from typing import Dict, List, NamedTuple, Optional, Sequence, Set, Tuple

from lines import (MAX_KEY_BYTES, Columns, Command, Pair, Request, amount_of, changed, command_of, delta_text,
                   number_of, pair_of, pair_text, values_of)

Change = Tuple[int, Optional[Columns]]
# the line after each feed, whose answer shows where the deltas of the feed end; it names no view
MARK = "apply 18446744073709551615"
MARKED = "refused 11"


class Wrong(Exception):
    """An answer that a plain map doesn't give."""


def want(is_so: bool, why: str) -> None:
    if not is_so:
        raise Wrong(why)


class Said(NamedTuple):
    """A line of a script with the lines of its answer."""

    line: str
    command: Optional[Command]
    answers: Tuple[str, ...]

    @property
    def answer(self) -> str:
        return self.answers[0] if self.answers else ""


def said_of(lines: Sequence[str], answers: Sequence[str]) -> List[Said]:
    """Each line with its answers: those of a feed continue to its mark."""
    said: List[Said] = []
    at = 0
    for line in lines:
        command, begin = command_of(line), at
        at += 1
        # (which lines are bad ones isn't judged here)
        if begin < len(answers) and answers[begin] == "bad line":
            command = None
        if command is not None and command.word == "feed":
            at = begin
            while at < len(answers) and answers[at] != MARKED:
                at += 1
        want(at <= len(answers), f"there is no answer to line {len(said) + 1}: {line[:60]}")
        said.append(Said(line, command, tuple(answers[begin:at])))
    want(at == len(answers), f"there are {len(answers) - at} lines more than answers")
    return said


@dataclass
class Call:
    """A call: what it asks, the lines of its begin and end, and what it came to."""

    request: Request
    begun: int
    ended: Optional[int] = None
    answer: str = ""
    commit: Optional[int] = None
    may_have_made: List[int] = field(default_factory=list)


@dataclass(frozen=True)
class Commit:
    """A commit: its change, and the first and last line in which it may have been made."""

    request: Request
    first: int
    last: int


def done_words(answer: str) -> List[str]:
    """The words of `done FROM TO ANSWER`."""
    words = answer.split(" ")
    want(len(words) >= 4 and words[0] == "done", f"{answer[:60]!r} is no end of a call")
    return words


class Gathering:
    """The calls and commits of a script, as its answers tell them."""

    def __init__(self, said: Sequence[Said]) -> None:
        self.said = said
        self.open: Dict[int, Call] = {}
        self.calls: List[Call] = []
        self.commits: Dict[int, Commit] = {}
        self.last_call = 0
        # refused calls alone: their begin may have taken a number or not
        self.unsure = 0
        for at, one in enumerate(said):
            if one.command is not None:
                self.take(at, one, one.command)
            else:
                want(one.answer == "bad line", f"line {at + 1} is a bad line, answered {one.answer!r}")
        self.tighten()

    def take(self, at: int, one: Said, command: Command) -> None:
        try:
            if command.word == "begin":
                self.begin(at, one.answer, command)
            elif command.word == "alone":
                self.alone(at, one.answer, command)
            elif command.word in ("step", "finish"):
                self.step(at, one.answer, command)
        except Wrong as wrong:
            raise Wrong(f"line {at + 1}, {one.line[:60]!r}, answered {one.answer[:60]!r}: {wrong}") from None

    def begin(self, at: int, answer: str, command: Command) -> None:
        if answer.startswith("refused "):
            return
        words = answer.split(" ")
        want(len(words) == 2 and words[0] == "call", "a begin is answered otherwise")
        number = number_of(words[1])
        want(self.last_call < number <= self.last_call + 1 + self.unsure,
             f"the call before has number {self.last_call}")
        assert command.request is not None
        self.last_call, self.unsure = number, 0
        self.open[number] = Call(command.request, at)
        self.calls.append(self.open[number])

    def alone(self, at: int, answer: str, command: Command) -> None:
        want((answer == "busy") == bool(self.open), f"{len(self.open)} calls are open")
        if answer == "busy":
            return
        assert command.request is not None
        if answer.startswith("refused "):
            self.unsure += 1
            self.calls.append(Call(command.request, at, at, answer))
            return
        self.last_call += 1
        call = Call(command.request, at)
        self.calls.append(call)
        self.end(at, at, call, answer)

    def step(self, at: int, answer: str, command: Command) -> None:
        number = command.numbers[0]
        call = self.open.get(number)
        want((call is None) == (answer == "refused 9"), "the call is open" if call else "the call isn't open")
        if call is None:
            return
        if answer.startswith("commit "):
            want(command.word == "step", "a line of more than one step ends with a commit")
            self.commit(call, number_of(answer[7:]), at, at)
        elif answer in ("moved", "again"):
            want(answer == "again" or command.word == "step", "a line of more than one step ends with moved")
            if command.word == "finish":
                call.may_have_made.append(at)
        else:
            del self.open[number]
            self.end(call.may_have_made[0] if call.may_have_made else at, at, call, answer)

    def end(self, first: int, at: int, call: Call, answer: str) -> None:
        call.ended, call.answer = at, answer
        if answer.startswith("refused "):
            want(call.commit is None, f"a call is refused that made commit {call.commit}")
            return
        kind = done_words(answer)[3]
        if kind in ("put", "removed"):
            self.commit(call, number_of(answer.split(" ")[4]), first, at)
        else:
            want(call.commit is None, f"a call made commit {call.commit}, and answers {kind}")

    def commit(self, call: Call, number: int, first: int, last: int) -> None:
        want(call.request.is_change(), "a call that changes nothing commits")
        if call.commit is None:
            want(number not in self.commits, f"there is a commit {number} already")
            self.commits[number] = Commit(call.request, first, last)
        want(call.commit in (None, number), f"its commit was {call.commit}")
        call.commit = number

    def tighten(self) -> None:
        """Commits are made in the order of their numbers: that tells more of those made somewhere within a line."""
        count = len(self.commits)
        want(sorted(self.commits) == list(range(1, count + 1)), "the commits aren't numbered without a gap")
        for number in range(2, count + 1):
            one, before = self.commits[number], self.commits[number - 1]
            self.move(number, max(one.first, before.first), one.last)
        for number in range(count - 1, 0, -1):
            one, behind = self.commits[number], self.commits[number + 1]
            self.move(number, one.first, min(one.last, behind.last))

    def move(self, number: int, first: int, last: int) -> None:
        want(first <= last, f"commit {number} is made out of the order of numbers")
        self.commits[number] = Commit(self.commits[number].request, first, last)

    def counts(self) -> List[Tuple[int, int]]:
        """After each line, the least and the greatest number of commits there may be."""
        least, most = [0] * (len(self.said) + 1), [0] * (len(self.said) + 1)
        for one in self.commits.values():
            least[one.last] += 1
            most[one.first] += 1
        counts, low, high = [], 0, 0
        for at in range(len(self.said)):
            low, high = low + least[at], high + most[at]
            counts.append((low, high))
        return counts


class Rows:
    """The rows after each number of commits."""

    def __init__(self, columns: int, commits: Dict[int, Commit]) -> None:
        self.past: Dict[bytes, List[Change]] = {}
        self.deltas: List[str] = []
        for number in range(1, len(commits) + 1):
            request = commits[number].request
            past = self.past.setdefault(request.key, [(0, None)])
            version, before = past[-1]
            found = 0 if before is None else version
            want(request.version in (None, found), f"commit {number} puts over version {found}")
            after = changed(request, columns, before)
            want(request.kind == "put" or before is not None, f"commit {number} removes a key without a row")
            past.append((number, after))
            self.deltas.append(delta_text(number, request.key, None if before is None else (version, before),
                                          None if after is None else (number, after)))
        self.keys = sorted(self.past)

    def states(self, key: bytes, first: int, last: int) -> List[Change]:
        """What stood under a key at some number of commits from the first to the last."""
        past = self.past.get(key, [(0, None)])
        before = [change for change in past if change[0] <= first]
        return [before[-1], *(change for change in past if first < change[0] <= last)]

    def at(self, key: bytes, number: int) -> Change:
        return self.states(key, number, number)[0]


class Views:
    """The views that stand, each with the numbers of commits at which it may stand: a build among other calls
    doesn't tell where its view opens, but what is said of the view later does."""

    def __init__(self) -> None:
        self.may: Dict[int, Set[int]] = {}

    def pin(self, view: int, at: int) -> None:
        want(at in self.may[view], f"view {view} is at none but {sorted(self.may[view])[:5]}")
        self.may[view] = {at}

    def newest(self, view: int, counts: Tuple[int, int]) -> None:
        """It is at the newest commit."""
        self.may[view] = {at for at in self.may[view] if counts[0] <= at <= counts[1]}
        want(bool(self.may[view]), f"view {view} doesn't stand at the newest commit")

    def apply(self, view: int, answer: str, counts: Tuple[int, int]) -> None:
        if answer == "current":
            self.newest(view, counts)
            return
        want(answer.startswith("applied "), "an apply is answered otherwise")
        at = number_of(answer[8:])
        want(at <= counts[1], "there are fewer commits")
        self.pin(view, at - 1)
        self.may[view] = {at}

    def apply_any(self, answer: str, counts: Tuple[int, int]) -> None:
        """The view that is furthest behind is taken on, of several the one of the smallest number."""
        if answer == "current":
            for view in self.may:
                self.newest(view, counts)
            return
        want(answer.startswith("applied "), "an apply is answered otherwise")
        at = number_of(answer[8:])
        want(at <= counts[1], "there are fewer commits")
        may_be = [view for view in self.may if at - 1 in self.may[view]
                  and all(max(self.may[other]) >= at - (other > view) for other in self.may if other != view)]
        want(bool(may_be), f"no view is at {at - 1} and the furthest behind")
        for view, stands in self.may.items():
            least = at - 1 if len(may_be) > 1 or view >= may_be[0] else at
            self.may[view] = {number for number in stands if number >= least} | ({at} if view in may_be else set())
        if len(may_be) == 1:
            self.may[may_be[0]] = {at}


class Held:
    """The answers of a script, held against the plain map. Raises `Wrong` at the first that it doesn't give."""

    def __init__(self, columns: int, said: Sequence[Said]) -> None:
        self.columns = columns
        self.gathered = Gathering(said)
        self.rows = Rows(columns, self.gathered.commits)
        self.counts = self.gathered.counts()
        self.views = Views()
        self.specs: Dict[int, Request] = {}
        self.epoch = 0
        ends = {call.ended: call for call in self.gathered.calls if call.ended is not None}
        for at, one in enumerate(said):
            try:
                if at in ends:
                    self.end(ends[at])
                if one.command is not None:
                    self.other(at, one, one.command)
            except Wrong as wrong:
                raise Wrong(f"line {at + 1}, {one.line[:60]!r}, answered {one.answer[:60]!r}: {wrong}") from None

    # -- calls

    def end(self, call: Call) -> None:
        if call.answer.startswith("refused 16 "):
            self.found_other(call, number_of(call.answer[11:]))
        if call.answer.startswith("refused "):
            return
        assert call.ended is not None
        words = done_words(call.answer)
        first, last = number_of(words[1]), number_of(words[2])
        before = self.counts[call.begun - 1] if call.begun > 0 else (0, 0)
        after = self.counts[call.ended]
        want(before[0] <= first <= before[1], f"there were {before} commits at its begin")
        want(after[0] <= last <= after[1], f"there are {after} commits at its end")
        self.answered(call, words[3:], first, last)

    def found_other(self, call: Call, found: int) -> None:
        """A conditional put is refused by a version that its key's row had during the call, not the one asked."""
        assert call.ended is not None
        first = self.counts[call.begun - 1][0] if call.begun > 0 else 0
        states = self.rows.states(call.request.key, first, self.counts[call.ended][1])
        want(call.request.version not in (None, found), "it asked for no other version")
        want(found in [0 if row is None else number for number, row in states], "its key's row had no such version")

    def answered(self, call: Call, words: List[str], first: int, last: int) -> None:
        request, kind = call.request, words[0]
        if kind in ("put", "removed"):
            want(kind == ("put" if request.kind == "put" else "removed"), "another kind of call is answered")
            want(first < number_of(words[1]) <= last, "its commit isn't within its span")
        elif kind == "absent":
            want(request.kind in ("get", "remove"), "another kind of call is answered")
            want(any(row is None for _, row in self.rows.states(request.key, first, last)),
                 "its key had a row throughout")
        elif kind == "row":
            row = (number_of(words[1]), values_of(words[2]))
            want(request.kind == "get" and row in self.shown(request, request.key, first, last),
                 "its key had no such row")
        elif kind == "rows":
            self.range(request, [pair_of(word) for word in words[2:]], number_of(words[1]), first, last)
        elif kind == "built":
            self.built(request, number_of(words[1]), first, last)
        else:
            want(kind == "tidied" and request.kind == "tidy", "another kind of call is answered")

    def shown(self, request: Request, key: bytes, first: int, last: int) -> List[Tuple[int, Columns]]:
        states = self.rows.states(key, first, last)
        return [(number, request.shown(row)) for number, row in states if row is not None]

    def range(self, request: Request, pairs: List[Pair], count: int, first: int, last: int) -> None:
        keys = [key for key, _, _ in pairs]
        want(request.kind == "range" and count == len(pairs) <= request.limit, "its number of rows is another")
        want(keys == sorted(set(keys)) and (not keys or keys[0] >= request.key), "its keys aren't in order")
        for key, version, row in pairs:
            want((version, row) in self.shown(request, key, first, last), f"{key.hex()} had no such row")
        given = set(keys)
        for key in self.rows.keys:
            is_asked = key >= request.key and (count < request.limit or key <= keys[-1])
            if is_asked and key not in given:
                want(any(row is None for _, row in self.rows.states(key, first, last)), f"{key.hex()} is left out")

    def built(self, request: Request, view: int, first: int, last: int) -> None:
        want(view == len(self.specs) + 1, f"{len(self.specs)} views were built before")
        self.specs[view] = request
        self.views.may[view] = set(range(first, last + 1))

    # -- views, epochs and the feed

    def other(self, at: int, one: Said, command: Command) -> None:
        if command.word in ("apply", "view", "drop") and one.answer != "refused 1":
            self.view_event(at, one.answer, command)
        elif command.word == "advance":
            self.epoch += 1
            want(one.answer == f"epoch {self.epoch}", f"the epoch is {self.epoch}")
        elif command.word == "collect":
            want(one.answer.startswith("freed "), "a collect is answered otherwise")
        elif command.word == "feed" and one.answers != ("refused 1",):
            self.fed(at, one, *command.numbers)

    def view_event(self, at: int, answer: str, command: Command) -> None:
        view = command.numbers[0]
        if command.word == "view":
            self.read(answer, command)
        elif command.word == "apply" and view == 0:
            self.views.apply_any(answer, self.counts[at])
        elif view not in self.views.may:
            want(answer == "refused 11", "no view has this number")
        elif command.word == "apply":
            self.views.apply(view, answer, self.counts[at])
        else:
            want(answer == "dropped", "the view exists")
            del self.views.may[view]

    def read(self, answer: str, command: Command) -> None:
        """A page: exactly that of the number of commits at which its view is."""
        view, floor, limit = command.numbers
        if len(command.start) > MAX_KEY_BYTES or not 1 <= limit <= 1000:
            want(answer == ("refused 2" if len(command.start) > MAX_KEY_BYTES else "refused 5"), "it breaks a limit")
        elif view not in self.views.may:
            want(answer == "refused 11", "no view has this number")
        elif answer.startswith("refused 12 "):
            want(number_of(answer[11:]) < floor, "it is at the floor")
            self.views.pin(view, number_of(answer[11:]))
        else:
            want(answer.startswith("view "), "it is no page")
            stands = number_of(answer.split(" ")[1])
            self.views.pin(view, stands)
            want(stands >= floor, "it isn't at the floor")
            want(answer == self.page(view, stands, command.start, limit), "its page is another")

    def page(self, view: int, at: int, start: bytes, limit: int) -> str:
        """The text of a page, again from the rows after `at` commits."""
        spec = self.specs[view].spec
        assert spec is not None
        stood = [(key, *self.rows.at(key, at)) for key in self.rows.keys]
        rows = [(key, version, row) for key, version, row in stood if row is not None and spec.has(key, row)]
        sums = ",".join(str(sum(amount_of(row[column]) for _, _, row in rows)) for column in range(self.columns))
        shown = [pair_text(pair) for pair in rows if pair[0] >= start][:limit]
        return " ".join([f"view {at} {len(rows)} {sums} {len(shown)}", *shown])

    def fed(self, at: int, one: Said, begin: int, limit: int) -> None:
        if not 1 <= limit <= 1000:
            want(one.answers == ("refused 5",), "its limit is none")
            return
        low, high = self.counts[at]
        if one.answer.startswith("refused 12 "):
            want(begin < number_of(one.answer[11:]) <= high, "what it asks for isn't trimmed")
            return
        wanted = self.rows.deltas[begin:min(begin + limit, high)]
        want(len(one.answers) >= min(limit, max(0, low - begin)), "deltas are left out")
        want(list(one.answers) == wanted[:len(one.answers)], "the deltas are others")
