"""Scripts by chance of which allocations are refused by chance, many in one run.

The program ends if it is itself out of memory, for a line or its answer. Such an allocation is spared and the run made
again: the runs are the same up to there. So at last a run comes to its end in which all others that were drawn are
refused.
"""
from __future__ import annotations

import random
from dataclasses import dataclass
from typing import List, Sequence

from lines import word_of
from reading import Held, want
from scripts import Script, marked
from shim import Run, is_one_line
from stepping import REFUSED, Stepping

ODDS = 20
MOST_UNPOSTED = 20
CALLS_AT_ONCE = 10


def keys_of_one_layer() -> List[bytes]:
    return [number.to_bytes(2, "big") for number in range(1, 200)]


def keys_of_layers(chance: random.Random) -> List[bytes]:
    """Keys that share slices, of many lengths."""
    above = [b"", b"a", b"abcdefgh", b"abcdefghijklmnop", b"abcdefghijklmnoq", bytes(8), bytes(16)]
    return sorted({chance.choice(above) + chance.randbytes(chance.choice((0, 1, 2, 8, 9))) for _ in range(160)})


@dataclass
class Writer:
    """Writes the lines of a script by chance, over these keys."""

    chance: random.Random
    keys: Sequence[bytes]
    begun: int = 0
    built: int = 0

    def line(self, puts: float) -> str:
        kind = self.chance.random()
        if kind < 0.36:
            self.begun += 1
            return f"begin {self.chance.randint(1, 3)} {self.request(puts)}"
        if kind < 0.62:
            return f"step {self.call()}"
        if kind < 0.90:
            return f"finish {self.call()}"
        return self.chance.choice((*["apply 0"] * 4, "advance", "collect", self.feed(), self.view()))

    def request(self, puts: float) -> str:
        key, kind = word_of(self.chance.choice(self.keys)), self.chance.random()
        if kind < puts:
            return f"put {key} {self.chance.randint(0, 1)}={word_of(self.chance.randbytes(self.chance.randint(0, 9)))}"
        if kind < 0.80:
            return self.chance.choice((f"remove {key}", f"remove {key}", f"tidy {key}"))
        if kind < 0.90:
            return f"get {key} {self.chance.choice(('all', '0', '1,0'))}"
        if kind < 0.98:
            return f"range {key} {self.chance.choice((1, 5, 20, 1000))} all"
        self.built += 1
        return "build " + self.chance.choice(("range - none any", f"prefix {key} any", "range - none atleast 0 300"))

    def call(self) -> int:
        return max(1, self.begun - self.chance.randint(-1, CALLS_AT_ONCE))

    def feed(self) -> str:
        return f"feed {self.chance.randint(0, self.begun)} {self.chance.choice((1, 3, 1000))}"

    def view(self) -> str:
        view = self.chance.randint(1, self.built + 1)
        if self.chance.random() < 0.2:
            return f"drop {view}"
        return f"view {view} 0 {word_of(self.chance.choice(self.keys))} {self.chance.choice((1, 5, 1000))}"


def script_by_chance(seed: int, count: int) -> Script:
    """A script of `count` lines: many puts first, then as many removes as puts."""
    chance = random.Random(f"script {seed}")
    keys = keys_of_one_layer() if seed % 2 == 0 else keys_of_layers(chance)
    writer = Writer(chance, keys)
    lines = marked([writer.line(0.65 if at < count // 2 else 0.35) for at in range(count)])
    options = ("--columns", "2", "--log-capacity", "65536", "--log-retention", "100")
    return Script(f"chance_{seed}", options, tuple(lines))


@dataclass(frozen=True)
class ByChance:
    """How many allocations were refused, and how many of those ended the program; how many lines were refused; and how
    many nodes there are more than without refusals, when all keys are removed and what is empty is taken out."""

    refused: int
    own: int
    lines: int
    nodes: int


def refuse_by_chance(stepping: Stepping, seed: int) -> ByChance:
    """Refuses allocations by chance, up to the end of the script; raises where an answer is wrong."""
    chance = random.Random(f"refusals {seed}")
    # (a run with refusals makes other allocations: as many numbers are drawn as there can be)
    drawn = [number for number in range(1, 2 * max(stepping.places)) if chance.randrange(ODDS) == 0]
    script = stepping.lines[:stepping.tail]
    own, before = 0, b""
    while True:
        run = stepping.run(script, drawn, 1 << 40)
        want(run.output.startswith(before), "what came before the program's own want is another now")
        if run.status != 3:
            break
        last = run.told[-1]
        want(is_one_line(run.errors, stepping.shim.program), f"it wrote on standard error {run.errors[:80]!r}")
        want(len(run.output) == last.written, "it wrote something after the refusal")
        own, before = own + 1, run.output
        drawn.remove(last.number)
    want((run.status, run.errors) == (0, b""), f"it ended with status {run.status}")
    return judge(stepping, run, own)


def judge(stepping: Stepping, run: Run, own: int) -> ByChance:
    """Holds a whole run against the plain map, with the same refusals in the script and none after it."""
    refused = [told.number for told in run.told]
    whole = stepping.play(stepping.lines, refused)
    want(whole.run.output.startswith(run.output), "the same refusals are answered otherwise")
    Held(stepping.script.columns, whole.said)
    want(stepping.is_ended(whole), "a call after the script doesn't end")
    lines = sum(REFUSED in one.answers for one in whole.said)
    more = stepping.judge_growth(whole, refused, range(MOST_UNPOSTED)) if stepping.has_kept_room else 0
    return ByChance(len(refused) + own, own, lines, more)
