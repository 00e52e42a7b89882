"""What the page shows: keys and columns as text and as hex, specifications in words, and events as JSON."""
from __future__ import annotations

import json
from typing import TYPE_CHECKING, Any, List, NamedTuple, Sequence, Union

from ..core import AnyRow, Equals, Prefix, Row, RowTest, ViewSpec

if TYPE_CHECKING:
    from .state import Board, Card, Sample

# of a longer key the page shows the first bytes, and how many there are
SHOWN_BYTES = 128

# bytes in both notations, text first
Shown = List[str]


class Event(NamedTuple):
    """A server-sent event: its name, and one line of JSON."""

    name: str
    data: bytes

    def spelled(self) -> bytes:
        return b"event: %s\ndata: %s\n\n" % (self.name.encode(), self.data)


def event(name: str, value: Any) -> Event:
    # (in ASCII and without line feeds, whatever the value has)
    return Event(name, json.dumps(value, separators=(",", ":")).encode("ascii"))


# ---- bytes

def sign_text(sign: str) -> str:
    """A sign as the page shows it; one that can't be printed, or that begins an escape, as `\\xNN` for each byte."""
    if sign.isprintable() and sign != "\\":
        return sign
    return "".join(f"\\x{byte:02x}" for byte in sign.encode("utf-8", "surrogateescape"))


def as_text(value: bytes) -> str:
    """Bytes as UTF-8, in which `\\xNN` is any byte; `rowanspan.text.read_text` reads it back."""
    return "".join(map(sign_text, value.decode("utf-8", "surrogateescape")))


def shown(value: bytes) -> Shown:
    """Bytes as text and as hex."""
    kept = value[:SHOWN_BYTES]
    rest = "" if len(kept) == len(value) else f"… ({len(value):,} bytes)"
    return [as_text(kept) + rest, kept.hex() + rest]


# ---- specifications

# words as they are, and bytes in both notations
Words = List[Union[str, Shown]]


def test_words(test: RowTest) -> Words:
    if isinstance(test, AnyRow):
        return []
    if isinstance(test, Equals):
        return [f"with column {test.column} equal to", shown(test.value)]
    return [f"with column {test.column} at least {test.least:,}"]


def spec_words(spec: ViewSpec) -> Words:
    """A specification in words: `prefix KEY`, `from LO before HI`, and the test."""
    if isinstance(spec, Prefix):
        return ["prefix", shown(spec.key), *test_words(spec.test)]
    end: Words = ["to the last key"] if spec.hi is None else ["before", shown(spec.hi)]
    return ["from", shown(spec.lo), *end, *test_words(spec.test)]


# ---- events

def row_value(key: bytes, row: Row) -> List[Any]:
    return [shown(key), str(row.version), [shown(column) for column in row.columns]]


def card_event(card: Card) -> Event:
    """A view with its page. Numbers of commits, counts and sums are texts, since a browser's numbers are too small."""
    page = card.page
    return event("view", {
        "id": card.id, "number": str(card.number), "name": card.name, "token": card.token, "trouble": card.trouble,
        "note": card.note, "isOwn": card.is_own(), "lag": str(card.lag),
        "spec": None if card.spec is None else spec_words(card.spec),
        "page": None if page is None else {
            "at": str(page.at), "count": str(page.count), "sums": [str(number) for number in page.sums],
            "rows": [row_value(key, row) for key, row in page.rows]}})


def board_event(board: Board, link: str, why: str, cards: Sequence[int]) -> Event:
    """The board itself: whether its server answers, and which views there are, in their order."""
    return event("board", {"instance": board.instance, "link": link, "why": why, "cards": cards})


def samples_event(card_id: int, samples: Sequence[Sample]) -> Event:
    """The seconds of a view that are new, each with the count and the sums, as numbers that a line can be drawn of."""
    return event("samples", {"id": card_id, "samples": [
        [sample.second, [float(sample.count), *map(float, sample.sums)]] for sample in samples]})
