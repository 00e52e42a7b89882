"""Queries and answers as lines of text: those of scripts (`get KEY COLS`, `done FROM TO ANSWER`), and receipts for an
audit. Bytes are written in hex, or by `TEXT` as text.

    query = read_query("put 61 0=76", HEX)
    outcome_line(query, index.call_all([query])[0], HEX)    # "done 0 1 put 1"
"""
from __future__ import annotations

import re
from dataclasses import dataclass
from typing import Any, Callable, Dict, List, Optional, Sequence, Tuple, TypeVar

from .core import (AnyRow, AtLeast, Equals, Page, Pairs, Prefix, Range, Refused, Row, RowTest, Tidied, ViewSpec,
                   set_pairs)
from .reads import CountRange, GetMany, GetRangeBack, RowsAt
from .wire import Build, Get, GetRange, Outcome, Put, PutIf, Query, Remove, Reply, Tidy, ViewDrop, ViewRead

BYTE, WORD, DOUBLE, LONG = 2 ** 8 - 1, 2 ** 16 - 1, 2 ** 32 - 1, 2 ** 64 - 1
TIDY_NAMES = {Tidied.NOTHING: "none", Tidied.EMPTY_BORDER: "a", Tidied.LONE_CHILD: "b", Tidied.LONE_ROOT_CHILD: "c",
              Tidied.EMPTY_LAYER: "d"}


Value = TypeVar("Value")


class BadLine(ValueError):
    """A line or a word that doesn't read. Its text says what was expected; that of a line also says in which word."""


# ---- bytes as words

@dataclass(frozen=True)
class Notation:
    """How bytes are spelled in a word: `read` raises `BadLine`. No bytes are `-` in each."""

    read_some: Callable[[str], bytes]
    write_some: Callable[[bytes], str]

    def read(self, word: str) -> bytes:
        if not word:
            raise BadLine("expected bytes, or - for no bytes")
        return b"" if word == "-" else self.read_some(word)

    def write(self, value: bytes) -> str:
        return self.write_some(value) if value else "-"


def read_hex(word: str) -> bytes:
    """Hex of either case."""
    if len(word) % 2 or not re.fullmatch("[0-9a-fA-F]+", word):
        raise BadLine("expected bytes in hex, two digits for each, or - for no bytes")
    return bytes.fromhex(word)


def read_text(word: str) -> bytes:
    """UTF-8, in which `\\xNN` is any byte."""
    if re.search(r"\\(?!x[0-9a-fA-F]{2})", word):
        raise BadLine("expected text in which each backslash begins \\xNN, with two hex digits")
    parts = re.split(r"\\x([0-9a-fA-F]{2})", word)
    return b"".join(bytes.fromhex(part) if place % 2 else part.encode("utf-8", "surrogateescape")
                    for place, part in enumerate(parts))


def escaped(value: bytes) -> str:
    """Each byte as `\\xNN`."""
    return "".join(f"\\x{byte:02x}" for byte in value)


def write_text(value: bytes) -> str:
    """UTF-8 for what can be read back; other bytes, and the signs that separate words, as `\\xNN`."""
    word = "".join(sign if sign.isprintable() and sign not in " \\,:" else
                   escaped(sign.encode("utf-8", "surrogateescape"))
                   for sign in value.decode("utf-8", "surrogateescape"))
    # `-` says no bytes, and `none` no end
    return escaped(value[:1]) + word[1:] if word in ("-", "none") else word


HEX = Notation(read_hex, bytes.hex)
TEXT = Notation(read_text, write_text)


# ---- lines that are read

def read_number(word: str, most: int) -> int:
    """Decimal digits of a number that is at most this."""
    digits = word.lstrip("0")
    if not re.fullmatch("[0-9]+", word) or len(digits) > 20 or int(digits or "0") > most:
        raise BadLine(f"expected a number from 0 to {most}")
    return int(digits or "0")


def read_columns(word: str) -> Tuple[int, ...]:
    """`all`, or numbers joined by commas."""
    try:
        return () if word == "all" else tuple(read_number(part, BYTE) for part in word.split(","))
    except BadLine:
        raise BadLine(f"expected all, or numbers of columns from 0 to {BYTE} joined by commas") from None


def read_set(part: str, notation: Notation) -> Tuple[int, bytes]:
    """COL=BYTES."""
    column, stop, value = part.partition("=")
    if not stop:
        raise BadLine("expected COL=BYTES joined by commas, or -")
    return read_number(column, BYTE), notation.read(value)


def read_sets(word: str, notation: Notation) -> List[Tuple[int, bytes]]:
    """`-`, or COL=BYTES joined by commas."""
    return [] if word == "-" else [read_set(part, notation) for part in word.split(",")]


def read_values(word: str, notation: Notation) -> List[bytes]:
    """Bytes joined by commas."""
    values = [notation.read(part) for part in word.split(",")]
    if len(values) > WORD:
        raise BadLine(f"expected at most {WORD} keys")
    return values


@dataclass(frozen=True)
class Line:
    """The words of a line, and the notation of its bytes. Places count from 0 on; a fault says the word from 1 on."""

    words: Sequence[str]
    notation: Notation

    def read(self, place: int, read_word: Callable[[str], Value]) -> Value:
        """What a word says. Raises `BadLine`, which says which word it is."""
        try:
            return read_word(self.words[place])
        except BadLine as fault:
            raise BadLine(f"word {place + 1}, {quoted(self.words[place])}: {fault}") from None

    def value(self, place: int) -> bytes:
        return self.read(place, self.notation.read)

    def values(self, place: int) -> List[bytes]:
        """Bytes joined by commas: of keys, as many as a query can have."""
        return self.read(place, lambda word: read_values(word, self.notation))

    def end(self, place: int) -> Optional[bytes]:
        """The end of a range, where `none` is no end."""
        return None if self.words[place] == "none" else self.value(place)

    def number(self, place: int, most: int = LONG) -> int:
        return self.read(place, lambda word: read_number(word, most))

    def columns(self, place: int) -> Tuple[int, ...]:
        return self.read(place, read_columns)

    def sets(self, place: int) -> List[Tuple[int, bytes]]:
        return self.read(place, lambda word: read_sets(word, self.notation))

    def want_words(self, form: str, count: int) -> None:
        """Raises `BadLine` unless the line has this many words."""
        if len(self.words) != count:
            raise BadLine(f"expected {count} words, {form}, and found {len(self.words)}")


def quoted(word: str) -> str:
    """A word as a message shows it: its first forty signs, those that can't be printed as escapes."""
    return repr(word[:40]) + ("..." if len(word) > 40 else "")


TESTS: Dict[str, Tuple[str, Callable[[Line, int], RowTest]]] = {
    "any": ("any", lambda line, place: AnyRow()),
    "equals": ("equals COL BYTES", lambda line, place: Equals(line.number(place + 1, BYTE), line.value(place + 2))),
    "atleast": ("atleast COL NUMBER",
                lambda line, place: AtLeast(line.number(place + 1, BYTE), line.number(place + 2))),
}


def read_test(line: Line, place: int, form: str) -> RowTest:
    """`any`, `equals COL BYTES` or `atleast COL NUMBER`, from this place to the line's end."""
    if len(line.words) <= place:
        raise BadLine(f"expected {form} TEST, and found {len(line.words)} words only")
    test = TESTS.get(line.words[place])
    if test is None:
        raise BadLine(f"word {place + 1}, {quoted(line.words[place])}: expected any, equals or atleast")
    line.want_words(f"{form} {test[0]}", place + len(test[0].split()))
    return test[1](line, place)


def read_spec(line: Line) -> ViewSpec:
    """`build range LO HI TEST` or `build prefix KEY TEST`."""
    if len(line.words) < 2:
        raise BadLine("expected build range LO HI TEST or build prefix KEY TEST, and found 1 word only")
    if line.words[1] == "range":
        test = read_test(line, 4, "build range LO HI")
        return Range(line.value(2), line.end(3), test)
    if line.words[1] == "prefix":
        test = read_test(line, 3, "build prefix KEY")
        return Prefix(line.value(2), test)
    raise BadLine(f"word 2, {quoted(line.words[1])}: expected range or prefix")


# of each first word but `build`, the form of the line, and how it is read
READERS: Dict[str, Tuple[str, Callable[[Line], Query[Any]]]] = {
    "get": ("get KEY COLS", lambda line: Get(line.value(1), line.columns(2))),
    "put": ("put KEY SETS", lambda line: Put(line.value(1), line.sets(2))),
    "putif": ("putif KEY VERSION SETS", lambda line: PutIf(line.value(1), version=line.number(2), sets=line.sets(3))),
    "remove": ("remove KEY", lambda line: Remove(line.value(1))),
    "range": ("range START LIMIT COLS",
              lambda line: GetRange(line.value(1), line.number(2, WORD), line.columns(3))),
    "gets": ("gets KEYS COLS", lambda line: GetMany(line.values(1), line.columns(2))),
    "back": ("back END LIMIT COLS",
             lambda line: GetRangeBack(line.end(1), line.number(2, WORD), line.columns(3))),
    "count": ("count START END MOST",
              lambda line: CountRange(line.value(1), line.end(2), line.number(3, DOUBLE))),
    "tidy": ("tidy KEY", lambda line: Tidy(line.value(1))),
    "view": ("view VIEW FLOOR START LIMIT",
             lambda line: ViewRead(line.number(1), line.number(2), line.value(3), line.number(4, WORD))),
    "drop": ("drop VIEW", lambda line: ViewDrop(line.number(1))),
}


def read_query(text: str, notation: Notation) -> Query[Any]:
    """What a line asks, its words parted by one space. Raises `BadLine`, which says in which word and what was
    expected."""
    line = Line(text.split(" "), notation)
    first = line.words[0]
    reader = READERS.get(first)
    if reader is None and first != "build":
        found = f"word 1, {quoted(first)}" if text else "the line is empty"
        raise BadLine(f"{found}: expected {', '.join(READERS)} or build")
    if "" in line.words:
        raise BadLine(f"word {line.words.index('') + 1} is empty: expected one space between words")
    if reader is None:
        return Build(read_spec(line))
    line.want_words(reader[0], len(reader[0].split()))
    return reader[1](line)


# ---- lines that are written

def values_text(row: Row, notation: Notation) -> str:
    return ",".join(map(notation.write, row.columns))


def pairs_text(pairs: Pairs, notation: Notation) -> str:
    """K, and K times KEY:VERSION:VALUES."""
    rows = (f" {notation.write(key)}:{row.version}:{values_text(row, notation)}" for key, row in pairs)
    return str(len(pairs)) + "".join(rows)


def found_text(found: RowsAt, notation: Notation) -> str:
    """`found AT K`, and K times VERSION:VALUES or none."""
    rows = ("none" if row is None else f"{row.version}:{values_text(row, notation)}" for row in found.rows)
    return " ".join((f"found {found.at} {len(found.rows)}", *rows))


def page_text(page: Page, notation: Notation) -> str:
    """`view AT COUNT SUMS K ROWS`."""
    return f"view {page.at} {page.count} {','.join(map(str, page.sums))} {pairs_text(page.rows, notation)}"


def answer_text(query: Query[Any], value: Any, notation: Notation) -> str:
    """What a call answered, without the numbers of commits."""
    if value is None:
        return "absent"
    if isinstance(query, Get):
        return f"row {value.version} {values_text(value, notation)}"
    if isinstance(query, (GetRange, GetRangeBack)):
        return f"rows {pairs_text(value, notation)}"
    if isinstance(query, CountRange):
        return f"count {value}"
    if isinstance(query, Tidy):
        return f"tidied {TIDY_NAMES[value]}"
    return f"{ {Put: 'put', PutIf: 'put', Remove: 'removed', Build: 'built'}[type(query)] } {value}"


def outcome_line(query: Query[Any], outcome: Outcome, notation: Notation) -> str:
    """The line of an answer: `done FROM TO ANSWER`, `view ..`, `found ..`, `dropped`, or `refused N` with its detail."""
    if isinstance(outcome, Refused):
        return f"refused {outcome.number}" + ("" if outcome.detail is None else f" {outcome.detail}")
    if isinstance(query, ViewRead):
        return page_text(outcome.value, notation)
    if isinstance(query, GetMany):
        return found_text(outcome.value, notation)
    if isinstance(query, ViewDrop):
        return "dropped"
    return f"done {outcome.from_} {outcome.to} {answer_text(query, outcome.value, notation)}"


# ---- lines of an audit

def columns_text(columns: Sequence[int]) -> str:
    return ",".join(map(str, columns)) if columns else "all"


def sets_text(sets: Sequence[Tuple[int, bytes]]) -> str:
    return ",".join(f"{column}={HEX.write(value)}" for column, value in sets) if sets else "-"


def test_text(test: RowTest, notation: Notation = HEX) -> str:
    if isinstance(test, Equals):
        return f"equals {test.column} {notation.write(test.value)}"
    return f"atleast {test.column} {test.least}" if isinstance(test, AtLeast) else "any"


def spec_text(spec: ViewSpec, notation: Notation = HEX) -> str:
    """`prefix KEY TEST` or `range LO HI TEST`, as the line `build` has it."""
    test = test_text(spec.test, notation)
    if isinstance(spec, Prefix):
        return f"prefix {notation.write(spec.key)} {test}"
    end = "none" if spec.hi is None else notation.write(spec.hi)
    return f"range {notation.write(spec.lo)} {end} {test}"


def request_text(query: Query[Any]) -> str:
    """A get, put, conditional put, remove or range as the words of a line."""
    if isinstance(query, Get):
        return f"get {HEX.write(query.key)} {columns_text(query.columns)}"
    if isinstance(query, Put):
        return f"put {HEX.write(query.key)} {sets_text(set_pairs(query.sets))}"
    if isinstance(query, PutIf):
        return f"putif {HEX.write(query.key)} {query.version} {sets_text(set_pairs(query.sets))}"
    if isinstance(query, Remove):
        return f"remove {HEX.write(query.key)}"
    if isinstance(query, GetRange):
        return f"range {HEX.write(query.start)} {query.limit} {columns_text(query.columns)}"
    raise BadLine(f"{type(query).__name__} has no receipt")


def receipt_line(query: Query[Any], reply: Reply[Any]) -> str:
    """The receipt of a get, put, conditional put, remove or range."""
    return f"receipt {reply.from_} {reply.to} {request_text(query)} => {answer_text(query, reply.value, HEX)}"


def page_receipt_line(spec: ViewSpec, query: ViewRead, page: Page) -> str:
    """The receipt of a page of a view of this specification."""
    asked = f"{spec_text(spec)} {query.floor} {HEX.write(query.start)} {query.limit}"
    return f"receipt {page.at} {page.at} view {asked} => {page_text(page, HEX)}"


def delta_line(number: int, key: bytes, before: Optional[Row], after: Optional[Row]) -> str:
    """A commit, with the row before and after it."""
    rows = ("none" if row is None else f"{row.version}:{values_text(row, HEX)}" for row in (before, after))
    return f"delta {number} {HEX.write(key)} {' '.join(rows)}"
