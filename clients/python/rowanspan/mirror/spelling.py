"""Puts that PostgreSQL spells itself: SQL for the bytes that a mapping makes of a row.

SQL has NULL for a row that it can't spell: one with a value that doesn't fit, or that is rare, such as a number of 2^63
or more. Such a row goes through Python, which spells it, or says what is wrong with it.
"""
from __future__ import annotations

from typing import List, Mapping, Tuple

from ..core import MAX_KEY_BYTES
from .kinds import MAX_COLUMN_BYTES
from .rows import RowMapping
from .table import Type, quoted

__all__ = ["SpelledRows", "spelled_rows"]

# the numbers of types: whole numbers with the bytes that they need at most, and texts
INTEGERS = {21: 2, 23: 4, 20: 8}
BOOL, NUMERIC, TEXTS = 16, 1700, (25, 1043)
MOST = 2 ** 63 - 1
ZERO_BYTE, ONE_TRUE, NO_BYTES = "decode('00', 'hex')", "decode('0101', 'hex')", "decode('', 'hex')"


class SpelledRows:
    """A query with a row for each row of the table, in two layers: the inner one makes numbers and texts of values,
    so that each is made once; the outer one puts them together."""

    def __init__(self, table: str, names: List[str], inner: List[str], pieces: List[str]) -> None:
        values = [f"{expression} AS v{number}" for number, expression in enumerate(inner)]
        values += [f"{quoted(name)} AS n{number}" for number, name in enumerate(names)]
        # (OFFSET keeps the planner from making one layer of both)
        self._from = f"(SELECT {', '.join(values)} FROM {table} OFFSET 0) AS inner_layer"
        self._put, self._names = " || ".join(pieces), ", ".join(f"n{number}" for number, _ in enumerate(names))
        self._all = f"SELECT {', '.join(map(quoted, names))} FROM {table}"

    @property
    def puts(self) -> str:
        """The put of each row, or NULL."""
        return f"SELECT {self._put} FROM {self._from}"

    @property
    def others(self) -> str:
        """The values of the rows that have NULL there, as the mapping has their names."""
        return f"SELECT {self._names} FROM {self._from} WHERE ({self._put}) IS NULL"

    @property
    def values(self) -> str:
        """The values of all rows."""
        return self._all


def spelled_rows(table: str, mapping: RowMapping, types: Mapping[str, Type]) -> SpelledRows:
    """The puts of a table's rows, whose columns have these types."""
    layer = Layer(types)
    key = layer.value(spelled_key(mapping, types))
    pieces = [constant(b"\2"), f"int2send(CASE WHEN octet_length({key}) <= {MAX_KEY_BYTES} THEN octet_length({key}) "
              "END::int2)", key]
    head = bytes((len(mapping.columns),))
    for number, column in enumerate(mapping.columns):
        before, piece = layer.column(column.name, column.kind.word)
        pieces += [constant(head + bytes((number,)) + before), piece]
        head = b""
    return SpelledRows(table, mapping.names, layer.values, [*pieces, constant(head)] if head else pieces)


# ---- SQL

def constant(raw: bytes) -> str:
    return f"decode('{raw.hex()}', 'hex')"


def constant_text(text: str) -> str:
    """(It means the same with each value of standard_conforming_strings.)"""
    return "E'" + text.replace("\\", "\\\\").replace("'", "''") + "'"


def text_of(name: str, kind: int) -> str:
    """A value as COPY writes it. NULL may be an empty text."""
    text = quoted(name) if kind in TEXTS else f"concat({quoted(name)})"
    # (not each collation allows to search in a text)
    return f'({text} COLLATE "C")'


def whole_number(name: str, kind: int) -> str:
    """A value as a bigint."""
    column = quoted(name)
    if kind in INTEGERS:
        return f"{column}::int8"
    if kind == NUMERIC:
        return f"CASE WHEN {column} BETWEEN -{MOST} AND {MOST} AND scale({column}) = 0 THEN {column}::int8 END"
    return number_of_text(text_of(name, kind), 0)


def decimal_number(name: str, type_: Type, places: int) -> str:
    """A value times ten to the power of `places`, as a bigint."""
    column, (kind, narrowed) = quoted(name), type_
    times, most = 10 ** places, MOST // 10 ** places
    if kind in INTEGERS:
        return f"CASE WHEN {column} BETWEEN -{most} AND {most} THEN {column}::int8 * {times} END"
    if kind == NUMERIC:
        # (how numeric(12, 2) is narrowed is 4 more than 12 << 16 | 2)
        has_more = narrowed < 4 or (narrowed - 4) & 0x7ff > places
        is_whole = f" AND trunc({column}, {places}) = {column}" if has_more else ""
        return f"CASE WHEN {column} BETWEEN -{most} AND {most}{is_whole} THEN ({column} * {times})::int8 END"
    return number_of_text(text_of(name, kind), places)


def number_of_text(text: str, places: int) -> str:
    after = f"([.][0-9]{{1,{places}}})?" if places else ""
    return f"CASE WHEN {text} ~ '^-?[0-9]{{1,{18 - places}}}{after}$' THEN ({text}::numeric * {10 ** places})::int8 END"


def in_order(number: str) -> str:
    """Eight bytes of a bigint plus 2^63."""
    return f"int8send({number} # '{-MOST - 1}'::int8)"


# ---- keys

def spelled_key(mapping: RowMapping, types: Mapping[str, Type]) -> str:
    """The bytes of a key."""
    runs: List[List[str]] = [[constant_text(mapping.key.prefix.decode())]]
    made: List[str] = []

    def end_run() -> None:
        if runs[-1]:
            made.append(f"textsend({' || '.join(runs[-1])})")
            runs.append([])

    for part in mapping.key.parts:
        kind = types[part.name][0]
        if part.kind == "int":
            end_run()
            made.append(in_order(f"({whole_number(part.name, kind)})"))
        else:
            width = int(part.kind or 0)
            runs[-1].append(digits(part.name, kind, width) if width else escaped(part.name, kind))
        if part.seam:
            runs[-1].append(constant_text(part.seam.decode()))
    end_run()
    return " || ".join(made)


def escaped(name: str, kind: int) -> str:
    column, text = quoted(name), text_of(name, kind)
    if kind in INTEGERS:
        return f"coalesce({column}::text, '%N')"
    return f"CASE WHEN {column} IS NULL THEN '%N' ELSE replace(replace({text}, '%', '%25'), '/', '%2F') END"


def digits(name: str, kind: int, width: int) -> str:
    column, text = quoted(name), text_of(name, kind)
    if kind in INTEGERS:
        most = min(10 ** width - 1, MOST)
        return f"CASE WHEN {column} BETWEEN 0 AND {most} THEN lpad({column}::text, {width}, '0') END"
    return f"CASE WHEN {text} ~ '^[0-9]+$' AND octet_length({text}) <= {width} THEN lpad({text}, {width}, '0') END"


# ---- columns

class Layer:
    """The values of the inner layer, and the columns of a put over them."""

    def __init__(self, types: Mapping[str, Type]) -> None:
        self._types = types
        self.values: List[str] = []

    def value(self, expression: str) -> str:
        """The name of a value of the inner layer."""
        self.values.append(expression)
        return f"v{len(self.values) - 1}"

    def column(self, name: str, kind: str) -> Tuple[bytes, str]:
        """What a put has of a column after its number: constant bytes, and an expression for the others."""
        if kind == "bool":
            return b"", self.value(self._truth(name))
        if kind in ("text", "cut"):
            return b"", self._text(name, kind == "cut")
        number = self._number(name, kind)
        if kind == "int" or kind.startswith("sdec"):
            return b"\x08", in_order(number)
        return b"", unsigned(number, INTEGERS.get(self._types[name][0], 8) if kind == "uint" else 8)

    def _number(self, name: str, kind: str) -> str:
        """A number as a bigint, 0 for NULL."""
        type_ = self._types[name]
        number = decimal_number(name, type_, int(kind[-1])) if "dec" in kind else whole_number(name, type_[0])
        return self.value(f"CASE WHEN {quoted(name)} IS NULL THEN 0 ELSE {number} END")

    def _truth(self, name: str) -> str:
        column, kind = quoted(name), self._types[name][0]
        if kind == BOOL:
            return f"CASE WHEN {column} THEN {ONE_TRUE} ELSE {ZERO_BYTE} END"
        text = text_of(name, kind)
        return (f"CASE WHEN {column} IS NULL OR {text} IN ('f', 'false') THEN {ZERO_BYTE} WHEN {text} IN ('t', 'true') "
                f"THEN {ONE_TRUE} END")

    def _text(self, name: str, is_cut: bool) -> str:
        text, most = text_of(name, self._types[name][0]), MAX_COLUMN_BYTES
        # (the first 65 characters have more than 64 bytes if the whole text has; the rest isn't read)
        raw = self.value(f"CASE WHEN {quoted(name)} IS NULL THEN {NO_BYTES} WHEN octet_length({text}) <= {most} THEN "
                         f"textsend({text}) ELSE textsend(substr({text}, 1, {most + 1})) END")
        whole = f"CASE WHEN octet_length({raw}) <= {most} THEN set_byte({ZERO_BYTE}, 0, octet_length({raw})) || {raw}"
        if not is_cut:
            return f"{whole} END"
        cuts = [f"WHEN get_byte({raw}, {end}) & 192 <> 128 THEN {first_bytes(raw, end)}"
                for end in range(most, most - 4, -1)]
        return f"{whole} {' '.join(cuts)} ELSE {first_bytes(raw, most - 4)} END"


def first_bytes(raw: str, count: int) -> str:
    """The first bytes, after a byte that counts them."""
    return f"{constant(bytes((count,)))} || substr({raw}, 1, {count})"


def unsigned(number: str, width: int) -> str:
    """The shortest bytes of a bigint from 0, after a byte that counts them. The number has at most `width` bytes."""
    # (that byte is put before the number's own, and what is before that byte is trimmed)
    counts = [f"WHEN {number} < {256 ** count} THEN {count * 256 ** count}" for count in range(1, min(width, 7))]
    last = min(width, 7)
    counted = f"ltrim(int8send({number} + CASE {' '.join(counts)} ELSE {last * 256 ** last} END), {ZERO_BYTE})"
    if width > last:
        eight = f"{constant(bytes((8,)))} || int8send({number})"
        counted = f"CASE WHEN {number} < {256 ** last} THEN {counted} ELSE {eight} END"
    return f"CASE WHEN {number} > 0 THEN {counted} WHEN {number} = 0 THEN {ZERO_BYTE} END"
