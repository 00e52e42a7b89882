"""The rows of a table of PostgreSQL as puts: those that it can spell itself, then the others, which Python spells."""
from __future__ import annotations

import re
from typing import Any, List, Optional

from .frames import CHANGES, spelled_change
from .rows import RowMapping
from .source import TakePuts
from .spelling import spelled_rows
from .table import Table

__all__ = ["copy_rows"]

ESCAPES = {"b": "\b", "f": "\f", "n": "\n", "r": "\r", "t": "\t", "v": "\v"}
# what the binary format of COPY begins with, before the length of what else its head has
HEAD, HEAD_BYTES = b"PGCOPY\n\xff\r\n\0", 19
# what a row of one column has before the bytes of the column; it is all of a row with NULL
ROW_BYTES = 6


def copy_rows(cursor: Any, table: Table, mapping: RowMapping, take: TakePuts) -> None:
    """Takes the puts of all rows, at the snapshot of the cursor's transaction. Raises `BadRow`."""
    rows = spelled_rows(table.name, mapping, table.types)
    cursor.execute("SHOW server_encoding")
    if cursor.fetchone()[0] != "UTF8":
        # (in SQL a text has other bytes than here)
        return copy_values(cursor, rows.values, mapping, take)
    puts = SpelledPuts(take)
    cursor.copy_expert(f"COPY ({rows.puts}) TO STDOUT (FORMAT binary)", puts)
    puts.end()
    if puts.left_out:
        copy_values(cursor, rows.others, mapping, take)


def copy_values(cursor: Any, query: str, mapping: RowMapping, take: TakePuts) -> None:
    """Takes the puts of rows whose values a query has."""
    values = CopiedValues(mapping, take)
    cursor.copy_expert(f"COPY ({query}) TO STDOUT", values)
    values.end()


class SpelledPuts:
    """What psycopg2 writes a copy of puts to, in the binary format, a row in each call."""

    def __init__(self, take: TakePuts) -> None:
        self._take = take
        self._held: List[bytes] = []
        # how many rows have NULL
        self.left_out = 0
        self._is_begun = False

    def write(self, row: bytes) -> None:
        held = self._held
        held.append(row)
        if len(held) == CHANGES:
            self.end()

    def end(self) -> None:
        """Takes the puts that are held."""
        held, self._held = self._held, []
        if held and not self._is_begun:
            # (the head comes with the first row)
            assert held[0].startswith(HEAD)
            held[0], self._is_begun = held[0][HEAD_BYTES:], True
        puts = [row[ROW_BYTES:] for row in held]
        if not all(puts):
            # (what ends the copy is shorter than a row)
            self.left_out += sum(len(row) == ROW_BYTES for row in held)
            puts = list(filter(None, puts))
        self._take(puts)


class CopiedValues:
    """What psycopg2 writes a copy of values to, in the text format, a row in each call."""

    def __init__(self, mapping: RowMapping, take: TakePuts) -> None:
        self._mapping, self._names, self._take = mapping, mapping.names, take
        self._held: List[bytes] = []

    def write(self, line: bytes) -> None:
        row = dict(zip(self._names, copied_values(line)))
        self._held.append(spelled_change(self._mapping.key_of(row), self._mapping.sets_of(row)))
        if len(self._held) == CHANGES:
            self.end()

    def end(self) -> None:
        """Takes the puts that are held."""
        held, self._held = self._held, []
        self._take(held)


def unescaped(found: re.Match[str]) -> str:
    return ESCAPES.get(found[1], found[1])


def copied_values(line: bytes) -> List[Optional[str]]:
    """A row of the text format of COPY."""
    text = line.decode()
    values = text[:-1].split("\t")
    if "\\" not in text:
        return list(values)
    return [None if value == "\\N" else re.sub(r"\\(.)", unescaped, value) for value in values]
