"""Rows at random, of all types and kinds: what PostgreSQL spells has the bytes that Python spells."""
from __future__ import annotations

import random
from typing import Any, Callable, Dict, List, Optional, Tuple

# (it puts the package on the path)
from running import want, want_same
from tables import Tables

from rowanspan.mirror.copying import copied_values, copy_rows
from rowanspan.mirror.errors import BadRow
from rowanspan.mirror.frames import spelled_change
from rowanspan.mirror.rows import RowMapping
from rowanspan.mirror.spelling import spelled_rows
from rowanspan.mirror.table import find_table

ROWS, MAPPINGS = 2000, 40
MAKE = """
CREATE COLLATION any_case (provider = icu, locale = 'und-u-ks-level2', deterministic = false);
CREATE DOMAIN cents AS int; CREATE DOMAIN word AS text; CREATE TYPE mood AS ENUM ('t', '50%', 'a/b', '07');
CREATE TABLE odd(id serial PRIMARY KEY, i2 int2, i4 int4, i8 int8, n numeric, n2 numeric(12,2), n0 numeric(9,0),
t text, v varchar(90), ci text COLLATE any_case, c char(7), b bool, d date, ts timestamptz, u uuid, y bytea, j jsonb,
a int[], f float8, dc cents, dw word, m mood);
ALTER TABLE odd REPLICA IDENTITY FULL"""
ASCII = "abcXYZ0123456789 -_.,:'\"\\\t\n/%NtrueT"
OTHERS = "\u00e9\u00df\u0663\u20ac\u4e2d\U0001f600\U00010348"
SIMPLE = ("", "t", "true", "f", "false", "%N", "%2F", "/", "5", "-5", "007", "12.34", "1.", ".5", "+5", " 7", "1e3",
          "NaN", "Infinity", "1_000", "\u0663", "-0", "18446744073709551615", "9223372036854775808", "0.001",
          "123456789012345678")
# what each kind of a column, and each kind of a part of a key, is tried with
FLOATS, WHOLE, DECIMAL = ("f",), ("i2", "i4", "i8", "dc", "n0"), ("n", "n2")
NUMBERS = ("uint", "int", "dec0", "dec2", "dec9", "sdec0", "sdec1", "sdec3")
SEAMS = ("", "/", "-\u00e9'")
PARTS = ("", ":int", ":int", ":04", ":08", ":019", ":025", ":0300")


def a_number(chance: random.Random, bits: int) -> int:
    """From 0 to the greatest, with more small ones, and more at the bounds of bytes."""
    edge = 1 << min(bits, 8 * chance.randint(0, bits // 8 + 1))
    near = min(max(edge + chance.randint(-2, 2), 0), (1 << bits) - 1)
    number = chance.choice((near, chance.getrandbits(chance.randint(1, bits)), chance.randint(0, 9)))
    return -number - chance.randint(0, 1) if chance.random() < 0.05 else number


def a_decimal(chance: random.Random) -> str:
    if chance.random() < 0.05:
        return chance.choice(("NaN", "Infinity", "-Infinity", "0.00", "-0.0", "1" + "0" * 40, "0." + "0" * 30 + "1"))
    places = chance.choice((0, 0, 1, 2, 2, 3, 9, 12))
    whole = a_number(chance, chance.choice((8, 31, 63, 64)))
    return f"{whole}.{chance.choice((0, chance.randrange(10 ** places))):0{places}}" if places else str(whole)


def a_text(chance: random.Random, most: int = 2000) -> str:
    kind = chance.random()
    if kind < 0.3:
        return chance.choice(SIMPLE)[:most]
    length = chance.choice((chance.randint(0, 12), chance.randint(20, 70), chance.randint(14, 24)))
    if chance.random() < 0.05:
        length = chance.choice((340, 1030))
    letters = ASCII if kind < 0.6 else OTHERS if kind < 0.7 else ASCII + OTHERS
    return "".join(chance.choices(letters, k=min(length, most)))


def values(chance: random.Random) -> Dict[str, Any]:
    """A row of the table, with some NULL."""
    def bounded(bits: int) -> int:
        return a_number(chance, bits)

    row: Dict[str, Any] = {
        "i2": bounded(15), "i4": bounded(31), "i8": bounded(63), "n": a_decimal(chance),
        "n2": f"{a_number(chance, 33)}.{chance.randrange(100):02}", "n0": chance.randint(-9, 999_999_999),
        "t": a_text(chance), "v": a_text(chance, 90), "ci": a_text(chance), "c": a_text(chance, 7),
        "b": chance.random() < 0.5, "d": f"{chance.randint(1, 9999):04}-02-{chance.randint(1, 28):02}",
        "ts": f"2026-11-28 {chance.randint(0, 23)}:30:00.{chance.randint(0, 999999):06}+05:30",
        "u": f"{chance.getrandbits(128):032x}", "y": chance.randbytes(chance.choice((0, 3, 31, 40))),
        "j": chance.choice(("{}", '{"a/b": "50%"}', "5", "true")), "a": [1, None, 3][:chance.randint(0, 3)],
        "f": chance.choice((0.1, 1e300, -5.0, 1 / 3)), "dc": bounded(31), "dw": a_text(chance),
        "m": chance.choice(("t", "50%", "a/b", "07"))}
    return {name: None if chance.random() < 0.06 else value for name, value in row.items()}


def a_kind(chance: random.Random, name: str) -> str:
    """A kind of a column: mostly one that fits."""
    if name in FLOATS or chance.random() < 0.3:
        return chance.choice(("text", "cut"))
    if chance.random() < 0.1:
        return chance.choice(("bool", *NUMBERS))
    fits = {"b": ("bool",), **dict.fromkeys(WHOLE, NUMBERS),
            **dict.fromkeys(DECIMAL, ("dec9", "sdec9", "dec2", "sdec3"))}
    return chance.choice(fits.get(name, ("cut",)))


def a_part(chance: random.Random, names: List[str]) -> str:
    """A part of a key, and what follows it: mostly one that fits."""
    name = chance.choice([name for name in names if name not in FLOATS])
    kind = chance.choice(PARTS) if name in WHOLE or chance.random() < 0.1 else ""
    return f"{{{name}{kind}}}{chance.choice(SEAMS) if kind else '/'}"


def a_mapping(chance: random.Random, names: List[str]) -> RowMapping:
    parts = "".join(a_part(chance, names) for _ in range(chance.randint(0, 3)))
    columns = [f"{name}:{a_kind(chance, name)}" for name in chance.choices(names, k=chance.randint(0, 5))]
    return RowMapping.read(f"k'\\\u00e9%/{parts}{{id}}", columns)


def python_spells(mapping: RowMapping, line: bytes) -> Optional[bytes]:
    row = dict(zip(mapping.names, copied_values(line)))
    try:
        return spelled_change(mapping.key_of(row), mapping.sets_of(row))
    except BadRow:
        return None


class Lines:
    """Keeps what is copied."""

    def __init__(self) -> None:
        self.lines: List[bytes] = []

    def write(self, line: bytes) -> int:
        self.lines.append(line)
        return len(line)


class Compared:
    """How many rows were spelled by SQL, by Python alone, and by neither."""

    def __init__(self, sql: Any) -> None:
        self._sql = sql
        self.by_both = self.by_python = self.by_neither = 0

    def _ask(self, query: str, *given: Any) -> List[Tuple[Any, ...]]:
        self._sql.execute(query, given or None)
        return list(self._sql.fetchall())

    def compare(self, mapping: RowMapping) -> None:
        """Compares each row of the table, and then a copy of those that fit."""
        table = find_table(self._ask, "odd", mapping)
        rows, lines = spelled_rows(table.name, mapping, table.types), Lines()
        spelled = [None if put is None else bytes(put) for put, in self._ask(rows.puts)]
        self._sql.copy_expert(f"COPY ({rows.values}) TO STDOUT", lines)
        wanted = [python_spells(mapping, line) for line in lines.lines]
        want_same("rows", (len(spelled), len(wanted)), (ROWS, ROWS))
        for put, own, line in zip(spelled, wanted, lines.lines):
            want(put is None or put == own, f"{mapping.words}, {line!r}: {put!r} instead of {own!r}")
        at = mapping.names.index("id")
        bad = [int(copied_values(line)[at] or 0) for line, own in zip(lines.lines, wanted) if own is None]
        self._sql.execute("BEGIN")
        self._sql.execute("DELETE FROM odd WHERE id = ANY(%s)", (bad,))
        copied: List[bytes] = []
        copy_rows(self._sql, table, mapping, copied.extend)
        self._sql.execute("ROLLBACK")
        want_same(f"the copy by {mapping.words}", sorted(copied), sorted(filter(None, wanted)))
        by_both = sum(put is not None for put in spelled)
        self.by_both += by_both
        self.by_neither += len(bad)
        self.by_python += ROWS - by_both - len(bad)


def rows_of_all_types(tables: Tables) -> str:
    """Random rows, by random mappings."""
    import psycopg2
    from psycopg2.extras import execute_values

    from rowanspan.mirror.postgres import SPELLING

    chance, connection = random.Random(tables.seed), psycopg2.connect(tables.postgres.dsn, **SPELLING)
    connection.autocommit = True
    with connection.cursor() as sql:
        sql.execute(MAKE)
        rows = [values(chance) for _ in range(ROWS)]
        names = list(rows[0])
        execute_values(sql, f"INSERT INTO odd({', '.join(names)}) VALUES %s", [tuple(row.values()) for row in rows])
        compared = Compared(sql)
        for _ in range(MAPPINGS):
            compared.compare(a_mapping(chance, names))
    connection.close()
    want(compared.by_both > compared.by_python, f"SQL has spelled {compared.by_both} rows")
    return (f"{MAPPINGS} mappings: {compared.by_both} rows spelled by SQL and Python alike, {compared.by_python} by "
            f"Python alone, {compared.by_neither} that don't fit")


CASES: Dict[str, Callable[[Tables], str]] = {"rows of all types": rows_of_all_types}
