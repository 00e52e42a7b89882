"""A table of PostgreSQL that is to be mirrored: what is checked of it, before a row is copied and every second
after."""
from __future__ import annotations

from dataclasses import dataclass
from typing import Any, Callable, Dict, FrozenSet, List, Mapping, Tuple

from .errors import BadMapping
from .rows import RowMapping

__all__ = ["Ask", "Type", "Table", "find_table", "quoted"]

# asks a query with its parameters; returns the rows
Ask = Callable[..., List[Tuple[Any, ...]]]
# a type's number, and how it is narrowed, as in numeric(12,2)
Type = Tuple[int, int]
OLDEST = 15
# the types whose values have no exact sum, and more than one text for one value
FLOATS = {700: "real", 701: "double precision"}

# a row for each column, or one without a column; in one query, so that the table can't be dropped between two
DESCRIBE = """
SELECT c.oid, c.relreplident, c.relkind = 'r' AND c.relpersistence = 'p', quote_ident(n.nspname) || '.' ||
quote_ident(c.relname), c.relkind = 'p' OR EXISTS (SELECT 1 FROM pg_inherits i WHERE i.inhparent = c.oid),
a.attname, a.atttypid, a.atttypmod,
EXISTS (SELECT 1 FROM pg_index i WHERE i.indrelid = c.oid AND i.indimmediate AND a.attnum = ANY(i.indkey)
AND CASE WHEN c.relreplident = 'i' THEN i.indisreplident ELSE i.indisprimary END)
FROM pg_class c JOIN pg_namespace n ON n.oid = c.relnamespace
LEFT JOIN pg_attribute a ON a.attrelid = c.oid AND a.attnum > 0 AND NOT a.attisdropped AND a.attgenerated = ''
WHERE c.oid = to_regclass(%s) ORDER BY a.attnum"""


@dataclass(frozen=True)
class Table:
    """A table that can be mirrored."""

    oid: int
    # with its schema, as SQL has it
    name: str
    # whether an update and a delete say all of the old row
    has_full_identity: bool
    # those that the mapping needs, in the order of the table
    types: Mapping[str, Type]


def quoted(name: str) -> str:
    """A name as SQL has it."""
    return '"' + name.replace('"', '""') + '"'


def find_table(ask: Ask, name: str, mapping: RowMapping) -> Table:
    """The table of this name. Raises `BadMapping` if the mapping can't mirror it."""
    check_source(ask)
    found = ask(DESCRIBE, name)
    if not found:
        raise BadMapping(f"there is no table {name}")
    oid, identity, has_log, full_name, has_parts = found[0][:5]
    if has_parts:
        raise BadMapping(f"{full_name} has partitions, or tables that inherit from it: mirror each of those, with a "
                         "name and a prefix of its own")
    if not has_log:
        raise BadMapping(f"{full_name} has no log of its changes: a view, a temporary or an unlogged table can't be "
                         "mirrored")
    columns = [row[5:] for row in found if row[5] is not None]
    types = {column: (kind, narrowed) for column, kind, narrowed, _ in columns}
    check_columns(full_name, mapping, types)
    unique = frozenset(column for column, _, _, is_unique in columns if is_unique)
    check_key(full_name, mapping, unique, identity)
    needed: Dict[str, Type] = {column: kind for column, kind in types.items() if column in mapping.names}
    return Table(oid, full_name, identity == "f", needed)


def check_source(ask: Ask) -> None:
    if int(ask("SHOW server_version_num")[0][0]) < 10_000 * OLDEST:
        raise BadMapping(f"the source has to be PostgreSQL {OLDEST} or later")
    if ask("SHOW wal_level")[0][0] != "logical":
        raise BadMapping("the source needs the setting wal_level = logical, and a restart after it")


def check_columns(table: str, mapping: RowMapping, types: Mapping[str, Type]) -> None:
    for name in mapping.names:
        if name not in types:
            raise BadMapping(f"{table} has no column {name}, or it is GENERATED, and PostgreSQL doesn't send it")
    summed = [column.name for column in mapping.columns if column.kind.is_number]
    for name in [*mapping.key.names, *summed]:
        kind = FLOATS.get(types[name][0])
        if kind is not None:
            raise BadMapping(f"{name} is {kind}: sums and keys of floats aren't exact; make it a numeric")


def check_key(table: str, mapping: RowMapping, unique: FrozenSet[str], identity: str) -> None:
    if not unique or identity == "n":
        raise BadMapping(f"{table} has no primary key that is checked at once: two rows could have one key")
    named = frozenset(mapping.key.names)
    if unique - named:
        raise BadMapping(f"the key needs {{{min(unique - named)}}}, which is of the primary key: without it two rows "
                         "could have one key")
    if named - unique and identity != "f":
        raise BadMapping(f"the key has {{{min(named - unique)}}}, which isn't of the primary key. So that a change of "
                         f"it says the old key: ALTER TABLE {table} REPLICA IDENTITY FULL")
