"""The mapping of a mirror: how a row of the source becomes a key and columns."""
from __future__ import annotations

from dataclasses import dataclass
from typing import Dict, List, Optional, Sequence, Tuple

from .errors import BadMapping, BadRow
from .kinds import MAX_COLUMN_BYTES, Kind, read_kind
from .template import KeyTemplate, Texts

__all__ = ["MAX_COLUMNS", "Column", "RowMapping", "read_columns"]

MAX_COLUMNS = 16


@dataclass(frozen=True)
class Column:
    """A column of the source, or a field of JSON, that becomes a column of the server."""

    name: str
    kind: Kind

    def bytes_of(self, text: Optional[str]) -> bytes:
        """The bytes of a value, None for NULL. Raises `BadRow`."""
        if text is None:
            return self.kind.null
        try:
            value = self.kind.bytes_of(text)
        except BadRow as fault:
            raise BadRow(f"{self.name}: {fault}") from None
        except (ValueError, ArithmeticError):
            raise BadRow(f"{self.name} is {text[:80]!r}, which is no {self.kind.word}") from None
        if len(value) > MAX_COLUMN_BYTES:
            raise BadRow(f"{self.name} has {len(value)} bytes, and at most {MAX_COLUMN_BYTES} are allowed (the kind "
                         "cut keeps the first)")
        return value


def read_columns(words: Sequence[str]) -> Tuple[Column, ...]:
    """The columns that words such as `cents:uint` spell. Raises `BadMapping`."""
    if len(words) > MAX_COLUMNS:
        raise BadMapping(f"there are {len(words)} columns, and a row of the server has at most {MAX_COLUMNS}")
    made: List[Column] = []
    for word in words:
        name, _, kind = word.rpartition(":") if ":" in word else (word, "", "")
        made.append(Column(name, read_kind(kind)))
    return tuple(made)


@dataclass(frozen=True)
class RowMapping:
    """A template of keys, and columns, which get the numbers 0, 1, .. in their order."""

    key: KeyTemplate
    columns: Tuple[Column, ...]
    # the words that it was read from
    words: Tuple[str, ...]

    @staticmethod
    def read(template: str, columns: Sequence[str]) -> RowMapping:
        """The mapping that the words of a command line spell. Raises `BadMapping`."""
        return RowMapping(KeyTemplate.read(template), read_columns(columns), (template, *columns))

    @property
    def names(self) -> List[str]:
        """The columns of the source that are needed, each once."""
        return list(dict.fromkeys([*self.key.names, *(column.name for column in self.columns)]))

    def key_of(self, row: Texts) -> bytes:
        """The key of a row. Raises `BadRow`."""
        return self.key.key_of(row)

    def sets_of(self, row: Texts) -> Dict[int, bytes]:
        """The columns of a row. One that isn't in `row` was not changed, and isn't set. Raises `BadRow`."""
        return {number: column.bytes_of(row[column.name])
                for number, column in enumerate(self.columns) if column.name in row}
