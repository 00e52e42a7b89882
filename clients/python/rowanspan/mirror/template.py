"""Templates of keys, such as `orders/{state}/{id:08}`: how values of a row of the source become its key."""
from __future__ import annotations

import re
from dataclasses import dataclass
from typing import Callable, List, Mapping, Optional, Tuple

from ..core import MAX_KEY_BYTES
from .errors import BadMapping, BadRow
from .kinds import signed

__all__ = ["Texts", "KeyTemplate", "checked_key_bytes"]

# values of a row of the source as text, by the names of its columns; None is NULL
Texts = Mapping[str, Optional[str]]
Spell = Callable[[Optional[str]], bytes]


def escaped(text: Optional[str]) -> bytes:
    """A text without `/`, so that nothing that follows it in a key can be taken for a part of it. NULL is `%N`."""
    return b"%N" if text is None else text.replace("%", "%25").replace("/", "%2F").encode()


def in_eight_bytes(text: Optional[str]) -> bytes:
    """A number in eight bytes, in the order of the numbers."""
    if text is None:
        raise BadRow("a part of the key of kind int is NULL")
    try:
        return signed(int(text))
    except ValueError:
        raise BadRow(f"{text!r} isn't a whole number, as its part of the key has to be") from None


def in_digits(width: int) -> Spell:
    """Makes numbers of this many digits, with zeros in front."""
    def spell(text: Optional[str]) -> bytes:
        if text is None or not text.isascii() or not text.isdigit() or len(text) > width:
            raise BadRow(f"{text!r} isn't a number of at most {width} digits, as its part of the key has to be")
        return text.zfill(width).encode()
    return spell


def checked_key_bytes(key: bytes) -> bytes:
    """A key. Raises `BadRow` if it is too long."""
    if len(key) > MAX_KEY_BYTES:
        raise BadRow(f"a key has {len(key)} bytes, and at most {MAX_KEY_BYTES} are allowed: {key[:40]!r}..")
    return key


@dataclass(frozen=True)
class Part:
    """A column of the source in a key, and the text after it."""

    name: str
    # none, `int`, or the number of digits
    kind: Optional[str]
    spell: Spell
    seam: bytes


@dataclass(frozen=True)
class KeyTemplate:
    """Text, and columns in braces: `{c}` is escaped text, `{c:int}` eight bytes in the order of the numbers, `{c:06}`
    six digits. No two rows that differ in a column of the template have the same key."""

    prefix: bytes
    parts: Tuple[Part, ...]

    @staticmethod
    def read(template: str) -> KeyTemplate:
        """The template that a text spells. Raises `BadMapping`."""
        pieces = re.split(r"\{([^{}:]+)(?::(\w+))?\}", template)
        for text in pieces[::3]:
            if "{" in text or "}" in text:
                raise BadMapping(f"'{template}' has a brace that isn't of a column such as {{id}} or {{id:08}}")
        if not pieces[0]:
            raise BadMapping("a key has to begin with text, which names what this mirror owns, such as 'orders/'")
        parts: List[Part] = []
        for place in range(1, len(pieces), 3):
            name, kind, seam = pieces[place:place + 3]
            is_last = place + 3 == len(pieces)
            if kind is None and not is_last and not seam.startswith("/"):
                raise BadMapping(f"'{{{name}}}' in a key has to be followed by '/', or two rows could have one key")
            parts.append(Part(name, kind, read_spelling(kind), seam.encode()))
        return KeyTemplate(pieces[0].encode(), tuple(parts))

    @property
    def names(self) -> List[str]:
        """The columns of the source that it has, each once."""
        return list(dict.fromkeys(part.name for part in self.parts))

    def key_of(self, row: Texts) -> bytes:
        """The key of a row. Raises `BadRow`."""
        made = self.prefix
        for part in self.parts:
            made += part.spell(row[part.name]) + part.seam
        return checked_key_bytes(made)


def read_spelling(kind: Optional[str]) -> Spell:
    """How a part of this kind is spelled. Raises `BadMapping`."""
    if kind is None:
        return escaped
    if kind == "int":
        return in_eight_bytes
    if re.fullmatch("[0-9]+", kind) and int(kind) > 0:
        return in_digits(int(kind))
    raise BadMapping(f"'{kind}' is no kind of a part of a key: int or a number of digits was expected")
