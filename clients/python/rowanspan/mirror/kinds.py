"""Kinds of columns: how the text of a value of the source becomes the bytes of a column."""
from __future__ import annotations

import re
from dataclasses import dataclass
from decimal import MAX_EMAX, MAX_PREC, MIN_EMIN, Context, Decimal
from typing import Callable

from .errors import BadMapping, BadRow

__all__ = ["MAX_COLUMN_BYTES", "MIDDLE", "Kind", "read_kind", "signed"]

MAX_COLUMN_BYTES = 64
# what is added to a number with a sign, so that its bytes are in the order of the numbers
MIDDLE = 1 << 63
# rounds no number
EXACT = Context(prec=MAX_PREC, Emax=MAX_EMAX, Emin=MIN_EMIN)


@dataclass(frozen=True)
class Kind:
    """A kind of a column."""

    word: str
    # a ValueError or ArithmeticError is raised for a text that is no value of this kind
    bytes_of: Callable[[str], bytes]
    # the bytes of NULL, which count 0 in a sum
    null: bytes
    is_number: bool


# ---- numbers

def unsigned(number: int) -> bytes:
    """The shortest bytes of a number. Raises `BadRow` if it doesn't fit eight bytes."""
    if not 0 <= number < 1 << 64:
        raise BadRow(f"{number} isn't from 0 to 2^64-1 (the kind int holds negative numbers)")
    return number.to_bytes((number.bit_length() + 7) // 8, "big")


def signed(number: int) -> bytes:
    """A number plus 2^63, in eight bytes. The bytes are in the order of the numbers, and the sum of a view less 2^63
    times its count is the sum of the numbers. Raises `BadRow` if it doesn't fit."""
    if not -MIDDLE <= number < MIDDLE:
        raise BadRow(f"{number} isn't from -2^63 to 2^63-1")
    return (number + MIDDLE).to_bytes(8, "big")


def scaled(text: str, places: int) -> int:
    """A decimal number times ten to the power of `places`. Raises `BadRow` if it has more decimal places."""
    number = Decimal(text).scaleb(places, EXACT)
    if not number.is_finite():
        raise ValueError(text)
    if number != number.to_integral_value():
        raise BadRow(f"{text} has more than {places} decimal places")
    return int(number)


def truth(text: str) -> bytes:
    """A truth value as PostgreSQL or JSON writes it."""
    if text in ("t", "true"):
        return b"\1"
    if text in ("f", "false"):
        return b""
    raise ValueError(text)


# ---- texts

def plain(text: str) -> bytes:
    """A text in UTF-8; bytes that aren't of UTF-8 stay as they are."""
    return text.encode(errors="surrogateescape")


def cut(text: str) -> bytes:
    """The first 64 bytes of a text, in whole characters."""
    whole, end = plain(text), MAX_COLUMN_BYTES
    while len(whole) > end > MAX_COLUMN_BYTES - 4 and whole[end] & 0xc0 == 0x80:
        end -= 1
    return whole[:end]


# ---- the kinds by their words

def read_kind(word: str) -> Kind:
    """The kind of this word; no word is `uint`. Raises `BadMapping` for another."""
    fixed = {
        "uint": Kind("uint", lambda text: unsigned(int(text)), b"", True),
        "int": Kind("int", lambda text: signed(int(text)), signed(0), True),
        "bool": Kind("bool", truth, b"", False),
        "text": Kind("text", plain, b"", False),
        "cut": Kind("cut", cut, b"", False)}
    if word in fixed or not word:
        return fixed[word or "uint"]
    if re.fullmatch(r"dec[0-9]", word):
        return Kind(word, lambda text: unsigned(scaled(text, int(word[3:]))), b"", True)
    if re.fullmatch(r"sdec[0-9]", word):
        return Kind(word, lambda text: signed(scaled(text, int(word[4:]))), signed(0), True)
    raise BadMapping(f"'{word}' is no kind of column: uint, int, decN, sdecN, bool, text or cut was expected")
