"""The forms of the board: which view a form builds or shows, and its name."""
from __future__ import annotations

from dataclasses import dataclass
from typing import Dict, Mapping, Union
from urllib.parse import parse_qsl

from ..core import MAX_KEY_BYTES, AnyRow, AtLeast, Equals, Prefix, Range, RowTest, ViewSpec
from ..text import BYTE, HEX, LONG, TEXT, BadLine, Notation, read_number

# two keys of the greatest length, each byte written as \xNN and each backslash as %5C, and the other fields
MAX_FORM = 2 * MAX_KEY_BYTES * 6 + 4096
MAX_FIELDS = 16
MAX_NAME = 80
NOTATIONS: Dict[str, Notation] = {"text": TEXT, "hex": HEX}


class BadForm(ValueError):
    """A form that doesn't read. Its text is for the person that filled it in."""


@dataclass(frozen=True)
class Asked:
    """The view that a form asks for: one to build, or one that is there, by its number."""

    view: Union[ViewSpec, int]
    name: str


def read_form(body: bytes) -> Dict[str, str]:
    """The fields of a form. Raises `BadForm`."""
    try:
        pairs = parse_qsl(body.decode("ascii"), keep_blank_values=True, strict_parsing=True, errors="strict",
                          max_num_fields=MAX_FIELDS)
    except ValueError as fault:
        raise BadForm("the form can't be read") from fault
    fields = dict(pairs)
    if len(fields) != len(pairs):
        raise BadForm("a field is there twice")
    return fields


def read_bytes(fields: Mapping[str, str], field: str, label: str) -> bytes:
    """The bytes of a field, in the notation of the form; an empty field is no bytes."""
    notation = NOTATIONS.get(fields.get("notation", "text"))
    if notation is None:
        raise BadForm("the notation is text or hex")
    word = fields.get(field, "")
    try:
        return notation.read_some(word) if word else b""
    except BadLine as fault:
        raise BadForm(f"{label}: {str(fault).replace(', or - for no bytes', '')}") from None


def read_count(fields: Mapping[str, str], field: str, label: str, most: int) -> int:
    try:
        return read_number(fields.get(field, ""), most)
    except BadLine as fault:
        raise BadForm(f"{label}: {fault}") from None


def read_test(fields: Mapping[str, str]) -> RowTest:
    kind = fields.get("test", "any")
    if kind == "any":
        return AnyRow()
    column = read_count(fields, "column", "Column", BYTE)
    if kind == "equals":
        return Equals(column, read_bytes(fields, "value", "Value"))
    if kind == "atleast":
        return AtLeast(column, read_count(fields, "value", "Value", LONG))
    raise BadForm("the test is any, equals or atleast")


def read_view(fields: Mapping[str, str]) -> Asked:
    """The view that a form asks for. Raises `BadForm`."""
    name = fields.get("name", "").strip()
    if len(name) > MAX_NAME:
        raise BadForm(f"Name: at most {MAX_NAME} letters")
    kind = fields.get("kind", "")
    if kind == "number":
        return Asked(read_count(fields, "number", "Number", LONG), name)
    test = read_test(fields)
    if kind == "prefix":
        return Asked(Prefix(read_bytes(fields, "key", "Prefix"), test), name)
    if kind == "range":
        hi = read_bytes(fields, "hi", "Before") if fields.get("hi") else None
        return Asked(Range(read_bytes(fields, "lo", "From"), hi, test), name)
    raise BadForm("the kind is prefix, range or number")
