"""Reads the worked bytes off docs/WIRE.md for the tests, so that the page, the client and the server say the same."""
from __future__ import annotations

import re
from dataclasses import dataclass
from pathlib import Path
from typing import List

PAGE = Path(__file__).resolve().parents[2] / "docs" / "WIRE.md"


@dataclass(frozen=True)
class Exchange:
    """A frame of queries, and the frame of replies to it."""

    request: bytes
    reply: bytes


@dataclass(frozen=True)
class BadFrame:
    """Bytes that end a session, and the number of the fault."""

    sent: bytes
    fault: int


@dataclass(frozen=True)
class WorkedBytes:
    """What the page has under 'Worked bytes': the exchanges of a session on an empty index, those of a session in
    version 2 on another, those of version 3 if it has some, and the bad frames. They are those of a server that knows
    the versions up to `newest`."""

    newest: int
    exchanges: List[Exchange]
    second_version: List[Exchange]
    third_version: List[Exchange]
    bad_frames: List[BadFrame]


def exchanges_of(part: str) -> List[Exchange]:
    """The blocks of a part of the page, two by two."""
    blocks = re.findall(r"(?:^    .*\n)+", part, re.M)
    frames = [bytes.fromhex("".join(block.split())) for block in blocks]
    if not frames or len(frames) % 2:
        raise ValueError("the blocks of worked bytes are no pairs")
    return [Exchange(*pair) for pair in zip(frames[::2], frames[1::2])]


def worked_bytes(page: Path = PAGE) -> WorkedBytes:
    """The worked bytes of the page; raises ValueError if the page hasn't the parts that are wanted."""
    text = page.read_text(encoding="utf-8")
    versions = re.search(r"^\| 1 \| the version: ([0-9, or]+) \|", text, re.M)
    if versions is None:
        raise ValueError("the page doesn't say which versions there are")
    part = text.partition("\n## Worked bytes\n")[2]
    first, title, second = part.partition("\n### Version 2\n")
    if not title:
        raise ValueError("there is no part on version 2")
    second, title, third = second.partition("\n### Version 3\n")
    rows = re.findall(r"^\| `([0-9a-f ]+)` \| (\d+):", part, re.M)
    if not rows:
        raise ValueError("there are no bad frames")
    bad_frames = [BadFrame(bytes.fromhex(row.replace(" ", "")), int(fault)) for row, fault in rows]
    newest = max(map(int, re.findall("[0-9]+", versions[1])))
    third_version = exchanges_of(third) if title else []
    return WorkedBytes(newest, exchanges_of(first), exchanges_of(second), third_version, bad_frames)
