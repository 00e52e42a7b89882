"""The command `rowan mirror`, and what a reader of a mirror's rows needs (docs/MIRRORS.md):

    from rowanspan import Client, mirror
    with Client(7070) as index:
        found = mirror.page(index, "orders", view, at_least=position)
        print(found.position, found.page.count, found.page.sums)

`command` reads the command line, `following` is the loop, `target` writes to the server, `source` says what a source
is; `postgres` and `etcd` are two.
"""
from __future__ import annotations

from .place import Position, State
from .reading import ExactPage, NotYet, lsn, page, position, wait

__all__ = ["ExactPage", "NotYet", "Position", "State", "lsn", "page", "position", "wait"]
