"""What can go wrong in a mirror, by what helps: a person, a copy of all rows, or another start."""
from __future__ import annotations

from ..core import RowanspanError

__all__ = ["NeedsDecision", "BadMapping", "BadRow", "CopyAgain", "Overtaken", "SourceLost"]


class NeedsDecision(RowanspanError):
    """Somebody has to decide. The rows of the server stay exact at the last position."""


class BadMapping(NeedsDecision):
    """A mapping, or an option, that can't be right for any row. It is found before a row is written."""


class BadRow(NeedsDecision):
    """A row of the source that the mapping can't hold. Nothing of its transaction is written."""


class CopyAgain(RowanspanError):
    """The changes can't be continued: all rows have to be copied again. Its text says why."""


class Overtaken(RowanspanError):
    """The run before this one wrote the position after this one had looked: it has to look again."""


class SourceLost(RowanspanError):
    """The source can't be reached, or ended the connection. Another start helps."""
