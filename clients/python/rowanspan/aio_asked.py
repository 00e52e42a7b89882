"""What tasks have asked: queries whose answers haven't come."""
from __future__ import annotations

import asyncio
from typing import Any, List, Optional, Sequence

from .core import TooLong
from .wire import MAX_REQUEST_BODY, Outcome, Query, spelled_query

# the most bytes of queries in a frame: the body has two bytes more
MAX_MESSAGES = MAX_REQUEST_BODY - 2


class Asked:
    """A query that has no answer yet."""

    def __init__(self, query: Query[Any], answer: asyncio.Future[Outcome]) -> None:
        self.query, self.message, self.answer = query, spelled_query(query), answer
        if len(self.message) > MAX_MESSAGES:
            raise TooLong(f"a query has {len(self.message)} bytes")


async def answered(answers: Sequence[asyncio.Future[Outcome]], timeout: Optional[float]) -> List[Outcome]:
    """Waits for answers. If they don't come in time, or the wait is cancelled, nobody wants them any longer."""
    try:
        late = (await asyncio.wait(answers, timeout=timeout))[1]
    finally:
        for answer in answers:
            if not answer.cancel() and not answer.cancelled():
                # (a fault of the connection is that of each of them, and is raised once)
                answer.exception()
    if late:
        raise asyncio.TimeoutError()
    return [answer.result() for answer in answers]
