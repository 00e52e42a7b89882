"""Rowanspan, an ordered key-value index. Python 3.9 or later, the standard library alone.

    with Index() as index:                        # in this process; Client(7070) is a connection to a server
        commit = index.put(b"apple", b"red")      # plain bytes are column 0
        row = index.get(b"apple")                 # Row(version=commit, columns=(b"red",)), or None
        index.put_if(b"apple", b"green", commit)  # only if the row still has this version; 0: if there is none
        for key, row in index.range(prefix=b"a"):
            print(key, row.columns)

`Index` is an index inside the caller's own process, by a library that its first use loads. `Client` is a connection to
a server, with the same calls.

Keys and columns are bytes; keys are in the order of their bytes, and a key is before those that it begins.
Each change of a row is a commit: commits are numbered from 1 on, over all clients. What is refused is raised as a
`Refused`; a connection that broke as a `ConnectionLost`; bytes that are no reply as a `BadReply`; an argument of a
wrong type as a `TypeError`, before anything is sent.

A client is one connection, for one thread at a time. Threads can share a `Pool` of connections, and tasks of asyncio a
client of `rowanspan.aio`. `__version__` is the package's version.
"""
from __future__ import annotations

from typing import TYPE_CHECKING

from . import batches, client, core, fields, mapping, pipeline, pool, reads, server, server_queries, wire
# (the names that each of them lists in its `__all__` are names of the package)
from .batches import *  # noqa: F401,F403
from .client import *  # noqa: F401,F403
from .core import *  # noqa: F401,F403
from .fields import *  # noqa: F401,F403
from .mapping import *  # noqa: F401,F403
from .pipeline import *  # noqa: F401,F403
from .pool import *  # noqa: F401,F403
from .reads import *  # noqa: F401,F403
from .server import *  # noqa: F401,F403
from .server_queries import *  # noqa: F401,F403
from .wire import *  # noqa: F401,F403

__all__ = ["Index"]
__all__ += batches.__all__
__all__ += client.__all__
__all__ += core.__all__
__all__ += fields.__all__
__all__ += mapping.__all__
__all__ += pipeline.__all__
__all__ += pool.__all__
__all__ += reads.__all__
__all__ += server.__all__
__all__ += server_queries.__all__
__all__ += wire.__all__

if TYPE_CHECKING:
    from .embedded import Index

    __version__: str
else:
    def __getattr__(name: str) -> object:
        """`Index` and `__version__`, which are looked for when they are first asked for."""
        if name == "Index":
            from .embedded import Index as found
        elif name == "__version__":
            from .places import version

            found = version()
        else:
            raise AttributeError(f"module 'rowanspan' has no attribute {name!r}")
        globals()[name] = found
        return found

    def __dir__() -> list[str]:
        return sorted({*globals(), *__all__})
