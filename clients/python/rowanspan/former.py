"""For one release: calls of `rowanspan.Index` as they were when that was the client of a server, and its options by
their former names."""
from __future__ import annotations

import inspect
import warnings
from typing import Any, Callable, Mapping, Sequence, Tuple

from .client import Client

OF_CLIENT = frozenset({"port", "host", "timeout"})
# a number below is rather a wrong number of columns than a port: such ports are the system's
FIRST_PORT = 1024


def is_of_client(arguments: Sequence[Any], named: Mapping[str, Any]) -> bool:
    """Whether these are arguments of `Client`, and an index in this process would refuse them: names that only a client
    has, a host after the first argument, or a port as the only one."""
    if named:
        return OF_CLIENT.issuperset(named)
    if len(arguments) == 1:
        return isinstance(arguments[0], int) and FIRST_PORT <= arguments[0] <= 65535
    return len(arguments) > 1 and isinstance(arguments[1], str)


def client_of(arguments: Sequence[Any], named: Mapping[str, Any]) -> Client:
    """The client that such a call of `Index` made. Warns the caller of the class that calls this."""
    warnings.warn("rowanspan.Index is an index in this process: a connection to a server is a rowanspan.Client",
                  DeprecationWarning, stacklevel=3)
    return Client(*arguments, **named)


FORMER_OPTIONS = {"feed": "log_capacity", "keep": "log_retention"}


def options_of(capacity: int, retention: int, named: Mapping[str, Any]) -> Tuple[int, int]:
    """The bounds of an index's log, of which `named` may have some by their former names. Warns the caller of the class
    that calls this, and raises TypeError for any other name."""
    for name in named:
        if name not in FORMER_OPTIONS:
            raise TypeError(f"Index.__init__() got an unexpected keyword argument {name!r}")
    for name in named:
        warnings.warn(f"the option {name} of rowanspan.Index is now {FORMER_OPTIONS[name]}", DeprecationWarning,
                      stacklevel=3)
    return named.get("feed", capacity), named.get("keep", retention)


def signature_of(init: Callable[..., None]) -> inspect.Signature:
    """The signature of a class by its `__init__`, without former names, if its `__new__` takes other arguments too."""
    made = inspect.signature(init)
    own = list(made.parameters.values())[1:]
    return made.replace(parameters=[one for one in own if one.kind is not inspect.Parameter.VAR_KEYWORD])
