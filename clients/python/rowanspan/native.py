"""The extension module of the embedded index: its file, and the calls that it makes instead of ctypes."""
from __future__ import annotations

import ctypes
import functools
import importlib.util
import os
import sys
import threading
from importlib.machinery import EXTENSION_SUFFIXES, ExtensionFileLoader
from pathlib import Path
from types import ModuleType, SimpleNamespace
from typing import Any, ContextManager, List, Optional, Tuple

from .core import Page, Row
from .places import PACKAGE, checkout

SUFFIX = ".abi3.so"
NAME = f"_native{SUFFIX}"
# the functions of the library that it calls
FUNCTIONS = ("get", "put", "put_if", "remove", "range", "range_back", "count", "len", "view", "totals", "apply",
             "log_commits", "log_checkpoint")


class NoCalls:
    """What an index has without the module. Each call returns NotImplemented: it did nothing, and ctypes makes it."""

    def get(self, key: Any, columns: Any) -> Any:
        return NotImplemented

    def range(self, start: Any, limit: Any, columns: Any) -> Any:
        return NotImplemented

    def range_back(self, stop: Any, limit: Any, columns: Any) -> Any:
        return NotImplemented

    def count(self, start: Any, stop: Any, most: Any) -> Any:
        return NotImplemented

    def len(self) -> Any:
        return NotImplemented

    def view(self, number: Any, floor: Any, start: Any, limit: Any) -> Any:
        return NotImplemented

    def totals(self, number: Any, floor: Any) -> Any:
        return NotImplemented

    def put(self, index: Any, key: Any, sets: Any) -> Any:
        return NotImplemented

    def put_if(self, index: Any, key: Any, sets: Any, version: Any) -> Any:
        return NotImplemented

    def remove(self, index: Any, key: Any) -> Any:
        return NotImplemented


def paths() -> List[Path]:
    """Where the module may be: in the package's own folder, or in the folder dist of the checkout."""
    top = checkout()
    return [PACKAGE / NAME] if top is None else [PACKAGE / NAME, top / "dist" / NAME]


@functools.lru_cache(maxsize=None)
def module() -> Optional[ModuleType]:
    """The module; None if it isn't there, or isn't for this interpreter. It needs the lock of the interpreter, which a
    free-threaded one (`t`) doesn't have."""
    found = next((path for path in paths() if path.exists()), None)
    fits = sys.implementation.name == "cpython" and SUFFIX in EXTENSION_SUFFIXES and "t" not in sys.abiflags
    if found is None or not fits:
        return None
    name = f"{__package__}._native"
    spec = importlib.util.spec_from_file_location(name, found, loader=ExtensionFileLoader(name, str(found)))
    assert spec is not None and spec.loader is not None
    try:
        made = importlib.util.module_from_spec(spec)
        spec.loader.exec_module(made)
    except ImportError:
        return None
    return made


def calls_of(library: SimpleNamespace, handle: ctypes.Structure, log: ctypes.Structure,
             keep_views: bool) -> Tuple[NoCalls, ContextManager[Any]]:
    """The calls of the index that has this handle of the library and this log, and the index's lock. If the environment's
    ROWANSPAN_NO_NATIVE isn't empty, they are those of an index without the module.

    The thread that holds the lock may take it again: a finalizer that calls the index may run inside a call."""
    found = None if os.environ.get("ROWANSPAN_NO_NATIVE") else module()
    if found is None:
        return NoCalls(), threading.RLock()
    addresses = {name: ctypes.cast(getattr(library, name), ctypes.c_void_p).value for name in FUNCTIONS}
    calls = found.Calls(handle, ctypes.addressof(handle), log, ctypes.addressof(log), addresses, keep_views, Row, Page)
    return calls, calls
