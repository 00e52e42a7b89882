"""The log of an embedded index whose rows are in a folder."""
from __future__ import annotations

import ctypes
import os
from types import SimpleNamespace
from typing import Dict, NoReturn, Type, Union

from .core import REFUSALS, Closed, FolderBusy, FolderDamaged, FolderFailed, NoLibrary, NotWritten, RowanspanError
from .library import (CLOSED, DISK_FAILED, DISK_FULL, DONE, FOLDER_BUSY, FOLDER_DAMAGED, FOLDER_FAILED, U64, Handle,
                      Log)
from .server import DiskFailed, DiskFull, InMemory

# the path of a folder
Folder = Union[str, "os.PathLike[str]"]
# how many bytes of a message are read
MESSAGE = 1024
# why a folder isn't opened
UNOPENED: Dict[int, Type[Union[FolderFailed, FolderBusy, FolderDamaged]]] = {
    FOLDER_FAILED: FolderFailed, FOLDER_BUSY: FolderBusy, FOLDER_DAMAGED: FolderDamaged}


class CommitLog:
    """The log to which the commits of an index go; it isn't open if the rows are in memory alone.

    Each call is of a thread that holds the lock of the index.
    """

    def __init__(self, library: SimpleNamespace, handle: Handle) -> None:
        self._library, self._handle = library, handle
        # the extension module reads and writes it too
        self.state = Log()
        self._process = os.getpid()

    @property
    def is_open(self) -> bool:
        return bool(self.state.handle.is_open)

    def open(self, folder: Folder, columns: int, capacity: int, retention: int, checkpoint: int) -> None:
        """Opens the index with the rows of a folder, and its log."""
        path, room, length = os.fsencode(folder), ctypes.create_string_buffer(MESSAGE), U64()
        status = self._library.open_folder(self._handle, self.state.handle, path, len(path), columns, capacity,
                                           retention, checkpoint, room, MESSAGE, length)
        kind = UNOPENED.get(status)
        if kind is not None:
            raise kind(room.raw[:length.value].decode("utf-8", "replace"))
        if status != DONE:
            self.fail(status)

    def close(self) -> None:
        """Makes all commits durable, as far as the disk does that, and ends the log. A forked child only closes its
        copies of the files."""
        if self.is_open:
            try:
                if self._process == os.getpid():
                    self.sync()
            except RowanspanError:
                pass
            self._library.log_close(self.state.handle)

    def fail(self, status: int) -> NoReturn:
        """Raises what a status means."""
        if status == DISK_FULL:
            raise DiskFull()
        if status == DISK_FAILED:
            raise DiskFailed(self.durable() if self.is_open else None)
        if status == CLOSED:
            raise Closed("the index is closed")
        if status in REFUSALS:
            raise REFUSALS[status]()
        raise NoLibrary(f"the library answered {status}")

    # -- changes

    def begin(self) -> None:
        """Before a change: writes what the log lacks. An exception that comes before `end` leaves the log to the next
        change."""
        if self.is_open:
            if self.state.lags:
                self.write()
            self.state.lags = True

    def end(self, commit: int) -> None:
        """After a change: writes its commit."""
        if self.is_open:
            try:
                self.write()
            except RowanspanError as fault:
                raise NotWritten(commit) from fault

    def write(self) -> None:
        """Writes the commits that the log lacks, and makes a round of a checkpoint that is due."""
        lacking, status = U64(1), DONE
        while status == DONE and lacking.value:
            status = self._library.log_commits(self._handle, self.state.handle, lacking)
        self.state.lags = lacking.value > 0
        if lacking.value:
            self.fail(status)
        # (if it fails, the commits are written all the same)
        self._library.log_checkpoint(self._handle, self.state.handle, False, U64())

    # -- what is durable

    def want_open(self) -> None:
        """Raises `Closed` or `InMemory` if there is no log."""
        if not self._handle.is_open:
            raise Closed("the index is closed")
        if not self.is_open:
            raise InMemory()

    def sync(self) -> int:
        """Makes all commits durable; returns the number of the last one."""
        number = U64()
        self.write()
        status = self._library.log_sync(self.state.handle, number)
        if status != DONE:
            self.fail(status)
        return number.value

    def durable(self) -> int:
        """The number of the last commit that is durable."""
        number = U64()
        self._library.log_durable(self.state.handle, number)
        return number.value

    def checkpoint(self) -> None:
        """Makes a whole checkpoint, or completes the one that is in progress."""
        is_going, begins = U64(1), True
        self.write()
        while is_going.value:
            status = self._library.log_checkpoint(self._handle, self.state.handle, begins, is_going)
            if status != DONE:
                self.fail(status)
            begins = False
