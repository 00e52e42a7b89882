"""Tests of an embedded index whose rows are in a folder: what survives, what is durable, why a folder isn't opened, and
disks that are full or fail. test_embedded.py runs them."""
from __future__ import annotations

import errno
import os
import pickle
import random
import signal
import subprocess
import sys
import tempfile
import threading
import unittest
from contextlib import contextmanager
from pathlib import Path
from typing import Any, Callable, Dict, Iterator, List, Set
from unittest import mock

from rowanspan import (BadColumn, BadLimit, Behind, Closed, DiskFull, FolderBusy, FolderDamaged, FolderFailed,
                       InMemory, NoSuchView, NotDurable, NotWritten, Prefix, RowanspanError, TooLong)
from rowanspan.embedded import Index, Row
from rowanspan.native import NoCalls
from test_embedded_native import CALLS, outcome
from test_embedded_threads import THREADS, in_threads

HERE = Path(__file__).resolve().parent
SECONDS = 60.0
MIB = 1 << 20
FILES = ("even-wal", "odd-wal")
BEGIN = """import os, sys
sys.path.insert(0, sys.argv[1])
from rowanspan import DiskFailed, FolderBusy, Index, NotWritten
"""
# puts 500 rows, and ends without a close
ENDING = BEGIN + """index = Index(folder=sys.argv[2])
for number in range(500):
    assert index.put(b"%d" % number, b"v") == number + 1
assert index.durable() == 0
os.kill(os.getpid(), 9)
"""
ASKING = BEGIN + """try:
    Index(folder=sys.argv[2])
except FolderBusy as fault:
    print(fault)
"""
# puts rows until the file of the log would have more bytes than it may
FAILING = BEGIN + """import resource
index = Index(16, folder=sys.argv[2])
resource.setrlimit(resource.RLIMIT_FSIZE, (int(sys.argv[3]), resource.RLIM_INFINITY))
sets = {column: b"x" * 64 for column in range(16)}
for number in range(20000):
    try:
        assert index.put(b"%d" % number, sets) == number + 1
    except NotWritten as fault:
        assert (fault.commit, type(fault.__cause__)) == (number + 1, DiskFailed), fault.__cause__
        break
for change in (lambda: index.put(b"a", b"v"), lambda: index.remove(b"0"), lambda: index.put_if(b"a", b"v", 0),
               index.settle, index.checkpoint):
    try:
        change()
    except DiskFailed as fault:
        # (the zeros that were written ahead were synced, and the commits before them)
        assert fault.durable == index.durable() < number
        continue
    raise AssertionError("it isn't refused")
assert index.commits() == len(index) == number + 1 and index[b"%d" % number].version == number + 1
index.close()
print(number)
"""


def run(code: str, *words: object) -> subprocess.CompletedProcess[str]:
    return subprocess.run([sys.executable, "-c", code, str(HERE), *map(str, words)], capture_output=True, text=True,
                          timeout=SECONDS, check=False)


class FolderTest(unittest.TestCase):
    def setUp(self) -> None:
        place = tempfile.TemporaryDirectory(prefix="rowanspan-")
        self.addCleanup(place.cleanup)
        self.place = Path(place.name)
        self.folder = self.place / "rows"

    def raises(self, kind: type, call: Callable[[], Any]) -> Any:
        with self.assertRaises(kind) as met:
            call()
        return met.exception

    def used(self) -> int:
        """How many bytes of both files aren't zeros at their ends."""
        return sum(len((self.folder / name).read_bytes().rstrip(b"\0")) for name in FILES)

    # -- what survives

    def test_rows_survive(self) -> None:
        with Index(2, folder=self.folder) as index:
            self.assertEqual((index.put(b"a", {0: b"v", 1: b"w"}), index.put_if(b"b", b"v", 0)), (1, 2))
            index[b"c"] = b"v"
            self.assertEqual(index.update(b"a", lambda row: {0: b"new"}), 4)
            self.assertEqual((index.pop(b"c"), index.setdefault(b"d", b"v")),
                             (Row(3, (b"v", b"")), Row(6, (b"v", b""))))
            self.assertEqual((index.remove(b"b"), index.remove(b"b")), (7, None))
        rows = [(b"a", Row(4, (b"new", b"w"))), (b"d", Row(6, (b"v", b"")))]
        with Index(columns=2, folder=str(self.folder)) as index:
            self.assertEqual((index.first(), index.commits(), len(index), index.columns()), (rows, 7, 2, 2))
            self.assertEqual((index.durable(), index.put(b"e", b"")), (7, 8))
        before = os.getcwd()
        os.chdir(self.place)
        try:
            with Index(columns=2, folder="rows") as index:
                self.assertEqual(index.first(), [*rows, (b"e", Row(8, (b"", b"")))])
        finally:
            os.chdir(before)

    def test_a_process_that_is_killed(self) -> None:
        self.assertEqual((run(ENDING, self.folder).returncode), -9)
        with Index(folder=self.folder) as index:
            self.assertEqual((index.commits(), len(index), index.durable()), (500, 500, 500))
            self.assertEqual(index[b"499"], Row(500, (b"v",)))

    def test_an_index_that_is_dropped(self) -> None:
        index = Index(folder=self.folder)
        index.put(b"a", b"v")
        del index
        with Index(folder=self.folder) as index:
            self.assertEqual(index[b"a"], Row(1, (b"v",)))

    def test_same_calls_as_in_memory(self) -> None:
        with Index(2, folder=self.folder) as ours, Index(2) as theirs:
            for index in (ours, theirs):
                index.build(Prefix(b""))
            for name, words in CALLS:
                got, wanted = (outcome(lambda: getattr(index, name)(*words)) for index in (ours, theirs))
                self.assertEqual((name, words, got), (name, words, wanted))
            rows, commits = ours.first(), ours.commits()
            self.assertEqual((rows, commits), (theirs.first(), theirs.commits()))
        with Index(2, folder=self.folder) as ours:
            self.assertEqual((ours.first(), ours.commits()), (rows, commits))

    def test_changes_by_chance(self) -> None:
        """Some hundred changes, again and again, while the log is shortened."""
        chance, rows, commits, most = random.Random(7), {}, 0, 0
        for round_ in range(15):
            with Index(folder=self.folder, checkpoint=4000) as index, index.build(Prefix(b"1")) as view:
                self.assertEqual((dict(index.items()), index.commits()), (rows, commits))
                for _ in range(chance.randrange(600)):
                    key = b"%d" % chance.randrange(250)
                    if chance.randrange(3) == 0:
                        commits += key in rows
                        self.assertEqual(index.remove(key), commits if rows.pop(key, None) else None)
                    else:
                        commits += 1
                        rows[key] = Row(commits, (chance.randbytes(chance.randrange(65)),))
                        self.assertEqual(index.put(key, rows[key].columns[0]), commits)
                self.assertEqual(view.totals(commits).count, len([key for key in rows if key.startswith(b"1")]))
                if round_ % 5 == 2:
                    index.checkpoint()
                    self.assertEqual(index.durable(), commits)
            most = max(most, self.used())
        self.assertGreater(commits, 1000)
        # (a row takes up to some 100 bytes, and each of both files up to twice its rows and the limit)
        self.assertLess(most, 2 * 2 * (250 * 100 + 4000))

    def test_views_and_the_feed(self) -> None:
        with Index(folder=self.folder) as index:
            index.put(b"a", b"\5")
            view = index.build(Prefix(b"a"))
            index.put(b"ab", b"\7")
            self.assertEqual((view.at, view.count, view.sums), (2, 2, (12,)))
            self.assertEqual([delta.number for delta in index.feed(1)], [2])
        with Index(folder=self.folder) as index:
            self.raises(NoSuchView, lambda: index.view(view.number).count)
            self.assertEqual(self.raises(Behind, lambda: index.feed(1)).detail, 2)
            self.assertEqual(index.feed(2), [])

    # -- what is durable

    def test_settle(self) -> None:
        with Index(folder=self.folder) as index:
            self.assertEqual((index.settle(), index.durable()), (0, 0))
            index.put(b"a", b"v")
            self.assertEqual((index.durable(), index.settle(), index.durable()), (0, 1, 1))
            index.put(b"b", b"v")
            self.assertEqual(index.durable(), 1)
            index.checkpoint()
            self.assertEqual(index.durable(), 2)
        for call in (index.settle, index.durable, index.checkpoint, lambda: index.put(b"a", b"")):
            self.raises(Closed, call)
        index.close()

    def test_changes_that_are_to_be_durable(self) -> None:
        with Index(folder=self.folder) as index:
            changes: List[Callable[[], Any]] = [
                lambda: index.put(b"a", b"v", durable=True), lambda: index.put_if(b"a", b"w", 1, durable=True),
                lambda: index.update(b"a", lambda row: b"x", durable=True), lambda: index.remove(b"a", durable=True)]
            for number, change in enumerate(changes, 1):
                self.assertEqual((change(), index.durable()), (number, number))
            self.assertEqual((index.setdefault(b"a", b"v", durable=True), index.durable()), (Row(5, (b"v",)), 5))
            self.assertEqual((index.pop(b"a", durable=True), index.durable()), (Row(5, (b"v",)), 6))
            # (what finds no row settles what it saw, and no other call settles)
            self.assertEqual((index.put(b"a", b"v"), index.durable()), (7, 6))
            self.assertEqual((index.pop(b"b", 5, durable=True), index.durable()), (5, 6))
            self.assertEqual((index.remove(b"b", durable=True), index.durable()), (None, 7))
            index._native = NoCalls()
            self.assertEqual((index.put(b"b", b"v", durable=True), index.durable()), (8, 8))
            self.assertEqual((index.remove(b"b", durable=True), index.durable()), (9, 9))
        self.raises(Closed, lambda: index.put(b"a", b"v", durable=True))

    def test_in_memory_alone(self) -> None:
        with Index() as index:
            index.put(b"a", b"v")
            for call in (index.settle, index.durable, index.checkpoint, lambda: index.put(b"a", b"w", durable=True),
                         lambda: index.put_if(b"a", b"w", 1, durable=True), lambda: index.remove(b"a", durable=True),
                         lambda: index.pop(b"a", durable=True)):
                self.assertEqual(str(self.raises(InMemory, call)), "the rows are in memory alone")
            self.assertEqual((index.commits(), index[b"a"]), (1, Row(1, (b"v",))))

    # -- why a folder isn't opened

    def test_busy(self) -> None:
        with Index(folder=self.folder) as index:
            for _ in range(2):
                fault = self.raises(FolderBusy, lambda: Index(folder=self.folder))
                self.assertEqual((fault.errno, isinstance(fault, RowanspanError)), (errno.EBUSY, True))
                self.assertEqual(run(ASKING, self.folder).stdout, f"{fault}\n")
            index.put(b"a", b"v")
        self.assertEqual(run(ASKING, self.folder).stdout, "")

    def test_damaged(self) -> None:
        with Index(columns=2, folder=self.folder) as index:
            index.put(b"a", b"v")
        for columns in (1, 3):
            self.assertRegex(str(self.raises(FolderDamaged, lambda: Index(columns, folder=self.folder))), "even-wal")
        with Index(columns=2, folder=self.folder) as index:
            self.assertEqual(len(index), 1)
        for name in FILES:
            for file in FILES:
                (self.folder / file).write_bytes(b"")
            (self.folder / name).write_bytes(b"garbage" * 100)
            fault = self.raises(FolderDamaged, lambda: Index(folder=self.folder))
            self.assertRegex(str(fault), name)
            self.assertEqual((self.folder / name).read_bytes(), b"garbage" * 100)
            self.assertIsInstance(fault, OSError)

    def test_failed(self) -> None:
        (self.place / "file").write_bytes(b"")
        for path in (self.place / "none" / "rows", "/dev/null/rows", "", self.place / "file"):
            fault = self.raises(FolderFailed, lambda: Index(folder=path))
            self.assertTrue(str(fault) and isinstance(fault, OSError) and isinstance(fault, RowanspanError))

    def test_arguments(self) -> None:
        wrong: Any = Index
        for words in ({"folder": 5}, {"folder": self.folder, "checkpoint": "1"}):
            self.raises(TypeError, lambda: wrong(**words))
        self.raises(TooLong, lambda: Index(folder=self.folder, checkpoint=-1))
        self.raises(BadColumn, lambda: Index(17, folder=self.folder))
        self.raises(BadLimit, lambda: Index(1, 0, folder=self.folder))
        self.assertFalse(self.folder.exists())

    def test_names_that_are_no_text(self) -> None:
        for name in ("größe", os.fsdecode(b"\xff\xfe")):
            with Index(folder=self.place / name) as index:
                index.put(b"a", b"v")
            with Index(folder=self.place / name) as index:
                self.assertEqual(len(index), 1)

    def test_faults_are_copied(self) -> None:
        for fault in (FolderFailed("why"), FolderBusy("why"), FolderDamaged("even-wal: why"), NotWritten(7),
                      NotDurable(7)):
            again = pickle.loads(pickle.dumps(fault))
            self.assertEqual((type(again), str(again), vars(again)), (type(fault), str(fault), vars(fault)))
        self.assertEqual((str(NotWritten(7)), NotWritten(7).commit),
                         ("the change is in memory, and its commit 7 was not written to the log", 7))

    # -- processes and threads

    def test_signals(self) -> None:
        """Signals that come all the time interrupt no write and no sync."""
        count = 0

        def handler(*_: object) -> None:
            nonlocal count
            count += 1

        before = signal.signal(signal.SIGALRM, handler)
        try:
            with Index(folder=self.folder, checkpoint=5000) as index:
                signal.setitimer(signal.ITIMER_REAL, 0.0005, 0.0005)
                for number in range(1500):
                    self.assertEqual(index.put(b"%d" % (number % 100), b"v"), number + 1)
                    if number % 50 == 0:
                        index.settle()
                signal.setitimer(signal.ITIMER_REAL, 0)
                self.assertEqual(index.settle(), 1500)
        finally:
            signal.setitimer(signal.ITIMER_REAL, 0)
            signal.signal(signal.SIGALRM, before)
        self.assertGreater(count, 10)

    def test_a_forked_child(self) -> None:
        """It leaves the folder to its parent, also if it closes its copy of the index."""
        with Index(folder=self.folder) as index:
            index.put(b"a", b"v")
            child = os.fork()
            if child == 0:
                index.close()
                os._exit(0)
            self.assertEqual(os.waitpid(child, 0)[1], 0)
            self.assertNotEqual(run(ASKING, self.folder).stdout, "")
            self.assertEqual((index.put(b"b", b"w"), index.settle()), (2, 2))
        with Index(folder=self.folder) as index:
            self.assertEqual(len(index), 2)

    def test_another_program(self) -> None:
        """A program that this one has started doesn't have its folder, also if it has its other files."""
        with Index(folder=self.folder) as index:
            index.put(b"a", b"v")
            other = subprocess.Popen(["sleep", "60"], close_fds=False)
        try:
            with Index(folder=self.folder) as index:
                self.assertEqual(len(index), 1)
        finally:
            other.kill()
            other.wait()

    def test_threads(self) -> None:
        commits: Set[int] = set()
        with Index(folder=self.folder, checkpoint=10000) as index:
            def work(own: int) -> None:
                for number in range(100):
                    commits.add(index.put(b"%d %d" % (own, number), b"v"))
                    if number % 25 == 0:
                        self.assertGreaterEqual(index.settle(), 1)
                    self.assertIsNotNone(index.get(b"%d %d" % (own, number)))

            in_threads([lambda own=own: work(own) for own in range(THREADS)])  # type: ignore[misc]
            self.assertEqual(commits, set(range(1, 100 * THREADS + 1)))
            rows = index.first()
        with Index(folder=self.folder) as index:
            self.assertEqual((index.first(), len(index)), (rows, 100 * THREADS))

    def test_a_close_among_changes(self) -> None:
        index, counts = Index(folder=self.folder), []

        def work(own: int) -> None:
            count = 0
            try:
                while True:
                    index.put(b"%d %d" % (own, count), b"v")
                    count += 1
            except Closed:
                counts.append(count)

        closing = threading.Timer(0.1, index.close)
        closing.start()
        in_threads([lambda own=own: work(own) for own in range(3)])  # type: ignore[misc]
        closing.join()
        with Index(folder=self.folder) as index:
            self.assertEqual((len(index), len(counts)), (sum(counts), 3))

    def test_an_interrupt(self) -> None:
        """What comes between a change and the write of its commit leaves the write to the next change."""
        with Index(folder=self.folder) as index:
            index._native = NoCalls()
            for number, change in enumerate((lambda: index.put(b"a", b"v"), lambda: index.remove(b"a")), 1):
                with mock.patch.object(index._log, "end", side_effect=KeyboardInterrupt):
                    self.raises(KeyboardInterrupt, change)
                self.assertEqual((index.commits(), index._log.state.lags), (2 * number - 1, True))
                self.assertEqual((index.put(b"a", b"w"), index._log.state.lags), (2 * number, False))
        with Index(folder=self.folder) as index:
            self.assertEqual((index.commits(), index[b"a"]), (4, Row(4, (b"w",))))

    # -- disks

    def test_a_disk_that_fails(self) -> None:
        done = run(FAILING, self.folder, 2 * MIB + 12345)
        self.assertEqual((done.returncode, done.stderr), (0, ""))
        with Index(16, folder=self.folder) as index:
            self.assertEqual((len(index), index.commits()), (int(done.stdout), int(done.stdout)))

    @contextmanager
    def small_disk(self) -> Iterator[Path]:
        self.folder.mkdir()
        mounted = subprocess.run(["mount", "-t", "tmpfs", "-o", "size=6m", "tmpfs", str(self.folder)],
                                 capture_output=True, check=False)
        if mounted.returncode != 0:
            self.skipTest(f"no file system can be mounted: {mounted.stderr.decode(errors='replace').strip()}")
        try:
            yield self.folder / "ballast"
        finally:
            subprocess.run(["umount", "-l", str(self.folder)], check=True)

    def test_a_full_disk(self) -> None:
        rows: Dict[bytes, Row] = {}
        sets = {column: b"x" * 64 for column in range(16)}
        with self.small_disk() as ballast:
            with Index(16, folder=self.folder) as index, index.build(Prefix(b"")) as view:
                for size in (2 * MIB, MIB):
                    ballast.write_bytes(bytes(size))
                    fault = self.filled(index, rows, sets)
                    self.assertEqual((fault.commit, type(fault.__cause__)), (len(rows), DiskFull))
                    for change in self.changes_of(index):
                        self.assertEqual(self.raises(DiskFull, change).errno, errno.ENOSPC)
                    self.assertEqual((dict(index.items()), view.at, view.count), (rows, len(rows), len(rows)))
                    self.assertLess(index.durable(), len(rows))
                    ballast.unlink()
                    rows[b"a%d" % size] = Row(index.put(b"a%d" % size, {}), (b"",) * 16)
                    self.assertEqual((index.settle(), index.durable()), (len(rows), len(rows)))
            with Index(16, folder=self.folder) as index:
                self.assertEqual((dict(index.items()), index.commits()), (rows, len(rows)))

    def changes_of(self, index: Index) -> List[Callable[[], Any]]:
        return [lambda: index.put(b"a", b"v"), lambda: index.remove(b"0"), lambda: index.put_if(b"a", b"v", 0),
                index.settle, index.checkpoint] * 2

    def filled(self, index: Index, rows: Dict[bytes, Row], sets: Dict[int, bytes]) -> NotWritten:
        """Puts rows until one isn't written, which is there all the same."""
        while True:
            number = len(rows)
            key = b"%d" % number
            rows[key] = Row(number + 1, tuple(sets.values()))
            try:
                self.assertEqual(index.put(key, sets), number + 1)
            except NotWritten as fault:
                return fault
