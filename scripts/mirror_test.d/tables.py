"""Mirrors of small tables of PostgreSQL: what a row of each kind becomes, and what is refused before the copy."""
from __future__ import annotations

import os
import re
import subprocess
import sys
import time
from typing import Any, Callable, Dict, List, Optional, Sequence

from engines import Postgres
# (it puts the package on the path)
from running import SECONDS, TOP, Mirror, Server, rows_of, want, want_same

from rowanspan import mirror

# what is done to a table that is mirrored, by SQL
Change = str


def wait_for(is_so: Callable[[], bool]) -> None:
    end = time.monotonic() + SECONDS
    while not is_so():
        want(time.monotonic() < end, "it takes too long")
        time.sleep(0.05)


class Tables:
    """The source, the server, and tables `t1`, `t2`, .., each with a mirror of its own."""

    def __init__(self, postgres: Postgres, server: Server, seed: int) -> None:
        self.postgres, self.server, self.seed = postgres, server, seed
        self.index = server.index()
        self.sql = postgres.connected().cursor()
        self._count = 0

    def run(self, *commands: str) -> None:
        for command in commands:
            self.sql.execute(command)

    def now(self) -> int:
        self.sql.execute("SELECT pg_current_wal_flush_lsn() - '0/0'")
        return int(self.sql.fetchone()[0])

    def words(self, table: str, key: str, *columns: str) -> List[str]:
        """The command line of a mirror of a table."""
        made = ["postgres", "--dsn", self.postgres.dsn, "--table", table, "--key", key]
        return made + [word for column in columns for word in ("--column", column)]

    def mirror(self, words: Sequence[str], server: Optional[Server] = None) -> Mirror:
        """A mirror with a name of its own, which isn't started yet."""
        self._count += 1
        return Mirror((server or self.server).port, f"m{self._count}", words)

    def refused(self, why: str, *words: str) -> None:
        """A mirror with these words ends with status 1, and says why; the server has no position of it."""
        with self.mirror(words) as refused:
            status = refused.status()
            want_same(f"status ({refused.said()!r})", status, 1)
            want(why in refused.said(), f"{why!r} isn't in {refused.said()!r}")
            want(mirror.position(self.index, refused.name) is None, "it has written a position")

    def table(self, identity: str = "DEFAULT", key: str = "{id}") -> Running:
        """A table of two rows, and its mirror."""
        return Running(self, f"t{self._count + 1}", identity, key)


class Running:
    """A table, and a mirror of it that runs."""

    def __init__(self, tables: Tables, name: str, identity: str, key: str) -> None:
        self.tables, self.name = tables, name
        tables.run(f"CREATE TABLE {name}(id text PRIMARY KEY, a numeric, b text)",
                   f"ALTER TABLE {name} REPLICA IDENTITY {identity}",
                   f"INSERT INTO {name} VALUES ('1', 5, 'x'), ('2', 6, 'y')")
        self.mirror = tables.mirror(tables.words(name, f"{name}/{key}", "a:uint", "b:text"))

    def __enter__(self) -> Running:
        self.mirror.start()
        self.reach()
        return self

    def __exit__(self, *_: object) -> None:
        self.mirror.__exit__()

    def reach(self) -> None:
        self.mirror.reach(self.tables.index, self.tables.now())

    def rows(self) -> List[object]:
        return rows_of(self.tables.index, self.name.encode() + b"/", 2)

    def want_rows(self, *wanted: Sequence[object]) -> None:
        """The rows are these, of an id, an amount and a text."""
        made = [(f"{self.name}/{key}".encode(), (bytes((int(str(a)),)), str(b).encode())) for key, a, b in wanted]
        want_same("rows", self.rows(), made)

    def change(self, *commands: Change) -> None:
        """Changes the table, which is `T` in these commands."""
        self.tables.run(*(re.sub(r"\bT\b", self.name, command) for command in commands))

    def ends(self, status: int, why: str) -> None:
        """The mirror ends with this status, and says why."""
        got = self.mirror.status()
        want_same(f"status ({self.mirror.said()!r})", got, status)
        want(why in self.mirror.said(), f"{why!r} isn't in {self.mirror.said()!r}")

    def starts_again(self, said: str) -> None:
        """The mirror is started again, has all, and has said this."""
        before = len(self.mirror.said())
        self.mirror.start()
        wait_for(lambda: said in self.mirror.said()[before:] or self.mirror.process.poll() is not None)
        self.reach()
        want(said in self.mirror.said()[before:], f"{said!r} isn't in {self.mirror.said()!r}")


# ---- refused before a row is copied

def before_the_copy(tables: Tables) -> None:
    """Tables and mappings that don't fit."""
    tables.run("CREATE TABLE bare(id int, a int)", "CREATE TABLE late(id int PRIMARY KEY DEFERRABLE, a int)",
               "CREATE TABLE fit(id int, state text, a int, f float8, PRIMARY KEY (id))",
               "CREATE TABLE parted(id int PRIMARY KEY, a int) PARTITION BY RANGE (id)",
               "CREATE UNLOGGED TABLE quick(id int PRIMARY KEY, a int)", "CREATE VIEW seen AS SELECT * FROM fit",
               "CREATE TABLE made(id int PRIMARY KEY, a int, b int GENERATED ALWAYS AS (a + 1) STORED)")
    words = tables.words
    for why, given in (
            ("no table", words("nothing", "r/{id}")), ("no primary key", words("bare", "r/{id}")),
            ("checked at once", words("late", "r/{id}")), ("no column", words("fit", "r/{id}", "nothing:uint")),
            ("GENERATED", words("made", "r/{id}", "b")), ("could have one key", words("fit", "r/{state}")),
            ("begin with text", words("fit", "{id}")), ("followed by '/'", words("fit", "r/{state}{id}")),
            ("no kind of column", words("fit", "r/{id}", "a:float")),
            ("double precision", words("fit", "r/{id}", "f:dec2")), ("17 columns", words("fit", "r/{id}", *["a"] * 17)),
            ("--columns 5", words("fit", "r/{id}", *["a"] * 5)), ("has partitions", words("parted", "r/{id}")),
            ("no log of its changes", words("quick", "r/{id}")), ("no log of its changes", words("seen", "r/{id}")),
            ("REPLICA IDENTITY FULL", words("fit", "r/{state}/{id}"))):
        tables.refused(why, *given)


def in_the_copy(tables: Tables) -> None:
    """A row that doesn't fit, and that is there at the start: nothing is promised."""
    tables.run("CREATE TABLE bad(id int PRIMARY KEY, a numeric)", "INSERT INTO bad VALUES (1, 'NaN')")
    with tables.mirror(tables.words("bad", "bad/{id}", "a:dec2")) as stopped:
        want_same("status", stopped.status(), 1)
        want("a is 'NaN', which is no dec2" in stopped.said(), stopped.said())
        found = mirror.position(tables.index, stopped.name)
        want(found is not None and found.state is mirror.State.COPYING, f"it is at {found}")


# ---- rows

def rows_of_all_kinds(tables: Tables) -> None:
    """Escapes, NULL, decimals, negative numbers; long values that an update leaves; keys that move; savepoints."""
    long = os.urandom(4000).hex()
    tables.run("CREATE TABLE k(id int PRIMARY KEY, t text, n numeric(12,2), b bool, i bigint)",
               "INSERT INTO k VALUES (1, E'a\\tb\\\\c\\nd/é%', 12.34, true, -5), (2, NULL, NULL, NULL, NULL)",
               f"INSERT INTO k VALUES (3, '{long}', 0, false, 0)")

    def row(text: bytes, number: bytes, truth: bytes, amount: int) -> Sequence[bytes]:
        return text, number, truth, (amount + 2 ** 63).to_bytes(8, "big")

    with tables.mirror(tables.words("k", "k/{id}", "t:cut", "n:dec2", "b:bool", "i:int")) as it:
        def want_rows(what: str) -> None:
            it.reach(tables.index, tables.now())
            want_same(what, rows_of(tables.index, b"k/", 4), sorted(rows.items()))

        odd, cut = b"a\tb\\c\nd/\xc3\xa9%", long[:64].encode()
        rows: Dict[bytes, Any] = {b"k/1": row(odd, b"\4\xd2", b"\1", -5), b"k/2": row(b"", b"", b"", 0),
                                  b"k/3": row(cut, b"", b"", 0)}
        want_rows("copied")
        tables.run("UPDATE k SET t = t, i = 7 WHERE id = 1; UPDATE k SET i = 8 WHERE id = 3")
        rows.update({b"k/1": row(odd, b"\4\xd2", b"\1", 7), b"k/3": row(cut, b"", b"", 8)})
        want_rows("an update beside a long value")
        tables.run("UPDATE k SET id = 30 WHERE id = 1")
        rows[b"k/30"] = rows.pop(b"k/1")
        want_rows("a primary key that changes")
        tables.run("BEGIN; INSERT INTO k VALUES (9); SAVEPOINT s; INSERT INTO k VALUES (10); ROLLBACK TO s; "
                   "DELETE FROM k WHERE id = 9; INSERT INTO k VALUES (9, 'z', 1, true, 1); COMMIT")
        rows[b"k/9"] = row(b"z", b"\x64", b"\1", 1)
        want_rows("a savepoint, and a row made twice")
        tables.run("CREATE TABLE IF NOT EXISTS noise(t text)", "INSERT INTO noise SELECT repeat('x', 100) FROM "
                   "generate_series(1, 1000)")
        want_rows("a table that isn't mirrored moves the position")


def keys_that_move(tables: Tables) -> None:
    """A key of another column, with NULL in it, beside a long value; a table with an odd name."""
    long = os.urandom(4000).hex()
    tables.run('CREATE TABLE "O\'dd ""T"(id int PRIMARY KEY, "a b" text, t text)',
               'ALTER TABLE "O\'dd ""T" REPLICA IDENTITY FULL',
               f'INSERT INTO "O\'dd ""T" VALUES (1, \'x/y\', \'{long}\'), (2, NULL, \'\')')
    with tables.mirror(tables.words('"O\'dd ""T"', "odd/{a b}/{id}", "t:cut")) as it:
        it.reach(tables.index, tables.now())
        tables.run('UPDATE "O\'dd ""T" SET "a b" = \'z\' WHERE id = 1')
        it.reach(tables.index, tables.now())
        want_same("rows", rows_of(tables.index, b"odd/", 1),
                  [(b"odd/%N/2", (b"",)), (b"odd/z/1", (long[:64].encode(),))])


def a_role_that_may_little(tables: Tables) -> None:
    """The role needs REPLICATION, its table, and CREATE on the database."""
    tables.run("CREATE ROLE little LOGIN REPLICATION", "GRANT CREATE ON DATABASE postgres TO little",
               "CREATE SCHEMA own AUTHORIZATION little", "CREATE TABLE own.t(id int PRIMARY KEY, a int)",
               "ALTER TABLE own.t OWNER TO little", "INSERT INTO own.t VALUES (1, 5)")
    words = [word.replace("user=postgres", "user=little") for word in tables.words("own.t", "own/{id}", "a")]
    with tables.mirror(words) as it:
        it.reach(tables.index, tables.now())
        tables.run("UPDATE own.t SET a = 6")
        it.reach(tables.index, tables.now())
        want_same("rows", rows_of(tables.index, b"own/", 1), [(b"own/1", (b"\6",))])
    tables.run("REVOKE CREATE ON DATABASE postgres FROM little")
    with tables.mirror(words) as refused:
        want_same(f"status ({refused.said()!r})", refused.status(), 1)
        want("are those of the mirror" in refused.said() or "permission denied" in refused.said(), refused.said())


def parts_of_a_table(tables: Tables) -> None:
    """Two servers have one table between them, and rows move from one to the other."""
    tables.run("CREATE TABLE whole(id int PRIMARY KEY, part int NOT NULL)", "ALTER TABLE whole REPLICA IDENTITY FULL",
               "INSERT INTO whole SELECT i, i % 10 FROM generate_series(1, 100) i")
    words = tables.words("whole", "w/{part:02}/{id:04}", "id")
    with Server(tables.server.program) as other, tables.mirror([*words, "--to", "w/05"]) as low, \
            tables.mirror([*words, "--from", "w/05"], other) as high, other.index() as index:
        for change in ("SELECT 1", "UPDATE whole SET part = (part + 3) % 10 WHERE id % 3 = 0"):
            tables.run(change)
            low.reach(tables.index, tables.now())
            high.reach(index, tables.now())
            halves = [[key for key, _ in one.range(prefix=b"w/")] for one in (tables.index, index)]
            tables.sql.execute("SELECT part, id FROM whole ORDER BY part, id")
            want_same("keys", halves[0] + halves[1], [b"w/%02d/%04d" % row for row in tables.sql])
            want(halves[0][-1] < b"w/05" <= halves[1][0], f"{halves[0][-1]!r} {halves[1][0]!r}")


def demonstration(tables: Tables) -> None:
    """It runs for some seconds, with a kill, and says that all is the same."""
    command = [str(TOP / "examples" / "mirror" / "up"), "--mtserve", tables.server.program, "--orders", "300", "--rate",
               "10", "--http", "0", "--kill-every", "2", "--seconds", "5"]
    done = subprocess.run([sys.executable, *command], stdin=subprocess.DEVNULL, capture_output=True, text=True,
                          timeout=2 * SECONDS, check=False)
    want_same(f"status ({done.stdout[-400:]!r}, {done.stderr[-400:]!r})", done.returncode, 0)
    want("the mirror is killed" in done.stdout and "all the same" in done.stdout, done.stdout[-400:])


CASES: Dict[str, Callable[[Tables], None]] = {
    "rows of all kinds": rows_of_all_kinds, "keys that move": keys_that_move, "parts of a table": parts_of_a_table,
    "a role that may little": a_role_that_may_little, "refused before the copy": before_the_copy,
    "a row that does not fit in the copy": in_the_copy, "the demonstration": demonstration}
