"""Mirrors of small tables of PostgreSQL that run: what stops them, and what they do after the next start."""
from __future__ import annotations

import os
import signal
import threading
from dataclasses import replace
from typing import Any, Callable, Dict, List

# (it puts the package on the path)
from running import SECONDS, Mirror, Server, rows_of, want, want_same
from tables import Tables, wait_for

from rowanspan import Prefix, mirror
from rowanspan.mirror.errors import CopyAgain
from rowanspan.mirror.frames import spelled_change
from rowanspan.mirror.place import position_key
from rowanspan.mirror.rows import RowMapping


def values_that_do_not_fit(tables: Tables) -> None:
    """The mirror stops before the transaction, and the rows stay exact at the position before."""
    for why, change in (("isn't from 0", "UPDATE T SET a = -1 WHERE id = '1'"),
                        ("at most 64", "UPDATE T SET b = repeat('x', 65) WHERE id = '1'"),
                        ("at most 1024", "INSERT INTO T VALUES (repeat('x', 1100), 1, '')"),
                        ("a is 'NaN', which is no uint", "UPDATE T SET a = 'NaN' WHERE id = '2'"),
                        ("a is '1.5', which is no uint", "UPDATE T SET a = 1.5 WHERE id = '2'")):
        with tables.table() as it:
            at = mirror.position(tables.index, it.mirror.name)
            it.change("BEGIN; UPDATE T SET b = 'z' WHERE id = '2'; " + change + "; COMMIT")
            it.ends(1, why)
            it.want_rows(("1", 5, "x"), ("2", 6, "y"))
            found = mirror.position(tables.index, it.mirror.name)
            want(found is not None and at is not None and found.state is mirror.State.EXACT, f"it is at {found}")


def columns_that_change(tables: Tables) -> None:
    """A column that is dropped, renamed, of another type, added."""
    import psycopg2

    with tables.table() as it:
        for refused in ("ALTER TABLE T DROP COLUMN b", "ALTER TABLE T ALTER a TYPE text"):
            try:
                it.change(refused)
            except psycopg2.Error:
                continue
            want(False, f"PostgreSQL has allowed {refused}")
        it.change("ALTER TABLE T ADD COLUMN c int DEFAULT 1", "UPDATE T SET a = 7 WHERE id = '1'")
        it.reach()
        it.want_rows(("1", 7, "x"), ("2", 6, "y"))
        it.change("ALTER TABLE T RENAME COLUMN b TO d", "UPDATE T SET a = 8")
        it.ends(1, "has no column b")
    for change, more in (("ALTER TABLE T DROP COLUMN b", ""), ("ALTER TABLE T DROP COLUMN b", "; UPDATE T SET a = 8")):
        with tables.table("FULL") as it:
            it.change(change + more)
            it.ends(1, "has no column b")


def types_that_change(tables: Tables) -> None:
    """After another type of a column all rows are copied, whether or not a change comes after it; and no page is exact
    meanwhile."""
    for more in ("", "; UPDATE T SET a = 3 WHERE id = '1'"):
        with tables.table("FULL") as it:
            it.change("ALTER TABLE T ALTER a TYPE bigint USING a * 2" + more)
            it.ends(4, "another start copies all rows")
            it.want_rows(("1", 5, "x"), ("2", 6, "y"))
            found = mirror.position(tables.index, it.mirror.name)
            want(found is not None and found.at < tables.now(), f"it is at {found}")
            it.starts_again("copies all rows: the server has no position of this source")
            it.want_rows(("1", 3 if more else 10, "x"), ("2", 12, "y"))


def tables_that_are_rewritten(tables: Tables) -> None:
    """Values that change without a message: each page that is called exact is. So is each after a VACUUM FULL."""
    with tables.table("FULL") as it, tables.index.build(Prefix(it.name.encode())) as view:
        for change, wanted in (("ALTER TABLE T ALTER a TYPE numeric USING a * 2", 22), ("VACUUM FULL T", 22),
                               ("ALTER TABLE T ALTER a TYPE numeric USING a + 1; UPDATE T SET a = a + 1", 26)):
            it.change(change)
            found = mirror.page(tables.index, it.mirror.name, view, at_least=tables.now(), limit=1, timeout=SECONDS)
            want_same(f"the sum after {change}", found.page.sums[0], wanted)
        want_same("copies", it.mirror.said().count("was rewritten"), 3)
        it.mirror.kill()
        it.change("ALTER TABLE T ALTER a TYPE numeric USING a - 1")
        it.starts_again("copies all rows")
        found = mirror.page(tables.index, it.mirror.name, view, at_least=tables.now(), limit=1, timeout=SECONDS)
        want_same("the sum after a change while the mirror was away", found.page.sums[0], 24)


def tables_that_are_truncated_and_rewritten(tables: Tables) -> None:
    """The same beside a TRUNCATE in the same transaction, and columns that are made again under their names."""
    fill = "TRUNCATE T; INSERT INTO T VALUES ('1', 5, 'x'), ('2', 6, 'y'); "
    for change, wanted in (
            (fill + "ALTER TABLE T ALTER a TYPE numeric USING a * 2", [10, 12, "x", "y"]),
            (fill + "SAVEPOINT s; ALTER TABLE T ALTER a TYPE numeric USING a * 3; RELEASE s; ALTER TABLE T SET "
             "(fillfactor = 90)", [15, 18, "x", "y"]),
            ("ALTER TABLE T DROP COLUMN b, ADD COLUMN b text DEFAULT 'z'", [5, 6, "z", "z"]),
            ("ALTER TABLE T RENAME b TO c; ALTER TABLE T ADD COLUMN b text DEFAULT 'z'", [5, 6, "z", "z"])):
        for is_away in (False, True):
            with tables.table("FULL") as it:
                if is_away:
                    it.mirror.kill()
                it.change(f"BEGIN; {change}; COMMIT")
                if is_away:
                    it.mirror.start()
                it.reach()
                it.want_rows(("1", wanted[0], wanted[2]), ("2", wanted[1], wanted[3]))
                want_same("copies", it.mirror.said().count("was rewritten"), 1)


def a_table_that_is_rewritten_in_the_copy(tables: Tables) -> None:
    """A snapshot is of no use after a TRUNCATE, which it doesn't see, or with other columns. Other changes after it
    aren't in the copy."""
    from rowanspan.mirror.postgres import PostgresSource

    with tables.table() as it:
        mapping = RowMapping.read("x/{id}", ["a"])
        source = PostgresSource(tables.postgres.dsn, it.name, mapping, "during")
        copied: List[bytes] = []
        for change in ("TRUNCATE T; INSERT INTO T VALUES ('3', 9, '')",
                       "ALTER TABLE T RENAME a TO c; ALTER TABLE T ADD COLUMN a numeric DEFAULT 9"):
            copy = source.copy()
            it.change(change)
            try:
                copy.rows(copied.extend)
                want(False, f"the copy has {copied}")
            except CopyAgain as fault:
                want("was rewritten during the copy" in str(fault), str(fault))
        copy = source.copy()
        it.change("UPDATE T SET a = 1; INSERT INTO T(id, a) VALUES ('4', 1)")
        copy.rows(copied.extend)
        want_same("the copy", copied, [spelled_change(b"x/3", {0: b"\x09"})])
        copy, copied = source.copy(), []
        waiting = Waiting(tables, f"TRUNCATE {it.name}")
        ask = source._ask

        def asked(query: str, *values: Any) -> Any:
            waiting.begin()
            return ask(query, *values)

        source._ask = asked  # type: ignore[method-assign]
        copy.rows(copied.extend)
        want_same("the copy before a change", len(copied), 2)
        waiting.end()
        source.close()


class Waiting:
    """A change that waits for a lock, in another thread."""

    def __init__(self, tables: Tables, change: str) -> None:
        self._tables, self._change = tables, change
        self._thread = threading.Thread(target=self._run, daemon=True)
        self._faults: List[str] = []

    def _run(self) -> None:
        try:
            with self._tables.postgres.connected().cursor() as sql:
                sql.execute(f"SET lock_timeout = '{SECONDS / 4:.0f}s'")
                sql.execute(self._change)
        except Exception as fault:
            self._faults.append(str(fault))

    def begin(self) -> None:
        if self._thread.ident is None:
            self._thread.start()
            wait_for(lambda: waits(self._tables))

    def end(self) -> None:
        self._thread.join(SECONDS)
        want(not self._faults and not self._thread.is_alive(), f"it waits: {self._faults}")


def waits(tables: Tables) -> bool:
    tables.run("SELECT count(*) FROM pg_locks WHERE NOT granted")
    return bool(tables.sql.fetchone()[0])


def tables_that_go(tables: Tables) -> None:
    """A table that is dropped, made again under its name, taken out of the publication, or loses its identity."""
    with tables.table() as it:
        it.change("DROP TABLE T")
        it.ends(1, "there is no table")
    with tables.table() as it:
        it.change("DROP TABLE T; CREATE TABLE T(id text PRIMARY KEY, a numeric, b text); "
                  "INSERT INTO T VALUES ('3', 9, 'new')")
        it.ends(4, "another start copies all rows")
        it.starts_again("copies all rows")
        it.want_rows(("3", 9, "new"))
    with tables.table() as it:
        tables.run(f"ALTER PUBLICATION rowan_{it.mirror.name} DROP TABLE {it.name}")
        it.ends(1, "was taken out of the publication")
    with tables.table("FULL", "{b}/{id}") as it:
        it.change("ALTER TABLE T REPLICA IDENTITY DEFAULT")
        it.ends(1, "REPLICA IDENTITY FULL")


def truncate(tables: Tables) -> None:
    """All rows are removed in the group of the TRUNCATE, without a copy, unless the mirror was away."""
    with tables.table() as it:
        it.change("BEGIN; INSERT INTO T VALUES ('4', 4, ''); TRUNCATE T; INSERT INTO T VALUES ('3', 1, 'z'); COMMIT")
        it.reach()
        it.want_rows(("3", 1, "z"))
        it.mirror.kill()
        it.change("TRUNCATE T; INSERT INTO T VALUES ('5', 1, 'y')")
        it.mirror.start()
        it.reach()
        it.change("TRUNCATE T")
        it.reach()
        it.want_rows()
        it.mirror.kill()
        it.starts_again("continues after")
        want_same("copies", it.mirror.said().count("copies all rows"), 2)


def slots_that_go(tables: Tables) -> None:
    """A slot that is dropped while the mirror runs, and one that the source gave up while the mirror was away."""
    with tables.table() as it:
        slot = f"rowan_{it.mirror.name}"
        wait_for(lambda: is_active(tables, slot))
        os.kill(it.mirror.process.pid, signal.SIGSTOP)
        tables.run(f"SELECT pg_terminate_backend(active_pid) FROM pg_replication_slots WHERE slot_name = '{slot}'")
        wait_for(lambda: drop(tables, slot))
        it.change("UPDATE T SET a = 77 WHERE id = '1'")
        os.kill(it.mirror.process.pid, signal.SIGCONT)
        it.ends(4, "the source:")
        it.starts_again("is gone")
        it.want_rows(("1", 77, "x"), ("2", 6, "y"))
        it.mirror.kill()
        tables.run("ALTER SYSTEM SET max_slot_wal_keep_size = '1MB'", "SELECT pg_reload_conf()",
                   f"DELETE FROM {it.name} WHERE id = '2'")
        wait_for(lambda: is_given_up(tables, slot))
        tables.run("ALTER SYSTEM RESET max_slot_wal_keep_size", "SELECT pg_reload_conf()")
        it.starts_again("is lost: the source kept no more of its log")
        it.want_rows(("1", 77, "x"))


def is_given_up(tables: Tables, slot: str) -> bool:
    """Whether the source has given up a slot. It is called until the source has more log than it may keep."""
    tables.run("SELECT pg_logical_emit_message(false, 'rowan', repeat('x', 200000)) FROM generate_series(1, 100)",
               "SELECT pg_switch_wal()", "CHECKPOINT",
               f"SELECT wal_status FROM pg_replication_slots WHERE slot_name = '{slot}'")
    return bool(tables.sql.fetchone()[0] == "lost")


def is_active(tables: Tables, slot: str) -> bool:
    tables.run(f"SELECT active FROM pg_replication_slots WHERE slot_name = '{slot}'")
    return bool(tables.sql.fetchone()[0])


def drop(tables: Tables, slot: str) -> bool:
    import psycopg2

    try:
        tables.run(f"SELECT pg_drop_replication_slot('{slot}')")
    except psycopg2.Error:
        return False
    return True


def two_of_one_name(tables: Tables) -> None:
    """The second finds the slot in use; the first continues."""
    with tables.table() as it:
        # (it has the slot only after the copy)
        wait_for(lambda: is_active(tables, f"rowan_{it.mirror.name}"))
        with Mirror(tables.server.port, it.mirror.name, it.mirror.words) as second:
            want_same(f"status ({second.said()!r})", second.status(), 1)
            want("in use: another mirror runs under this name" in second.said(), second.said())
        it.change("UPDATE T SET a = 9 WHERE id = '1'")
        it.reach()
        it.want_rows(("1", 9, "x"), ("2", 6, "y"))
        tables.refused("are those of the mirror", *tables.words(it.name, f"{it.name}/x/{{id}}"))


def a_source_that_was_restored(tables: Tables) -> None:
    """Rows of a later position than the source has are copied again."""
    with tables.table() as it:
        it.mirror.kill()
        key = position_key(it.mirror.name)
        found = mirror.Position.read(tables.index.get(key))
        assert found is not None
        later = found.at + (1 << 40)
        tables.index.put(key, replace(found, at=later, until=later).spelled())
        it.mirror.start()
        wait_for(lambda: "it was restored" in it.mirror.said())
        wait_for(lambda: (mirror.position(tables.index, it.mirror.name) or found).at < later)
        it.reach()
        it.want_rows(("1", 5, "x"), ("2", 6, "y"))


def a_source_that_ends(tables: Tables) -> None:
    """The source crashes, and is started again: the mirror continues."""
    with tables.table() as it:
        tables.run(f"UPDATE {it.name} SET a = 8 WHERE id = '1'")
        tables.postgres.end(signal.SIGQUIT)
        it.ends(4, "the source:")
        it.mirror.start()
        it.ends(4, "the source:")
        tables.postgres.begin()
        tables.sql = tables.postgres.connected().cursor()
        it.change("UPDATE T SET a = a + 1")
        it.starts_again("continues after")
        it.want_rows(("1", 9, "x"), ("2", 7, "y"))


def a_server_that_ends(tables: Tables) -> None:
    """The mirror notices it without a change of the source; another server is empty, and gets all rows."""
    tables.run("CREATE TABLE alone(id text PRIMARY KEY, a int)", "INSERT INTO alone VALUES ('1', 5)")
    words = tables.words("alone", "alone/{id}", "a")
    with Server(tables.server.program) as server, tables.mirror(words, server) as it:
        with server.index() as index:
            it.reach(index, tables.now())
        server.end()
        want_same(f"status ({it.said()!r})", it.status(), 3)
        with Server(tables.server.program) as other, Mirror(other.port, it.name, words) as again:
            with other.index() as index:
                again.reach(index, tables.now())
                want_same("rows", rows_of(index, b"alone/", 1), [(b"alone/1", (b"\5",))])


CASES: Dict[str, Callable[[Tables], None]] = {
    "truncate": truncate, "values that do not fit": values_that_do_not_fit, "columns that change": columns_that_change,
    "types that change": types_that_change, "tables that are rewritten": tables_that_are_rewritten,
    "tables that are truncated and rewritten at once": tables_that_are_truncated_and_rewritten,
    "a table that is rewritten in the copy": a_table_that_is_rewritten_in_the_copy,
    "tables that go": tables_that_go, "two mirrors of one name": two_of_one_name,
    "a server that ends": a_server_that_ends, "slots that go": slots_that_go,
    "a source that was restored": a_source_that_was_restored,
    "a source that crashes": a_source_that_ends}
