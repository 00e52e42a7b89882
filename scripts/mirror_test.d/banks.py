"""Accounts in PostgreSQL and in etcd, which writers change at random, and what they were at each position."""
from __future__ import annotations

import http.client
import json
import random
import re
import threading
import time
from base64 import b64decode, b64encode
from dataclasses import dataclass
from typing import Any, Dict, List, Optional, Tuple

from engines import Etcd, Postgres

ACCOUNTS, EACH = 300, 1000
# what is added to a balance, so that its bytes are in the order of the balances
MIDDLE = 2 ** 63


@dataclass(frozen=True)
class Totals:
    """The count of the accounts, and the sums of their columns."""

    count: int
    sums: Tuple[int, ...]


class PostgresBank:
    """A table: transfers, moves to another branch (and so to another key), new and closed accounts, many accounts at
    once, rollbacks, TRUNCATE. Each change gives an account a new random mark, so that the sum of the marks shows what
    is torn.
    """

    prefix, columns = b"acc/", 3
    own_key = b"acc/019/999999"
    SLOT = "history"

    def __init__(self, engine: Postgres) -> None:
        self._engine, self._lock = engine, threading.Lock()
        self.sql = engine.connected()
        self.done: Dict[str, int] = {}
        with self.sql.cursor() as cursor:
            cursor.execute("CREATE TABLE accounts(id bigint PRIMARY KEY, branch int NOT NULL, balance bigint NOT NULL, "
                           "mark bigint NOT NULL, note text)")
            cursor.execute("ALTER TABLE accounts REPLICA IDENTITY FULL")
            # (an independent reader of the log, which says afterwards what was when)
            cursor.execute("SELECT pg_create_logical_replication_slot(%s, 'test_decoding')", (self.SLOT,))
            cursor.execute("INSERT INTO accounts SELECT i, i %% 20, %s, i, NULL FROM generate_series(1, %s) i",
                           (EACH, ACCOUNTS))

    @property
    def words(self) -> List[str]:
        """The mirror's command line."""
        return ["postgres", "--dsn", self._engine.dsn, "--table", "accounts", "--key", "acc/{branch:03}/{id:06}",
                "--column", "balance:int", "--column", "mark:uint", "--column", "note:cut"]

    def write(self, seed: int, rate: float, stop: threading.Event) -> None:
        """Transactions at random, until it is stopped."""
        import psycopg2

        chance, sql = random.Random(seed), self._engine.connected()
        sql.autocommit = False
        kinds = ("transfer", "move", "open", "close", "many", "truncate")
        while not stop.is_set():
            kind = chance.choices(kinds, (60, 15, 8, 8, 2, 0.5))[0]
            try:
                with sql.cursor() as cursor:
                    self._change(cursor, kind, chance, seed)
                kind = self._end(sql, kind, chance)
            except psycopg2.Error:
                # a deadlock with a truncate
                sql.rollback()
                kind = "deadlock"
            with self._lock:
                self.done[kind] = self.done.get(kind, 0) + 1
            time.sleep(chance.expovariate(rate))
        sql.close()

    def _end(self, sql: Any, kind: str, chance: random.Random) -> str:
        if chance.random() < 0.1:
            sql.rollback()
            return "rollback"
        sql.commit()
        return kind

    def _change(self, cursor: Any, kind: str, chance: random.Random, seed: int) -> None:
        if kind == "truncate":
            # (without the lock a change that is committed between the SELECT and the TRUNCATE would be undone)
            cursor.execute("LOCK TABLE accounts IN ACCESS EXCLUSIVE MODE")
            cursor.execute("CREATE TEMP TABLE kept ON COMMIT DROP AS SELECT * FROM accounts")
            cursor.execute("TRUNCATE accounts")
            return cursor.execute("INSERT INTO accounts SELECT * FROM kept WHERE id % 50 <> 0")
        count = 100 if kind == "many" else chance.randint(2, 10)
        cursor.execute("SELECT id FROM accounts WHERE id > %s AND id < 900000 ORDER BY id LIMIT %s FOR UPDATE",
                       (chance.randint(-count, ACCOUNTS), count))
        ids = [row[0] for row in cursor.fetchall()]
        mark = chance.randrange(1 << 40)
        if kind == "open" or len(ids) < 2:
            fresh = 100_000 * seed + chance.randrange(100_000)
            cursor.execute("INSERT INTO accounts VALUES (%s, 7, 5, %s, 'new') ON CONFLICT DO NOTHING", (fresh, mark))
        elif kind in ("transfer", "many"):
            amounts = [chance.randint(-300, 300) for _ in ids]
            notes = [chance.choice(("", "a\tb\\", "x" * 3000, None)) for _ in ids]
            cursor.execute("UPDATE accounts a SET balance = a.balance + v.amount, note = v.note, mark = %s + id FROM "
                           "(SELECT unnest(%s) AS key, unnest(%s) AS amount, unnest(%s) AS note) v WHERE a.id = v.key",
                           (mark, ids, amounts, notes))
        elif kind == "move":
            cursor.execute("UPDATE accounts SET branch = %s, mark = %s + id WHERE id = ANY(%s)",
                           (chance.randrange(20), mark, ids))
        else:
            cursor.execute("DELETE FROM accounts WHERE id = %s", (ids[0],))

    def now(self) -> int:
        """A position that has all that was written so far."""
        with self.sql.cursor() as cursor:
            cursor.execute("SELECT pg_current_wal_flush_lsn() - '0/0'")
            return int(cursor.fetchone()[0])

    def write_own(self, number: int) -> int:
        """Writes an account of its own; returns a position that has it."""
        with self.sql.cursor() as cursor:
            cursor.execute("INSERT INTO accounts VALUES (999999, 19, %s, 0, 'own') ON CONFLICT (id) DO UPDATE SET "
                           "balance = excluded.balance", (number,))
        return self.now()

    def own_value(self, number: int) -> bytes:
        return (number + MIDDLE).to_bytes(8, "big")

    def asked(self) -> Tuple[int, Totals]:
        """A position, and what SQL says of it: the writers wait meanwhile."""
        with self.sql.cursor() as cursor:
            cursor.execute("BEGIN; LOCK TABLE accounts IN SHARE MODE")
            cursor.execute("SELECT count(*), coalesce(sum(balance), 0), coalesce(sum(mark), 0) FROM accounts")
            count, balances, marks = map(int, cursor.fetchone())
            at = self.now()
            cursor.execute("COMMIT")
        return at, Totals(count, (balances + (count << 63), marks))

    def rows(self) -> List[object]:
        """All accounts, as the server has to have them."""
        with self.sql.cursor() as cursor:
            cursor.execute("SELECT branch, id, balance, mark, note FROM accounts")
            made = {b"acc/%03d/%06d" % (branch, number): (
                self.own_value(balance), mark.to_bytes((mark.bit_length() + 7) // 8, "big"), (note or "").encode()[:64])
                for branch, number, balance, mark, note in cursor}
        return sorted(made.items())

    def lose(self, name: str) -> bool:
        """Drops the slot of a mirror that was killed; returns whether the source allowed it."""
        import psycopg2

        try:
            with self.sql.cursor() as cursor:
                cursor.execute("SELECT pg_drop_replication_slot(%s)", (f"rowan_{name}",))
        except psycopg2.Error:
            return False
        return True

    # -- what was at each position, by test_decoding

    def history(self) -> Dict[int, Totals]:
        """The totals after each transaction, by the position at its end."""
        accounts: Dict[int, Tuple[int, int]] = {}
        made: Dict[int, Totals] = {}
        with self.sql.cursor() as cursor:
            cursor.execute("SELECT lsn - '0/0', data FROM pg_logical_slot_get_changes(%s, NULL, NULL)", (self.SLOT,))
            for at, text in cursor:
                if text.startswith("COMMIT"):
                    made[int(at)] = Totals(len(accounts), (sum(one[0] + MIDDLE for one in accounts.values()),
                                                           sum(one[1] for one in accounts.values())))
                elif text.startswith("table public.accounts: "):
                    replay(text[len("table public.accounts: "):], accounts)
        return made


ROW = re.compile(r"id\[bigint\]:(\d+) branch\[integer\]:\d+ balance\[bigint\]:(-?\d+) mark\[bigint\]:(\d+)")


def replay(text: str, accounts: Dict[int, Tuple[int, int]]) -> None:
    """Makes a change that test_decoding describes."""
    if text.startswith("TRUNCATE"):
        return accounts.clear()
    rows = [tuple(map(int, found)) for found in ROW.findall(text)]
    if not text.startswith("INSERT"):
        del accounts[rows[0][0]]
    if not text.startswith("DELETE"):
        accounts[rows[-1][0]] = rows[-1][1:]


class EtcdBank:
    """Keys of etcd: each transfer is one transaction of two keys."""

    prefix, columns = b"acc/", 1
    own_key = b"acc/own"

    def __init__(self, engine: Etcd) -> None:
        self._engine = engine
        self.done: Dict[str, int] = {}
        self._lock = threading.Lock()
        self._calls = http.client.HTTPConnection("127.0.0.1", engine.port)
        for begin in range(0, ACCOUNTS, 100):
            self._ask(self._calls, "txn", {"success": [
                {"requestPut": {"key": self._spelled(self._key(number)), "value": self._spelled(b"1000")}}
                for number in range(begin, begin + 100)]})

    @property
    def words(self) -> List[str]:
        return ["etcd", "--url", self._engine.url, "--prefix", "acc/", "--value", "uint"]

    @staticmethod
    def _spelled(raw: bytes) -> str:
        return b64encode(raw).decode()

    @staticmethod
    def _key(number: int) -> bytes:
        return b"acc/%06d" % number

    def _ask(self, calls: http.client.HTTPConnection, path: str, query: Dict[str, Any]) -> Dict[str, Any]:
        with self._lock:
            calls.request("POST", f"/v3/kv/{path}", json.dumps(query))
            said: Dict[str, Any] = json.loads(calls.getresponse().read())
        return said

    def write(self, seed: int, rate: float, stop: threading.Event) -> None:
        chance, calls = random.Random(seed), http.client.HTTPConnection("127.0.0.1", self._engine.port)
        while not stop.is_set():
            one, other = (self._spelled(self._key(number)) for number in chance.sample(range(ACCOUNTS), 2))
            amount = self._spelled(b"%d" % chance.randrange(1 << 40))
            first = {"requestDeleteRange": {"key": one}} if chance.random() < 0.1 else {
                "requestPut": {"key": one, "value": amount}}
            self._ask(calls, "txn", {"success": [first, {"requestPut": {"key": other, "value": amount}}]})
            self.done["transfer"] = self.done.get("transfer", 0) + 1
            time.sleep(chance.expovariate(rate))
        calls.close()

    def write_own(self, number: int) -> int:
        return self._put(self.own_key, number)

    def _put(self, key: bytes, number: int) -> int:
        said = self._ask(self._calls, "put", {"key": self._spelled(key), "value": self._spelled(b"%d" % number)})
        return int(said["header"]["revision"])

    def own_value(self, number: int) -> bytes:
        return number.to_bytes((number.bit_length() + 7) // 8, "big")

    def now(self) -> int:
        return self._put(b"acc/now", 0)

    def _at(self, revision: Optional[int]) -> Tuple[int, Dict[bytes, int]]:
        """A revision, and the accounts then."""
        query = {"key": self._spelled(b"acc/"), "range_end": self._spelled(b"acc0")}
        said = self._ask(self._calls, "range", query if revision is None else {**query, "revision": revision})
        accounts = {b64decode(pair["key"]): int(b64decode(pair["value"])) for pair in said.get("kvs", ())}
        return int(said["header"]["revision"]), accounts

    def asked(self) -> Tuple[int, Totals]:
        at = self.now()
        return at, self.totals(at)

    def totals(self, revision: int) -> Totals:
        """What etcd itself says of a revision."""
        accounts = self._at(revision)[1]
        return Totals(len(accounts), (sum(accounts.values()),))

    def rows(self) -> List[object]:
        return sorted((key, (self.own_value(value),)) for key, value in self._at(None)[1].items())

    def lose(self, name: str) -> bool:
        """Compacts all that a mirror that was killed has yet to read."""
        self._engine.ask("kv/compaction", {"revision": str(self.now()), "physical": True})
        return True
