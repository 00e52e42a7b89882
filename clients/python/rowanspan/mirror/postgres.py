"""PostgreSQL as a source of a mirror: a copy at a snapshot, then the changes of a logical slot. It needs psycopg2."""
from __future__ import annotations

import re
import select
import time
from contextlib import contextmanager
from typing import TYPE_CHECKING, Any, Iterator, List, NamedTuple, Optional, Tuple

from . import pgoutput
from .copying import copy_rows
from .errors import BadMapping, CopyAgain, NeedsDecision, SourceLost
from .grouping import OLD, Grouping
from .place import NAME
from .reading import lsn
from .rows import RowMapping
from .source import Copy, Group, Source, TakePuts
from .table import find_table, quoted

# the types are checked alike with psycopg2, without it, and without its stubs
if TYPE_CHECKING:
    psycopg2: Any
else:
    import psycopg2
    import psycopg2.errors
    import psycopg2.extras

__all__ = ["PostgresSource"]

# seconds: how long a message is waited for; between two looks at the table; until a slot in use is given up
REST, CHECK_EVERY, SLOT_PATIENCE = 0.5, 1.0, 10.0
# the copy and the slot have to spell values alike
SPELLING = {"client_encoding": "utf8",
            "options": "-c datestyle=ISO -c intervalstyle=postgres -c timezone=UTC -c extra_float_digits=3 "
                       "-c row_security=off"}

SLOT = """
SELECT wal_status, confirmed_flush_lsn, pg_current_wal_flush_lsn() FROM pg_replication_slots WHERE slot_name = %s"""
DROP_SLOT = "SELECT pg_drop_replication_slot(slot_name) FROM pg_replication_slots WHERE slot_name = %s"
# what changes if rows change without a message
STAMP = """
SELECT c.relfilenode, c.xmin::text::bigint, c.relreplident,
EXISTS (SELECT 1 FROM pg_publication_rel r JOIN pg_publication p ON p.oid = r.prpubid WHERE p.pubname = %s AND
r.prrelid = c.oid), (SELECT ARRAY[string_agg(a.attnum::text, ' ' ORDER BY a.attname),
string_agg(a.xmin::text, ' ' ORDER BY a.attname)] FROM pg_attribute a WHERE a.attrelid = c.oid AND a.attname = ANY(%s))
FROM pg_class c WHERE c.oid = %s"""
# (a query that names the table waits for a change of its definition)
WAITS = " AND NOT EXISTS (SELECT 1 FROM {table} WHERE false)"
FLUSHED = "SELECT pg_current_wal_flush_lsn() - '0/0'"
NOTED = "SELECT obj_description(oid, 'pg_publication') FROM pg_publication WHERE pubname = %s"


@contextmanager
def source_faults() -> Iterator[None]:
    """Raises what psycopg2 raises as `SourceLost`, or as `NeedsDecision` if another start can't help."""
    try:
        yield
    except psycopg2.Error as fault:
        text = str(fault).strip()
        is_lost = fault.pgcode is None or isinstance(fault, psycopg2.OperationalError)
        raise (SourceLost if is_lost else NeedsDecision)(f"the source: {text}") from fault


class Stamp(NamedTuple):
    """What a table is. TRUNCATE, VACUUM FULL and changes of a column's type give it a new file."""

    file: int
    # the transaction that last changed what the catalog has of the table
    changed_by: int
    identity: str
    is_published: bool
    # the numbers of the columns that are needed, which others of their names don't have
    columns: str
    # the transactions that last changed what the catalog has of each of them, as a change of its type does
    columns_by: str

    @property
    def noted(self) -> str:
        """What the next run has to find again."""
        return f"file {self.file}, columns {self.columns}"


class PostgresSource(Source):
    """A table. `name` names the slot and the publication, which are made by the first copy.

    A connection asks and copies, another has the slot.
    """

    def __init__(self, dsn: str, table: str, mapping: RowMapping, name: str) -> None:
        if not re.fullmatch(NAME, name):
            raise BadMapping(f"'{name}' can't name a slot: 1 to 50 of a to z, 0 to 9 and _ were expected")
        self._dsn, self._mapping = dsn, mapping
        self._slot = self._publication = f"rowan_{name}"
        self._stream: Any = None
        self._checked = 0.0
        # what is to be reported to the source, and what was
        self._confirmed = self._told = 0
        with source_faults():
            self._sql = psycopg2.connect(dsn, **SPELLING)
            self._sql.autocommit = True
            self._table = find_table(self._ask, table, mapping)
            self._named = table
            self._stamp, self._awaited = self._read_stamp(), (0, 0)

    def close(self) -> None:
        self._close_stream()
        self._sql.close()

    def _ask(self, query: str, *values: Any) -> List[Tuple[Any, ...]]:
        with self._sql.cursor() as cursor:
            cursor.execute(query, values or None)
            rows: List[Tuple[Any, ...]] = cursor.fetchall() if cursor.description else []
        return rows

    @property
    def identity(self) -> str:
        """The cluster, the database, the table's number, which one of the same name hasn't, and its types."""
        with source_faults():
            self._connect()
            self._stream.execute("IDENTIFY_SYSTEM")
            cluster, _, _, database = self._stream.fetchone()
        return f"{cluster}/{database}/{self._table.oid}/{self._table.types}"

    @property
    def prefix(self) -> bytes:
        return self._mapping.key.prefix

    # -- the copy

    def copy(self) -> Copy:
        with source_faults():
            self._drop_slot()
            self._publish()
            self._stamp, self._awaited = self._read_stamp(), (0, 0)
            self._note()
            self._connect()
            self._stream.execute(f'CREATE_REPLICATION_SLOT "{self._slot}" LOGICAL pgoutput EXPORT_SNAPSHOT')
            _, start, snapshot, _ = self._stream.fetchone()
        return Copy(lsn(start), lambda take: self._copy_rows(snapshot, take))

    def _publish(self) -> None:
        """Makes the publication: of the columns that are needed, if the identity allows a list of them."""
        columns = ""
        if not self._table.has_full_identity:
            columns = f" ({', '.join(map(quoted, self._table.types))})"
        self._ask(f'DROP PUBLICATION IF EXISTS "{self._publication}"')
        self._ask(f'CREATE PUBLICATION "{self._publication}" FOR TABLE {self._table.name}{columns}')

    def _copy_rows(self, snapshot: str, take: TakePuts) -> None:
        with source_faults():
            copying = psycopg2.connect(self._dsn, **SPELLING)
            try:
                copying.set_session(isolation_level="REPEATABLE READ", readonly=True)
                with copying.cursor() as cursor:
                    cursor.execute("SET TRANSACTION SNAPSHOT %s", (snapshot,))
                    self._keep_file(cursor)
                    copy_rows(cursor, self._table, self._mapping, take)
            finally:
                copying.close()

    def _keep_file(self, cursor: Any) -> None:
        """Keeps the table's file and columns as they are until the end of the transaction. Raises `CopyAgain` if they
        are others than before the snapshot: a snapshot doesn't have the rows that a TRUNCATE after it has removed."""
        cursor.execute(f"LOCK TABLE {self._table.name} IN ACCESS SHARE MODE")
        # (a change may wait for this lock now, so that it can't be waited for)
        if self._read_stamp(waits=False).noted != self._stamp.noted:
            raise CopyAgain(f"the table {self._table.name} was rewritten during the copy")

    # -- the slot

    def _drop_slot(self) -> None:
        self._close_stream()
        end = time.monotonic() + SLOT_PATIENCE
        while True:
            try:
                self._ask(DROP_SLOT, self._slot)
                return
            except psycopg2.errors.ObjectInUse:
                self._wait_for_slot(end)

    def _wait_for_slot(self, end: float) -> None:
        """Waits a moment: the source may not have noticed yet that a mirror was killed."""
        if time.monotonic() > end:
            raise NeedsDecision(f"the slot {self._slot} is in use: another mirror runs under this name")
        time.sleep(0.1)

    def _connect(self) -> None:
        self._close_stream()
        kind = psycopg2.extras.LogicalReplicationConnection
        self._stream = psycopg2.connect(self._dsn, **SPELLING, connection_factory=kind).cursor()

    def _close_stream(self) -> None:
        stream, self._stream = self._stream, None
        if stream is not None:
            stream.connection.close()

    def _check_slot(self, start: int) -> None:
        """Raises `CopyAgain` if the slot can't continue after a position."""
        slot = self._ask(SLOT, self._slot)
        if not slot:
            raise CopyAgain(f"the slot {self._slot} is gone")
        status, confirmed, reached = slot[0]
        if status == "lost":
            raise CopyAgain(f"the slot {self._slot} is lost: the source kept no more of its log")
        if lsn(confirmed) > start:
            raise CopyAgain(f"the slot {self._slot} is at {confirmed}, after the rows")
        if lsn(reached) < start:
            raise CopyAgain(f"the source is at {reached}, before the rows: it was restored")

    def _start(self, start: int) -> None:
        end = time.monotonic() + SLOT_PATIENCE
        while True:
            self._connect()
            try:
                self._stream.start_replication(
                    slot_name=self._slot, decode=False, start_lsn=start, status_interval=10,
                    options={"proto_version": "1", "publication_names": f'"{self._publication}"'})
                return
            except psycopg2.errors.ObjectInUse:
                self._wait_for_slot(end)
            except psycopg2.errors.UndefinedObject:
                raise CopyAgain(f"the slot {self._slot} is gone") from None

    def _read_stamp(self, waits: bool = True) -> Stamp:
        query = STAMP + WAITS.format(table=self._table.name.replace("%", "%%")) if waits else STAMP
        try:
            found = self._ask(query, self._publication, self._mapping.names, self._table.oid)
        except psycopg2.errors.UndefinedTable:
            found = []
        # (there is none if the table is gone, also if another has its name)
        return Stamp(*found[0][:4], *found[0][4]) if found else Stamp(0, 0, "", False, "", "")

    def _note(self) -> None:
        """Notes the table's file and columns, for the next run: in the comment of the publication."""
        self._ask(f"COMMENT ON PUBLICATION \"{self._publication}\" IS '{self._stamp.noted}'")

    def _check_noted(self) -> None:
        """Raises `CopyAgain` if the table's file or columns aren't those that the run before noted."""
        if self._ask(NOTED, self._publication) != [(self._stamp.noted,)]:
            raise CopyAgain(f"the table {self._table.name} was rewritten while the mirror was away")

    def _may_pass(self, at: int, truncated_by: Optional[int]) -> bool:
        """Whether no row has changed without a message up to now: so position `at` may be called exact. If the table
        has another file, it waits for the message of a TRUNCATE. Raises `CopyAgain` if none has come."""
        stamp = self._read_stamp()
        if stamp != self._stamp:
            self._check_table()
            if self._is_rewritten(stamp, at, truncated_by):
                raise CopyAgain(f"the table {self._table.name} was rewritten")
            if self._awaited[0]:
                return False
            self._stamp = stamp
            self._note()
        return True

    def _is_rewritten(self, stamp: Stamp, at: int, truncated_by: Optional[int]) -> bool:
        """Whether values have changed without a message, as far as it is known at a position. If it isn't known yet,
        it says in `_awaited` until where the message of a TRUNCATE is awaited."""
        awaited, self._awaited = self._awaited, (0, 0)
        if stamp.columns != self._stamp.columns:
            return True
        if stamp.file == self._stamp.file:
            return False
        if stamp.columns_by != self._stamp.columns_by:
            # (a transaction can truncate the table, fill it, and then change a type)
            return True
        if stamp.changed_by == truncated_by:
            return False
        # (a new file is flushed to the log before it is seen)
        until = awaited[1] if awaited[0] == stamp.changed_by else int(self._ask(FLUSHED)[0][0])
        self._awaited = stamp.changed_by, until
        return at >= until

    def _check_table(self) -> None:
        """Raises if the table isn't what it was. If it is dropped, or leaves its publication, its changes aren't sent
        any more, and nothing says so."""
        stamp, table = self._read_stamp(), find_table(self._ask, self._named, self._mapping)
        if table != self._table:
            raise SourceLost(f"the table {table.name} has changed: another start copies all rows")
        if not stamp.is_published:
            raise NeedsDecision(f"{table.name} was taken out of the publication {self._publication}. To copy it again: "
                                f"SELECT pg_drop_replication_slot('{self._slot}')")
        self._checked = time.monotonic()

    # -- the changes

    def follow(self, start: int) -> Iterator[Group]:
        with source_faults():
            self._check_slot(start)
            self._check_table()
            self._check_noted()
            self._start(start)
            self._confirmed = self._told = start
            grouping, at = Grouping(self._mapping, self._table.types, start), start
            kept: Optional[Group] = None
            while True:
                group = self._next(grouping)
                if group is not None:
                    kept = group if kept is None else kept.then(group)
                if kept is not None and self._may_pass(kept.at, grouping.truncated_by):
                    at = kept.at
                    yield kept
                    kept = None
                else:
                    yield Group(at)
                self._report()

    def _next(self, grouping: Grouping) -> Optional[Group]:
        """The next group; None after a moment without one."""
        while True:
            message = self._stream.read_message()
            if message is None:
                group = grouping.pause(self._stream.wal_end)
                if group is None:
                    self._rest(OLD if grouping.is_behind(self._stream.wal_end) else REST)
                return group
            group = grouping.take(pgoutput.read_message(message.payload))
            if group is not None:
                return group

    def _rest(self, seconds: float) -> None:
        """Waits until a message comes, but not longer than this."""
        if time.monotonic() > self._checked + CHECK_EVERY:
            self._check_table()
        select.select([self._stream.connection], [], [], seconds)

    def confirm(self, at: int) -> None:
        self._confirmed = at

    def _report(self) -> None:
        """Says to the source up to where it needn't keep its log. This is never more than the server has answered."""
        if self._confirmed > self._told:
            self._stream.send_feedback(write_lsn=self._confirmed, flush_lsn=self._confirmed, apply_lsn=self._confirmed)
            self._told = self._confirmed
