"""Parts in PostgreSQL, for the processes of several machines. A holder is a row with an end.

No statement needs the one before, or a state of its connection. None is cancelled: a commit that waits for a standby
would be reported as done. Its connection is ended instead, and the statement is sent again over a new one.
"""

import asyncio
import os
import socket
from typing import Any, Awaitable, Sequence

import asyncpg

from ..http.messages import LOG
from ._sql import APPEND, REMOVE, TABLE, Rows, SqlStore
from ._stores import Lease, clock

_FORM = 1
#: What docs/journal.sql has, for a role that may not make tables.
TABLES = f"""\
CREATE TABLE odb_form (form integer NOT NULL);
INSERT INTO odb_form VALUES ({_FORM});
CREATE TABLE odb_gateway (holder bigint PRIMARY KEY, name text NOT NULL, until timestamptz NOT NULL);
{TABLE}ALTER TABLE odb_part SET (autovacuum_vacuum_scale_factor = 0.02, autovacuum_vacuum_insert_scale_factor = 0.05);
ALTER TABLE odb_part ALTER COLUMN text SET STORAGE EXTERNAL;
"""
# Two processes that start at once would both make them.
_PREPARE = f"""DO $$ BEGIN
    PERFORM pg_advisory_xact_lock(7283541);
    IF to_regclass('odb_form') IS NULL THEN {TABLES} END IF;
END $$"""
_GIVEN = """SELECT * FROM unnest($1::bytea[], $2::int[], $3::bigint[], $4::bigint[], $5::bigint[], $6::bigint[],
    $7::bool[], $8::bytea[])"""
_APPEND = APPEND.format(given=_GIVEN, now="clock_timestamp()") + " RETURNING batch"
_REMOVE = REMOVE.format(before="to_timestamp($1::float8)", living="SELECT holder FROM odb_gateway") + " RETURNING 1"
_BEGIN = "INSERT INTO odb_gateway VALUES ($1, $3, clock_timestamp() + make_interval(secs => $2)) RETURNING 1"
_RENEW = "UPDATE odb_gateway SET until = clock_timestamp() + make_interval(secs => $2) WHERE holder = $1 RETURNING 1"
# It ends for good: a holder that has no row is never renewed.
_IS_OVER = """WITH ended AS (DELETE FROM odb_gateway WHERE holder = $1 AND until < clock_timestamp() RETURNING 1)
    SELECT EXISTS (SELECT FROM ended) OR NOT EXISTS (SELECT FROM odb_gateway WHERE holder = $1)"""
_OPTIONS = {"application_name": "odb_batch", "synchronous_commit": "on", "jit": "off"}
# How many connections all share but the renewals and the removals.
_SHARED = 4
# How fast a long text is sent at least, in bytes a second, and how long there is between two tries.
_RATE, _BREAK = 1e6, 0.1

# After these the same statement may be sent again: a connection, or a transaction, was ended from outside.
_AGAIN = (
    OSError, asyncio.TimeoutError, asyncpg.InterfaceError, asyncpg.InternalClientError, asyncpg.PostgresConnectionError,
    asyncpg.OperatorInterventionError, asyncpg.TooManyConnectionsError, asyncpg.TransactionRollbackError,
    asyncpg.ReadOnlySQLTransactionError,
)  # fmt: skip


class PostgresqlStore(SqlStore):
    """Keeps batches in tables of PostgreSQL; see :class:`Store`.

    Args:
        url: ``postgresql://..``, as of libpq.
        seconds: How long a lease is.

    Attributes:
        breaks: How often a connection broke.
        patience, timeout: For how many seconds a statement is tried again, and its answer is waited for.
    """

    width = 2

    def __init__(self, url: str, seconds: float = 15.0) -> None:
        self.url, self._seconds, self._margin = url, seconds, min(1.0, seconds / 8)
        self.lease, self.breaks = Lease(seconds, 0.0), 0
        self.patience, self.timeout = seconds, max(seconds / 3, 1.0)

    async def open(self) -> None:
        # A long removal must not keep the lease from its renewal.
        self._connections = [_Connection(self) for _ in range(_SHARED + 2)]
        self._renewer, self._pruner, *shared = self._connections
        self._free: "asyncio.LifoQueue[_Connection]" = asyncio.LifoQueue()
        for connection in shared:
            self._free.put_nowait(connection)
        [[fsync]] = await self._pruner.rows("SHOW fsync")
        if fsync != "on":
            raise OSError("PostgreSQL: fsync is off")
        await self._pruner.rows(_PREPARE)
        [[form]] = await self._pruner.rows("SELECT form FROM odb_form")
        if form != _FORM:
            raise OSError(f"PostgreSQL: the tables have the form {form}, not {_FORM}")
        await self._begin_lease()

    async def close(self) -> None:
        try:
            await self._renewer.rows("DELETE FROM odb_gateway WHERE holder = $1", self.lease.holder)
        except OSError as error:
            LOG.error("the lease lasts until its time is over: %s", error)
        for connection in self._connections:
            connection.drop()

    async def now(self) -> float:
        return float((await self._rows("SELECT extract(epoch FROM clock_timestamp())::float8"))[0][0])

    # The lease: a row with an end

    async def _begin_lease(self) -> None:
        await self._extend(Lease(self._seconds, 0.0), _BEGIN, f"{socket.gethostname()}-{os.getpid()}")

    async def _extend(self, lease: Lease, words: str, *given: Any) -> bool:
        """Lets a lease last from now on; returns false if a statement finds that it has ended."""
        before = clock()
        if not await self._renewer.rows(words, lease.holder, self._seconds, *given):
            return False
        self.lease, lease.deadline = lease, before + self._seconds - self._margin
        return True

    async def renew(self) -> None:
        if not await self._extend(self.lease, _RENEW):
            LOG.error("another gateway has ended the lease of this one")
            await self._begin_lease()

    async def is_over(self, holder: int) -> bool:
        return bool((await self._rows(_IS_OVER, holder))[0][0])

    # Parts

    async def _rows(self, words: str, *given: Any, size: int = 0) -> Rows:
        """Returns the rows of a statement, over the next free connection."""
        connection: _Connection = await self._free.get()
        try:
            return await connection.rows(words, *given, patience=self.patience, size=size)
        finally:
            self._free.put_nowait(connection)

    def _insert(self, rows: Rows) -> Awaitable[Rows]:
        return self._rows(_APPEND, *map(list, zip(*rows)), size=sum(len(row[-1]) for row in rows))

    async def confirm(self) -> None:
        # What was read may not be on the standby, after a restart or a wait that was cancelled. This commit comes after it.
        await self._rows("SELECT pg_logical_emit_message(true, 'odb_batch', '')")

    async def prune(self, before: float) -> None:
        while await self._pruner.rows(_REMOVE, before):
            await asyncio.sleep(0)
        await self._pruner.rows("DELETE FROM odb_gateway WHERE until < clock_timestamp() - interval '1 day'")


class _Unusable(OSError):
    """The database has refused something, and would again."""


class _Connection:
    """A connection, which is made anew where it breaks, for one statement at a time."""

    def __init__(self, store: PostgresqlStore) -> None:
        self._store, self._turn = store, asyncio.Lock()
        self._connection: Any = None

    async def rows(self, words: str, *given: Any, patience: float = 0.0, size: int = 0) -> list[Any]:
        """Returns the rows of a statement that may be sent twice; raises OSError once there is no more patience."""
        end = clock() + patience
        async with self._turn:
            while True:
                try:
                    if self._connection is None or self._connection.is_closed():
                        await self._connect()
                    return await self._fetch(words, given, self._store.timeout + size / _RATE)
                except BaseException as error:  # also if it is cancelled: the connection must not be used again
                    self.drop()
                    text = f"PostgreSQL: {type(error).__name__} {error}".rstrip()
                    if isinstance(error, _Unusable) or not isinstance(error, (asyncpg.PostgresError, *_AGAIN)):
                        raise
                    if not isinstance(error, _AGAIN):
                        raise _Unusable(text) from None
                    self._store.breaks += 1
                    if clock() >= end:
                        raise ConnectionError(text) from None
                await asyncio.sleep(_BREAK)

    async def _connect(self) -> None:
        """Makes a connection to the primary."""
        timeout = self._store.timeout
        settings = {**_OPTIONS, "statement_timeout": str(int(timeout * 2000 + 20_000))}
        try:
            new = await asyncpg.connect(self._store.url, timeout=timeout, server_settings=settings)
        except (ValueError, asyncpg.InterfaceError) as error:
            raise _Unusable(f"PostgreSQL: {error}") from None
        self._connection = new
        # A commit whose wait for a standby was cancelled is reported as done, with a warning.
        new.add_log_listener(lambda connection, _: connection.terminate())
        if await new.fetchval("SELECT pg_is_in_recovery()", timeout=timeout):
            raise ConnectionError("it is a standby")

    async def _fetch(self, words: str, given: Sequence[Any], seconds: float) -> list[Any]:
        """Returns the rows of a statement; ends the connection where it takes too long, and with it the statement.

        Not `wait_for`, which would cancel the statement at the server, too; nor is it cancelled with the caller.
        """
        connection = self._connection
        timer = asyncio.get_running_loop().call_later(seconds, self.drop)
        fetch = asyncio.ensure_future(connection.fetch(words, *given))
        fetch.add_done_callback(lambda query: query.cancelled() or query.exception())  # also where nobody waits for it any more
        try:
            rows: list[Any] = await asyncio.shield(fetch)
        finally:
            timer.cancel()
        if connection.is_closed():
            raise ConnectionError("the commit was not confirmed by a standby")
        return rows

    def drop(self) -> None:
        """Ends the connection."""
        connection, self._connection = self._connection, None
        if connection is not None and not connection.is_closed():
            connection.terminate()
