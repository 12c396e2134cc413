"""The database of the library, and its transactions: that of a group, or of a request that writes."""

import itertools
import logging
import queue
import sqlite3
import threading
from contextlib import closing, contextmanager
from contextvars import ContextVar
from typing import Iterator, Optional

from odb_batch import Refusal

LOG = logging.getLogger(__name__)

# The statements that lead from each version of the schema to the next one.
SCHEMA = (
    (
        "CREATE TABLE Books (Id TEXT PRIMARY KEY NOT NULL, Title TEXT NOT NULL, Shelf TEXT, Reader INTEGER)",
        # A book is lent to one reader at a time, and is not removed while it is lent.
        "CREATE TABLE Loans (Id INTEGER PRIMARY KEY AUTOINCREMENT,"
        " Book TEXT NOT NULL UNIQUE REFERENCES Books, Reader INTEGER NOT NULL)",
        "INSERT INTO Books VALUES ('dune', 'Dune', 'K2', NULL), ('emma', 'Emma', 'A1', NULL)",
    ),
    (
        "ALTER TABLE Books ADD COLUMN Version INTEGER NOT NULL DEFAULT 1",
        "ALTER TABLE Loans ADD COLUMN Version INTEGER NOT NULL DEFAULT 1",
        # The last version of any entity.
        "CREATE TABLE Versions (Last INTEGER NOT NULL)",
        "INSERT INTO Versions VALUES (1)",
    ),
    # The digits of a price: a number of SQLite would lose some.
    ("ALTER TABLE Books ADD COLUMN Price TEXT",),
)


class Store:
    """The database of the library. Its connections are used by one thread at a time.

    Args:
        path: Its file, which is made if it is missing.
        patience: For how many seconds a transaction waits until it may write.
    """

    def __init__(self, path: str, patience: float = 20.0) -> None:
        self._path, self._patience, self._turn = path, patience, threading.Lock()
        self._idle: "queue.SimpleQueue[sqlite3.Connection]" = queue.SimpleQueue()
        self._group: ContextVar[Optional[sqlite3.Connection]] = ContextVar("group", default=None)
        # It is closed again, since a process that is forked from this one may not use it.
        with closing(self._connect()) as database:
            database.execute("PRAGMA journal_mode = WAL")
            database.execute("BEGIN IMMEDIATE")
            (version,) = database.execute("PRAGMA user_version").fetchone()
            for statement in itertools.chain(*SCHEMA[version:]):
                database.execute(statement)
            database.execute(f"PRAGMA user_version = {max(version, len(SCHEMA))}")
            database.execute("COMMIT")

    def _connect(self) -> sqlite3.Connection:
        database = sqlite3.connect(self._path, timeout=self._patience, isolation_level=None, check_same_thread=False)
        database.execute("PRAGMA foreign_keys = ON")
        return database

    @contextmanager
    def group(self, name: str) -> Iterator[None]:
        """The transaction of an atomicity group, whose requests are performed in this thread: committed at its end, and
        rolled back on any exception."""
        with self._transaction(name) as database:
            token = self._group.set(database)
            try:
                yield
            finally:
                self._group.reset(token)

    @contextmanager
    def session(self, is_writing: bool) -> Iterator[sqlite3.Connection]:
        """The connection of a request: that of its group, or else one in a transaction of its own if it writes."""
        group = self._group.get()
        if group is not None:
            yield group
            return
        with self._transaction("") if is_writing else self._connection() as database:
            yield database

    @contextmanager
    def _transaction(self, name: str) -> Iterator[sqlite3.Connection]:
        """Waits until nobody else writes, and begins a transaction. Threads of this process take turns by a lock, and SQLite
        sees to other processes."""
        busy = Refusal(503, "Busy", "The database was busy for too long; try again", retry_after="1")
        if not self._turn.acquire(timeout=self._patience):
            raise busy
        try:
            with self._connection() as database:
                try:
                    database.execute("BEGIN IMMEDIATE")
                except sqlite3.OperationalError:
                    raise busy from None
                try:
                    yield database
                    # While nobody else can commit, so these lines have the order of the commits.
                    LOG.info("commit %s", name)
                    database.execute("COMMIT")
                finally:
                    if database.in_transaction:
                        database.execute("ROLLBACK")
        finally:
            self._turn.release()

    @contextmanager
    def _connection(self) -> Iterator[sqlite3.Connection]:
        try:
            database = self._idle.get_nowait()
        except queue.Empty:
            database = self._connect()
        try:
            yield database
        finally:
            self._idle.put(database)
