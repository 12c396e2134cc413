"""Parts in a file of SQLite, for the processes of one machine. A holder is a file that its process has locked."""

import asyncio
import contextlib
import fcntl
import json
import os
import queue
import re
import sqlite3
import threading
import time
from pathlib import Path
from typing import Any, Awaitable, Callable, Iterator, Optional, Sequence, TypeVar

from ..http.messages import LOG
from ._sql import APPEND, REMOVE, TABLE, Rows, SqlStore
from ._stores import Lease

#: How many bytes the file may have, if nothing else is said.
MOST_BYTES = 17_179_869_184
_FORM = 2
_PRAGMAS = "journal_mode = WAL", "synchronous = FULL", "journal_size_limit = 67108864"
_ROW = "(?, ?, ?, ?, ?, ?, ?, ?)"
_APPEND = APPEND.format(given="VALUES $", now="(julianday('now') - 2440587.5) * 86400")
_REMOVE = REMOVE.format(before="?1", living="SELECT value FROM json_each(?2)")
# For how many seconds a commit may take, and for how many one is waited for at the end.
_SECONDS, _CLOSE_SECONDS = 10.0, 0.5
_FLAGS = os.O_RDWR | os.O_CREAT | os.O_CLOEXEC | os.O_NOFOLLOW
_Result = TypeVar("_Result")
_Queue = queue.SimpleQueue[Any]


class SqliteStore(SqlStore):
    """Keeps batches in the file ``journal.sqlite`` of a folder, for the processes of one machine; see :class:`Store`.

    Args:
        folder: The folder, which must be there, on a device of this machine.
        most: How many bytes the file may have.
    """

    width = 1  # there is one writer; what comes meanwhile goes together

    def __init__(self, folder: str, most: int = MOST_BYTES) -> None:
        self._folder, self._most = Path(folder), most
        self._path = self._folder / "journal.sqlite"
        self.lease = Lease()
        # What has not ended in time.
        self._hanging: "Optional[asyncio.Future[Any]]" = None

    # A thread for what writes, and one for what reads: each takes its work from a queue, and an executor takes longer

    def _work(self, loop: asyncio.AbstractEventLoop, queued: _Queue) -> None:
        while job := queued.get():
            future, work, given = job
            try:
                end = future.set_result, work(*given)
            except sqlite3.Error as error:
                end = future.set_exception, OSError(f"SQLite: {error}")
            except BaseException as error:
                end = future.set_exception, error
            with contextlib.suppress(RuntimeError):  # the loop has ended
                loop.call_soon_threadsafe(self._end, future, *end)

    def _end(self, future: "asyncio.Future[Any]", settle: Callable[[Any], None], value: Any) -> None:
        if future is self._hanging:
            self._hanging = None
        if not future.done():
            settle(value)

    def _give_up(self, future: "asyncio.Future[Any]") -> None:
        self._end(future, future.set_exception, OSError("SQLite: no answer in time"))
        self._hanging = future

    async def _run(self, queued: _Queue, work: Callable[..., _Result], *given: Any) -> _Result:
        """Runs a function in a thread; raises OSError if that takes too long, also for what comes after it."""
        if self._hanging is not None:
            raise OSError("SQLite: the device hangs, or a process that writes is stopped")
        loop = asyncio.get_running_loop()
        future: "asyncio.Future[_Result]" = loop.create_future()
        queued.put((future, work, given))
        timer = loop.call_later(_SECONDS, self._give_up, future)
        try:
            return await future
        finally:
            timer.cancel()

    async def open(self) -> None:
        self._require_folder()
        async with contextlib.AsyncExitStack() as ends:
            lock = self._lock_path(self.lease.holder)
            ends.callback(os.close, self._lock_file(lock))
            ends.callback(lock.unlink, missing_ok=True)
            self._turn = os.open(f"{self._path}-turn", _FLAGS, 0o600)
            ends.callback(os.close, self._turn)
            self._writer, self._to_write = await self._start(ends)
            self._reader, self._to_read = await self._start(ends)
            self._ends = ends.pop_all()

    def _require_folder(self) -> None:
        """Raises OSError if the folder is not there, has journals of another form, or something else than a file."""
        for entry in [*os.scandir(self._folder)]:
            if re.fullmatch("[0-9a-f]{64}", entry.name):
                raise OSError(f"{self._folder} has journals of an earlier version; name an empty folder")
            if entry.name.startswith(self._path.name) and not entry.is_file(follow_symlinks=False):
                raise OSError(f"{entry.path} is not a file")

    async def _start(self, ends: contextlib.AsyncExitStack) -> tuple[_Queue, sqlite3.Connection]:
        """Starts a thread, for which a process that ends does not wait; returns its queue, and its connection."""
        queued: _Queue = queue.SimpleQueue()
        threading.Thread(target=self._work, args=(asyncio.get_running_loop(), queued), daemon=True).start()
        ends.callback(queued.put, None)
        connection = await self._run(queued, self._connect)
        ends.push_async_callback(self._disconnect, queued, connection)
        return queued, connection

    def _connect(self) -> sqlite3.Connection:
        """Returns a connection, after the table was made if it is not there."""
        self._path.touch(0o600)  # SQLite would let others read it
        connection = sqlite3.connect(self._path, timeout=_SECONDS, isolation_level=None)
        with self._in_turn():
            (size,) = connection.execute("PRAGMA page_size").fetchone()
            for pragma in (*_PRAGMAS, f"max_page_count = {max(1, self._most // size)}"):
                connection.execute(f"PRAGMA {pragma}")
            (form,) = connection.execute("PRAGMA user_version").fetchone()
            if not form:
                connection.executescript(f"BEGIN IMMEDIATE; {TABLE} PRAGMA user_version = {_FORM}; COMMIT;")
        if form not in (0, _FORM):
            raise OSError(f"{self._path} has the form {form}, not {_FORM}")
        return connection

    async def _disconnect(self, queued: _Queue, connection: sqlite3.Connection) -> None:
        try:
            await asyncio.wait_for(self._run(queued, connection.close), _CLOSE_SECONDS)
        except (OSError, asyncio.TimeoutError):
            LOG.error("a journal is still written: the device may hang")

    async def close(self) -> None:
        await self._ends.aclose()

    async def now(self) -> float:
        return time.time()

    # The lease: a locked file

    def _lock_path(self, holder: int) -> Path:
        return Path(f"{self._path}-{holder}.lock")

    def _lock_file(self, path: Path) -> int:
        """Makes and locks a file; until it is locked another process may remove it."""
        while True:
            file = os.open(path, _FLAGS, 0o600)
            fcntl.flock(file, fcntl.LOCK_EX)
            with contextlib.suppress(FileNotFoundError):
                if os.path.samestat(os.fstat(file), path.stat()):
                    return file
            os.close(file)

    async def renew(self) -> None:
        """Does nothing: a lock lasts as long as its process."""

    async def is_over(self, holder: int) -> bool:
        try:
            with contextlib.suppress(FileNotFoundError), open(self._lock_path(holder), "rb") as file:
                fcntl.flock(file.fileno(), fcntl.LOCK_EX | fcntl.LOCK_NB)
        except BlockingIOError:
            return False
        return True

    # Parts

    def _rows(self, words: str, *given: Any, size: int = 0) -> Awaitable[Rows]:
        return self._run(self._reader, self._read, words.replace("$", "?"), given)

    def _read(self, words: str, given: Sequence[Any]) -> Rows:
        return self._to_read.execute(words, given).fetchall()

    def _insert(self, rows: Rows) -> Awaitable[Rows]:
        return self._run(self._writer, self._append, rows)

    def _append(self, rows: Rows) -> Rows:
        """Appends rows, and returns them; or nothing if some are refused, and who asks has to look."""
        return rows if self._write(_APPEND.replace("$", ", ".join([_ROW] * len(rows))), rows) == len(rows) else ()

    def _write(self, words: str, rows: Rows) -> int:
        """Runs a statement with the values of some rows, in a transaction; returns how many rows of the table it has changed.

        It is one for all rows: after each statement the thread waits for the interpreter's lock, which the loop has.
        """
        with self._in_turn(), self._to_write as connection:
            connection.execute("BEGIN IMMEDIATE")
            return connection.execute(words, [value for row in rows for value in row]).rowcount

    @contextlib.contextmanager
    def _in_turn(self) -> Iterator[None]:
        """SQLite asks again and again for its lock, and may starve; the kernel lets processes in by turns."""
        fcntl.flock(self._turn, fcntl.LOCK_EX)
        try:
            yield
        finally:
            fcntl.flock(self._turn, fcntl.LOCK_UN)

    async def confirm(self) -> None:
        await self._run(self._reader, self._sync)

    def _sync(self) -> None:
        """Syncs what a process may have written and not synced before it ended, which is read after it."""
        with contextlib.suppress(FileNotFoundError), open(f"{self._path}-wal", "rb") as file:
            os.fsync(file.fileno())

    async def prune(self, before: float) -> None:
        living = [self.lease.holder]
        for path in self._folder.glob(f"{self._path.name}-*.lock"):
            holder = int(path.stem.rpartition("-")[2])
            if holder != self.lease.holder and await self.is_over(holder):
                path.unlink(missing_ok=True)
            else:
                living.append(holder)
        while await self._run(self._writer, self._write, _REMOVE, [(before, json.dumps(living))]):
            await asyncio.sleep(0)
