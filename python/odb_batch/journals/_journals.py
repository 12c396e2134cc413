"""The journals in a store: who has which batch, and appends that go together."""

import asyncio
import contextlib
import itertools
from collections import deque
from typing import AsyncIterator, Awaitable, Callable, Coroutine, Iterator

from ..http.messages import LOG, Refusal
from ._encoding import PIECE, digest
from ._journal import StoreJournal, in_progress
from ._stores import Hold, Part, Store, clock

# After so many bytes, or with so many parts, no further part is appended at once. A statement of SQLite before 3.32 takes 999
# values, and a part has eight.
_MOST_BYTES, _MOST_PARTS = 1_048_576, 120
# What has more bytes keeps no others waiting: it goes beside them.
_LONG = 65_536
# How often a lease is renewed in its time.
_RENEWALS = 5
# After how many seconds something that has failed is tried again, and for how many the end waits for what is left.
_AGAIN, _END = 1.0, 3.0
# How often old batches are looked for, in seconds; those that are kept for days less often.
_PRUNE_SECONDS, _PRUNED_WHILE_KEPT = 60.0, 24
# For how many seconds a batch has to have been too old before it is removed, unless it is kept for less: the clock may
# be wrong when the machine starts.
_PATIENCE = 3_600.0
_Waiting = asyncio.Queue[StoreJournal]


class Journals:
    """The journals of batches in a store, for one process and one loop.

    >>> async def answer(batch, name):
    ...     async with journals.journal(name, identity(batch=digest(batch))) as journal:
    ...         return await perform_async(batch, send, journal=journal)

    Args:
        store: Where they are; see :func:`store_of`.
        keep: For how many seconds a batch is kept after its last event, at least.
        ahead: By how many seconds the clocks of clients may be ahead: batches are kept so much longer.
        steady: Seconds of a clock that nobody sets.

    Attributes:
        broken: Raises OSError once the store turns out to be unusable after `open`.
        appends, parts, bytes, seconds: How many appends there were, of how many parts and bytes, and their time.
        refused, lost: How many batches another process has taken over, and how many requests were lost.
    """

    def __init__(
        self, store: Store, keep: float = 86_400.0, ahead: float = 0.0, steady: Callable[[], float] = clock
    ) -> None:
        self.store, self._keep, self._ahead, self._steady = store, keep, ahead, steady
        self.writers: Iterator[int] = itertools.count(1)
        self._active: set[bytes] = set()
        # What is set at the end of the append of a journal that has begun, or is waited for.
        self._appends: dict[StoreJournal, asyncio.Event] = {}
        self._tasks: "set[asyncio.Task[None]]" = set()
        self._releases: "set[asyncio.Task[None]]" = set()
        # What the clocks have shown: that nobody sets, and that of the store.
        self._shown: deque[tuple[float, float]] = deque()
        self._is_open = False
        self.appends = self.parts = self.bytes = self.refused = self.lost = 0
        self.seconds = 0.0

    @property
    def is_ready(self) -> bool:
        """Whether the store was reached, and the lease lasts."""
        return self._is_open and not self.store.lease.is_over

    async def open(self) -> None:
        """Opens the store, or begins to wait for it if it cannot be reached; raises OSError if it cannot be used."""
        self.broken: "asyncio.Future[None]" = asyncio.get_running_loop().create_future()
        try:
            await self._start()
        except ConnectionError as error:
            LOG.error("the journal cannot be reached, and is waited for: %s", error)
            self._spawn(self._open_later(), self._tasks)

    async def _open_later(self) -> None:
        try:
            while not self._is_open:
                await asyncio.sleep(_AGAIN)
                with contextlib.suppress(ConnectionError):
                    await self._start()
        except OSError as error:
            LOG.error("the journal cannot be used: %s", error)
            self.broken.set_exception(error)

    async def _start(self) -> None:
        await self.store.open()
        self._is_open = True
        self._short, self._long = asyncio.Queue(), asyncio.Queue()  # type: _Waiting, _Waiting
        for waiting in [self._long, *[self._short] * self.store.width]:
            self._spawn(self._append_waiting(waiting), self._tasks)
        often = min(max(_PRUNE_SECONDS, self._keep / _PRUNED_WHILE_KEPT), self._keep)
        self._spawn(self._repeat(often, self.prune, "old journals cannot be removed"), self._tasks)
        often = self.store.lease.seconds / _RENEWALS
        self._spawn(self._repeat(often, self.store.renew, "the lease is not renewed"), self._tasks)

    async def _repeat(self, seconds: float, work: Callable[[], Awaitable[None]], failure: str) -> None:
        """Does something again and again."""
        while True:
            try:
                await work()
            except OSError as error:
                LOG.error("%s: %s", failure, error)
            await asyncio.sleep(seconds)

    async def close(self) -> None:
        """Lets others go on with what is left, and closes the store."""
        if self._releases:
            await asyncio.wait(self._releases, timeout=_END)
        rest = {*self._tasks, *self._releases}
        while rest:
            for task in rest:
                task.cancel()
            # One that makes a connection may miss it: until Python 3.12, `asyncio.wait_for` loses some.
            _, rest = await asyncio.wait(rest, timeout=_AGAIN)
        if self._is_open:
            await self.store.close()

    def _spawn(self, work: "Coroutine[None, None, None]", tasks: "set[asyncio.Task[None]]") -> None:
        task = asyncio.ensure_future(work)
        tasks.add(task)  # the loop alone would not keep it
        task.add_done_callback(tasks.discard)

    # Opening

    @contextlib.asynccontextmanager
    async def journal(self, name: bytes, first: bytes, hold: Hold = lambda size: None) -> AsyncIterator[StoreJournal]:
        """Opens the journal of a batch. Whoever keeps its next event has the batch.

        Args:
            name: The name of the batch.
            first: The first line, as `identity` makes it.
            hold: Reserves memory for what is read, or raises an exception.

        Raises:
            Refusal: The batch is being performed (409), or the name is that of another batch (422).
            ValueError: It is damaged.
            OSError: The store cannot be read.
        """
        batch = bytes.fromhex(digest(name))
        if batch in self._active:
            raise in_progress()
        if not self._is_open:
            raise OSError("the journal was not reached yet")
        self._active.add(batch)
        with contextlib.ExitStack() as ends:
            ends.callback(self._active.discard, batch)
            parts = await self.store.read(batch, hold)
            # What this process has open and does not perform any more was left open by a failure.
            holder = parts[-1].mark[0] if parts and parts[-1].is_open else self.store.lease.holder
            if holder != self.store.lease.holder and not await self.store.is_over(holder):
                raise in_progress()
            journal = StoreJournal(self, batch, parts, first)
            try:
                yield journal
            finally:
                if journal.leave():
                    ends.pop_all()  # it is active until it is released
                    self._spawn(self._release(journal), self._releases)

    async def _release(self, journal: StoreJournal) -> None:
        """Lets others go on with a batch that is left open: else they would wait for as long as the process lives."""
        while True:
            try:
                if journal.failure is not None:  # it is not known what is kept
                    journal = StoreJournal(self, journal.batch, await self.store.read(journal.batch, lambda size: None))
                return await journal.end() if journal.leave() else None
            except (OSError, Refusal) as error:
                LOG.error("a batch is left open: %s", error)
            finally:
                self._active.discard(journal.batch)
            await asyncio.sleep(_AGAIN)
            if journal.batch in self._active:  # somebody here goes on with it
                return
            self._active.add(journal.batch)

    # Appending

    def flush(self, journal: StoreJournal) -> asyncio.Event:
        """Returns what is set at the end of the next append of a journal, or of the one that is on its way."""
        if journal not in self._appends:
            self._appends[journal] = asyncio.Event()
            (self._long if journal.size > _LONG else self._short).put_nowait(journal)
        return self._appends[journal]

    async def _append_waiting(self, waiting: _Waiting) -> None:
        """Appends what waits: what has come while others were on their way goes together."""
        while True:
            journals = [await waiting.get()]
            await asyncio.sleep(0)  # what starts in this turn of the loop goes with it
            size = journals[0].size
            while size < _MOST_BYTES and len(journals) < _MOST_PARTS and not waiting.empty():
                journals.append(waiting.get_nowait())
                size += journals[-1].size
            await self._append(journals)

    async def _append(self, journals: list[StoreJournal]) -> None:
        kept, failure = set(), OSError("it was broken off")  # type: set[bytes], Exception
        try:
            for parts in _groups(journals):
                began = clock()
                found = await self.store.append(parts)
                self.appends, self.parts = self.appends + 1, self.parts + len(parts)
                self.bytes += sum([len(part.text) for part in parts])
                self.seconds += clock() - began
            kept, failure = found, in_progress()
            self.refused += len(parts) - len(kept)
        except Exception as error:
            failure = error if isinstance(error, OSError) else OSError(f"{type(error).__name__}: {error}")
        finally:
            for journal in journals:
                journal.end_append(None if journal.batch in kept else failure)
                self._appends.pop(journal).set()

    # Removing

    async def prune(self) -> None:
        """Removes the batches of which nothing has happened for so long, unless they are being performed.

        A clock may be wrong, so a batch has to stay too old for a while; it is removed by the earliest that was shown.
        """
        now, patience = self._steady(), min(_PATIENCE, self._keep)
        self._shown.append((now, await self.store.now()))
        while len(self._shown) > 1 and self._shown[1][0] <= now - patience:
            self._shown.popleft()
        if self._shown[0][0] <= now - patience:
            await self.store.prune(min(shown for _, shown in self._shown) - self._keep - self._ahead)

    def metrics(self) -> Iterator[tuple[str, str, float]]:
        """Yields the name and the help of each metric, and its value; what ends with _total is a counter."""
        yield "journal_appends_total", "Commits of the journal.", self.appends
        yield "journal_parts_total", "Parts of batches in these; by the commits: how many share one.", self.parts
        yield "journal_bytes_total", "Bytes of these.", self.bytes
        yield "journal_seconds_total", "How long these took.", round(self.seconds, 6)
        yield "journal_breaks_total", "Connections to the journal that broke.", getattr(self.store, "breaks", 0)
        yield "journal_refused_total", "Batches that another gateway has taken over.", self.refused
        yield "journal_lost_total", "Requests that were answered 500 Lost.", self.lost
        if self.store.lease.seconds < float("inf"):
            left = round(max(self.store.lease.deadline - clock(), 0.0), 3)
            yield "journal_lease_seconds", "What is left of the lease.", left


def _groups(journals: list[StoreJournal]) -> Iterator[list[Part]]:
    """Yields the parts that go together: pieces of long texts alone, and then the last part of each journal, which is
    refused where one of its pieces was."""
    ends = []
    for journal in journals:
        for part in journal.next_parts():
            if len(part.text) == PIECE:
                yield [part]
            else:
                ends.append(part)
    yield ends
