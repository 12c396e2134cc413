"""The journal of one batch in a store: what is written until a sync goes there as one part."""

import asyncio
import contextlib
from typing import Iterator, Optional, Protocol, Sequence

from ..documents.encoding import Report, Start
from ..driver.journal import JournalEvent, StartUnit
from ..http.messages import Refusal
from ._encoding import PIECE, decode_batch, encode_events, join_texts, reports_of
from ._stores import NOBODY, Late, Part, Store, clock

# After how many seconds an answer is kept that comes while others of its batch are waited for.
_SOON = 0.25
# About how many bytes a report takes without its body.
_HEAD = 100
# How often a lease is looked at that is being renewed, in seconds.
_LOOK = 0.05


def in_progress() -> Refusal:
    """Returns why a batch cannot be opened, or goes on no more: another one has it."""
    return Refusal(409, "InProgress", "The batch is being performed", retry_after="1")


class Owner(Protocol):
    """What has the journals of a process: a journal asks it for the appends."""

    store: Store
    writers: Iterator[int]
    lost: int

    def flush(self, journal: "StoreJournal") -> asyncio.Event: ...


class StoreJournal:
    """The journal of one batch, for `journal` of :func:`odb_batch.perform_async`; :meth:`Journals.journal` opens it.

    Attributes:
        batch: The name of the batch in the store.
        events: What has happened before.
        has_kept: Whether a text was kept since it was opened. Before that nothing was sent but GETs.
        size: About how many bytes no part has yet.
        failure: Why nothing more is appended: another one has the batch, or it is not known what was kept.
    """

    def __init__(self, owner: Owner, batch: bytes, parts: Sequence[Part], first: bytes = b"") -> None:
        text = join_texts(parts) if parts else b""
        self._owner, self.batch, self.events = owner, batch, decode_batch(first, text) if text and first else []
        # What no part has yet.
        self._text, self._new = b"" if text else first, []  # type: bytes, list[JournalEvent]
        self.size = 0
        # How many texts are kept, and how many have begun, with those that were there.
        self._kept = self._begun = self._number = len(parts)
        self._after = parts[-1].mark if parts else NOBODY
        self._lease = self._next_lease = owner.store.lease
        self._writer = next(owner.writers)
        # Which requests are out, and which were.
        self._out: set[str] = set()
        for event in self.events:
            self._note(event)
        self._was_out = frozenset(self._out)
        # Whether others have to wait, because of what is kept or on its way.
        self._is_open = bool(parts) and parts[-1].is_open and self._after[0] == self._lease.holder
        self.has_kept = False
        self.failure: Optional[Exception] = None
        self._timer: Optional[asyncio.TimerHandle] = None

    def write(self, event: JournalEvent) -> None:
        """Appends an event; raises what has failed before."""
        self._require()
        self._new.append(event)
        for report in self._note(event):
            self.size += _HEAD + len(report.body or b"")
            if report.id in self._was_out:
                self._owner.lost += report.status == 500 and b'"Lost"' in (report.body or b"")
            if self._out and self._timer is None:
                with contextlib.suppress(RuntimeError):  # what is lost is written by another thread, and synced at once
                    self._timer = asyncio.get_running_loop().call_later(_SOON, self._flush)

    def _note(self, event: JournalEvent) -> Sequence[Report]:
        """Notes what is out after an event; returns its reports."""
        if isinstance(event, (Start, StartUnit)):
            self._out.update(event.ids if isinstance(event, StartUnit) else (event.id,))
            return ()
        reports = reports_of(event)
        self._out.difference_update([report.id for report in reports])
        return reports

    def _flush(self) -> None:
        """Keeps an answer that the process might else lose while the batch waits for another one."""
        self._timer = None
        if self._new and self.failure is None:
            self._owner.flush(self)

    async def sync(self) -> None:
        """Returns once all events that were written before are kept for good, and what is out may be sent.

        Raises:
            Refusal: Another process has the batch: 409 ``InProgress``. Nothing more is to be sent.
            OSError: It is not known whether they are kept, or the lease cannot be renewed.
        """
        await self._keep(self._begun + bool(self._new))
        if self._out:
            await self._wait_for_lease()
        elif self._kept and not self.has_kept:
            await self._owner.store.confirm()

    async def _keep(self, count: int) -> None:
        """Returns once so many texts are kept."""
        while self._kept < count:
            self._require()  # after a failure the same number must not have another text
            await self._owner.flush(self).wait()
        self._require()

    async def _wait_for_lease(self) -> None:
        """Returns once nobody else goes on with the batch before the lease ends under which its last part is kept."""
        end = clock() + self._lease.seconds
        while self._lease.is_over:
            if not self._owner.store.lease.is_over:  # another one than that of the last part
                await self._keep(self._begun + 1)
            elif clock() < end:
                await asyncio.sleep(_LOOK)
            else:
                raise OSError("the lease cannot be renewed")

    def require_held(self) -> None:
        """Raises Late if the lease has ended: call it just before the bytes of a request are written, but a GET."""
        if self._lease.is_over:
            raise Late

    def _require(self) -> None:
        if self.failure is not None:
            raise self.failure

    # The append

    def next_parts(self) -> Iterator[Part]:
        """Yields what keeps all that no part has yet, maybe nothing; `end_append` says what has become of it."""
        text = b"".join([self._text, *(encode_events(self._new) if self._new else ())])
        self._text, self._new, self.size = b"", [], 0
        self._begun, self._next_lease = self._begun + 1, self._owner.store.lease
        self._is_open = bool(self._out)
        mark = self._next_lease.holder, self._writer
        for at in range(0, len(text) + 1, PIECE):  # the last piece is shorter, and may be empty
            is_open = self._is_open or at + PIECE <= len(text)
            yield Part(self.batch, self._number, mark, self._after, is_open, text[at : at + PIECE])
            self._number, self._after = self._number + 1, mark

    def end_append(self, error: Optional[Exception]) -> None:
        """Notes that the text is kept; or why all that comes is refused: another one has the batch, or it is not known
        whether a part is kept, and the next one would have its number."""
        self.failure = error
        if error is None:
            # Not before: what was started under another lease may have been taken over.
            self._kept, self._lease, self.has_kept = self._kept + 1, self._next_lease, True

    # The end

    def leave(self) -> bool:
        """Ends the journal; returns whether others have to be let on, as something is out or not kept."""
        self._out.clear()
        if self._timer is not None:
            self._timer.cancel()
        return self._is_open or self._kept < self._begun or bool(self._new) or self.failure is not None

    async def end(self) -> None:
        """Keeps what is written, and that others may go on; raises what has failed."""
        await self._keep(self._begun + 1)
