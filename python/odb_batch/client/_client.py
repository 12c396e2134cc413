"""Clients that post batches by requests or httpx, wait, and repeat what may be sent again."""

import asyncio
import time

from .._native.calls import MAX_REQUESTS, Mode
from ._batch import Batch, Results, as_coroutine, run_at_once
from ._retry import Sender, Sending


class BatchClient(Sender):
    """Posts batches to a service, waits while it is busy, and sends again what may be sent again.

    A block of ``with`` closes the session at its end.

    Args:
        session: A ``Session`` of requests or a ``Client`` of httpx, with its own headers, authentication and certificates;
            or a function that takes the bytes of a document and a dict of headers, and returns what that of
            :meth:`Batch.send` returns.
        url: The URL of the service above its ``$batch``; not needed if the client of httpx has a ``base_url``.
        headers: Headers that each batch has besides.
        timeout: For how many seconds the session waits for an answer, or None. A function has its own.
        attempts: How many attempts in a row may bring nothing, from 1.
        deadline: For how many seconds a batch is sent, or None. A wait that would be longer ends it at once.
        backoff: How many seconds a first wait is longer than ``Retry-After``, at most: a random part of it, which doubles
            with each attempt that brings nothing, up to 30.
        repeatable: Whether the service is asked to keep each part, so that one that is not answered may be posted again
            and is performed once (OASIS Repeatable Requests 1.0). If it does not keep them, nothing of that is done.

    Raises:
        TypeError: The session is of another library.
        ValueError: An option has a value that it may not have.
    """

    def send(self, batch: Batch, *, limit: int = MAX_REQUESTS, mode: Mode = "continue") -> Results:
        """Sends a batch as :meth:`Batch.send` does, waits and sends its rest, until nothing is left or nothing more is to
        be sent: after so many attempts, at the deadline, after a ``Retry-After`` of more than 600 seconds, if a part is
        refused as a whole by 3xx or 4xx, or in mode ``"stop"`` after an error. :attr:`Results.reason` says which.

        A part of which nobody knows whether it was performed is posted again, with the id by which the service keeps it.
        If the service keeps none, its requests are as :meth:`Results.rest` says: a POST or a PATCH is not sent again.

        Args:
            batch: The batch.
            limit: How many requests the service takes in a batch, from 1 to 10,000.
            mode: That of :meth:`Batch.send`.

        Returns:
            What each request was answered last, over all sends; all that was done is done once.

        Raises:
            Fault, ValueError, TypeError, MemoryError: As by :meth:`Batch.send`. Nothing was sent after the first two.
        """
        sending = Sending(self, as_coroutine(self._post), as_coroutine(time.sleep), limit, mode)
        return run_at_once(sending.send(batch))

    def close(self) -> None:
        """Closes the session, if it is no function."""
        if hasattr(self._session, "close"):
            self._session.close()

    def __enter__(self) -> "BatchClient":
        return self

    def __exit__(self, *_: object) -> None:
        self.close()


class AsyncBatchClient(Sender):
    """Does what :class:`BatchClient` does by an ``AsyncClient`` of httpx, or by a coroutine function. A block of ``async
    with`` closes the session at its end."""

    _is_async = True

    async def send(self, batch: Batch, *, limit: int = MAX_REQUESTS, mode: Mode = "continue") -> Results:
        """Does what :meth:`BatchClient.send` does. If its task is cancelled, what was answered is lost."""
        return await Sending(self, self._post, asyncio.sleep, limit, mode).send(batch)

    async def aclose(self) -> None:
        """Closes the session, if it is no function."""
        if hasattr(self._session, "aclose"):
            await self._session.aclose()

    async def __aenter__(self) -> "AsyncBatchClient":
        return self

    async def __aexit__(self, *_: object) -> None:
        await self.aclose()
