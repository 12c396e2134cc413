"""Performs batches by a coroutine function that sends one request, in tasks of asyncio."""

import asyncio
import contextlib
import functools
from typing import Any, AsyncContextManager, AsyncIterator, Callable, Optional, Sequence, Union

from .._native.calls import Mode
from ..documents.encoding import Document, document_bytes
from .execution import Execution, either
from .journal import Journal
from .task_options import Deadline, Gate, SendAsync, SendGroup, TransactionAsync, UnitOptions
from .unit_tasks import perform_units

# A document with more bytes is read in a thread, so that the loop goes on meanwhile.
_LONG = 65_536


async def perform_async(
    batch: Document,
    send: SendAsync,
    *,
    mode: Mode = "continue",
    width: int = 8,
    transaction: Optional[TransactionAsync] = None,
    base: str = "",
    roots: Optional[Sequence[str]] = None,
    limit: int = 10_000,
    stop: Optional[Callable[[], bool]] = None,
    timeout: Optional[float] = None,
    deadline: Optional[float] = None,
    gate: Union[None, AsyncContextManager[Any], Gate] = None,
    groups: Optional[SendGroup] = None,
    journal: Optional[Journal] = None,
) -> bytes:
    """Performs a batch as :func:`odb_batch.perform` does, in tasks of the running loop.

    >>> import asyncio
    >>> from odb_batch import perform_async
    >>> batch = {"requests": [{"id": "a", "method": "get", "url": "Books"}]}
    >>> async def send(request):
    ...     return 200, {}, {"at": request.url}
    >>> asyncio.run(perform_async(batch, send, base="https://host/odata/"))
    b'{"responses":[{"body":{"at":"https://host/odata/Books"},"id":"a","status":200}]}'

    Each unit is performed in a task of its own, with a copy of the context (``contextvars``) of the caller.

    A transaction is best an asynchronous context manager. One that is not may set something, but must not wait: what
    blocks the loop keeps the group that holds a lock from its next request.

    If this is cancelled, nothing more starts, what is out is cancelled, and open transactions are rolled back.

    A gateway sends a group to its service as one, by ``groups`` in place of ``transaction``: once it needs nothing more
    from outside. An exception of ``groups`` is the answer to each of its requests. If one of them cannot be sent, as
    one whose URL leads out of ``base``, it is answered so, and the others 424; ``groups`` raises :class:`MemberRefused`
    for that.

    With a ``journal`` a batch goes on after the end of a process: call this again with the same batch and mode, and
    with a journal that has the events so far. A GET that was out is sent again. Anything else that was out, also each
    request of a group that was sent as one, is answered 500 ``Lost``. A batch that was finished gets the same response.

    Args:
        batch, mode, base, roots, limit, stop: As of :func:`odb_batch.perform`.
        send: Sends a request, and returns what it is answered.
        width: How many units are performed at once, from 1 to 10,000.
        transaction: Opens the transaction of a group: a context manager, asynchronous or not. Without it a batch with
            groups is refused.
        timeout: For how many seconds a request may take, or None. Then it is cancelled, and once that is done, answered
            504.
        deadline: For how many seconds the batch may take, or None. Then nothing more starts, what has not started is
            answered 424, and what runs is cancelled and answered 504. The end of a transaction is waited for.
        gate: Bounds how many units of all batches are performed at once: a semaphore, or a function that returns an
            asynchronous context manager by the first request of a unit, or by a :class:`PreparedGroup`, and is not
            asked if that cannot be sent. A unit has its place before its start is noted, and ``stop`` is asked again
            once it has. An exception on entry is its answer. Where requests are answered by a pool of threads, there
            are fewer places than threads: then a group that holds a lock gets a thread for its next request, however
            many others wait for that lock.
        groups: Sends a group as one, and returns what each of its requests is answered, in order. A
            :class:`PreparedGroup` has the batch to send, and reads its response.
        journal: Where the events of the batch are kept, as one of :mod:`odb_batch.journals`. It is synced before each
            request that is sent and is not a GET. An exception of it ends the batch and is raised.

    Raises:
        Fault: The batch is refused; nothing was sent.
        Refusal: The batch has too many requests (413), or groups, and there is no transaction (501); nothing was sent.
        ValueError: An option has a value that it may not have; or there are a transaction and ``groups``, or a
            transaction and a journal: what was open at the end of a process is rolled back, so it cannot go on. Or the
            journal has an event that is not one of this batch; then nothing was sent.
        MemoryError: An allocation failed.
    """
    if transaction is not None and (groups is not None or journal is not None):
        raise ValueError("a transaction cannot be combined with groups that are sent as one, or with a journal")
    document, ends = document_bytes(batch), Deadline(deadline)
    open_execution = functools.partial(
        Execution,
        document,
        mode=mode,
        width=width,
        limit=limit,
        has_transactions=transaction is not None,
        base=base,
        roots=roots,
        stop=either(None if deadline is None else lambda: ends.is_over, stop),
        sends_groups=groups is not None,
        journal=journal,
    )
    is_long = len(document) > _LONG
    loop = asyncio.get_running_loop()
    execution = await loop.run_in_executor(None, open_execution) if is_long else open_execution()
    with contextlib.closing(execution):
        opened = None if transaction is None else functools.partial(_asynchronous, transaction)
        await perform_units(execution, width, UnitOptions(send, opened, timeout, ends, gate, groups, journal))
        return execution.response()


@contextlib.asynccontextmanager
async def _asynchronous(transaction: TransactionAsync, group: str) -> AsyncIterator[None]:
    """Opens the transaction of a group, whether it is asynchronous or not."""
    manager: Any = transaction(group)
    if hasattr(manager, "__aenter__"):
        async with manager:
            yield
    else:
        with manager:
            yield
