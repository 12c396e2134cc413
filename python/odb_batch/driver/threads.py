"""Performs batches by a function that sends one request, in threads."""

import contextlib
from concurrent.futures import Executor, Future, ThreadPoolExecutor, wait
from contextvars import copy_context
from queue import SimpleQueue
from time import monotonic
from typing import Any, Callable, ContextManager, Optional, Sequence, Union

from .._native.calls import Mode
from ..documents.encoding import Document, document_bytes
from ..http.messages import Answer, Answered, PreparedRequest, validate_answer
from .execution import Execution, Unit, either

#: Sends a request, and returns what it is answered.
Send = Callable[[PreparedRequest], Answered]
#: Opens the transaction of a group, by its name: it is committed at the end of the block, and rolled back on any
#: exception.
Transaction = Callable[[str], ContextManager[Any]]


def perform(
    batch: Document,
    send: Send,
    *,
    mode: Mode = "continue",
    width: int = 1,
    transaction: Optional[Transaction] = None,
    base: str = "",
    roots: Optional[Sequence[str]] = None,
    limit: int = 10_000,
    stop: Optional[Callable[[], bool]] = None,
    deadline: Optional[float] = None,
    pool: Optional[Executor] = None,
) -> bytes:
    """Performs a batch, and returns the response document, as JSON without a newline.

    Each request goes to ``send`` once it may start: what it needs has succeeded, and references in its URL and in
    ``If-Match`` are replaced (OData JSON Format 4.01, section 19.2).

    >>> from odb_batch import Answer, perform
    >>> batch = {"requests": [{"id": "a", "method": "post", "url": "Books", "body": {"Title": "Emma"}},
    ...                       {"id": "b", "method": "get", "url": "$a/Pages", "dependsOn": ["a"]}]}
    >>> def send(request):
    ...     print(request.method, request.url)
    ...     return Answer(201, {"Location": "/odata/Books(7)"} if request.method == "POST" else {})
    >>> perform(batch, send, base="https://host/odata/")
    POST https://host/odata/Books
    GET https://host/odata/Books(7)/Pages
    b'{"responses":[{"headers":{"location":"/odata/Books(7)"},"id":"a","status":201},{"id":"b","status":201}]}'

    An exception of ``send`` is an answer, too: 504 for a TimeoutError, 502 for a ConnectionError, that of a
    :class:`Refusal`, and 500 for any other, which is logged. A thread cannot be stopped, so ``send`` has to end by
    itself if no answer comes.

    The requests of a group are sent one after another inside of its transaction. It begins once the group needs nothing
    more from outside, is committed before the last request is reported, and is rolled back by an exception if one of
    them fails. If it cannot begin, the first request is answered by its exception, as above; if it cannot be committed,
    the last.

    Args:
        batch: The batch.
        send: Sends a request. With a width above 1 it is called in several threads at once.
        mode: ``"continue"``, or ``"stop"`` to start nothing more after a status from 400 to 599.
        width: How many units are performed at once, from 1 to 10,000; a unit is a group, or a request without one. With
            1 everything happens in the thread of the caller. With more each unit has a thread, and a copy of the
            context (``contextvars``) of the caller.
        transaction: Opens the transaction of a group. Without it a batch with groups is refused.
        base: The absolute URL that URLs are relative to, which ends with /. Requests that lead out of it are answered
            404 and not sent. If it is empty, URLs are passed as they are.
        roots: Where requests may lead, if not to the base alone: below these absolute URLs, each of which ends with /
            and has no user information. If there are none, they may lead anywhere, so whoever sends a batch reaches
            whatever this process reaches.
        limit: How many requests the batch may have.
        stop: Is called before a unit begins, as ``event.is_set``. Once it returns true, nothing more starts, and what
            has not started is answered 424: for a client that has gone, and for a process that ends.
        deadline: For how many seconds the batch may take, or None. Then nothing more starts, as after a stop; what runs
            is waited for.
        pool: Where units are performed, if the width is above 1; else threads are made for this batch.

    Raises:
        Fault: The batch is refused; nothing was sent.
        Refusal: The batch has too many requests (413), or groups, and there is no transaction (501); nothing was sent.
        ValueError: An option has a value that it may not have.
        MemoryError: An allocation failed.
    """
    end = monotonic() + (deadline or 0.0)
    execution = Execution(
        document_bytes(batch),
        mode=mode,
        width=width,
        limit=limit,
        has_transactions=transaction is not None,
        base=base,
        roots=roots,
        stop=either(None if deadline is None else lambda: monotonic() >= end, stop),
    )
    with contextlib.closing(execution):
        if width == 1:
            while units := execution.begin(1):
                _perform_unit(execution, units[0], send, transaction)
        elif pool is not None:
            _perform_in(pool, execution, width, send, transaction)
        else:
            with ThreadPoolExecutor(width, "batch") as own:
                _perform_in(own, execution, width, send, transaction)
        return execution.response()


def _perform_in(pool: Executor, execution: Execution, width: int, send: Send, transaction: Optional[Transaction]) -> None:
    """Performs all units, each in a thread of the pool. If that is interrupted, nothing more starts, open groups are
    rolled back before their next request, and what is out is waited for."""
    ended: "SimpleQueue[Future[None]]" = SimpleQueue()
    out: "set[Future[None]]" = set()
    try:
        while True:
            for unit in execution.begin(width - len(out)):
                run: Callable[..., None] = copy_context().run
                future = pool.submit(run, _perform_unit, execution, unit, send, transaction)
                out.add(future)
                future.add_done_callback(ended.put)
            if not out:
                return
            future = ended.get()
            out.discard(future)
            future.result()
    finally:
        if out:
            execution.stop()
            # One that is cancelled never runs, and a pool that is shut down does not say so.
            wait([future for future in out if not future.cancel()])


def _perform_unit(execution: Execution, unit: Unit, send: Send, transaction: Optional[Transaction]) -> None:
    """Performs a unit, unless nothing more starts since it has waited for a thread."""
    if unit.group is None or transaction is None:
        _send_requests(execution, unit, send)
        return
    if not execution.confirm(unit):
        return
    answer: Optional[Answer] = None
    try:
        with transaction(unit.group):
            # Assigned at the very end: where a manager swallows an exception, there is no answer.
            answer = _send_requests(execution, unit, send)
    except Exception as error:
        answer = execution.failure_answer(unit, error)
    execution.finish(unit, answer)


def _send_requests(execution: Execution, unit: Unit, send: Send) -> Optional[Answer]:
    """Takes the steps of a unit, and returns in what they end."""
    steps = execution.steps(unit)
    answered: Union[Answer, Exception, None] = None
    try:
        while True:
            request = steps.send(answered)
            try:
                answered = validate_answer(send(request))
            except Exception as error:
                answered = error
    except StopIteration as end:
        answer: Optional[Answer] = end.value
        return answer
