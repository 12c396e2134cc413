"""What is seen of the requests of a batch from outside: a line of the log for each, and hooks before and around it."""

import asyncio
import itertools
import logging
from dataclasses import replace
from time import perf_counter
from typing import Callable, Optional
from urllib.parse import urlsplit

from .batch_request import HeaderPolicy
from .messages import LOG, TIMED_OUT, Answer, PreparedRequest, exception_answer

#: Is called with a request before it is sent, and may raise Refusal.
Inspect = Callable[[PreparedRequest], None]
#: Is called with a request before it is sent; a function that it returns is called with the answer.
OnRequest = Callable[[PreparedRequest], Optional[Callable[[Answer], object]]]

_LINES = LOG.getChild("requests")
_NUMBERS = itertools.count(1)


def notify(on_answer: Optional[Callable[[Answer], object]], answer: Answer) -> None:
    """Calls what a hook has returned with the answer to its request, which stands: an exception is logged."""
    try:
        if on_answer is not None:
            on_answer(answer)
    except Exception as error:
        LOG.error("the hook after a request failed", exc_info=error)


class BatchObserver:
    """Logs each request of one batch at INFO, and shows it to hooks with all its headers.

    Args:
        headers: The headers of its requests.
        inspect: Is called with each request before it is dispatched, or None. What it raises is the answer.
        on_request: The hook around each request, or None.

    Attributes:
        is_needed: Whether there is a hook, or the log has the lines.
    """

    def __init__(self, headers: HeaderPolicy, inspect: Optional[Inspect], on_request: Optional[OnRequest]) -> None:
        self._headers, self._inspect, self._on_request, self._number = headers, inspect, on_request, next(_NUMBERS)
        has_hooks = inspect is not None or on_request is not None
        self.is_needed = has_hooks or _LINES.isEnabledFor(logging.INFO)

    def begin(self, request: PreparedRequest) -> "ObservedRequest":
        """Returns the block in which a request is answered; raises what a hook raises."""
        whole = replace(request, headers=self._headers.for_request(request.headers))
        if self._inspect is not None:
            self._inspect(whole)
        return ObservedRequest(self._number, whole, self._on_request)


class ObservedRequest:
    """The block in which a request of a batch is answered.

    Attributes:
        answer: What it is answered; if that is not set at the end of the block, its exception says it.
    """

    def __init__(self, number: int, request: PreparedRequest, on_request: Optional[OnRequest]) -> None:
        self._number, self._request = number, request
        self._on_answer = on_request(request) if on_request is not None else None
        self.answer: Optional[Answer] = None
        self._began = perf_counter()

    def __enter__(self) -> "ObservedRequest":
        return self

    def __exit__(self, _: object, error: Optional[BaseException], __: object) -> None:
        answer = self.answer or (TIMED_OUT if isinstance(error, asyncio.CancelledError) else exception_answer(error))
        path, milliseconds = urlsplit(self._request.url).path, 1000 * (perf_counter() - self._began)
        _LINES.info(
            "batch %d: %s %s %d %.1f ms", self._number, self._request.method, path, answer.status, milliseconds
        )
        notify(self._on_answer, answer)
