"""A batch that is sent until nothing is left: what is posted, what is waited for, and when that ends."""

import email.utils
import random
import time
import uuid
from typing import Any, Awaitable, Callable, Mapping, Optional, Union

from .._native.calls import Mode
from ..commands import match
from ..http.batches import batch_json
from ..http.bodies import to_json
from ..http.messages import LOG, Answer, Refusal, header_dict
from ._batch import Batch, Results, batch_headers
from ._results import UNSURE, Result, seconds_of
from ._transports import PostFunction, is_unsent, make_post, read_response, to_answer

#: Waits for so many seconds.
Sleep = Callable[[float], Awaitable[Any]]

ID, FIRST_SENT, RESULT = "repeatability-request-id", "repeatability-first-sent", "repeatability-result"
# By how many seconds a wait is longer than the service asks for, at most; and what it may ask for.
_MAX_BACKOFF, _MAX_ASKED = 30.0, 600.0
_NOTHING = batch_json([])
# What settles nothing for good.
_SETTLES_NOTHING = UNSURE | {424, 429, 503}
# How a service that keeps batches rejects one that it does not continue.
_GIVEN_UP = frozenset({400, 412, 422, 501})


class Sender:
    """What the clients are made of: how batches are sent, and what was learnt of the service."""

    _is_async = False

    def __init__(
        self,
        session: Any,
        url: str = "",
        *,
        headers: Mapping[str, str] = {},
        timeout: Optional[float] = 60.0,
        attempts: int = 8,
        deadline: Optional[float] = None,
        backoff: float = 1.0,
        repeatable: bool = True,
    ) -> None:
        self._session, self._post = session, make_post(session, url, self._is_async)
        if isinstance(attempts, bool) or not isinstance(attempts, int) or attempts < 1:
            raise ValueError(f"attempts must be a whole number from 1, not {attempts!r}")
        for name, seconds in (("timeout", timeout), ("deadline", deadline)):
            if seconds is not None and not seconds > 0:
                raise ValueError(f"{name} must be a number of seconds above 0, or None, not {seconds!r}")
        if not backoff >= 0:
            raise ValueError(f"backoff must be a number of seconds from 0, not {backoff!r}")
        self._timeout, self._attempts, self._deadline, self._backoff = timeout, attempts, deadline, backoff
        self._headers = header_dict(headers.items())
        # Whether the service keeps a part, so that it may be posted again; None while that is not known.
        self._keeps = None if repeatable else False


class Sending:
    """A batch on its way. What posts and what sleeps are coroutine functions."""

    def __init__(self, client: Sender, post: PostFunction, sleep: Sleep, limit: int, mode: Mode) -> None:
        self._client, self._post, self._sleep, self._limit, self._mode = client, post, sleep, limit, mode
        self._end = time.monotonic() + (float("inf") if client._deadline is None else client._deadline)
        # How many attempts in a row have brought nothing, and whether the one that is on its way has brought anything.
        self._idle, self._moved = 0, False
        # Why nothing more is sent.
        self._reason = ""

    async def send(self, batch: Batch) -> Results:
        """Sends a batch until nothing is left, or nothing more is to be sent. Returns the results of all sends."""
        answers: dict[str, Union[Answer, Result]] = {}
        left, document, error = batch, batch.document(), None
        while True:
            results = await left.send_async(self._send_part, limit=self._limit, mode=self._mode)
            answers.update(results)
            error = results.error or error
            rest = self._next(results)
            if rest is None or not await self._pause(results.retry_after, f"{len(rest)} requests are sent again"):
                return Results(batch, document, answers, results.rest, error, self._reason)
            left = rest

    def _next(self, results: Results) -> Optional[Batch]:
        """The batch that is to be sent after a send, or None; notes why what is left is not."""
        for result in (*results.failed, *results.unknown) if self._mode == "stop" else ():
            if 400 <= result.status != 424:
                self._reason = self._reason or f"{result.id} has failed"
        try:
            rest = results.rest()
        except ValueError as error:
            self._reason = self._reason or str(error)
        return None if self._reason else rest or None

    async def _send_part(self, part: bytes) -> Any:
        """What a part is answered; raises the exception in place of it. It is posted again only under the id that the
        service keeps it by: until then nobody knows whether it was performed."""
        given, lost = self._headers(), None
        while True:
            asks = lost is not None and self._client._keeps is None
            answer, found = await (self._try(_NOTHING, self._headers()) if asks else self._try(part, given))
            is_lost = answer.status in UNSURE | {0} or _is_rejected(answer, 409)
            if answer.is_success:
                if not asks:
                    return found
                if self._client._keeps:
                    continue
            elif lost is None and ID in given and _is_rejected(answer, 501):
                given = self._headers()
                continue
            elif lost is None and not is_lost:
                if answer.status < 500 and answer.status not in _SETTLES_NOTHING:
                    self._reason = f"a part was answered {answer.status} as a whole"
                return _unwrap(found)
            lost = lost or (TimeoutError("the part is being performed") if answer.status == 409 else found)
            is_over = self._client._keeps is False or _is_rejected(answer, *_GIVEN_UP)
            asked, why = seconds_of(answer.headers.get("retry-after", "")), f": {answer.status or repr(found)}"
            if is_over or not await self._pause(asked, "a part is posted again", why):
                return _unwrap(lost)

    def _headers(self) -> dict[str, str]:
        """The headers of a part; unless the service keeps none, with an id of its own and the date."""
        found = {**header_dict(batch_headers(self._mode).items()), **self._client._headers}
        if self._client._keeps is not False:
            found.update({ID: str(uuid.uuid4()), FIRST_SENT: email.utils.formatdate(usegmt=True)})
        return found

    async def _try(self, document: bytes, headers: dict[str, str]) -> tuple[Answer, Any]:
        """Posts a document. Returns what it is answered, of status 0 if nobody knows; and that as it is to be taken, or the
        exception in place of it."""
        seconds = min(self._client._timeout or self._end, max(self._end - time.monotonic(), 0.001))
        try:
            found = read_response(await self._post(document, headers, None if seconds == float("inf") else seconds))
        except Exception as error:
            return _stand_in(error)
        try:
            answer = to_answer(found)
        except TypeError:
            return Answer(200), found  # which is refused where it is taken
        if ID in headers:
            self._learn(answer)
        if answer.is_success:
            try:
                statuses = match(document, to_json(answer, {}), mode=self._mode)
            except ValueError as error:
                return _stand_in(error)
            self._moved = self._moved or not _SETTLES_NOTHING.issuperset(statuses.values())
        return answer, answer

    def _learn(self, answer: Answer) -> None:
        """Notes whether the service keeps what it is posted. Once it has said so, a page of a proxy says nothing else."""
        result = answer.headers.get(RESULT)
        if result == "accepted":
            self._client._keeps = True
        elif _is_rejected(answer, 501) or (answer.is_success and result is None and self._client._keeps is None):
            self._client._keeps = False

    async def _pause(self, asked: float, what: str, why: str = "") -> bool:
        """Waits before more is posted. Returns False if nothing more is, and notes why."""
        self._idle, self._moved = 0 if self._moved else self._idle + 1, False
        seconds = asked + random.uniform(0, min(self._client._backoff * 2.0 ** min(self._idle, 9), _MAX_BACKOFF))
        if self._idle >= self._client._attempts:
            self._reason = f"the last {self._client._attempts} attempts have brought nothing"
        elif asked > _MAX_ASKED:
            self._reason = f"the service asks to wait {asked:.0f} seconds"
        elif time.monotonic() + seconds >= self._end:
            self._reason = f"the deadline of {self._client._deadline} seconds is over"
        else:
            LOG.info("%s in %.1f seconds%s", what, seconds, why)
            await self._sleep(seconds)
        return not self._reason


def _stand_in(error: Exception) -> tuple[Answer, Exception]:
    """What an exception says, and that. Without a connection nothing was performed: that is a 503."""
    if is_unsent(error):
        unreachable = Refusal(503, "Unreachable", f"there is no connection: {error}")
        unreachable.__cause__, error = error, unreachable
    return error.answer if isinstance(error, Refusal) else Answer(0), error


def _unwrap(found: Any) -> Any:
    """Returns what is to be taken, or raises the exception in place of it."""
    if isinstance(found, Exception):
        raise found
    return found


def _is_rejected(answer: Answer, *statuses: int) -> bool:
    """Whether a service that keeps batches has rejected one, by one of some statuses."""
    return answer.status in statuses and answer.headers.get(RESULT) == "rejected"
