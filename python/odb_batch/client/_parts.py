"""A batch that is sent in parts, which the library makes."""

import contextlib
import math
from typing import Awaitable, Callable, Collection, Mapping, Optional

from .._native.calls import MAX_REQUESTS, Mode, require_number
from ..commands import match
from ..documents.requests import Request
from ..driver.groups import SKIPPED
from ..driver.references import ReferenceResolver
from ..errors.faults import Fault, Refused
from ..http.batches import read_answers, responses_json
from ..http.bodies import to_json
from ..http.messages import BROKEN, LOG, TIMED_OUT, Answer, Answered, Refusal
from ..run_parts import Part
from ..runs import ListedRun
from ._transports import Posted, is_timeout, read_response, to_answer

# The library reads a batch for each part of it. One with more requests is cut into longer parts first, each a batch of its own.
_MANY = 1_000


class Parts:
    """A batch that is sent in parts.

    Args:
        document: The batch.
        limit: How many requests a part may have.
        mode: Whether a part is performed up to its first error, and nothing more is sent then.

    Attributes:
        document: The batch.
        answers: What the requests were answered, by their ids, in the order of the batch.
        error: The exception by which the last part was not answered, or None.

    Raises:
        Fault: The batch is refused.
        ValueError: An option has a value that it may not have, or a group has more requests than the limit.
    """

    def __init__(self, document: bytes, limit: int, mode: Mode) -> None:
        require_number("limit", limit, MAX_REQUESTS)
        self.document, self._limit, self._mode = document, limit, mode
        self._run = ListedRun(document, mode=mode)
        self._groups = {request.id: request.group for request in self._run.requests}
        self._units: dict[str, list[str]] = {}
        for name, group in self._groups.items():
            self._units.setdefault(group or name, []).append(name)
        for unit, ids in self._units.items():
            if len(ids) > limit:
                raise ValueError(f"the group {unit} has {len(ids)} requests, and a batch may have {limit}")
        self._resolver = ReferenceResolver(self._run.requests)
        self.answers: dict[str, Answer] = dict.fromkeys(self._groups, SKIPPED)
        self.error: Optional[Exception] = None
        # The part that is out, as the run gave it and as it is sent.
        self._given = self._part = Part(b"", ())
        self._is_stopped = False
        count = len(self._groups)
        self._most = limit if count <= max(_MANY, 4 * limit) else math.isqrt(count * limit)

    async def send(self, post: Callable[[bytes], Awaitable[Posted]]) -> None:
        """Sends the batch.

        Raises:
            TypeError: What is answered is not a status with headers and the bytes of a body.
        """
        while self._next():
            if len(self._part.ids) > self._limit:
                parts = Parts(self._part.document, self._limit, self._mode)
                await parts.send(post)
                self.error, self._is_stopped = parts.error, parts._is_stopped
                self._settle(parts.answers)
                continue
            try:
                answered = read_response(await post(self._part.document))
            except Exception as error:
                cause = error.__cause__ if isinstance(error, RuntimeError) else None  # a coroutine has a StopIteration there
                self._fail(cause if isinstance(cause, StopIteration) else error)
            else:
                self._take(answered)
        self._run.close()

    def _next(self) -> bool:
        """Makes the next part; returns whether there is one."""
        while not self._is_stopped:
            try:
                part = self._run.part(self.document, self._most)
            except Fault as fault:
                self._refuse_from(int(fault.place.rpartition("/")[2]), fault.code)
                continue
            if part is None:
                break
            self._given = part
            # In one part the batch is sent as it is.
            self._part = part if len(part.ids) < len(self.answers) else Part(self.document, part.ids)
            return True
        return False

    def _refuse_from(self, position: int, code: str) -> None:
        """Answers the unit of the request at a position, which refers to what has no URL that it may have, or no ETag; in mode continue
        also the units after it that refer to what was answered without one, and may begin."""
        first, *others = self._run.requests[position:]
        pending = {name for name, answer in self.answers.items() if not answer.is_success}
        unit = self._units[first.group or first.id]
        tagless = None if code == "F90" else self._refusal_of(first, pending) or self._refusal_of(first, unit)
        refusals = {first.id: tagless or _no_location(first)}
        if self._mode == "continue":
            refusals.update((other.id, refusal) for other in others if (refusal := self._refusal_of(other, pending)))
        for request_id, refusal in refusals.items():
            with contextlib.suppress(Refused):
                self._run.start_unit(request_id)
                for name in self._units[self._groups[request_id] or request_id]:
                    self.answers[name] = refusal.answer
                    self._run.report(name, 424)

    def _refusal_of(self, request: Request, pending: Collection[str]) -> Optional[Refusal]:
        """Why a request cannot be sent: it refers to what was answered without a URL or an ETag, and is not pending."""
        if request.reference and request.reference not in pending and "location" not in self._recorded(request.reference).headers:
            return _no_location(request)
        try:
            if request.id in self._resolver.tagged:
                self._resolver.headers(request.id, pending)
        except Refusal as refusal:
            return refusal
        return None

    def _take(self, answered: Answered) -> None:
        """Takes what the part that is out was answered."""
        answer = to_answer(answered)
        if not answer.is_success:
            self._end(answer)
            return
        text = to_json(answer, {})
        try:
            match(self._part.document, text, mode=self._mode)
            found = read_answers(text)
        except ValueError as error:
            self._fail(error)
        else:
            self._settle(found)

    def _fail(self, error: Exception) -> None:
        """Takes the exception by which the part that is out was not answered."""
        self.error = error
        LOG.debug("a part of the batch was not answered", exc_info=error)
        in_place = TIMED_OUT if is_timeout(error) else BROKEN
        self._end(error.answer if isinstance(error, Refusal) else in_place)

    def _end(self, answer: Answer) -> None:
        """Gives each request of the part that is out the same answer. Nothing more is sent."""
        self._is_stopped = True
        self._settle(dict.fromkeys(self._part.ids, answer))

    def _settle(self, found: Mapping[str, Answer]) -> None:
        """Notes what the requests of the part that is out were answered, and has the run take it; one without an answer was skipped."""
        for request_id in self._part.ids:
            answer = self.answers[request_id] = found.get(request_id, SKIPPED)
            if request_id in self._resolver.referred and answer.is_success:
                self._resolver.record(request_id, answer)
        if not self._is_stopped:
            recorded = {request_id: self._recorded(request_id) for request_id in self._part.ids}
            self._run.take(self._given, responses_json(recorded, self._groups), mode=self._mode)

    def _recorded(self, request_id: str) -> Answer:
        """Returns the status that a request was answered, with the URL and the ETag of what others refer to as headers."""
        answer = self.answers[request_id]
        is_referred = request_id in self._resolver.referred and answer.is_success
        return Answer(answer.status, self._resolver.recorded(request_id) if is_referred else {})

    def responses(self) -> bytes:
        """Returns the responses to the whole batch, as :func:`~odb_batch.match` accepts them: their statuses, and of
        what others refer to the URL and the ETag."""
        return responses_json({request_id: self._recorded(request_id) for request_id in self.answers}, self._groups)


def _no_location(request: Request) -> Refusal:
    message = f"{request.reference} was answered without a URL that {request.id} may have"
    return Refusal(424, "NoLocation", message, request.reference)
