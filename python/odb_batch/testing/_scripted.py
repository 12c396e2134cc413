"""A service that answers by a script, for tests of clients."""

import json
from collections import Counter
from typing import Iterable, Literal, Mapping, Optional, Sequence, Union

from .._native.calls import Mode
from ..documents.encoding import body_json
from ..documents.requests import Request
from ..errors.faults import Fault
from ..http.messages import Answer, Refusal
from ..runs import Run

#: What a request is answered: a status, or an answer.
Scene = Union[int, Answer]
#: What becomes of a batch: it is answered as a whole, and not performed; it is performed, and answered; the service hangs up
#: before it performs any of it; or it performs the batch, and then hangs up.
Happening = Union[Scene, Literal["answer", "hang up", "lose"]]
Response = tuple[int, dict[str, str], bytes]

_JSON = {"content-type": "application/json"}
_DEFAULTS = {"POST": 201, "GET": 200}
_BUSY = (429, 503)
_HAPPENINGS = ("answer", "hang up", "lose")
_ID, _FIRST_SENT, _RESULT = "repeatability-request-id", "repeatability-first-sent", "repeatability-result"


class Scripted:
    """Stands for a service in the tests of a client: answers each batch by a script, in the order of the batch.

    What depends on a failure, and what is in a group with one, is answered as a service has to: by a
    :class:`~odb_batch.Run`, which is proved.

    A status stands for an answer. With 2xx it has the ETag ``"1"``, and for a POST the Location ``/Made('ID')``; with
    429 and 503 it has Retry-After. An :class:`~odb_batch.Answer` is what it is.

    Args:
        script: What a request is answered, by its id: a status or an Answer; or a list of them, one for each time that
            the request is performed, of which the last one stays. Other requests are answered 201 for a POST, 200 for
            a GET and 204 for the other methods.
        limit: How many requests a batch may have; a longer one is answered 413.
        mode: ``"stop"`` for a service that stops at the first error.
        retry_after: The seconds of Retry-After.
        schedule: What becomes of the first batches, in turn: a status or an Answer to one as a whole, of which nothing is
            performed; ``"answer"``; ``"hang up"``, and nothing is performed; or ``"lose"``: it is performed, and the
            answer is lost. The last two raise a ConnectionError. Later batches are answered.
        repeatable: Whether it keeps a batch by its ``Repeatability-Request-ID``, and answers it again without performing
            it again (OASIS Repeatable Requests 1.0); False if it answers 501 to one, as a service that keeps none
            should; None if it takes no notice of that header.

    Raises:
        TypeError: What a request is answered is neither a status from 200 to 599 nor an Answer, nor a list of them; or what
            a list has for a batch is none of the schedule.

    Attributes:
        documents: The batches that it was sent, as they came.
        performed: How often each request was performed, by its id: it was answered 2xx, and not undone.
    """

    documents: list[bytes]
    performed: "Counter[str]"

    def __init__(
        self,
        script: Mapping[str, Union[Scene, list[Scene]]] = {},
        *,
        limit: int = 10_000,
        mode: Mode = "continue",
        retry_after: int = 1,
        schedule: Iterable[Happening] = (),
        repeatable: Optional[bool] = None,
    ) -> None:
        self._script = {request_id: _scenes(request_id, scene) for request_id, scene in script.items()}
        self._limit, self._mode, self._retry_after = limit, mode, str(retry_after)
        for happening in schedule if isinstance(schedule, Sequence) else ():
            if happening not in _HAPPENINGS:
                _scenes("a batch", happening)
        self._schedule, self._repeatable = iter(schedule), repeatable
        # Of each id the document, the date and what was answered.
        self._kept: dict[str, tuple[bytes, str, Response]] = {}
        self.documents, self.performed = [], Counter()

    def post(self, document: bytes, headers: Mapping[str, str] = {}) -> Response:
        """Answers a batch: returns the status, the headers and the body. One that is refused is answered 400.

        Raises:
            ConnectionError: The schedule says so.
        """
        self.documents.append(document)
        happening = next(self._schedule, "answer")
        if isinstance(happening, Answer):
            return happening.status, dict(happening.headers), body_json(happening.body)
        if isinstance(happening, int):
            return self._refusal(happening, "Refused")
        if happening == "hang up":
            raise ConnectionError("the service has hung up")
        folded = {name.lower(): value for name, value in headers.items()}
        answered = self._answer(document, folded.get(_ID, ""), folded.get(_FIRST_SENT, ""))
        if happening == "lose":
            raise ConnectionError("the answer is lost")
        return answered

    def _answer(self, document: bytes, request_id: str, date: str) -> Response:
        """Answers a batch, or answers it again."""
        if not request_id or self._repeatable is None:
            return self._perform_batch(document)
        if not self._repeatable:
            return self._reject(501, "NotRepeatable")
        if request_id not in self._kept:
            status, given, body = self._perform_batch(document)
            self._kept[request_id] = document, date, (status, {**given, _RESULT: "accepted"}, body)
        *first, answered = self._kept[request_id]
        return answered if first == [document, date] else self._reject(422, "AnotherBatch")

    def _perform_batch(self, document: bytes) -> Response:
        """Performs a batch."""
        try:
            run = Run(document, mode=self._mode, width=1)
        except Fault as fault:
            return self._refusal(400, fault.code)
        with run:
            if sum(1 for _ in json.loads(document)["requests"]) > self._limit:
                return self._refusal(413, "BatchTooLong")
            while (ids := run.next_unit()) is not None:
                self._perform_unit(run, ids)
            response = run.response()
        found = json.loads(response)["responses"]
        self.performed.update(each["id"] for each in found if Answer(each["status"]).is_success)
        return 200, dict(_JSON), response

    async def post_async(self, document: bytes, headers: Mapping[str, str] = {}) -> Response:
        """Does what :meth:`post` does, for clients that await."""
        return self.post(document, headers)

    def _perform_unit(self, run: Run, ids: Sequence[str]) -> None:
        """Performs the requests of a unit, up to the first that fails."""
        for request_id in ids:
            answer = self._next(run.request(request_id))
            run.start(request_id)
            run.report(request_id, answer.status, answer.headers, answer.body)
            if not answer.is_success:
                return

    def _next(self, request: Request) -> Answer:
        left = self._script.get(request.id, [_DEFAULTS.get(request.method, 204)])
        scene = left.pop(0) if len(left) > 1 else left[0]
        if isinstance(scene, Answer):
            return scene
        answer = Answer(scene, {"Retry-After": self._retry_after} if scene in _BUSY else {})
        if not answer.is_success:
            return answer
        location = {"Location": f"/Made('{request.id}')"} if request.method == "POST" else {}
        return Answer(scene, {"ETag": '"1"', **location})

    def _refusal(self, status: int, code: str, **headers: str) -> Response:
        retry = {"retry_after": self._retry_after} if status in _BUSY else {}
        answer = Refusal(status, code, code, **retry, **headers).answer
        return status, dict(answer.headers), json.dumps(answer.body).encode()

    def _reject(self, status: int, code: str) -> Response:
        """The refusal of a batch because of its id."""
        return self._refusal(status, code, repeatability_result="rejected")


def _scenes(request_id: str, given: Union[Scene, list[Scene]]) -> list[Scene]:
    """What a request is answered, each time; a client would take an exception in `post` for a broken connection."""
    scenes = list(given) if isinstance(given, list) else [given]
    statuses = [scene.status if isinstance(scene, Answer) else scene for scene in scenes]
    if not statuses or not all(isinstance(status, int) and 200 <= status <= 599 for status in statuses):
        raise TypeError(f"{request_id} is answered by statuses from 200 to 599 and Answers, not by {given!r}")
    return scenes
