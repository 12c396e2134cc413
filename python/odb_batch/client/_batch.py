"""A batch that is made by calls, and sent by any client of HTTP."""

import types
from functools import cached_property
from typing import Any, Awaitable, Callable, Coroutine, Generator, Iterator, Mapping, Optional, TypeVar, Union, get_args

from .._native.calls import MAX_REQUESTS, Mode
from ..commands import plan, rest
from ..documents.encoding import Document, body_json
from ..documents.requests import Request, requests
from ..errors.faults import Fault
from ..http.batches import responses_json
from ..http.messages import Answer
from ._builder import Builder, Reference
from ._parts import Parts
from ._rest import rest_document, without_headers
from ._results import UNSURE, Outcome, RequestFailed, Result, seconds_of
from ._transports import Posted

#: Posts the bytes of a batch, and returns what that is answered.
Post = Callable[[bytes], Posted]
PostAsync = Callable[[bytes], Awaitable[Posted]]

_T = TypeVar("_T")

# How many requests that are not done a text lists.
_MAX_LISTED = 20


def batch_headers(mode: Mode = "continue") -> dict[str, str]:
    """Returns the headers with which a batch is posted: ``Content-Type``, ``Accept``, and in mode ``"continue"`` the
    preference ``continue-on-error`` (OData Protocol 4.01, section 8.2.8.3)."""
    common = {"Content-Type": "application/json", "Accept": "application/json"}
    return {**common, "Prefer": "continue-on-error"} if mode == "continue" else common


class Batch(Builder):
    """A batch of requests (OData JSON Format 4.01, section 19), made by calls.

    Each call that adds a request returns a :class:`Reference`. A request that refers to an earlier one, by its URL
    as ``f"{order}/Lines"`` or by ``If-Match``, depends on it without further ado; ``after`` is for other
    dependencies. What depends on a request of a group depends on the group, too.

    A batch without requests is false.
    """

    @classmethod
    def read(cls, document: Document) -> "Batch":
        """Returns the batch of a document, to be sent or to be extended.

        Raises:
            Fault: The batch is refused.
            MemoryError: An allocation failed.
        """
        batch = cls()
        for request in requests(document):
            batch._append(request)
        return batch

    def send(self, post: Post, *, limit: int = MAX_REQUESTS, mode: Mode = "continue") -> "Results":
        """Sends the batch, if need be in parts, and returns what each request was answered.

        Units are sent in the order of the batch: groups, and requests without one. A part has as many as the limit
        allows. A unit is sent if all that it depends on is in the same part or has succeeded; else its requests are
        424. In a later part ``$a`` is replaced by the URL of what ``a`` has created or returned, and ``If-Match: $a``
        by its ETag.

        Where a part is answered as a whole, by a status that is not 2xx, each of its requests has that answer. Where
        ``post`` raises an exception, or what it returns is not the response to the part, each has 504 for a timeout,
        also for one of requests or httpx or an exception that comes from one, the answer of a Refusal, or else 502.
        After both nothing more is sent, and the other requests are 424.

        Args:
            post: Posts the bytes of a document, with the headers that :func:`batch_headers` returns. It returns the status,
                the headers and the bytes of the body that it is answered, or a response of requests or httpx.
            limit: How many requests the service takes in a batch, from 1 to 10,000.
            mode: ``"continue"``; or ``"stop"`` if the service stops at the first error, as it does without the header
                ``Prefer: continue-on-error``. Then nothing is sent after an error.

        Raises:
            Fault: The batch is refused. Nothing was sent.
            ValueError: A group has more requests than the limit, or an option has a value that it may not have. Nothing
                was sent.
            TypeError: What ``post`` returns is neither a status with headers and a body nor such a response.
            MemoryError: An allocation failed.
        """
        return run_at_once(self.send_async(as_coroutine(post), limit=limit, mode=mode))

    async def send_async(self, post: PostAsync, *, limit: int = MAX_REQUESTS, mode: Mode = "continue") -> "Results":
        """Does what :meth:`send` does by a coroutine function. If its task is cancelled, what was answered is lost."""
        try:
            parts = Parts(self.document(), limit, mode)
        except Fault as fault:
            raise fault.of_builder()
        await parts.send(post)
        make_rest = lambda: self._rest(rest_document(parts.document, parts.responses()))
        return Results(self, parts.document, parts.answers, make_rest, parts.error)

    def exchange(self, *, limit: int = MAX_REQUESTS, mode: Mode = "continue") -> Generator[bytes, Posted, "Results"]:
        """Yields one part after another, and is sent what it was answered, for clients that :meth:`send` does not fit.

        The exception by which a part was not answered is thrown into it. The value in the end is the results.
        """
        return (yield from self.send_async(_ask, limit=limit, mode=mode).__await__())

    def _rest(self, document: bytes) -> "Batch":
        """The batch of a document with requests of this one, for which the same references hold."""
        batch = Batch.read(document)
        batch._origin, batch._spent = self._origin, self._spent | self._names.keys()
        return batch


class Results(Mapping[str, Result]):
    """What the requests of a batch were answered: a mapping of ids to :class:`Result`, in the order of the batch.

    ``results[order]`` is that of a request, by what the batch returned for it or by its id. Another id is a KeyError,
    and a request of another batch a ValueError. As a text they are how many requests are done, and each that is not, with
    why.

    Attributes:
        error: The exception by which a part was not answered, the last if there are several: what ``post`` raised, or the
            Fault of what is not the response to it; else None.
        reason: Why :meth:`BatchClient.send` has ended; empty if nothing is left to be sent.
    """

    def __init__(
        self,
        batch: Builder,
        document: bytes,
        answers: Mapping[str, Union[Answer, Result]],
        make_rest: Callable[[], Batch],
        error: Optional[Exception] = None,
        reason: str = "",
    ) -> None:
        self._batch, self._document, self._rest, self.error, self.reason = batch, document, make_rest, error, reason
        found = {request.id: request for request in batch._requests}
        self._groups = {request_id: found[request_id].group for request_id in answers}
        self._found = {request_id: _result(found[request_id], answer) for request_id, answer in answers.items()}

    def __getitem__(self, request: Union[Reference, str]) -> Result:
        return self._found[request if isinstance(request, str) else self._batch._name(request)]

    def __iter__(self) -> Iterator[str]:
        return iter(self._found)

    def __len__(self) -> int:
        return len(self._found)

    def __repr__(self) -> str:
        return f"<Results: {', '.join(f'{result.id} {result.status}' for result in self._found.values())}>"

    def __str__(self) -> str:
        counts = {outcome: len(self._with(outcome)) for outcome in get_args(Outcome)}
        words = ", ".join(f"{count} {outcome}" for outcome, count in counts.items() if count or outcome == "done")
        lines = [f"{self._outcomes[error.result.id]}: {error}" for error in BatchFailed(self).errors]
        more = [f"and {len(lines) - _MAX_LISTED} more"] if len(lines) > _MAX_LISTED else []
        why = f" ({self.reason})" if self.reason else ""
        return "\n".join([f"{len(self)} requests: {words}{why}", *lines[:_MAX_LISTED], *more])

    @cached_property
    def _outcomes(self) -> dict[str, Outcome]:
        """What became of each request, by its id."""
        unsuccessful = [result for result in self._found.values() if not result.is_success]
        # Any Location does for the ids of the rest.
        answers = {result.id: Answer(result.status, {"location": "x"}) for result in self._found.values()}
        left = plan(rest(without_headers(self._document), responses_json(answers, self._groups))) if unsuccessful else ()
        left_ids, undone = {request.id for request in left}, {self._groups[result.id] for result in unsuccessful} - {None}

        def find(result: Result) -> Outcome:
            if result.id in left_ids:
                return "left"
            if result.is_success and self._groups[result.id] not in undone:
                return "done"
            return "unknown" if result.status in UNSURE else "failed"

        return {request_id: find(result) for request_id, result in self._found.items()}

    def _with(self, outcome: Outcome) -> list[Result]:
        return [result for result in self._found.values() if self._outcomes[result.id] == outcome]

    @property
    def done(self) -> list[Result]:
        """The requests that were performed: answered from 200 to 299, as all others of their group."""
        return self._with("done")

    @property
    def failed(self) -> list[Result]:
        """The requests that were answered for good by another status, or depend on one that is failed or unknown."""
        return self._with("failed")

    @property
    def left(self) -> list[Result]:
        """The requests that may be sent again: those of :meth:`rest`."""
        return self._with("left")

    @property
    def unknown(self) -> list[Result]:
        """The requests of which nobody knows whether they were performed: those with 408, 502 or 504 that are not left."""
        return self._with("unknown")

    @property
    def retry_after(self) -> float:
        """For how many seconds the service asks to wait before the rest is sent: the greatest ``Retry-After`` of what
        did not succeed (RFC 9110, section 10.2.3), up to then if it is a date; 0 if it asks for nothing."""
        waits = {result.headers.get("retry-after") for result in self._found.values() if not result.is_success}
        return max(map(seconds_of, filter(None, waits)), default=0.0)

    def raise_for_status(self) -> "Results":
        """Returns the results themselves if all requests are done; else raises :class:`BatchFailed`, which has an error for
        each that is not."""
        if len(self.done) < len(self):
            raise BatchFailed(self)
        return self

    def rest(self) -> Batch:
        """Returns the batch of what failed for now or was skipped, and may be sent again; an empty one if nothing may.

        A request may be sent again if it was answered 424, 429 or 503, since nothing was performed then; or 408, 502 or
        504, if it is a GET, a PUT or a DELETE, since nobody knows. A group is in the rest as a whole: if it has failed,
        what succeeded in it was undone. What is in the rest depends only on what has succeeded or is in the rest, too.
        References to what has succeeded are replaced as in :meth:`Batch.send`.

        The references that the batch has returned hold for the rest and its results.

        Raises:
            ValueError: A request refers to one that was answered without an ETag, or without a usable URL of what it
                has created. The message says which.
            MemoryError: An allocation failed.
        """
        return self._rest()


class BatchFailed(Exception):
    """Requests of a batch are not done. Its text is that of the results.

    Attributes:
        results: All results.
        errors: A :class:`RequestFailed` for each request that is not done, in the order of the batch.
    """

    def __init__(self, results: Results) -> None:
        super().__init__(results)
        self.results = results
        self.errors = tuple(RequestFailed(result) for result in results.values() if results._outcomes[result.id] != "done")

    def __str__(self) -> str:
        return str(self.results)


def _result(request: Request, answer: Union[Answer, Result]) -> Result:
    operation = f"{request.method} {request.url.partition('?')[0]}"
    body = answer.body if isinstance(answer.body, bytes) else body_json(answer.body)
    return Result(request.id, answer.status, dict(answer.headers), body, operation)


@types.coroutine
def _ask(document: bytes) -> Any:
    """Has the caller of the generator post a document."""
    return (yield document)


def as_coroutine(call: Callable[..., _T]) -> Callable[..., Awaitable[_T]]:
    """Returns a coroutine function that calls a function, and waits for nothing else."""

    async def called(*given: Any) -> _T:
        return call(*given)

    return called


def run_at_once(coroutine: Coroutine[Any, None, _T]) -> _T:
    """Returns what a coroutine returns that waits for functions alone."""
    try:
        while True:
            coroutine.send(None)
    except StopIteration as end:
        found: _T = end.value
        return found
