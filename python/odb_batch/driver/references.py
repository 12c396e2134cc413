"""What is sent of a request: its URL and its headers without references, and its body as bytes on the wire."""

import contextlib
import json
from dataclasses import replace
from typing import Any, Collection, Iterable, Iterator, Optional, Sequence

from ..documents.requests import Request
from ..http.bodies import to_json, to_wire
from ..http.messages import Answer, PreparedRequest, Refusal
from .targets import targets_of

#: The headers in which $ and an id stand for an ETag.
CONDITIONS = ("if-match", "if-none-match")


class ReferenceResolver:
    """Prepares the requests of a batch, by what others have been answered.

    Threads may share it: what a request refers to was answered before it starts.

    Args:
        requests: The requests of the batch.
        base, roots: Where they may lead; see :func:`targets_of`.

    Attributes:
        referred: The ids of the requests to which others refer.
        tagged: Those of the requests whose headers refer to others.
    """

    def __init__(self, requests: Iterable[Request], base: str = "", roots: Optional[Sequence[str]] = None) -> None:
        self._requests = {request.id: request for request in requests}
        self._targets = targets_of(base, roots)
        self._urls: dict[str, str] = {}
        self.referred: set[str] = set()
        self.tagged: set[str] = set()
        for request in self._requests.values():
            if request.reference is not None:
                self.referred.add(request.reference)
            if request.headers and (tags := set(self._tags_in(request))):
                self.tagged.add(request.id)
                self.referred |= tags
        self._answers: dict[str, Answer] = {}
        # What was read in them, since bodies may be long and referred to often.
        self._locations: dict[str, tuple[Optional[str], Optional[str]]] = {}
        self._etags: dict[str, Optional[str]] = {}

    def _tags_in(self, request: Request) -> Iterator[str]:
        """Yields the requests for whose ETags the headers of another one have references."""
        for name in CONDITIONS:
            value = request.headers.get(name, "")
            if value.startswith("$") and value[1:] in self._requests:
                yield value[1:]

    def record(self, request_id: str, answer: Answer) -> None:
        """Keeps what a request was answered to which others refer, and its URL, if it was not sent from here."""
        self._answers[request_id] = answer
        if request_id not in self._urls and answer.is_success:
            with contextlib.suppress(Refusal):
                self.url(request_id)

    def prepare(self, request_id: str) -> PreparedRequest:
        """Returns a request as it is sent.

        Raises:
            Refusal: It cannot be sent: its URL leads out of the service (404), it or the body cannot be read (400), or
                a reference stands for nothing (424; 400 if the request with the ETag is not in dependsOn).
        """
        given = self._requests[request_id]
        url, body = self.url(request_id), b""
        headers = self.headers(request_id) if request_id in self.tagged else dict(given.headers)
        if given.body is not None:
            headers.setdefault("content-type", "application/json")
            body = to_wire(given.body, headers)
        return PreparedRequest(request_id, given.method, url, headers, body, given.group)

    def prepare_member(self, request_id: str, group: Collection[str]) -> Request:
        """Returns a request of a group that is sent as one, with the references to requests that are not in the group
        replaced, and without dependencies on them; raises Refusal as `prepare` does."""
        given, headers = self._requests[request_id], self.headers(request_id, group)
        needs = tuple(filter(group.__contains__, given.needs))
        if given.reference in group:
            self._targets.require_below(given.rest)
            return replace(given, headers=headers, needs=needs)
        url = self.url(request_id)
        return replace(given, url=url, reference=None, rest=url, headers=headers, needs=needs)

    def headers(self, request_id: str, kept: Collection[str] = ()) -> dict[str, str]:
        """Returns the headers of a request with ETags in place of references, but for those to requests that are kept;
        raises Refusal as `prepare` does."""
        headers = dict(self._requests[request_id].headers)
        for name in CONDITIONS:
            value = headers.get(name, "")
            if value.startswith("$") and value[1:] in self._requests and value[1:] not in kept:
                headers[name] = self.etag(value[1:])
        return headers

    def url(self, request_id: str) -> str:
        """Returns the URL of a request as it is sent alone; raises Refusal as `prepare` does."""
        if request_id not in self._urls:
            given = self._requests[request_id]
            if given.reference is None:
                self._urls[request_id] = self._targets.target(given.url)
            else:
                self._urls[request_id] = self._below(given.reference, given.rest)
        return self._urls[request_id]

    def location(self, request_id: str) -> str:
        """Returns the URL of what a request has created or returned; without another one that is its own URL.

        Raises:
            Refusal: A POST was answered without one: 424 ``NoLocation``. Or it leads out of the service.
        """
        return self._below(request_id, "")

    def _below(self, request_id: str, rest: str) -> str:
        if request_id not in self._locations:
            self._locations[request_id] = location_of(self._answers[request_id])
        place, context = self._locations[request_id]
        if place is None and self._requests[request_id].method == "POST":
            message = f"{request_id} was answered without the URL of what it has created"
            raise Refusal(424, "NoLocation", message, request_id)
        return self._targets.below(self.url(request_id), place, context, rest)

    def recorded(self, request_id: str) -> dict[str, str]:
        """Returns the URL and the ETag of what a request was answered, as the headers that others refer to."""
        found = {}
        for name, of in (("location", self.location), ("etag", self.etag)):
            with contextlib.suppress(Refusal):
                found[name] = of(request_id)
        return found

    def etag(self, request_id: str) -> str:
        """Returns the ETag of what a request was answered.

        Raises:
            Refusal: It was answered without one: 424 ``NoETag``; 400 if it is not answered yet.
        """
        if request_id not in self._answers:
            raise Refusal(400, "NoETag", f"{request_id} is not answered yet; it has to be in dependsOn", request_id)
        if request_id not in self._etags:
            self._etags[request_id] = etag_of(self._answers[request_id])
        tag = self._etags[request_id]
        if tag is None:
            raise Refusal(424, "NoETag", f"{request_id} was answered without an ETag", request_id)
        return tag


def body_members(answer: Answer) -> dict[str, Any]:
    """Returns the members of the body of an answer; none if it is not an object of JSON."""
    try:
        body = json.loads(to_json(answer, answer.headers) or b"null")
    except (ValueError, RecursionError):
        return {}
    return body if isinstance(body, dict) else {}


def etag_of(answer: Answer) -> Optional[str]:
    """Returns the ETag of what a request was answered, from the header or the body; None if there is none."""
    tag = answer.headers.get("etag")
    return _first(body_members(answer), ("@etag", "@odata.etag")) if tag is None else tag


def location_of(answer: Answer) -> tuple[Optional[str], Optional[str]]:
    """Returns the URL of what a request has created or returned, from the headers or the body, and that to which it is
    relative, if that is not the URL of the request (OData JSON Format 4.01, section 4.6.1). An empty one is none."""
    for name in ("location", "odata-entityid"):
        if answer.headers.get(name):
            return answer.headers[name], None
    entity = body_members(answer)
    return _first(entity, ("@id", "@odata.id")), _first(entity, ("@context", "@odata.context"))


def _first(entity: dict[str, Any], names: tuple[str, ...]) -> Optional[str]:
    """The first of these members that is a string, and not empty."""
    return next((value for value in map(entity.get, names) if isinstance(value, str) and value), None)
