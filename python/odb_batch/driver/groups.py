"""Atomicity groups that are sent as one: the batch that a group is, and what its requests are answered."""

import json
from dataclasses import dataclass, replace

from ..documents.requests import Request
from ..documents.responses import responses
from ..http.batches import batch_json, request_json
from ..http.bodies import is_json, without_mark
from ..http.messages import Answer, Answered, Refusal, header_dict, validate_answer
from ..values import Value

_BAD_RESPONSE = Refusal(502, "BadResponse", "What the service has answered is not the response to the group").answer
#: The answer to a request that was not performed, since another one of its group has failed.
SKIPPED = Answer(424)


class MemberRefused(Exception):
    """A request of a group cannot be sent, so the group is not: that one is answered so, and the others 424.

    Attributes:
        id: The id of the request.
        answer: What it is answered.
    """

    def __init__(self, id: str, answer: Answer) -> None:
        super().__init__(id)
        self.id, self.answer = id, answer


@dataclass(frozen=True)
class PreparedGroup(Value):
    """An atomicity group, as it is sent as one: as a batch of its own.

    >>> from odb_batch import PreparedGroup, Request
    >>> order = Request("a", "POST", "/v2/Orders", None, "/v2/Orders", {}, "g", b'{"price": 9.990}')
    >>> group = PreparedGroup("g", (order,))
    >>> group.batch()
    b'{"requests":[{"id":"a","atomicityGroup":"g","method":"post","url":"/v2/Orders","body":{"price": 9.990}}]}'
    >>> group.answers((200, {}, b'{"responses": [{"id": "a", "status": 201, "body": {"price": 9.990}}]}'))
    [Answer(status=201, headers={}, body=b'{"price": 9.990}')]

    Attributes:
        name: The name of the group.
        requests: Its requests in order. The URL of one that refers to another one of the group is as in the document;
            any other is joined to the base and in ASCII, with the URL of the other resource in place of a reference.
            What a request depends on are others of the group.
    """

    name: str
    requests: tuple[Request, ...]

    def batch(self) -> bytes:
        """Returns the batch of the group (OData JSON Format 4.01, section 19.1). Bodies are the bytes of the
        document."""
        return batch_json([request_json(replace(request, group=self.name)) for request in self.requests])

    def answers(self, answered: Answered) -> list[Answer]:
        """Returns what each request is answered, in order, by what the service has answered to the batch of the group.

        Bodies of JSON are the bytes of the response. A request that the service leaves out is answered 424 after an
        error, else 502. With another status than 200 each request is answered what the batch was. What is no response
        document, or answers a request twice, is 502 ``BadResponse`` for each request.

        Raises:
            TypeError: It is not a status with headers and a body.
        """
        answer = validate_answer(answered)
        if answer.status != 200:
            return [answer if not answer.is_success else _BAD_RESPONSE] * len(self.requests)
        try:
            found = _answers(without_mark(bytes(answer.body)))
            missing = _BAD_RESPONSE if all(answer.is_success for answer in found.values()) else SKIPPED
            return [found.get(request.id, missing) for request in self.requests]
        except (TypeError, ValueError, AttributeError):
            return [_BAD_RESPONSE] * len(self.requests)


def _answers(document: bytes) -> dict[str, Answer]:
    """The answers of a response document by the ids of their requests; raises an exception if it is none."""
    found: dict[str, Answer] = {}
    for response in responses(document):
        if response.id in found:
            raise ValueError("a request is answered twice")
        answer = Answer(response.status, header_dict((response.headers or {}).items()))
        if response.body is not None:
            body = response.body if is_json(answer.headers) else json.loads(response.body)
            answer = Answer(answer.status, answer.headers, body)
        found[response.id] = validate_answer(answer)
    return found
