"""What a service has answered each request of a batch: its status, headers and body, as they are in the document."""

import json
from typing import Any, NamedTuple, Optional

from .._native import library
from .._native.calls import MORE, likely_count, read_fault, status_error


class Response(NamedTuple):
    """A response, as it is in its document.

    Attributes:
        id: The id of the request.
        group: Its atomicity group, or None.
        status: The status, from 100 to 599.
        headers: The value of the headers, which may be any; None if there are none.
        body: The bytes of the body, or None.
    """

    id: str
    group: Optional[str]
    status: int
    headers: Any
    body: Optional[bytes]


def responses(document: bytes) -> tuple[Response, ...]:
    """Returns the responses in the document of a service, in its order; they need not fit a batch.

    Raises:
        Fault: The document is refused.
        MemoryError: An allocation failed.
    """
    status, text, found = library.call_responses(document, len(document) + MORE, likely_count(document))
    if status == library.REFUSED:
        raise read_fault(text, document)
    if status != library.DONE:
        raise status_error("odb_responses", status)
    return tuple(_response(document, text, numbers) for numbers in found)


def _response(document: bytes, text: bytes, numbers: tuple[int, ...]) -> Response:
    """The response whose parts lie there."""
    request_id, group, headers, body = (
        None if start == library.NONE else whole[start : start + length]
        for whole, start, length in zip((text, text, document, document), numbers[0:8:2], numbers[1:8:2])
    )
    return Response(
        (request_id or b"").decode(),
        None if group is None else group.decode(),
        numbers[8],
        None if headers is None else json.loads(headers),
        body,
    )
