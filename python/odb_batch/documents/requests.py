"""What is to be sent of each request of a batch: its method, URL, headers and body."""

import json
from dataclasses import dataclass
from typing import Any, Optional, Sequence

from .._native import library
from .._native.calls import MORE, likely_count, read_fault, status_error
from ..values import Value
from .encoding import Document, document_bytes


@dataclass(frozen=True)
class Request(Value):
    """A request of a batch, as it is to be sent.

    Attributes:
        id: Its id.
        method: Its method in upper case, as ``"POST"``.
        url: Its URL, as the batch has it.
        reference: The id of the request that the URL refers to, or None.
        rest: The part of the URL after that id: of ``$a/Lines?x=1`` the reference is ``a``, and the rest is
            ``/Lines?x=1``. The whole URL if it refers to no request.
        headers: Its headers, with their names in lower case.
        group: Its atomicity group, or None.
        body: The bytes of its body, just as they are in the document, whatever numbers they have; or None. A
            body that is ``null`` is none.
        needs: The ids and groups that it depends on, as a :class:`Plan` has them.
    """

    id: str
    method: str
    url: str
    reference: Optional[str]
    rest: str
    headers: dict[str, str]
    group: Optional[str]
    body: Optional[bytes]
    needs: tuple[str, ...] = ()


def _request(document: bytes, text: bytes, numbers: tuple[int, ...], parts: Sequence[tuple[int, ...]]) -> Request:
    """Returns the request whose parts lie there; its reference is the position of another one."""
    (at, length, method, of_method, url, of_url, rest, of_rest, headers, of_headers, group, of_group, needs, of_needs, body, of_body,
     to) = numbers  # fmt: skip
    other = (0, 0) if to == library.NONE else parts[to]
    return Request(
        text[at : at + length].decode(),
        text[method : method + of_method].decode(),
        text[url : url + of_url].decode(),
        text[other[0] : other[0] + other[1]].decode() or None,
        text[rest : rest + of_rest].decode(),
        json.loads(text[headers : headers + of_headers]) if of_headers > len("{}") else {},
        None if group == library.NONE else text[group : group + of_group].decode(),
        None if body == library.NONE else document[body : body + of_body],
        tuple(text[needs : needs + of_needs].decode().split(",")) if of_needs else (),
    )


def requests(batch: Document) -> tuple[Request, ...]:
    """Returns what is to be sent of each request of a batch, in the order of the batch.

    >>> from odb_batch import requests
    >>> for request in requests('''{"requests": [
    ...     {"id": "a", "method": "post", "url": "Orders", "body": {"price": 9.990}},
    ...     {"id": "b", "method": "get", "url": "$a/Lines?x=1", "dependsOn": ["a"]}]}'''):
    ...     print(request.method, request.reference, request.rest, request.body)
    POST None Orders b'{"price": 9.990}'
    GET a /Lines?x=1 None

    A body is the bytes of the document: of a batch that is a mapping, of the JSON that ``json`` writes of it.

    Raises:
        Fault: The batch is refused.
        MemoryError: An allocation failed.
    """
    document = document_bytes(batch)
    return _read("odb_requests", library.call_requests(document, len(document) + MORE, likely_count(document)), document)


def open_requests(batch: bytes, events: bytes, options: tuple[Any, ...]) -> tuple[Request, ...]:
    """Opens a run after events, by the options of ``odb_run_open``; returns what :func:`requests` does. The batch is read once."""
    listed = library.call_open(batch, events, options, len(batch) + MORE, likely_count(batch))
    return _read("odb_run_open_requests", listed, batch, events)


def _read(name: str, listed: library.Listed, *documents: bytes) -> tuple[Request, ...]:
    """Returns the requests that a function has listed of documents; raises what else it returns."""
    status, text, parts = listed
    if status == library.REFUSED:
        raise read_fault(text, *documents)
    if status != library.DONE:
        raise status_error(name, status)
    return tuple(_request(documents[0], text, numbers, parts) for numbers in parts)
