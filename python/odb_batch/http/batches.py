"""Batches that are sent to a service, and what their requests are answered, with the bytes of all bodies."""

import contextlib
import json
import re
from typing import Any, Iterable, Mapping, Optional

from ..documents.encoding import json_bytes
from ..documents.requests import Request
from ..documents.responses import responses
from .bodies import is_json, media_type, to_wire
from .messages import Answer, Refusal, header_dict


_ENCODER = json.JSONEncoder(ensure_ascii=False, separators=(",", ":"))
_BASE64 = re.compile(r"[A-Za-z0-9_+/-]*={0,2}").fullmatch


def request_json(request: Request) -> bytes:
    """Returns the text of a request in a batch. Its body is the bytes that it has."""
    members: dict[str, Any] = {"id": request.id}
    if request.group is not None:
        members["atomicityGroup"] = request.group
    if request.needs:
        members["dependsOn"] = list(request.needs)
    members.update(method=request.method.lower(), url=request.url)
    if request.headers:
        members["headers"] = request.headers
    text = _ENCODER.encode(members).encode("utf-8", "surrogatepass")
    return text if request.body is None else b'%s,"body":%s}' % (text[:-1], request.body)


def batch_json(elements: Iterable[bytes]) -> bytes:
    """Returns the text of the batch with these requests."""
    return b'{"requests":[%s]}' % b",".join(elements)


def responses_json(answers: Mapping[str, Answer], groups: Mapping[str, Optional[str]]) -> bytes:
    """Returns a response document with the statuses and the headers of answers, by the ids of their requests, which are in
    these groups (OData JSON Format 4.01, section 19.5)."""
    responses = [
        {"id": request_id, "status": answer.status, "atomicityGroup": groups[request_id], "headers": dict(answer.headers)}
        for request_id, answer in answers.items()
    ]
    return json_bytes({"responses": responses})


def read_answers(document: bytes) -> dict[str, Answer]:
    """Returns what each request was answered, by its id: header names in lower case, the body as bytes on the wire. A status
    below 200 becomes 502.

    Args:
        document: A response document (OData JSON Format 4.01, section 19.5) that :func:`odb_batch.match` accepts.
    """
    given = responses(document)
    headers = list(map(header_dict, [_header_pairs(response.headers) for response in given]))
    found = {}
    for response, own in zip(given, headers):
        body = response.body or b""
        status = response.status if response.status >= 200 else 502
        found[response.id] = Answer(status, own, body if is_json(own) or not body else _wire(body, own))
    return found


def _header_pairs(value: Any) -> list[tuple[str, str]]:
    """The headers of a response; what is not a text or a number is left out, since no rule asks for them."""
    given = value.items() if isinstance(value, dict) else ()
    texts = (str, int, float)
    return [(name, str(value)) for name, value in given if isinstance(value, texts) and not isinstance(value, bool)]


def _wire(text: bytes, headers: dict[str, str]) -> bytes:
    """The bytes on the wire of a body that is not JSON; where it is not what its media type says, those of its JSON or its
    text."""
    value = json.loads(text)
    if not isinstance(value, str):
        return text
    if media_type(headers).startswith("text/") or _is_base64(value):
        with contextlib.suppress(Refusal):
            return to_wire(text, headers)
    return value.encode("utf-8", "surrogatepass")


def _is_base64(text: str) -> bool:
    """Whether a text is base64url, or base64, with its ``=`` or without."""
    digits = text.rstrip("=")
    return _BASE64(text) is not None and len(digits) % 4 != 1
