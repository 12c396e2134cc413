"""Documents and events: what callers pass, and the bytes that the library reads."""

import json
from dataclasses import dataclass
from decimal import Decimal
from typing import Any, Iterable, Mapping, Optional, Union

from .._native.constants import limit
from ..values import Value

# How deep a document may nest.
_MAX_LEVELS = limit("document_levels")

#: A document: bytes or a text of JSON, or a mapping that ``json`` can write; mappings in it may be of any kind, and
#: numbers be Decimals.
Document = Union[bytes, bytearray, memoryview, str, Mapping[str, Any]]


@dataclass(frozen=True)
class Start(Value):
    """An event of a run, or a step of a replay: the request starts."""

    id: str


@dataclass(frozen=True)
class Report(Value):
    """An event of a run, or a step of a replay: the request ends with this status.

    Attributes:
        id: The id of the request.
        status: Its status.
        headers: The headers of its answer, or None; of a step always None.
        body: The body of its answer, a value that ``json`` can write, or None; of a step always None.
    """

    id: str
    status: int
    headers: Optional[Mapping[str, str]] = None
    body: Any = None


#: Events: a document of them, or starts and reports in order.
Events = Union[Document, Iterable[Union[Start, Report]]]


def _utf8(text: str) -> bytes:
    """The bytes of a text. One that is not Unicode is refused as a document that is not UTF-8."""
    # Not text.encode: a subclass may have its own.
    return str.encode(text, "utf-8", "surrogatepass")


def _children(value: Any) -> Iterable[Any]:
    """The values in a value that ``json`` writes."""
    if isinstance(value, Mapping):
        return value.values()
    return value if isinstance(value, (list, tuple)) else ()


def _is_too_deep(value: Any) -> bool:
    """Whether a value nests deeper than a document may, as one that contains itself does."""
    level = {id(value): value}
    for _ in range(_MAX_LEVELS + 1):
        level = {id(part): part for parent in level.values() for part in _children(parent)}
    return bool(level)


class _HasDecimal(Exception):
    """Raised where ``json`` comes to a Decimal, which it does not write."""


def _to_dict(value: Any) -> dict[Any, Any]:
    """The dict of a mapping of another kind, which ``json`` does not write."""
    if isinstance(value, Mapping):
        return dict(value)
    if isinstance(value, Decimal):
        raise _HasDecimal
    raise TypeError(f"{type(value).__name__} has no JSON")


_ENCODER = json.JSONEncoder(ensure_ascii=False, separators=(",", ":"), default=_to_dict)
# Of a body: a NaN or an infinity raises a ValueError, while one in a document is refused by the library.
_BODY_ENCODER = json.JSONEncoder(ensure_ascii=False, allow_nan=False, separators=(",", ":"), default=_to_dict)


def _exact_json(value: Any, encoder: json.JSONEncoder) -> str:
    """The JSON of a value with Decimals, each with all its digits."""
    if isinstance(value, Decimal):
        if not value.is_finite():
            raise ValueError(f"{value} has no JSON")
        return str(value)
    if isinstance(value, Mapping):
        # As json writes the name of a member, between the first { and a 0.
        names = (encoder.encode({name: 0})[1:-2] for name in value)
        return "{" + ",".join(name + _exact_json(member, encoder) for name, member in zip(names, value.values())) + "}"
    if isinstance(value, (list, tuple)):
        return "[" + ",".join(_exact_json(element, encoder) for element in value) + "]"
    return encoder.encode(value)


def _json_text(value: Any, encoder: json.JSONEncoder) -> str:
    try:
        return encoder.encode(value)
    except _HasDecimal:
        return _exact_json(value, encoder)


def _json_bytes(value: Any, encoder: json.JSONEncoder) -> bytes:
    """The JSON of a value. For one that is too deep to be written, as one that contains itself, a text that is refused
    as too deep, too."""
    try:
        return _utf8(_json_text(value, encoder))
    except (RecursionError, ValueError):
        # Else it is the caller's stack that is used up, a number with too many digits, or a NaN.
        if _is_too_deep(value):
            return b"[" * (_MAX_LEVELS + 1)
        raise


def json_bytes(value: Any) -> bytes:
    """The JSON of a value of a document."""
    return _json_bytes(value, _ENCODER)


def body_json(body: Any) -> bytes:
    """The JSON text of a body: bytes as they are, another value as ``json`` writes it; nothing if there is none."""
    if isinstance(body, (bytes, bytearray, memoryview)):
        return document_bytes(body)
    return b"" if body is None else _json_bytes(body, _BODY_ENCODER)


def document_bytes(document: Document) -> bytes:
    """The bytes of a document, with no method of a subclass: the library reads as many as they are."""
    if type(document) is bytes:
        return document
    if isinstance(document, str):
        return _utf8(document)
    if isinstance(document, (bytes, bytearray, memoryview)):
        return memoryview(document).tobytes()
    if isinstance(document, Mapping):
        return json_bytes(document)
    raise TypeError(f"a document is bytes, a str or a mapping, not {type(document).__name__}")


def _element(event: Union[Start, Report]) -> dict[str, Any]:
    """The element of a document of events."""
    if isinstance(event, Start):
        return {"start": event.id}
    if isinstance(event, Report):
        headers = None if event.headers is None else dict(event.headers)
        return {"report": event.id, "status": event.status, "headers": headers, "body": event.body}
    raise TypeError(f"an event is a Start or a Report, not {type(event).__name__}")


def events_bytes(events: Events) -> bytes:
    """The bytes of a document of events."""
    if isinstance(events, (bytes, bytearray, memoryview, str, Mapping)):
        return document_bytes(events)
    return json_bytes({"events": list(map(_element, events))})
