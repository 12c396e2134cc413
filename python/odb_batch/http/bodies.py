"""Bodies between the wire and a batch (OData JSON Format 4.01, sections 19.1 and 19.5).

A body of JSON is in a batch as it is, one of text as a string, and any other in base64url.
"""

import base64
import codecs
import json
import re
from typing import Mapping

from ..documents.encoding import body_json
from .messages import Answer, Refusal


def media_type(headers: Mapping[str, str]) -> str:
    """Returns the media type of a message in lower case, without parameters; empty if it names none."""
    return headers.get("content-type", "").partition(";")[0].strip(" \t").lower()


def charset(headers: Mapping[str, str]) -> str:
    """Returns the character set that a message names, or UTF-8."""
    found = re.search(r';\s*charset="?([\w-]+)', headers.get("content-type", ""), re.IGNORECASE)
    return found[1] if found else "utf-8"


# No media type, and that of JSON.
_USUAL_JSON = ("", "application/json")
# Encodings of names of hosts, which are no character sets: they take time by the square of a text.
_OF_HOSTS = frozenset({"idna", "punycode"})


def is_json(headers: Mapping[str, str]) -> bool:
    """Returns whether the body of a message is JSON, by its media type; so it is without one."""
    kind = headers.get("content-type", "")
    if kind in _USUAL_JSON:
        return True
    kind = media_type(headers)
    return kind in _USUAL_JSON or kind.endswith("+json")


def _encoding(headers: Mapping[str, str]) -> str:
    """Returns the character set of a message; raises LookupError if it is none."""
    name = charset(headers)
    if codecs.lookup(name).name in _OF_HOSTS:
        raise LookupError(f"{name} is no character set")
    return name


def to_wire(text: bytes, headers: Mapping[str, str]) -> bytes:
    """Returns the bytes on the wire of a body, by its text in the batch and its headers, in lower case.

    JSON stays byte for byte as it is, so that no number loses a digit.

    Raises:
        Refusal: The character set of a text is unknown, or has not all of its characters: 400 ``BadCharset``.
    """
    if is_json(headers):
        return text
    value: str = json.loads(text)
    if not media_type(headers).startswith("text/"):
        digits = value.rstrip("=")
        return base64.urlsafe_b64decode(digits + "=" * (-len(digits) % 4))
    try:
        return value.encode(_encoding(headers))
    except (LookupError, ValueError):
        raise Refusal(400, "BadCharset", f"The body cannot be written in {charset(headers)}", "content-type") from None


def to_json(answer: Answer, headers: Mapping[str, str]) -> bytes:
    """Returns the text in the response of a body, by the headers of its answer, in lower case; empty if it has none.

    Bytes that claim to be JSON are not looked at: the report of the run reads them.

    Raises:
        ValueError: The body is a value with a NaN or an infinity.
        TypeError: The body is a value that ``json`` cannot write.
    """
    body = answer.body
    if not isinstance(body, (bytes, bytearray, memoryview)):
        return body_json(body)
    wire = bytes(body)
    if not wire:
        return b""
    if is_json(headers):
        return without_mark(wire)
    if media_type(headers).startswith("text/"):
        return text_json(wire, headers)
    return b'"%s"' % base64.urlsafe_b64encode(wire).rstrip(b"=")


def without_mark(text: bytes) -> bytes:
    """Returns the bytes of a text without the byte order mark that it may begin with."""
    return text[len(codecs.BOM_UTF8) :] if text.startswith(codecs.BOM_UTF8) else text


def text_json(wire: bytes, headers: Mapping[str, str]) -> bytes:
    """Returns bytes as a string of JSON, whatever they are: where they are not of their character set, each byte is a
    character."""
    try:
        text = wire.decode(_encoding(headers))
    except (LookupError, ValueError):
        text = wire.decode("latin-1")
    return json.dumps(text, ensure_ascii=False).encode("utf-8", "surrogatepass")
