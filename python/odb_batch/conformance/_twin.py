"""Compares what a request of a batch does with what the same request does alone, on entities of their own.

Both are taken apart into parts by name, as the status, a header or a property, in which the keys and marks of the
entity are replaced. One is sent alone before the batch, and one after it: what differs between these two, as a time
does, is not compared, but for whether it is there.
"""

import re
from typing import Any, Callable, Iterator, Mapping, NamedTuple, Sequence, Union
from urllib.parse import quote, urlsplit

from ._entities import Entities, Entity
from ._exact_json import text_of
from ._service import Reply, etag_of, is_success

Parts = dict[str, Any]

HEADERS = {
    "location": "Location",
    "odata-entityid": "OData-EntityId",
    "etag": "ETag",
    "preference-applied": "Preference-Applied",
    "odata-version": "OData-Version",
}
# Those whose value is a URL, which may be relative.
OF_URLS = ("location", "odata-entityid")
# Control information whose value is a URL, which may be relative.
LINKS = re.compile(r".*@(odata\.)?(id|editLink|readLink|nextLink)")
CONTEXT = re.compile(r".*@(odata\.)?context")
# What is compared only if the batch has it: its URLs may be relative.
HOST = "the host of its Location"
# What is compared only if the request alone has it: a batch may say more.
VERSION = "OData-Version"
USUAL_PORTS = {"http": ":80", "https": ":443"}
MISSING = "missing"


class Literal(NamedTuple):
    """What JSON writes for a value that is not a text: 5 is not 5.0, and neither is "5"."""

    text: str

    def __str__(self) -> str:
        return self.text


class Twin(NamedTuple):
    """A request that was also sent alone.

    Attributes:
        entity: What the request of the batch is about.
        marks: What it writes to the text property.
        is_read: Whether nobody has to look afterwards, since it changes nothing, or another one does.
        alone: Returns the parts of two requests alone, and sends the second of them.
    """

    entity: Entity
    marks: Sequence[Any]
    is_read: bool
    alone: Callable[[], Sequence[Parts]]


def host_of(url: str) -> str:
    """The host of a URL, with a port that is not the usual one; empty if the URL is relative."""
    try:
        parts = urlsplit(url)
    except ValueError:
        return "none"
    host = parts.netloc.lower().rpartition("@")[2]
    return host[: -len(USUAL_PORTS[parts.scheme])] if host.endswith(USUAL_PORTS.get(parts.scheme, "/")) else host


def media_type(headers: Mapping[str, str]) -> str:
    """The media type of a body; a batch may leave out that of JSON."""
    return headers.get("content-type", "").partition(";")[0].strip().lower() or "application/json"


class Taking:
    """Takes what became of a request apart.

    Args:
        entities: The entities.
        entity: What the request is about.
        marks: What it writes to the text property.
        is_read: That of the twin.
    """

    def __init__(self, entities: Entities, entity: Entity, marks: Sequence[Any], is_read: bool) -> None:
        self.entities, self.entity, self.is_read = entities, entity, is_read
        self.names = [(mark, "MARK") for mark in (entity.mark, *marks) if mark is not None]

    def parts(self, status: int, headers: Mapping[str, str], value: Any) -> Parts:
        """The parts of an answer, and of the entity afterwards."""
        url = self._know_entity(status, headers, value)
        found: Parts = {"the status": status}
        if status < 500:
            found.update(self._of_headers(headers))
        if value is not None and status < 500:
            found["Content-Type"] = media_type(headers)
            if "json" not in found["Content-Type"]:
                found["the body"] = self._plain(value) if is_text(found["Content-Type"], status) else "not JSON"
            else:
                found.update(self._body(value) if status < 400 else error_parts(value))
        if url and not self.is_read:
            after = self.entities.service.ask("GET", url)
            found["afterwards the status"] = after.status
            if after.is_success:
                found.update({f"afterwards {name}": value for name, value in self._body(after.value).items()})
                tag = etag_of(headers, value) if status < 300 else None
                if tag is not None:
                    found["whether its ETag is the current one"] = tag == etag_of(after.headers, after.value)
        return found

    def _of_headers(self, headers: Mapping[str, str]) -> Parts:
        """The parts of headers."""
        found: Parts = {}
        for name, shown in HEADERS.items():
            if name in headers:
                found[shown] = self._plain(self._path(headers[name]) if name in OF_URLS else headers[name])
        if host := host_of(headers.get("location", "")):
            found[HOST] = host
        return found

    def _know_entity(self, status: int, headers: Mapping[str, str], value: Any) -> str:
        """The URL of the entity; its key is known from the answer where the service makes it."""
        key, url = self.entity.key, self.entity.url
        if key is None and is_success(status):
            shown = value if isinstance(value, dict) else {}
            if self.entities.key not in shown and "location" in headers:
                shown = self.entities.service.ask("GET", headers["location"]).value or {}
            key = shown.get(self.entities.key) if isinstance(shown, dict) else None
            url = self.entities.url_of(key) if key is not None else ""
        if url:
            self.entities.note(url)
        if key is not None:
            self.names.append((key, "KEY"))
        return url

    def _path(self, url: str) -> str:
        """The path of a URL, with each character as itself."""
        return urlsplit(self.entities.service.address(url)).path

    def _member(self, name: str, value: Any) -> Any:
        """The value of a member, in the form in which it is compared."""
        if isinstance(value, str) and CONTEXT.fullmatch(name):
            return value.partition("#")[2]
        return self._path(value) if isinstance(value, str) and LINKS.fullmatch(name) else value

    def _plain(self, value: Any) -> Union[str, Literal]:
        """A value with the entity's keys and marks replaced."""
        if not isinstance(value, str):
            names = (name for text, name in self.names if type(value) is int and value == text)
            return Literal(next(names, text_of(value)))
        for text, name in self.names:
            if isinstance(text, int):
                value = re.sub(rf"(?<![0-9]){text}(?![0-9])", name, value)
            else:
                for form in (text.replace("'", "''"), text, quote(text)):
                    value = value.replace(form, name)
        return value

    def _body(self, value: Any, path: str = "the body") -> Parts:
        """The parts of a body, by their paths."""
        if isinstance(value, dict) and value:
            items: Iterator[tuple[str, Any]] = iter(value.items())
            joint = "."
        elif isinstance(value, list) and value:
            items = ((str(at), member) for at, member in enumerate(value))
            joint = "/"
        else:
            return {path: self._plain(value)}
        found: Parts = {path: type(value).__name__}
        for name, member in items:
            found.update(self._body(self._member(name, member), f"{path}{joint}{name}"))
        return found


def is_text(kind: str, status: int) -> bool:
    """Whether a body is a text that is compared; what else is not JSON is compared by its media type alone."""
    return kind.startswith("text/") and status < 400


def error_parts(value: Any) -> Parts:
    """The parts of an error object; its message is for people."""
    error = value.get("error") if isinstance(value, dict) else None
    if not isinstance(error, dict):
        return {"the body": "without error"}
    return {"the body": "with error", "the code of the error": error.get("code")}


def parts_alone(taking: Taking, answer: Reply) -> Parts:
    """The parts of a request that was sent alone."""
    value = answer.value
    if is_text(media_type(answer.headers), answer.status):
        value = answer.text.decode("utf-8", "replace")
    found = taking.parts(answer.status, answer.headers, ("" if value is None else value) if answer.text else None)
    if "location" in answer.headers:
        found.setdefault(HOST, host_of(taking.entities.service.root))
    return found


def parts_in_batch(taking: Taking, response: dict[str, Any]) -> Parts:
    """The parts of a response of a batch."""
    given = response.get("headers")
    headers = {str(name).lower(): str(value) for name, value in given.items()} if isinstance(given, dict) else {}
    return taking.parts(response["status"], headers, response.get("body"))


def differences(alone: Sequence[Parts], batch: Parts) -> list[str]:
    """What a request in a batch does otherwise than alone, in lines that continue after its id."""
    first, others = alone[0], alone[1:]
    found = []
    for name in dict.fromkeys([*first, *batch]):
        expected, value = first.get(name, MISSING), batch.get(name, MISSING)
        is_fixed = all(other.get(name, MISSING) == expected for other in others)
        is_open = (name == HOST and value == MISSING) or (name == VERSION and expected == MISSING)
        if expected != value and not is_open and (is_fixed or MISSING in (expected, value)):
            found.append(f"{name} is {shorten(value)}, and alone {shorten(expected)}")
    return found


def shorten(value: Any, most: int = 80) -> str:
    text = str(value)
    return text if len(text) <= most else text[: most - 3] + "..."
