"""Requests that are ready to be sent, and what they are answered."""

import asyncio
import concurrent.futures
import logging
import socket
from dataclasses import dataclass, field
from typing import Any, Iterable, Mapping, Optional, Union

from ..values import Value


@dataclass(frozen=True)
class PreparedRequest(Value):
    """A request of a batch, as it is sent.

    Attributes:
        id: Its id in the batch.
        method: Its method in upper case.
        url: Its URL in ASCII: joined to the base, and with the URL of the other resource in place of a reference.
        headers: Its headers by their names in lower case, with the ETag in place of a reference to one.
        body: Its body as bytes on the wire; empty if it has none.
        group: The name of its atomicity group, or None.
    """

    id: str
    method: str
    url: str
    headers: dict[str, str]
    body: bytes = b""
    group: Optional[str] = None


@dataclass(frozen=True)
class Answer(Value):
    """What a request is answered.

    Attributes:
        status: The final status, from 200 to 599; any other number is shown as 502.
        headers: The headers. Those of one connection, as Connection and Set-Cookie, are not shown.
        body: The body: bytes as they are on the wire, or any other value, which ``json`` writes; None if there is none.
    """

    status: int
    headers: Mapping[str, str] = field(default_factory=dict)
    body: Any = None

    @property
    def is_success(self) -> bool:
        """Whether the status is one from 200 to 299."""
        return 200 <= self.status <= 299


#: What is answered: an Answer, or a tuple of its status, its headers and its body, which may end early.
Answered = Union[Answer, tuple[int], tuple[int, Mapping[str, str]], tuple[int, Mapping[str, str], Any]]


class Refusal(Exception):
    """Raised in place of an answer, where a request is sent or a transaction begins or ends.

    The answer has the error object of OData (OData JSON Format 4.01, section 21.1):

    >>> from odb_batch import Refusal
    >>> Refusal(503, "Busy", "try again", retry_after="1").answer.headers
    {'content-type': 'application/json', 'retry-after': '1'}

    Args:
        status: The status, from 400 to 599.
        code: The code of the error, for programs.
        message: The message of the error, for people.
        target: What the error is about, or None.
        headers: More headers of the answer, with ``_`` for ``-`` in their names.

    Attributes:
        answer: The answer.

    Raises:
        ValueError: The status is not one from 400 to 599.
    """

    answer: Answer

    def __init__(self, status: int, code: str, message: str, target: Optional[str] = None, **headers: str) -> None:
        if not 400 <= status <= 599:
            raise ValueError(f"the status of a refusal must be one from 400 to 599, not {status!r}")
        super().__init__(message)
        error = {"code": code, "message": message, **({} if target is None else {"target": target})}
        more = {name.replace("_", "-").lower(): value for name, value in headers.items()}
        self.answer = Answer(status, {"content-type": "application/json", **more}, {"error": error})


def rejection(status: int, code: str, message: str) -> Refusal:
    """Returns the refusal of a batch because of the headers by which it may be sent again."""
    return Refusal(status, code, message, repeatability_result="rejected")


class GroupFailed(Exception):
    """Raised in the block of a transaction, which is rolled back by it: a request of the group has failed."""


def header_dict(pairs: Iterable[tuple[str, str]]) -> dict[str, str]:
    """Returns headers by their names in lower case; several of one name are joined by commas (RFC 9110, section 5.2),
    but cookies by semicolons (RFC 9113, section 8.2.3).

    Raises:
        TypeError: A name or a value is not a string.
    """
    found: dict[str, str] = {}
    # The values of those that come several times: joined at the end, since many of one name may come.
    several: Optional[dict[str, list[str]]] = None
    for name, value in pairs:
        if not isinstance(name, str) or not isinstance(value, str):
            raise TypeError(f"a header has a name and a value, which are strings, not {name!r} and {value!r}")
        # As the library folds names: in ASCII alone.
        name = name.lower() if name.isascii() else name
        if name in found:
            several = several or {}
            several.setdefault(name, [found[name]]).append(value)
        else:
            found[name] = value
    if several is not None:
        for name, values in several.items():
            found[name] = ("; " if name == "cookie" else ", ").join(values)
    return found


LOG = logging.getLogger("odb_batch")

# Until Python 3.11 these are different exceptions.
TIMEOUTS = (TimeoutError, asyncio.TimeoutError, concurrent.futures.TimeoutError, socket.timeout)

#: The answer to a request that failed without one.
FAILED = Refusal(500, "InternalError", "The request failed; the log says why").answer
#: What stands for a connection that broke, and for an answer that did not come in time.
BROKEN = Refusal(502, "BadGateway", "The connection broke before an answer came").answer
TIMED_OUT = Refusal(504, "Timeout", "No answer came in time").answer


def answer_for(error: BaseException, what: str) -> Answer:
    """Returns the answer that stands for an exception, and logs that; a Refusal has its own."""
    if not isinstance(error, Refusal):
        LOG.error("%s failed", what, exc_info=error)
    return exception_answer(error)


def exception_answer(error: Optional[BaseException]) -> Answer:
    """Returns the answer that stands for an exception."""
    if isinstance(error, Refusal):
        return error.answer
    if isinstance(error, TIMEOUTS):
        return TIMED_OUT
    return BROKEN if isinstance(error, ConnectionError) else FAILED


def validate_answer(answered: Any) -> Answer:
    """Returns what was answered, with header names in lower case and values in Unicode. A status below 200 or above 599
    becomes 502.

    Raises:
        TypeError: It is not a status with headers, whose names and values are strings, and a body.
    """
    if not isinstance(answered, Answer):
        answered = Answer(*answered)
    status, headers = answered.status, answered.headers
    if isinstance(status, bool) or not isinstance(status, int):
        raise TypeError(f"a status is a whole number, not {status!r}")
    if not hasattr(headers, "items"):
        raise TypeError(f"headers are a mapping, not {headers!r}")
    shown = header_dict(headers.items())
    if not "".join(shown).isascii() or not "".join(shown.values()).isascii():
        shown = _legible_headers(shown)
    return Answer(int(status) if 200 <= status <= 599 else 502, shown, answered.body)


def _legible_headers(headers: dict[str, str]) -> dict[str, str]:
    """Returns headers that a document can have. Bytes that a client has read by surrogateescape are Latin-1 (RFC 9110,
    section 5.5); a header with any other half of a surrogate pair is left out."""
    found = {}
    for name, value in headers.items():
        try:
            if not _is_unicode(value):
                value = value.encode("utf-8", "surrogateescape").decode("latin-1")
            name.encode()
            found[name] = value
        except UnicodeEncodeError:
            LOG.warning("the header %a of an answer is not Unicode, and is left out", name)
    return found


def _is_unicode(text: str) -> bool:
    try:
        text.encode()
    except UnicodeEncodeError:
        return False
    return True
