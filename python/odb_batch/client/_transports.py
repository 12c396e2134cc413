"""What a function that posts a batch may return, and the exceptions of clients of HTTP that are timeouts."""

from dataclasses import replace
from typing import Any, Callable, Mapping, Optional, Protocol, Union

from ..documents.encoding import document_bytes
from ..http.messages import TIMEOUTS, Answer, Answered, validate_answer

# The classes of requests, of httpx and httpcore, and of urllib3, in which a refused connection is a TimeoutError as well.
# The timeouts of aiohttp are timeouts of Python, too.
_TIMEOUTS = frozenset({"Timeout", "TimeoutException", "ReadTimeoutError"})
# Those of httpx, of requests and urllib3, and of Python, by which there was no connection at all.
_UNSENT = frozenset(
    {"ConnectError", "ConnectTimeout", "PoolTimeout", "NewConnectionError", "ConnectTimeoutError", "ConnectionRefusedError"}
)


class HttpResponse(Protocol):
    """A response of requests or httpx."""

    @property
    def status_code(self) -> int: ...

    @property
    def headers(self) -> Mapping[str, str]: ...

    @property
    def content(self) -> bytes: ...


#: What a batch is answered: its status, its headers and its body, or a response of requests or httpx.
Posted = Union[Answered, HttpResponse]

#: Posts a document with headers, and waits for so many seconds for the answer, or without a bound.
PostFunction = Callable[[bytes, dict[str, str], Optional[float]], Any]


def make_post(session: Any, url: str, is_async: bool) -> PostFunction:
    """Returns what posts by a client of HTTP, which is known by the names of its class and library, or by a function.

    Args:
        session: A ``Session`` of requests, a client of httpx, or a function that takes a document and headers.
        url: The URL of the service, with ``$batch`` at its end or without.
        is_async: Whether what is posted is awaited.

    Raises:
        TypeError: The session is neither, or is not awaited though it should be.
    """
    root, mark, query = url.partition("?")
    url = (root if root.endswith("$batch") else f"{root.rstrip('/')}/$batch".lstrip("" if root else "/")) + mark + query
    names = {(base.__module__.partition(".")[0], base.__name__) for base in type(session).__mro__}
    if not is_async and ("requests", "Session") in names:
        return lambda document, headers, seconds: session.post(url, data=document, headers=headers, timeout=seconds)
    if ("httpx", "AsyncClient" if is_async else "Client") in names:
        return lambda document, headers, seconds: session.post(url, content=document, headers=headers, timeout=seconds)
    if callable(session):
        return lambda document, headers, seconds: session(document, headers)
    wanted = "an AsyncClient of httpx or a coroutine function" if is_async else "of requests or httpx, or a function"
    raise TypeError(f"session must be {wanted}, not a {type(session).__name__}")


def read_response(posted: Any) -> Any:
    """Returns the status, the headers and the body of a response, and anything else unchanged. Raises what the client of
    HTTP raises if it cannot read the body."""
    try:
        return posted.status_code, posted.headers, posted.content
    except AttributeError:
        return posted


def to_answer(answered: Any) -> Answer:
    """Returns what a batch was answered, with the bytes of its body.

    Raises:
        TypeError: It is not a status with headers and the bytes of a body.
    """
    if not isinstance(answered, (Answer, tuple, list)):
        kind = type(answered).__name__
        raise TypeError(f"post must return (status, headers, body), or a response of requests or httpx, not a {kind}")
    answer = validate_answer(answered)
    return replace(answer, body=b"" if answer.body is None else document_bytes(answer.body))


def is_timeout(error: BaseException) -> bool:
    """Returns whether an exception is a timeout, or comes from one: clients of HTTP raise exceptions of their own then."""
    chain: list[BaseException] = []
    found: Optional[BaseException] = error
    while found is not None and found not in chain:
        chain.append(found)
        found = found.__cause__ or found.__context__
    return any(isinstance(raised, TIMEOUTS) or not _TIMEOUTS.isdisjoint(_class_names(raised)) for raised in chain)


def is_unsent(error: BaseException) -> bool:
    """Returns whether an exception, or the reason that it gives, says that there was no connection, so nothing was sent."""
    given = error.args[0] if error.args else None
    return any(not _UNSENT.isdisjoint(_class_names(raised)) for raised in (error, given, getattr(given, "reason", None)))


def _class_names(value: Any) -> list[str]:
    """The names of the class of a value and of its bases: no client of HTTP is imported, since none may be installed."""
    return [base.__name__ for base in type(value).__mro__]
