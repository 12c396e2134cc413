"""The service that is judged: requests over HTTP, and their answers."""

import contextlib
import http.client
import socket
import threading
import time
from typing import Any, Iterator, Mapping, NamedTuple, Optional
from urllib.parse import unquote, urljoin, urlsplit

from ._exact_json import text_of, value_of
from ._interruption import Interrupted, Interruption

MAX_ANSWER = 67_108_864
# For how many seconds an answer may be waited for, and for how many it is if nobody says.
MAX_SECONDS, SECONDS = 3600, 20.0
# How many seconds lie between two looks for an interruption.
SLICE = 0.25
JSON = {"Content-Type": "application/json"}
CONTINUE = "continue-on-error"
GONE = (404, 410)
# What a service may answer to what it refuses.
REFUSED = (*range(400, 500), 501)
# What a URL of a service has to be.
ROOT = "the root of a service, such as http://localhost:8080/"


def is_root(url: str) -> bool:
    """Whether a URL may be the root of a service: http or https, with a host, and without a query."""
    try:
        parts = urlsplit(url)
        is_good = parts.scheme in ("http", "https") and parts.hostname and parts.port != 0 and url.isprintable()
    except ValueError:
        return False
    return bool(is_good) and not (parts.query or parts.fragment or " " in url)


ETAGS = ("@odata.etag", "@etag")


def is_success(status: Optional[int]) -> bool:
    """Whether there is a status, and it is one from 200 to 299."""
    return status is not None and 200 <= status <= 299


class Unusable(Exception):
    """Why the service cannot be judged, in one line."""


class Unanswered(Unusable):
    """A request has no answer.

    Attributes:
        reason: Why, in a few words.
        is_late: Whether the time for it was up.
    """

    def __init__(self, request: str, reason: str, is_late: bool) -> None:
        super().__init__(f"{request}: {reason}")
        self.reason, self.is_late = reason, is_late


class Reply(NamedTuple):
    """What a request is answered; the names of the headers are in lower case."""

    status: int
    headers: Mapping[str, str]
    text: bytes

    @property
    def is_success(self) -> bool:
        return is_success(self.status)

    @property
    def value(self) -> Any:
        """The value of the body, or None if it is not JSON."""
        try:
            return value_of(self.text)
        except (ValueError, RecursionError):
            return None

    def __str__(self) -> str:
        """The status, with the message of OData's error object if there is one."""
        kind = self.headers.get("content-type", "").partition(";")[0].strip()
        try:
            message = " ".join(self.value["error"]["message"].split())
        except (TypeError, KeyError, AttributeError):
            message = f"in {kind}" if kind and "json" not in kind else ""
        return f"{self.status} {message[:160]}".rstrip()


class Service:
    """A service by its root URL.

    Args:
        root: Its URL, http or https, without a query.
        headers: What every request has besides, such as Authorization.
        timeout: For how many seconds an answer is waited for.
        interruption: What ends the run before its time.
    """

    def __init__(self, root: str, headers: Mapping[str, str], timeout: float, interruption: Interruption) -> None:
        self.root, self.timeout, self.interruption = root.rstrip("/") + "/", timeout, interruption
        self.headers = {"OData-MaxVersion": "4.01", "Accept": "application/json", "Connection": "close", **headers}
        self.parts = urlsplit(self.root)

    def ask(self, method: str, url: str, value: Any = None, headers: Mapping[str, str] = {}) -> Reply:
        """Sends a request to a URL that is relative to the root; raises Unanswered if no answer can be read."""
        self.interruption.check()
        data = value if isinstance(value, (bytes, type(None))) else text_of(value).encode()
        path = urlsplit(urljoin(self.root, url))
        target = path.path + (f"?{path.query}" if path.query else "")
        kind = http.client.HTTPSConnection if self.parts.scheme == "https" else http.client.HTTPConnection
        connection: http.client.HTTPConnection = kind(self.parts.hostname or "", self.parts.port, timeout=self.timeout)
        late = threading.Event()
        try:
            connection.connect()
            with self._ended_in_time(connection.sock, late):
                connection.request(method, target, data, {**self.headers, **(JSON if data else {}), **headers})
                answer = _read(connection.getresponse())
            if not late.is_set():
                return answer
            raise socket.timeout("timed out")
        except (OSError, http.client.HTTPException, ValueError) as error:
            if self.interruption.is_due:
                raise Interrupted from None
            is_late = late.is_set() or isinstance(error, socket.timeout) or "timed out" in str(error)
            reason = f"no answer within {self.timeout:g} seconds" if is_late else reason_of(error)
            raise Unanswered(f"{method} {self.root}{url}", reason, is_late) from None
        finally:
            connection.close()

    @contextlib.contextmanager
    def _ended_in_time(self, connection: socket.socket, late: threading.Event) -> Iterator[None]:
        """Ends a connection, and sets `late`, if the block takes too long, also if its answer comes drop by drop."""
        done, until = threading.Event(), time.monotonic() + self.timeout

        def watch() -> None:
            while (rest := self.interruption.end(until) - time.monotonic()) > 0:
                if done.wait(min(rest, SLICE)):
                    return
            late.set()
            with contextlib.suppress(OSError):
                socket.socket.shutdown(connection, socket.SHUT_RDWR)  # that of TLS would let go of its state

        watching = threading.Thread(target=watch, daemon=True)
        watching.start()
        try:
            yield
        finally:
            done.set()
            watching.join()

    def batch(self, document: bytes, prefer: str = CONTINUE) -> Reply:
        """Sends a batch, with the preference to continue on errors unless another one is given, or the empty text."""
        return self.ask("POST", "$batch", document, {"Prefer": prefer} if prefer else {})

    def require_batches(self, entity_set: str) -> None:
        """Sends a batch of one request; raises Unusable if the service does not answer it as a batch."""
        answer = self.probe(f"{entity_set}?$top=1")
        value = answer.value
        if isinstance(value, dict) and isinstance(value.get("responses"), list):
            return  # each case judges the status
        if answer.status in (*GONE, 405, 501):
            raise Unusable(f"{self.root} has no $batch: POST {self.root}$batch is answered {answer}")
        if answer.status in (406, 415):
            raise Unusable(f"{self.root} takes no batch in JSON: POST {self.root}$batch is answered {answer}")
        if answer.status != 200:
            raise Unusable(f"POST {self.root}$batch is answered {answer}")
        kind = answer.headers.get("content-type", "no media type")
        raise Unusable(f"POST {self.root}$batch is not answered with a batch in JSON, but with {kind}")

    def probe(self, url: str) -> Reply:
        """Sends a batch of one read; one that is hung up on is sent once more."""
        request = {"id": "1", "method": "get", "url": url}
        document = text_of({"requests": [request]}).encode()
        try:
            return self.batch(document)
        except Unanswered as error:
            if error.is_late:
                raise
        return self.batch(document)

    def is_reachable(self) -> bool:
        """Whether the service answers a plain request, whatever it answers."""
        try:
            self.ask("GET", "")
        except Unusable:
            return False
        return True

    def address(self, url: str) -> str:
        """The URL as all ways to write it are compared: absolute, with each character as itself."""
        try:
            return unquote(urljoin(self.root, url))
        except ValueError:
            return url


def etag_of(headers: Mapping[str, str], value: Any) -> Optional[str]:
    """The ETag of an entity, by a header or in its representation."""
    shown = value if isinstance(value, dict) else {}
    return headers.get("etag") or next((shown[name] for name in ETAGS if name in shown), None)


def _read(response: http.client.HTTPResponse) -> Reply:
    """Reads an answer, which may have MAX_ANSWER bytes."""
    text = bytearray()
    while part := response.read(65_536):
        text += part
        if len(text) > MAX_ANSWER:
            raise ValueError(f"the answer has more than {MAX_ANSWER:,} bytes")
    if response.length:
        raise http.client.IncompleteRead(bytes(text), response.length)
    return Reply(response.status, {name.lower(): value for name, value in response.headers.items()}, bytes(text))


def reason_of(error: Exception) -> str:
    """Why there is no answer, in a few words."""
    if isinstance(error, (http.client.RemoteDisconnected, ConnectionResetError, BrokenPipeError)):
        return "the service hung up without an answer"
    if isinstance(error, http.client.IncompleteRead):
        return "the service hung up in its answer"
    if isinstance(error, http.client.HTTPException):
        return "the answer is not HTTP"
    return " ".join((getattr(error, "strerror", None) or str(error) or type(error).__name__).split())
