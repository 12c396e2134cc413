"""``$batch`` for an application of WSGI, as of Flask, Django or Pyramid: one line.

    app.wsgi_app = BatchMiddleware(app.wsgi_app, "/odata/$batch", transaction=group)

Each request of a batch is dispatched to the application in this process, never over HTTP: a server whose workers all
wait for requests to itself would never answer.
"""

import io
from concurrent.futures import ThreadPoolExecutor
from http import HTTPStatus
from time import monotonic
from typing import Any, Callable, Iterable, Iterator, Mapping, Optional
from urllib.parse import unquote_to_bytes

from ._native.calls import policy_numbers
from .driver.execution import require_limit
from .driver.threads import Transaction, perform
from .errors.faults import Fault
from .http.batch_request import BatchRequest, batch_folder
from .http.budget import BodyBudget, memory_budget
from .http.messages import Answer, PreparedRequest, Refusal, header_dict, validate_answer
from .http.observation import BatchObserver, Inspect, OnRequest
from .http.options import allowed_names, require_seconds, root_path
from .http.responses import batch_response, error_response, length_refusal, wire_message

__all__ = ["BatchMiddleware"]

_Environ = dict[str, Any]
_App = Callable[..., Iterable[bytes]]
_Headers = Iterable[tuple[str, str]]
# In which parts a batch is read.
_PART = 65_536

# What a server says of the outer request by names of its own, which an application could read in place of the rest.
_OF_OUTER = frozenset(
    {
        "CONTENT_LENGTH", "CONTENT_TYPE", "RAW_URI", "REQUEST_URI", "gunicorn.socket", "wsgi.input", "wsgi.input_terminated",
    }
)  # fmt: skip


class BatchMiddleware:
    """Answers a POST to one path as a batch, and leaves all other requests to the application.

    >>> import io, json
    >>> from odb_batch.wsgi import BatchMiddleware
    >>> def app(environ, start_response):
    ...     start_response("200 OK", [("Content-Type", "text/plain")])
    ...     return [environ["PATH_INFO"].encode()]
    >>> batch = b'{"requests": [{"id": "1", "method": "get", "url": "Books"}]}'
    >>> environ = {"REQUEST_METHOD": "POST", "PATH_INFO": "/odata/$batch", "CONTENT_TYPE": "application/json",
    ...            "CONTENT_LENGTH": str(len(batch)), "wsgi.input": io.BytesIO(batch), "wsgi.url_scheme": "http",
    ...            "HTTP_HOST": "localhost"}
    >>> [text] = BatchMiddleware(app, "/odata/$batch")(environ, lambda status, headers: print(status))
    200 OK
    >>> json.loads(text)["responses"]
    [{'body': '/odata/Books', 'headers': {'content-type': 'text/plain'}, 'id': '1', 'status': 200}]

    Args:
        app: The application.
        path: The path of batches, as the application sees it. The URLs of their requests are relative to its folder.
        transaction: Opens the transaction of a group, by its name: a context manager, which commits at the end of its
            block, and rolls back on any exception. All requests of the group are dispatched in its thread. Without it a
            batch with groups is answered 501.
        width: How many units of all batches are performed at once, by threads of this object. With 1 each batch is
            performed in the thread of its own request.
        timeout: For how many seconds the parts of an answer may come, or None; then it is ended and answered 504. What
            the application does before a part cannot be ended.
        deadline: For how many seconds a batch may take, or None. Then nothing more starts, and what has not started is
            answered 424. What runs is waited for.
        limit: How many requests a batch may have.
        max_size: How many bytes a batch may have, and the bodies of its answers together. A GET whose answer has more
            is ended and answered 507.
        memory: How many bytes all batches may have at once, with the bodies of their answers; further ones are answered
            503. 268,435,456, or twice ``max_size`` if that is more.
        allowed: Names of headers that requests may have, beside those of OData and of usual clients.
        root: The path that the URL of each request has to begin with; else the folder of ``path``.
        inspect: Is called with each request before it is dispatched, with its whole URL and all its headers. A
            ``Refusal`` that it raises is the answer.
        on_request: Is called with each request just before it is dispatched, as ``inspect``. A function that it
            returns is called with the answer.
        stop: Is called before a unit begins, as ``event.is_set``. Once it returns true, nothing more starts.

    Raises:
        ValueError: An option has a value that it may not have.
    """

    def __init__(
        self,
        app: _App,
        path: str = "/$batch",
        *,
        transaction: Optional[Transaction] = None,
        width: int = 1,
        timeout: Optional[float] = 30.0,
        deadline: Optional[float] = None,
        limit: int = 1_000,
        max_size: int = 16_777_216,
        memory: Optional[int] = None,
        allowed: Iterable[str] = (),
        root: Optional[str] = None,
        inspect: Optional[Inspect] = None,
        on_request: Optional[OnRequest] = None,
        stop: Optional[Callable[[], bool]] = None,
    ) -> None:
        require_limit(limit)
        policy_numbers("stop", width)  # refuses a width that no run may have
        self.app, self.path, self.transaction, self.width, self.stop = app, path, transaction, width, stop
        self.timeout, self.deadline = require_seconds("timeout", timeout), require_seconds("deadline", deadline)
        self.limit, self.max_size, self.budget = limit, max_size, memory_budget(memory, max_size)
        self.inspect, self.on_request = inspect, on_request
        self.allowed, self.folder, self.root = allowed_names(allowed), batch_folder(path), root_path(root, path)
        self.pool = ThreadPoolExecutor(width, "batch") if width != 1 else None

    def __call__(self, environ: _Environ, start_response: Callable[..., Any]) -> Iterable[bytes]:
        if environ.get("PATH_INFO") != self.path:
            return self.app(environ, start_response)
        room = BodyBudget(self.max_size, self.budget)
        try:
            answer = self._answer(environ, room)
        except (Fault, Refusal) as error:
            answer = error_response(error)
        except BaseException:
            room.close()
            raise
        headers, body = wire_message(answer)
        status = f"{answer.status} {HTTPStatus(answer.status).phrase}"
        start_response(status, [(name.title(), value) for name, value in headers.items()])
        return _Body(body, room)

    def _answer(self, environ: _Environ, room: BodyBudget) -> Answer:
        """Performs the batch of a request; raises Fault or Refusal if it is refused as a whole."""
        outer = self._outer(environ)
        batch = self._read(environ, room)
        inner = _Inner(self, environ, outer, room)
        response = perform(
            batch,
            inner.dispatch,
            mode=outer.mode,
            width=self.width,
            transaction=self.transaction,
            base=outer.base,
            roots=outer.roots,
            limit=self.limit,
            stop=self.stop,
            deadline=self.deadline,
            pool=self.pool,
        )
        return batch_response(response, outer.mode)

    def _outer(self, environ: _Environ) -> BatchRequest:
        headers = header_dict(
            (name[5:].replace("_", "-"), value) for name, value in environ.items() if name.startswith("HTTP_")
        )
        headers["content-type"] = environ.get("CONTENT_TYPE", "")
        prefix = _decode_path(environ.get("SCRIPT_NAME", ""))
        folder, root = prefix + self.folder, prefix + self.root
        scheme, host = environ.get("wsgi.url_scheme", "http"), headers.get("host") or _server_of(environ)
        outer = BatchRequest(environ["REQUEST_METHOD"], scheme, host, folder, root, headers, self.allowed, is_kept=False)
        return outer

    def _read(self, environ: _Environ, room: BodyBudget) -> bytes:
        """Reads the batch."""
        text = environ.get("CONTENT_LENGTH") or ""
        if len(text) > 20:  # of thousands of digits int() makes no number
            raise length_refusal(self.max_size)
        length = int(text) if text.isascii() and text.isdigit() else None
        if length is None and not environ.get("wsgi.input_terminated"):
            raise Refusal(411, "LengthRequired", "A batch has to have a Content-Length")
        if length is not None and length > self.max_size:
            raise length_refusal(self.max_size)
        batch, most = bytearray(), self.max_size + 1 if length is None else length
        while len(batch) < most and (part := environ["wsgi.input"].read(min(_PART, most - len(batch)))):
            room.hold(len(part))
            batch += part
        if len(batch) > self.max_size:
            raise length_refusal(self.max_size)
        if length is not None and len(batch) < length:
            raise Refusal(400, "CutBody", f"The batch has {len(batch)} bytes of {length}")
        return bytes(batch)


class _Body:
    """The body of the answer to a batch, which holds its memory until the server has sent it."""

    def __init__(self, body: bytes, room: BodyBudget) -> None:
        self._body, self._room = body, room

    def __iter__(self) -> Iterator[bytes]:
        yield self._body

    def close(self) -> None:
        self._room.close()

    def __del__(self) -> None:
        self._room.close()  # a server that is broken off may not close it


class _Inner:
    """Dispatches the requests of a batch to the application."""

    def __init__(self, middleware: BatchMiddleware, environ: _Environ, outer: BatchRequest, room: BodyBudget) -> None:
        self._middleware, self._headers, self._room = middleware, outer.headers, room
        self._observer = BatchObserver(outer.headers, middleware.inspect, middleware.on_request)
        self._cut = len(_decode_path(environ.get("SCRIPT_NAME", "")).encode())
        kept = {name: value for name, value in environ.items() if name not in _OF_OUTER and not name.startswith("HTTP_")}
        self._environ = {**kept, **_header_variables(outer.headers.inherited)}
        if middleware.width != 1:
            self._environ["wsgi.multithread"] = True

    def dispatch(self, request: PreparedRequest) -> Answer:
        """Has the application answer a request."""
        head, _, query = request.url.partition("?")
        path = head[head.index("/", len("https://")) :]
        target = f"{path}?{query}" if query else path
        headers = self._headers.own(request.headers) if request.headers else {}
        environ = {
            **self._environ,
            "REQUEST_METHOD": request.method,
            "PATH_INFO": unquote_to_bytes(path)[self._cut :].decode("latin-1"),
            "QUERY_STRING": query,
            "REQUEST_URI": target,
            "RAW_URI": target,
            "CONTENT_TYPE": headers.pop("content-type", ""),
            "CONTENT_LENGTH": str(len(request.body)),
            "wsgi.input": io.BytesIO(request.body),
        }
        if headers:
            environ.update(_header_variables(headers))
        if environ["PATH_INFO"] == self._middleware.path:
            raise Refusal(400, "NestedBatch", "A batch has no batches")
        reply = _Reply(self._room, request.method, self._middleware.timeout)
        return self._observe(request, environ, reply) if self._observer.is_needed else reply.read(self._middleware.app, environ)

    def _observe(self, request: PreparedRequest, environ: _Environ, reply: "_Reply") -> Answer:
        """Has a request seen, and answered."""
        with self._observer.begin(request) as observed:
            observed.answer = validate_answer(reply.read(self._middleware.app, environ))
            return observed.answer


class _Reply:
    """The answer of an application to one request, as WSGI passes it."""

    def __init__(self, room: BodyBudget, method: str, timeout: Optional[float]) -> None:
        self._room, self._method, self._count = room, method, 0
        self._begun: tuple[str, _Headers] = ("", ())
        self._ends = None if timeout is None else monotonic() + timeout

    def start(self, status: str, headers: _Headers, exc_info: Any = None) -> Callable[[bytes], None]:
        """Begins the answer, as ``start_response``; returns what takes a part of its body."""
        if exc_info and self._reading.has_begun:
            raise exc_info[1].with_traceback(exc_info[2])  # as a server that has sent the headers
        self._begun = status, headers
        return self.take

    def take(self, part: bytes) -> None:
        """Takes a part of the body. Only one that follows another can be too late: a first one may be the whole."""
        if self._count and self._ends is not None and monotonic() > self._ends:
            raise TimeoutError("the answer has not come to its end in time")
        self._count += 1
        self._reading.add(part)

    def read(self, app: _App, environ: _Environ) -> Answer:
        """Returns what an application answers; raises RuntimeError if that is nothing, and Refusal if it is too long."""
        with self._room.read(self._method) as self._reading:
            parts = app(environ, self.start)
            try:
                for part in parts:
                    self.take(part)
            finally:
                if hasattr(parts, "close"):
                    parts.close()
            status, headers = self._begun
            if not status:
                raise RuntimeError("the application has answered nothing")
            pairs = [*headers]
            found = dict(pairs)
            joined = found if len(found) == len(pairs) else header_dict(pairs)
            return Answer(int(status[:3]), joined, self._reading.body())


def _header_variables(headers: Mapping[str, str]) -> _Environ:
    """Returns headers as WSGI has them."""
    return {"HTTP_" + name.upper().replace("-", "_"): value for name, value in headers.items()}


def _decode_path(path: str) -> str:
    """The text of a path, which WSGI has as bytes that are characters."""
    return path.encode("latin-1").decode("utf-8", "replace")


def _server_of(environ: _Environ) -> str:
    """The host of a request that names none."""
    name, port = environ["SERVER_NAME"], environ["SERVER_PORT"]
    is_usual = port == ("443" if environ.get("wsgi.url_scheme") == "https" else "80")
    return str(name) if is_usual else f"{name}:{port}"
