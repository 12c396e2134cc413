"""``$batch`` for an application of ASGI, as of FastAPI, Starlette or Litestar: one line.

    app.add_middleware(BatchMiddleware, path="/odata/$batch", transaction=group)

Each request of a batch is dispatched to the application in this process, never over HTTP.
"""

import asyncio
import functools
import inspect as inspection
import weakref
from typing import Any, Awaitable, Callable, Iterable, Mapping, MutableMapping, Optional
from urllib.parse import quote, unquote

from ._native.calls import policy_numbers
from .driver.execution import either, require_limit
from .driver.task_options import TransactionAsync
from .driver.tasks import perform_async
from .driver.unit_tasks import Places, uncancel, within
from .errors.faults import Fault
from .http.batch_request import BatchRequest, batch_folder
from .http.budget import BodyBudget, memory_budget
from .http.messages import LOG, Answer, PreparedRequest, Refusal, header_dict, validate_answer
from .http.observation import BatchObserver, Inspect, OnRequest
from .http.options import allowed_names, require_seconds, root_path
from .http.responses import batch_response, error_response, length_refusal, wire_message

__all__ = ["BatchMiddleware"]

_Scope = MutableMapping[str, Any]
_Message = MutableMapping[str, Any]
_Receive = Callable[[], Awaitable[_Message]]
_Send = Callable[[_Message], Awaitable[None]]
_App = Callable[[Any, Any, Any], Awaitable[None]]
# For how many seconds the body of a batch is waited for.
_READ_SECONDS = 30.0


class BatchMiddleware:
    """Answers a POST to one path as a batch, and leaves all other requests to the application.

    A request of a batch is over when the application returns, not when it has answered: what it does after that, as the
    part of a dependency of FastAPI after its ``yield``, may be its commit. So background tasks hold up the batch.

    Once the client of a batch has gone, nothing more of it starts; what runs comes to its end.

    Args:
        app: The application.
        path: The path of batches. The URLs of their requests are relative to its folder.
        transaction: Opens the transaction of a group, by its name: a context manager, which commits at the end of its
            block, and rolls back on any exception. It is an asynchronous one, since one that waits for a lock would
            stop the loop, and with it the server. Without it a batch with groups is answered 501.
        width: How many units of a batch are performed at once.
        at_once: How many units of all batches are performed at once in a loop; who waits longer than ``timeout`` is
            answered 503. Have it below the number of threads in which the application answers (40 in Starlette), so
            that a group that holds a lock never waits for one of them.
        timeout: For how many seconds a request may take, or None; then it is cancelled and answered 504. One that is
            answered in a thread cannot be cancelled: the answer comes when it ends.
        deadline: For how many seconds a batch may take, or None. Then nothing more starts, what has not started is
            answered 424, and what runs is cancelled and answered 504.
        limit: How many requests a batch may have.
        max_size: How many bytes a batch may have, and the bodies of its answers together. A GET whose answer has more
            is ended and answered 507.
        memory: How many bytes all batches may have at once, with the bodies of their answers; further ones are answered
            503. 268,435,456, or twice ``max_size`` if that is more.
        allowed: Names of headers that requests may have, beside those of OData and of usual clients.
        root: The path that the URL of each request has to begin with; else the folder of ``path``.
        inspect: Is called with each request before it is dispatched, with its whole URL and all its headers. A
            ``Refusal`` that it raises is the answer.
        on_request: Is called with each request just before it is dispatched, as ``inspect``. A function that it
            returns is called with the answer.
        stop: Is called before a unit begins, as ``event.is_set``. Once it returns true, nothing more starts.

    Raises:
        ValueError: An option has a value that it may not have, or the transaction is not asynchronous.
    """

    def __init__(
        self,
        app: _App,
        path: str = "/$batch",
        *,
        transaction: Optional[TransactionAsync] = None,
        width: int = 8,
        at_once: int = 32,
        timeout: Optional[float] = 30.0,
        deadline: Optional[float] = None,
        limit: int = 1_000,
        max_size: int = 16_777_216,
        memory: Optional[int] = None,
        allowed: Iterable[str] = (),
        root: Optional[str] = None,
        inspect: Optional[Inspect] = None,
        on_request: Optional[OnRequest] = None,
        stop: Optional[Callable[[], bool]] = None,
    ) -> None:
        if at_once < 1:
            raise ValueError(f"at_once must be at least 1, not {at_once!r}")
        require_limit(limit)
        policy_numbers("stop", width)  # refuses a width that no run may have
        self.app, self.path, self.width, self.stop = app, path, width, stop
        self.inspect, self.on_request = inspect, on_request
        self.transaction = None if transaction is None else _asynchronous(transaction)
        self.timeout, self.deadline = require_seconds("timeout", timeout), require_seconds("deadline", deadline)
        self.at_once, self.limit, self.max_size, self.budget = at_once, limit, max_size, memory_budget(memory, max_size)
        self.allowed, self.folder, self.root = allowed_names(allowed), batch_folder(path), root_path(root, path)
        # Places belong to one loop, and tests may run the application in several.
        self._places: "weakref.WeakKeyDictionary[asyncio.AbstractEventLoop, Places]" = weakref.WeakKeyDictionary()

    async def __call__(self, scope: _Scope, receive: _Receive, send: _Send) -> None:
        if scope["type"] != "http" or scope["path"] not in (self.path, scope.get("root_path", "") + self.path):
            return await self.app(scope, receive, send)
        # It is held until the server has taken the answer.
        with BodyBudget(self.max_size, self.budget) as room:
            try:
                answer = await self._answer(scope, receive, room)
            except (Fault, Refusal) as error:
                answer = error_response(error)
            headers, body = wire_message(answer)
            pairs = [(name.encode(), value.encode("latin-1")) for name, value in headers.items()]
            await send({"type": "http.response.start", "status": answer.status, "headers": pairs})
            await send({"type": "http.response.body", "body": body})

    async def _answer(self, scope: _Scope, receive: _Receive, room: BodyBudget) -> Answer:
        """Performs the batch of a request; raises Fault or Refusal if it is refused as a whole."""
        headers = header_dict([(name.decode("latin-1"), value.decode("latin-1")) for name, value in scope["headers"]])
        prefix = scope.get("root_path", "")
        folder, root = prefix + self.folder, prefix + self.root
        scheme, host = scope.get("scheme", "http"), headers.get("host", "")
        outer = BatchRequest(scope["method"], scheme, host, folder, root, headers, self.allowed, is_kept=False)
        try:
            batch = await within(_READ_SECONDS, self._read(receive, room))
        except asyncio.TimeoutError:
            raise Refusal(408, "CutBody", "The batch did not come in time") from None
        with _Client(receive) as client:
            response = await perform_async(
                batch,
                _Inner(self, scope, outer, room).dispatch,
                mode=outer.mode,
                width=self.width,
                transaction=self.transaction,
                base=outer.base,
                roots=outer.roots,
                limit=self.limit,
                stop=either(client.has_gone, self.stop),
                timeout=self.timeout,
                deadline=self.deadline,
                gate=self._gate(),
            )
        return batch_response(response, outer.mode)

    def _gate(self) -> Places:
        loop = asyncio.get_running_loop()
        if loop not in self._places:
            self._places[loop] = Places(self.at_once, self.timeout)
        return self._places[loop]

    async def _read(self, receive: _Receive, room: BodyBudget) -> bytes:
        """Reads the batch."""
        batch = bytearray()
        while True:
            message = await receive()
            if message["type"] == "http.disconnect":
                raise Refusal(400, "CutBody", "The client has hung up")
            part = message.get("body", b"")
            if len(batch) + len(part) > self.max_size:
                raise length_refusal(self.max_size)
            room.hold(len(part))
            batch += part
            if not message.get("more_body", False):
                return bytes(batch)


_BLOCKS = (
    "the transaction is not asynchronous: one that waits for a lock would stop the whole server. Write "
    "@contextlib.asynccontextmanager above `async def group(name):`, and wait by await"
)


def _asynchronous(transaction: TransactionAsync) -> TransactionAsync:
    """Returns a transaction that is surely asynchronous; raises ValueError if it is surely not."""
    function: Any = transaction
    while isinstance(function, functools.partial):
        function = function.func
    function = inspection.unwrap(function)
    is_manager = inspection.isclass(function) and hasattr(function, "__enter__")
    if inspection.isgeneratorfunction(function) or (is_manager and not hasattr(function, "__aenter__")):
        raise ValueError(_BLOCKS)

    def open_group(group: str) -> Any:
        manager = transaction(group)
        if not hasattr(manager, "__aenter__"):
            raise ValueError(_BLOCKS)
        return manager

    return open_group


class _Client:
    """Notices that the client of a batch has gone, while the batch is performed.

    Attributes:
        has_gone: Returns whether it has.
    """

    def __init__(self, receive: _Receive) -> None:
        self._gone, self._receive = asyncio.get_running_loop().create_future(), receive
        self.has_gone = self._gone.done

    def __enter__(self) -> "_Client":
        self._task = asyncio.ensure_future(self._wait())
        return self

    def __exit__(self, *_: object) -> None:
        self._task.cancel()

    async def _wait(self) -> None:
        try:
            message = await self._receive()
        except Exception as error:
            LOG.warning("the server does not say whether the client of a batch has gone", exc_info=error)
            return
        if message["type"] == "http.disconnect":
            self._gone.set_result(None)
            LOG.info("the client of a batch has gone, so nothing more of it starts")


class _Inner:
    """Dispatches the requests of a batch to the application."""

    def __init__(self, middleware: BatchMiddleware, scope: _Scope, outer: BatchRequest, room: BodyBudget) -> None:
        self._middleware, self._headers, self._room = middleware, outer.headers, room
        self._observer = BatchObserver(outer.headers, middleware.inspect, middleware.on_request)
        prefix = scope.get("root_path", "")
        # In newer servers the path of a scope has its root_path in front; what is dispatched is as what came.
        self._cut = "" if scope["path"] == prefix + middleware.path else prefix
        self._front = quote(self._cut)
        # What a server can do with an answer, as to send a file by itself, it cannot do with this one.
        self._scope = {name: value for name, value in scope.items() if name != "extensions"}
        self._inherited = _header_bytes(outer.headers.inherited)
        state = scope.get("state")
        self._state = state if isinstance(state, dict) else None

    def dispatch(self, request: PreparedRequest) -> Awaitable[Answer]:
        """Has the application answer a request."""
        head, _, query = request.url.partition("?")
        raw = head[head.index("/", len("https://")) :]
        path, front = unquote(raw)[len(self._cut) :], self._front
        # What is cut may be escaped in another way.
        raw_path = raw[len(front) :] if raw.startswith(front) else quote(path)
        headers = self._inherited
        if request.headers:
            headers = {**headers, **_header_bytes(self._headers.own(request.headers))}
        scope: _Scope = {
            **self._scope,
            "method": request.method,
            "path": path,
            "raw_path": raw_path.encode(),
            "query_string": query.encode(),
            "headers": [*headers.items()],
        }
        if request.body:
            scope["headers"].append((b"content-length", str(len(request.body)).encode()))
        if self._state is not None:
            scope["state"] = dict(self._state)
        if path == self._scope["path"]:
            raise Refusal(400, "NestedBatch", "A batch has no batches")
        exchange = _Exchange(self._room, request)
        return self._observe(request, scope, exchange) if self._observer.is_needed else exchange.run(self._middleware.app, scope)

    async def _observe(self, request: PreparedRequest, scope: _Scope, exchange: "_Exchange") -> Answer:
        """Has a request seen, and answered."""
        with self._observer.begin(request) as observed:
            observed.answer = validate_answer(await exchange.run(self._middleware.app, scope))
            return observed.answer


def _header_bytes(headers: Mapping[str, str]) -> dict[bytes, bytes]:
    """Returns headers as ASGI has them."""
    return {name.encode(): value.encode("latin-1") for name, value in headers.items()}


class _TooLong(OSError):
    """Raised where an application sends more of an answer than there is room for, as if its client had gone."""


class _Exchange:
    """A request and its answer, as ASGI passes them.

    Attributes:
        is_complete: Whether the answer has come to its end.
        is_success: Whether its status is one from 200 to 299.
    """

    def __init__(self, room: BodyBudget, request: PreparedRequest) -> None:
        self._incoming: list[_Message] = [{"type": "http.request", "body": request.body, "more_body": False}]
        self._status: Optional[int] = None
        self._headers: dict[str, str] = {}
        self._room, self._method = room, request.method
        self.is_complete = False
        # What waits for the end of the answer; few applications do.
        self._completed: Optional[asyncio.Event] = None
        self._task, self._is_cancelled = asyncio.current_task(), False

    @property
    def is_success(self) -> bool:
        return self._status is not None and 200 <= self._status <= 299

    async def run(self, app: _App, scope: _Scope) -> Answer:
        """Has an application answer the request.

        Raises:
            Refusal: The answer is too long.
            RuntimeError: The application has not completed it.
        """
        with self._room.read(self._method) as self._reading:
            try:
                await app(scope, self.receive, self.send)
            except asyncio.CancelledError:
                if not self._is_cut():
                    raise
            except Exception:
                # Starlette answers 500, and raises the exception again for the log of the server. After a success it is
                # that of a commit.
                if self._reading.refusal is None and (not self.is_complete or self.is_success):
                    raise
            if self._reading.refusal is None and (self._status is None or not self.is_complete):
                raise RuntimeError("the application has not completed its answer")
            return Answer(self._status or 500, self._headers, self._reading.body())

    async def receive(self) -> _Message:
        if not self._incoming:
            # A disconnect would end an answer that is streamed, so nothing more comes until the answer is complete.
            if not self.is_complete:
                self._completed = self._completed or asyncio.Event()
                await self._completed.wait()
            return {"type": "http.disconnect"}
        return self._incoming.pop()

    async def send(self, message: _Message) -> None:
        if message["type"] == "http.response.start":
            pairs = [(name.decode("latin-1"), value.decode("latin-1")) for name, value in message.get("headers", ())]
            headers = dict(pairs)
            self._headers = headers if len(headers) == len(pairs) else header_dict(pairs)
            self._status = message.get("status", 500)
        elif message["type"] == "http.response.body":
            part, has_more = message.get("body", b""), message.get("more_body", False)
            was_cut = self._reading.refusal is not None
            try:
                is_kept = self._reading.add(part)
            except Refusal as refusal:
                await self._cut(refusal, was_cut, has_more)
            else:
                if has_more and not (is_kept and part):
                    await asyncio.sleep(0)  # so that a timeout can end what sends for ever
            if not has_more:
                self.is_complete = True
                if self._completed is not None:
                    self._completed.set()

    async def _cut(self, refusal: Refusal, was_cut: bool, has_more: bool) -> None:
        """Ends the application, which answers a GET for which there is no room, if there is more to come: by an exception,
        and if it goes on, by a cancel."""
        if was_cut and self._task is not None:
            if not self._is_cancelled:
                self._is_cancelled = True
                self._task.cancel()
            await asyncio.sleep(0)
        if has_more:
            raise _TooLong(str(refusal)) from None

    def _is_cut(self) -> bool:
        """Whether the application was cancelled since its answer is too long, and by nobody else."""
        if not self._is_cancelled or self._task is None:
            return False
        return not uncancel(self._task)
