"""Requests to services: where they go, with which headers, over connections that are kept, and what they are answered."""

import asyncio
import logging
import ssl
import threading
import time
from contextvars import ContextVar
from typing import Any, Collection, Mapping, Optional
from urllib.parse import urlsplit

import aiohttp
from yarl import URL

from ..driver.unit_tasks import Places
from ..http.batch_request import HeaderPolicy
from ..http.budget import BodyBudget
from ..http.messages import TIMED_OUT, Answer, PreparedRequest, Refusal, header_dict
from ..http.observation import notify
from ..journals import Late, StoreJournal
from ._credentials import Credentials
from ._decoding import Decoder
from ._failures import FailureLog, error_code, failure_reason
from ._log import LINES, log_line, trace_id
from ._metrics import Counts
from ._options import Options
from ._routes import URL_HEADERS, BatchTargets, Route, Routes

_PART = 65_536
# The headers that requests of a batch refer to, and of which an answer has one.
_SINGLE = URL_HEADERS | {"etag"}
# What was not sent, by the code of its answer.
_UNSENT = ("Stopping", "Unreachable", "NoJournal", "InProgress")


# Of the request that the running task sends: a list with the journal that it has, or None; empty once it was sent. None
# for a GET, which may be sent again.
_TO_SEND: ContextVar[Optional[list[Optional[StoreJournal]]]] = ContextVar("to_send", default=None)


class _Request(aiohttp.ClientRequest):
    """A request that is sent once, though newer versions of aiohttp send a PUT or a DELETE again if a connection breaks; and
    only while its batch is held, as it may have waited for its connection.

    Hooks of aiohttp could do that, but take a fourth of the time of a request.
    """

    journal: Optional[StoreJournal] = None

    async def send(self, conn: Any) -> aiohttp.ClientResponse:
        to_send = _TO_SEND.get()
        if to_send is not None:
            if not to_send:
                raise aiohttp.ClientConnectionError("the request was sent before")
            self.journal = to_send[0]
            self._require_held()
            to_send.clear()
        return await super().send(conn)

    async def write_bytes(self, writer: Any, conn: Any, *more: Any) -> None:
        """Writes the body, unless another gateway goes on meanwhile: a service does not perform a head alone."""
        try:
            if self.body:
                self._require_held()
        except Late:
            conn.protocol.set_exception(aiohttp.ClientConnectionError("the gateway was paused while it sent the request"))
        else:
            await super().write_bytes(writer, conn, *more)

    def _require_held(self) -> None:
        if self.journal is not None:
            self.journal.require_held()


class _ServicePlaces(Places):
    """The places of a service, with a line of the log if none is free in time."""

    def __init__(self, service: str, count: int, seconds: float, upstream: "UpstreamClient") -> None:
        super().__init__(count, seconds)
        self._service, self._upstream = service, upstream

    def give_up(self, turn: "asyncio.Future[None]") -> None:
        if not turn.done():  # what has its place is late at the same time, and ends first
            asyncio.get_running_loop().call_soon(self._note_busy)
        super().give_up(turn)

    def _note_busy(self) -> None:
        self._upstream.counts.fault("Busy")
        self._upstream.failures.write(self._service, "Busy", "connections")


class UpstreamClient:
    """Sends requests to the services behind a gateway.

    Attributes:
        routes: Where requests go.
        credentials: Which service gets which credentials.
        counts: What is counted of them.
        failures: Logs why services have not answered.
        places: What bounds how many requests are on their way to the service of a route, by its prefix: each has a place
            before it is sent, and is 503 ``Busy`` after the time-out of waiting.
        stopping: Is set once no further request is sent.
    """

    def __init__(self, options: Options, counts: Counts) -> None:
        self._options, self.counts, self.failures = options, counts, FailureLog()
        self.routes = Routes(options.routes)
        self.credentials = Credentials(options.routes, options.credentials, options.send)
        lines: dict[str, _ServicePlaces] = {}
        for route in options.routes:
            if route.line not in lines:
                count, seconds = route.connections or options.connections, route.timeout or options.timeout
                lines[route.line] = _ServicePlaces(route.origin, count, seconds, self)
                counts.watch_queue(route.line, lines[route.line])
        self.places = {route.prefix: lines[route.line] for route in options.routes}
        self.stopping, self._is_broken_off = threading.Event(), False

    async def open(self) -> None:
        """Makes what belongs to the running loop; raises OSError if the files of a route, or this aiohttp, cannot be used."""
        if not (hasattr(aiohttp.ClientRequest, "send") and hasattr(aiohttp.ClientRequest, "write_bytes")):
            raise OSError(f"aiohttp {aiohttp.__version__} sends requests in a way that is not known here")
        self._route_options = {route.prefix: _route_options(route) for route in self._options.routes}
        self._connector = aiohttp.TCPConnector(limit=0, keepalive_timeout=self._options.keep_alive)
        self._session = aiohttp.ClientSession(
            connector=self._connector,
            connector_owner=False,
            request_class=_Request,
            timeout=aiohttp.ClientTimeout(self._options.timeout),
            cookie_jar=aiohttp.DummyCookieJar(),
            auto_decompress=False,
            skip_auto_headers=("User-Agent", "Accept", "Accept-Encoding", "Content-Type"),
        )

    def request(self, method: str, url: str, journal: Optional[StoreJournal] = None, **options: Any) -> Any:
        """Returns the exchange of a request, as aiohttp has it. It is sent once, unless it is a GET, and with a journal
        only while no other gateway goes on with its batch."""
        _TO_SEND.set(None if method == "GET" else [journal])
        return self._session.request(method, URL(url, encoded=True), **options)

    async def close(self) -> None:
        await self._session.close()
        await self._connector.close()

    async def break_off(self) -> None:
        """Breaks what is on its way off: it is answered 504 ``Stopped``."""
        self._is_broken_off = True
        await self._connector.close()

    async def send(
        self, route: Route, request: PreparedRequest, budget: BodyBudget, journal: Optional[StoreJournal] = None
    ) -> Answer:
        """Sends a request, which has its place, to the service of a route and returns its answer with whole body; one
        that has a journal, and is not a GET, while no other gateway goes on with its batch.

        Raises:
            Refusal: It was not sent: 503 ``Stopping``, ``Unreachable`` or ``NoJournal``, or 409 ``InProgress``. There is
                no answer: 504 ``Timeout`` or ``Stopped``, or 502 ``BadGateway``. It cannot be shown: 502 ``Encoded``,
                or 507 ``TooLong`` for a GET.
        """
        if self.stopping.is_set():
            raise Refusal(503, "Stopping", "The gateway stops, and has not sent the request", retry_after="1")
        journal = None if request.method == "GET" else journal
        try:
            while True:
                try:
                    return await self._exchange(route, request, budget, journal)
                except Late:
                    await _wait_for_lease(journal)
        except Refusal as refusal:
            if refusal.answer.status == 502:
                self.failures.write(request.url, error_code(refusal.answer), "answer", refusal)
            raise
        except (asyncio.TimeoutError, aiohttp.ClientError, OSError) as error:
            instead = self._refusal_for(error)
            if not self._is_broken_off:
                code, detail = error_code(instead.answer), f"{type(error).__name__}: {error}"
                self.failures.write(request.url, code, failure_reason(error), detail)
            raise instead from None

    def _refusal_for(self, error: BaseException) -> Refusal:
        """Returns what stands for an answer that has not come."""
        if isinstance(error, asyncio.TimeoutError):
            return Refusal(504, "Timeout", "No answer came in time")
        if self._is_broken_off:
            return Refusal(504, "Stopped", "The gateway has stopped before an answer came")
        if isinstance(error, aiohttp.ClientConnectorError):
            return Refusal(503, "Unreachable", "The service cannot be reached; the request was not sent")
        return Refusal(502, "BadGateway", "The connection broke before an answer came")

    async def _exchange(
        self, route: Route, request: PreparedRequest, budget: BodyBudget, journal: Optional[StoreJournal]
    ) -> Answer:
        """Returns the answer of a service; raises Refusal if there is no room for it, or it cannot be shown."""
        options = {"data": request.body or None, "allow_redirects": False, **self._route_options[route.prefix]}
        async with self.request(request.method, request.url, journal, headers=request.headers, **options) as response:
            if not 200 <= response.status <= 599:
                raise Refusal(502, "BadGateway", f"The service has answered with the status {response.status}")
            body = await _read_body(response, request.method, budget)
            headers = header_dict(response.headers.items())
            if len(headers) < len(response.headers):
                _drop_ambiguous(headers, response.headers)
            return Answer(response.status, headers, body)


def _route_options(route: Route) -> dict[str, Any]:
    """Returns what requests of a route have in place of what those of all have."""
    options: dict[str, Any] = {} if route.timeout is None else {"timeout": aiohttp.ClientTimeout(route.timeout)}
    if route.ca or route.certificate:
        try:
            options["ssl"] = context = ssl.create_default_context(cafile=route.ca or None)
            if route.certificate:
                context.load_cert_chain(route.certificate, route.key or None, password=lambda: "")  # asks nobody
        except (OSError, ValueError) as error:
            raise OSError(f"the certificates of {route.prefix}: {error}") from None
    return options


async def _wait_for_lease(journal: Optional[StoreJournal]) -> None:
    """Waits until the batch is held again; raises Refusal if it is not: 503 ``NoJournal``, or 409 ``InProgress``."""
    try:
        if journal is not None:
            await journal.sync()
    except OSError:
        raise Refusal(503, "NoJournal", "The journal cannot be reached; the request was not sent") from None


async def _read_body(response: aiohttp.ClientResponse, method: str, budget: BodyBudget) -> bytes:
    """Returns the body of an answer without its coding, as far as it is kept; raises Refusal if it cannot be read: 502
    ``Encoded``."""
    coding = response.headers.get("Content-Encoding", "").strip().lower()
    is_coded = coding not in ("", "identity") and response.status not in (204, 304)
    decoder = Decoder(coding) if is_coded else None
    content = response.content
    with budget.read(method) as reader:
        while not content.at_eof():
            part = await content.read(_PART)
            if not (reader.add(part) if decoder is None else all(map(reader.add, decoder.decode(part)))):
                return reader.body()
        if decoder is not None:
            decoder.require_end()
        return reader.body()


def _drop_ambiguous(headers: dict[str, str], given: Mapping[str, str]) -> None:
    """Drops a header that names a resource or a version, and comes several times with different values: a request that
    refers to it would go somewhere else."""
    for name in _SINGLE & headers.keys():
        values = {value for other, value in given.items() if other.lower() == name}
        headers[name] = values.pop()
        if values:
            del headers[name]


class ServiceRequests:
    """The requests of one batch, as they are sent to the services of their routes.

    Args:
        upstream: Sends them.
        options: Those of the gateway.
        policy: Which headers of the batch they have.
        forwarded: The headers by which services see who has sent the batch.
        public_base: A URL with the scheme and the host that the client has asked, as services see them.
        budget: What the batch may hold in memory.

    Attributes:
        targets: Where they go.
        journal: The journal of the batch, if it may be sent again.
        sent: How many requests and groups were sent so far.
        failed: How many of those that were sent, or could not be sent, were not answered 2xx or 3xx.
    """

    def __init__(
        self, upstream: UpstreamClient, options: Options, policy: HeaderPolicy, forwarded: dict[str, str], public_base: str,
        budget: BodyBudget,
    ) -> None:  # fmt: skip
        self._upstream, self._options, self._counts = upstream, options, upstream.counts
        self._policy, self._forwarded, self._public_base, self._budget = policy, forwarded, public_base, budget
        self.journal: Optional[StoreJournal] = None
        self.sent = self.failed = 0
        self.targets = BatchTargets(upstream.routes, upstream.places)
        # What all requests of a route have, by its prefix.
        self._common: dict[str, dict[str, str]] = {}

    async def send(self, request: PreparedRequest) -> Answer:
        """Sends a request to the service of its route."""
        try:
            route, url = self.targets.found.pop(request.id, None) or self._upstream.routes.target(request.url)
            own = self._policy.own(request.headers) if request.headers else {}
            if not self._upstream.credentials.withheld[route.prefix].isdisjoint(own):
                own = self._upstream.credentials.headers_for([route], own)
            common = self._common.get(route.prefix) or self._common_headers(route)
            outgoing = PreparedRequest(request.id, request.method, url, {**common, **own}, request.body)
            answer = await self.exchange(route, outgoing)
            if URL_HEADERS.isdisjoint(answer.headers):
                return answer
            return self._upstream.routes.public_answer(self._public_base, url, answer)
        except Refusal as refusal:
            self._counts.fault(error_code(refusal.answer))
            raise

    def _common_headers(self, route: Route) -> dict[str, str]:
        found = self._common[route.prefix] = self.headers_for([route], route.upstream, self._policy.inherited)
        return found

    def headers_for(self, routes: Collection[Route], url: str, headers: dict[str, str]) -> dict[str, str]:
        """Returns the headers of a request to a URL: those that the service of its routes gets, and the gateway's."""
        kept = self._upstream.credentials.headers_for(routes, headers)
        return {"accept-encoding": "identity", **kept, **self._forwarded, "host": urlsplit(url).netloc}

    async def exchange(self, route: Route, request: PreparedRequest) -> Answer:
        """Sends a request, and counts and logs it."""
        answer, code = TIMED_OUT, ""  # at the deadline of the batch
        on_answer = None if self._options.on_request is None else self._options.on_request(request)
        began = time.perf_counter()
        self._counts.requests_running += 1
        try:
            answer = await self._upstream.send(route, request, self._budget, self.journal)
            return answer
        except Refusal as refusal:
            answer, code = refusal.answer, error_code(refusal.answer)
            raise
        finally:
            self._counts.requests_running -= 1
            seconds, status = time.perf_counter() - began, answer.status
            if self._counts.has_metrics:
                self._counts.request(route.prefix, request.method, status, seconds)
            self.sent += code not in _UNSENT
            self.failed += not 200 <= status < 400
            if LINES.isEnabledFor(logging.DEBUG):
                words = {"request": request.id, "method": request.method, "url": request.url.partition("?")[0]}
                more = {"status": status, "code": code, "ms": f"{1000 * seconds:.1f}"}
                log_line({**words, **more, "trace": trace_id(request.headers)}, logging.DEBUG)
            if on_answer is not None:
                notify(on_answer, answer)
