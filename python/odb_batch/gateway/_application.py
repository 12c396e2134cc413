"""The gateway as an application of aiohttp: batches, probes and metrics."""

import asyncio
import contextlib
import itertools
import time
from dataclasses import replace
from typing import AsyncContextManager, AsyncIterator, Awaitable, Optional, cast

from aiohttp import web

from ..driver.execution import either
from ..errors.faults import Fault
from ..http.batch_request import BatchRequest, batch_folder, forwarded_hosts
from ..http.budget import BodyBudget, MemoryBudget
from ..http.messages import FAILED, LOG, Answer, Refusal
from ..http.responses import error_response, length_refusal, wire_message
from ..journals import Journals, StoreJournal, digest, identity, store_of
from ._batch import GatewayBatch
from ._credentials import ClientHeaders
from ._failures import error_code
from ._log import BATCH, log_line, trace_id
from ._metrics import Counts, Metrics
from ._options import Options
from ._repeatability import AHEAD, FIRST_SENT, Repeatability
from ._upstream import UpstreamClient

# For how many seconds the body of a batch is waited for.
_READ_SECONDS = 30.0
# For how many seconds a client may take to read a response.
_WRITE_SECONDS = 300.0


async def wait_for_first(*waits: Awaitable[object], timeout: Optional[float] = None) -> None:
    """Returns once something has come that is waited for, or none in time; raises what that has raised."""
    ends = [asyncio.ensure_future(wait) for wait in waits]
    done, rest = await asyncio.wait(ends, timeout=timeout, return_when=asyncio.FIRST_COMPLETED)
    for end in rest:
        end.cancel()
    for end in done:
        end.result()


class Gateway:
    """Answers batches, probes and questions for metrics.

    Args:
        options: What it does.
    """

    def __init__(self, options: Options) -> None:
        self._options = options
        self._budget = MemoryBudget(options.memory)
        self._metrics = None if options.metrics is None else Metrics(options, self._budget)
        self._counts = self._metrics or Counts()
        self._upstream = UpstreamClient(options, self._counts)
        own = [options.client_header] if options.client_header else []
        self._client_headers = ClientHeaders((*options.credentials, *dict(options.send), *own))
        self._repeatability = Repeatability(options)
        self._numbers = itertools.count(1)
        self._ended: Optional[asyncio.Event] = None
        self._journals: Optional[Journals] = None
        if options.journal:
            store = store_of(options.journal, options.lease, options.journal_size * 1_048_576)
            self._journals = Journals(store, options.keep, AHEAD)
            self._counts.watch_journals(self._journals)

    @property
    def notice(self) -> str:
        """What an operator should know at the start, in a line; empty if there is nothing."""
        held_back = "there are several services, and none gets Authorization, Cookie and the like: see --send"
        return held_back if self._upstream.credentials.are_held_back else ""

    async def wait_until_broken(self) -> None:
        """Waits for ever, or raises OSError once the journal turns out to be unusable."""
        await (asyncio.shield(self._journals.broken) if self._journals is not None else asyncio.Event().wait())

    def application(self) -> web.Application:
        """Returns the application that answers batches."""
        app = web.Application()
        app.router.add_get(self._options.health, self._handle_health)
        app.router.add_get(self._options.health + "/ready", self._handle_readiness)
        if isinstance(self._options.metrics, str):
            app.router.add_get(self._options.metrics, self._handle_metrics)
        app.router.add_route("*", "/{path:.*}", self._handle)
        app.cleanup_ctx.append(self._run)
        return app

    def metrics_application(self) -> web.Application:
        """Returns the application that answers at the port of the metrics."""
        app = web.Application()
        app.router.add_get("/metrics", self._handle_metrics)
        return app

    async def stop(self, hurry: asyncio.Event) -> None:
        """Starts nothing more, and returns once all batches are answered. What runs is waited for until the option
        --grace, or until there is a hurry, and then broken off."""
        self._upstream.stopping.set()
        self._log_event("stopping")
        await wait_for_first(self._wait_until_idle(), hurry.wait(), timeout=self._options.grace)
        await self._upstream.break_off()
        with contextlib.suppress(asyncio.TimeoutError):
            await asyncio.wait_for(self._wait_until_idle(), 5)
        self._log_event("stopped")

    def _log_event(self, name: str) -> None:
        running = {"batches": self._counts.batches_running, "requests": self._counts.requests_running}
        log_line({"gateway": name, **running})

    async def _wait_until_idle(self) -> None:
        while self._counts.batches_running:
            self._ended = asyncio.Event()
            await self._ended.wait()

    async def _run(self, _: web.Application) -> AsyncIterator[None]:
        """Opens what the gateway needs, and closes it at the end."""
        if self._journals is not None:
            await self._journals.open()
        await self._upstream.open()
        yield
        if self._journals is not None:
            await self._journals.close()
        await self._upstream.close()

    # Probes and metrics

    async def _handle_health(self, _: web.Request) -> web.Response:
        return web.Response(text="ok\n")

    async def _handle_readiness(self, _: web.Request) -> web.Response:
        is_cut = self._journals is not None and not self._journals.is_ready
        trouble = "stopping" if self._upstream.stopping.is_set() else "the journal cannot be reached" if is_cut else ""
        return web.Response(text=f"{trouble or 'ok'}\n", status=503 if trouble else 200)

    async def _handle_metrics(self, _: web.Request) -> web.Response:
        kind, text = cast(Metrics, self._metrics).page()
        return web.Response(body=text, headers={"Content-Type": kind})

    # Batches

    async def _handle(self, request: web.Request) -> web.Response:
        if not request.path.endswith("/$batch"):
            return _web_response(Refusal(404, "NotFound", "Only $batch is answered here").answer)
        # A response that is not sent yet is still in memory.
        with BodyBudget(self._options.max_size, self._budget) as budget:
            response = _web_response(await self._answer(request, budget))
            # A timer costs less than a task, which waiting by a function of asyncio has.
            timer = asyncio.get_running_loop().call_later(_WRITE_SECONDS, _abort, request)
            try:
                await response.prepare(request)
                await response.write_eof()
            except ConnectionError:
                pass
            finally:
                timer.cancel()
        return response

    async def _answer(self, request: web.Request, budget: BodyBudget) -> Answer:
        """Returns what a batch is answered; counts it and writes a line of the log."""
        began, code, batch = time.perf_counter(), "", None
        context: dict[str, object] = {"number": next(self._numbers), "from": request.remote or ""}
        BATCH.set(context)
        try:
            headers = self._headers(request)
            context.update(client=self._logged_client(headers), trace=trace_id(headers))
            batch = self._batch(request, headers, budget)
            answer = await self._perform(request, headers, batch, budget)
        except (Fault, Refusal) as error:
            answer = error_response(error)
        except Exception as error:
            LOG.error("a batch failed", exc_info=error)
            answer = FAILED
        if answer.status != 200:
            code = error_code(answer)
            self._counts.fault(code)
        seconds = time.perf_counter() - began
        self._counts.batch(answer.status, seconds)
        words = {"batch": request.rel_url.raw_path, "method": request.method, "status": answer.status, "code": code}
        counts = batch.log_words() if batch is not None else {}
        size = len(answer.body) if isinstance(answer.body, bytes) else ""
        gone = "yes" if request.transport is None else ""
        log_line({**words, **counts, "bytes": size, "gone": gone, "ms": f"{1000 * seconds:.1f}"})
        return answer

    def _logged_client(self, headers: dict[str, str]) -> str:
        """Returns who the client is, as the log has it: no credential."""
        name = self._options.client_header
        return "" if name is None or name in self._options.credentials else headers.get(name, "")

    def _headers(self, request: web.Request) -> dict[str, str]:
        """Returns the headers of a request that hold for its batch."""
        headers = self._client_headers.read(request.headers.items())
        try:
            "".join((request.path, *headers.values())).encode()
        except UnicodeEncodeError:
            raise Refusal(400, "BadHeader", "The URL or a header has bytes that are not UTF-8") from None
        return headers

    def _batch(self, request: web.Request, headers: dict[str, str], budget: BodyBudget) -> GatewayBatch:
        """Returns the batch of a request before it is read; raises Refusal if it is not one."""
        scheme = headers.get("x-forwarded-proto", "").partition(",")[0].strip().lower()
        scheme = scheme if scheme in ("http", "https") else request.scheme
        host = headers.get("host") or "localhost"  # for a request without one aiohttp would ask the DNS
        folder = batch_folder(request.path)
        batch_request = BatchRequest(request.method, scheme, host, folder, "/", headers, self._options.allow)
        peers = filter(None, (headers.get("x-forwarded-for"), request.remote))
        forwarded = {
            "x-forwarded-for": ", ".join(peers),
            "x-forwarded-host": headers.get("x-forwarded-host", host),
            "x-forwarded-proto": scheme,
        }
        public_base = f"{scheme}://{next(iter(forwarded_hosts(headers)), host)}/"
        return GatewayBatch(self._options, self._upstream, batch_request, forwarded, public_base, budget)

    async def _perform(
        self, request: web.Request, headers: dict[str, str], batch: GatewayBatch, budget: BodyBudget
    ) -> Answer:
        """Reads and performs a batch; raises what it is refused by."""
        self._require_running()
        if self._counts.batches_running >= self._options.batches:
            raise Refusal(503, "Busy", "There are as many batches as may be at once", retry_after="1")
        name = self._repeatability.read(headers)
        self._counts.batches_running += 1
        try:
            document = await self._read(request, budget)
            self._require_running()
            if self._journals is not None and name is not None:
                same = (request.path, str(self._options.groups == "forward"), headers.get("prefer", ""))
                parts = {"sender": digest(*map(str.encode, same)), "sent": headers[FIRST_SENT]}
                first = identity(batch=digest(document), mode=batch.mode, **parts)
                opening = self._journals.journal(name, first, budget.hold)
                return await self._continue(digest(name), opening, document, batch)
            if request.transport is None:
                raise Refusal(400, "CutBody", "The client has hung up")
            stop = either(self._upstream.stopping.is_set, request.transport.is_closing)
            return await batch.perform(document, None, stop)
        finally:
            self._counts.batches_running -= 1
            if self._ended is not None:
                self._ended.set()

    def _require_running(self) -> None:
        if self._upstream.stopping.is_set():
            raise Refusal(503, "Stopping", "The gateway stops", retry_after="1")

    async def _continue(
        self, name: str, opening: AsyncContextManager[StoreJournal], document: bytes, batch: GatewayBatch
    ) -> Answer:
        """Performs a batch that may be sent again, or what is left of it."""
        journal: Optional[StoreJournal] = None
        try:
            async with opening as journal:
                batch.is_repeated = bool(journal.events)
                answer = await batch.perform(document, journal, self._upstream.stopping.is_set)
            return replace(answer, headers={**answer.headers, "repeatability-result": "accepted"})
        except Fault:
            raise
        except (OSError, ValueError) as error:
            LOG.error("the journal %s: %s", name, error)
            if isinstance(error, OSError) and not (journal is not None and journal.has_kept):
                raise Refusal(503, "NoJournal", "The journal cannot be reached", retry_after="1") from None
            raise Refusal(500, "BadJournal", "The journal of the batch cannot be read or written") from None

    async def _read(self, request: web.Request, budget: BodyBudget) -> bytes:
        """Reads a batch, whose bytes are reserved as they come.

        Raises:
            Refusal: They are too many (413), or there is no room for them (503). The batch does not come in time (408),
                or not to its end (400).
        """
        document, content, limit = bytearray(), request.content, self._options.max_size
        timer = asyncio.get_running_loop().call_later(_READ_SECONDS, content.set_exception, asyncio.TimeoutError())
        try:
            while part := await content.readany():
                if len(document) + len(part) > limit:
                    raise length_refusal(limit)
                budget.hold(len(part))
                document += part
            return bytes(document)
        except Refusal:
            raise
        except asyncio.TimeoutError:
            raise Refusal(408, "CutBody", "The batch did not come in time") from None
        except Exception:
            raise Refusal(400, "CutBody", "The batch cannot be read to its end") from None
        finally:
            timer.cancel()


def _abort(request: web.Request) -> None:
    """Ends the connection of a client that does not read its response."""
    if request.transport is not None:
        request.transport.abort()


def _web_response(answer: Answer) -> web.Response:
    headers, body = wire_message(answer)
    return web.Response(status=answer.status, headers={**headers, "server": "odb_batch"}, body=body)
