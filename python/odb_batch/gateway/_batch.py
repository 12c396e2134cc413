"""One batch on its way through the gateway: its requests and its groups, as they are sent to services."""

import re
from dataclasses import replace
from typing import Callable, Optional
from urllib.parse import urlsplit

from ..documents.requests import Request
from ..driver.groups import MemberRefused, PreparedGroup
from ..driver.tasks import perform_async
from ..http.batch_request import BatchRequest, batch_folder
from ..http.budget import BodyBudget
from ..http.messages import Answer, PreparedRequest, Refusal
from ..http.responses import batch_response
from ..journals import StoreJournal
from ._failures import error_code
from ._options import Options
from ._routes import Route
from ._upstream import ServiceRequests, UpstreamClient

# What is no relative URL of a path, but a reference, a query, a path or a scheme.
_IS_READ_OTHERWISE = re.compile(r"[$?/]|[A-Za-z][A-Za-z0-9+.-]*:|$").match


class GatewayBatch:
    """Performs one batch.

    Args:
        options: Those of the gateway.
        upstream: Sends its requests.
        batch_request: The HTTP request that carries it.
        forwarded: The headers by which services see who has sent it.
        public_base: A URL with the scheme and the host that the client has asked, as services see them.
        budget: What the batch may hold in memory.

    Attributes:
        mode: How it is performed.
        is_repeated: Whether it goes on from a journal.
    """

    def __init__(
        self, options: Options, upstream: UpstreamClient, batch_request: BatchRequest, forwarded: dict[str, str],
        public_base: str, budget: BodyBudget,
    ) -> None:  # fmt: skip
        self._options, self._upstream, self._batch_request, self._public_base = options, upstream, batch_request, public_base
        self._requests = ServiceRequests(upstream, options, batch_request.headers, forwarded, public_base, budget)
        self.mode = batch_request.mode
        self.is_repeated = False

    async def perform(self, batch: bytes, journal: Optional[StoreJournal], stop: Optional[Callable[[], bool]]) -> Answer:
        """Returns the answer to the batch; raises as `perform_async` does.

        Args:
            batch: The batch.
            journal: Its journal, if it may be sent again.
            stop: Whether nothing more is to start.
        """
        self._requests.journal = journal
        response = await perform_async(
            batch,
            self._requests.send,
            mode=self.mode,
            width=self._options.width,
            base=self._batch_request.base,
            roots=self._batch_request.roots,
            limit=self._options.limit,
            stop=stop,
            deadline=self._options.deadline,
            gate=self._requests.targets.gate,
            groups=self._send_group if self._options.groups == "forward" else None,
            journal=journal,
        )
        return batch_response(response, self.mode)

    def log_words(self) -> dict[str, object]:
        """Returns what the line of the batch in the log has of its requests."""
        repeated = "repeated" if self.is_repeated else ""
        return {"sent": self._requests.sent, "failed": self._requests.failed, "journal": repeated}

    async def _send_group(self, group: PreparedGroup) -> list[Answer]:
        """Sends a group as a batch to the one service of its requests."""
        targets: dict[str, tuple[Route, str]] = {}
        try:
            members = [self._member(request, targets) for request in group.requests]
            routes = {route.prefix: route for route, _ in targets.values()}.values()
            url, *others = {route.service for route in routes}
            route, *_ = routes
            if others:
                raise Refusal(501, "SeveralServices", "The requests of an atomicity group go to several services")
            of_service = self._upstream.credentials.headers_for
            members = [replace(member, headers=of_service(routes, member.headers)) for member in members]
            group = replace(group, requests=tuple(members))
            headers = self._requests.headers_for(routes, url, self._batch_request.headers.for_batch())
            answer = await self._requests.exchange(route, PreparedRequest(group.name, "POST", url, headers, group.batch()))
            if answer.status in (404, 405):
                self._upstream.failures.write(url, "NoBatch", "no-batch")
                raise Refusal(502, "NoBatch", f"There is no $batch at {url}")
        except (Refusal, MemberRefused) as refused:
            self._upstream.counts.fault(error_code(refused.answer))
            raise
        answers = group.answers(answer)
        if any(answer.status == 502 and "'BadResponse'" in str(answer.body) for answer in answers):
            self._upstream.failures.write(url, "BadResponse", "no-response")
        urls = [targets[request.id][1] if request.id in targets else url for request in group.requests]
        public = self._upstream.routes.public_answer
        return [public(self._public_base, sent, answer) for sent, answer in zip(urls, answers)]

    def _member(self, request: Request, targets: dict[str, tuple[Route, str]]) -> Request:
        """Returns a request of a group as its service takes it; notes its route and its URL if it refers to none of the
        group."""
        try:
            headers = self._batch_request.headers.own(request.headers)
            if request.reference is not None:
                return replace(request, headers=headers)
            route, url = targets[request.id] = self._upstream.routes.target(request.url)
        except Refusal as refusal:
            raise MemberRefused(request.id, refusal.answer) from None
        inside = url[len(batch_folder(route.service)) :]
        if _IS_READ_OTHERWISE(inside):
            parts = urlsplit(url)
            inside = parts.path + (f"?{parts.query}" if parts.query else "")
        return replace(request, url=inside, headers=headers)
