"""Where the requests of a batch go: services by the prefixes of paths, and back."""

import contextlib
import re
from dataclasses import dataclass, replace
from typing import Any, AsyncContextManager, Iterable, Mapping, Optional, Union
from urllib.parse import SplitResult, urljoin, urlsplit, urlunsplit

from ..driver.groups import PreparedGroup
from ..driver.unit_tasks import Places
from ..http.batch_request import batch_folder
from ..http.messages import Answer, PreparedRequest, Refusal

_ESCAPE = re.compile("%[0-9A-Fa-f]{2}")
# What may be escaped in a path without another meaning (RFC 3986, section 2.4; OData URL Conventions 4.01, section 2).
_PLAIN = "ABCDEFGHIJKLMNOPQRSTUVWXYZabcdefghijklmnopqrstuvwxyz0123456789-._~!$'()*+,:=@&"
_UNESCAPED = {f"%{ord(character):02X}": character for character in _PLAIN}
# The path of a batch, also with what some servers drop.
_IS_BATCH = re.compile(r"/\$batch((;|%3B)[^/]*)?/*$").search
# What may follow a prefix: the key of an entity, or a further segment.
_ENDS = ("", "/", "(")
_PORTS = {"http": 80, "https": 443}
#: The headers of an answer that have a URL.
URL_HEADERS = frozenset({"location", "content-location", "odata-entityid"})


def normalize_path(path: str) -> str:
    """Returns a path in ASCII in which nothing is escaped that need not be, so that prefixes can be compared."""
    return _ESCAPE.sub(lambda escape: _UNESCAPED.get(escape[0].upper(), escape[0].upper()), path)


@dataclass(frozen=True)
class Route:
    """Where the requests go whose path begins with a prefix.

    Attributes:
        prefix: The normalized prefix. If it does not end with /, a key or a further segment may follow.
        upstream: The URL that takes its place. It ends with / if the prefix does.
        timeout, connections: In place of the options of all routes.
        ca: A file with the certificates by which the service is known; empty for those of the system.
        certificate, key: Files by which the gateway says who it is; the key may be in the first one.
    """

    prefix: str
    upstream: str
    timeout: Optional[float] = None
    connections: Optional[int] = None
    ca: str = ""
    certificate: str = ""
    key: str = ""

    @property
    def service(self) -> str:
        """The URL of the service's $batch: in the folder of the upstream URL."""
        return batch_folder(self.upstream) + "$batch"

    @property
    def origin(self) -> str:
        """The scheme and the host of the upstream URL: what names its service."""
        return "/".join(self.upstream.split("/", 3)[:3])

    @property
    def line(self) -> str:
        """Names the requests that wait for the same connections: those of its service, or its own if it has a limit."""
        return self.origin if self.connections is None else self.prefix


class Routes:
    """Routes, of which the longest prefix counts."""

    def __init__(self, routes: Iterable[Route]) -> None:
        self._routes = sorted(routes, key=lambda route: len(route.prefix), reverse=True)
        self._by_upstream: list[tuple[str, str, Route]] = []
        for route in sorted(self._routes, key=lambda route: len(route.upstream), reverse=True):
            parts = urlsplit(route.upstream)
            self._by_upstream.append((_host(parts), normalize_path(parts.path), route))

    def target(self, url: str) -> tuple[Route, str]:
        """Returns the route of a URL that clients see, and the URL that is sent.

        Raises:
            Refusal: No route takes it: 404 ``NoRoute``. It is that of a batch: 400 ``NestedBatch``.
        """
        parts = urlsplit(url)
        path = normalize_path(parts.path)
        if _IS_BATCH(path):
            raise Refusal(400, "NestedBatch", "A batch has no batches")
        route = self._route(path)
        if route is None:
            raise Refusal(404, "NoRoute", f"No service is behind {path}")
        query = f"?{parts.query}" if parts.query else ""
        return route, route.upstream + path[len(route.prefix) :] + query

    def _route(self, path: str) -> Optional[Route]:
        return next((route for route in self._routes if _takes(route.prefix, path)), None)

    def public(self, base: str, request_url: str, location: str) -> str:
        """Returns a URL in the answer of a service as clients see it; that itself if no route leads there. One without a
        host stays without.

        Args:
            base: A URL that clients see.
            request_url: The URL to which the request was sent.
            location: The URL in the answer, which may be relative to it.
        """
        try:
            given, whole, client = urlsplit(location), urlsplit(urljoin(request_url, location)), urlsplit(base)
            host = _host(whole)
        except ValueError:
            return location
        path = normalize_path(whole.path)
        if host == _host(client):
            # A service that knows the host of the clients may know their paths, too.
            if self._route(path) is not None:
                return location
            host = _host(urlsplit(request_url))
        for known, prefix, route in self._by_upstream:
            if known == host and _takes(prefix, path):
                path = route.prefix + path[len(prefix) :]
                # Without its host a path that begins with // would name another one.
                front = client[:2] if given.netloc or path.startswith("//") else ("", "")
                return urlunsplit((*front, path, whole.query, whole.fragment))
        return location

    def public_answer(self, base: str, request_url: str, answer: Answer) -> Answer:
        """Returns an answer of a service with the URLs in its headers as clients see them; the arguments are as of `public`."""
        headers = dict(answer.headers)
        for name in URL_HEADERS & headers.keys():
            headers[name] = self.public(base, request_url, headers[name])
        return replace(answer, headers=headers)


class BatchTargets:
    """Where the requests of one batch go: the route of each is found once, when its place is asked for.

    Args:
        routes: All routes.
        places: What bounds the requests to the service of a route, by its prefix.

    Attributes:
        found: The routes that were found, with the URL that is sent, by the ids of the requests.
    """

    def __init__(self, routes: Routes, places: Mapping[str, Places]) -> None:
        self._routes, self._places = routes, places
        self.found: dict[str, Optional[tuple[Route, str]]] = {}

    def gate(self, outgoing: Union[PreparedRequest, PreparedGroup]) -> AsyncContextManager[Any]:
        """Returns what bounds the requests to the service of a request or a group; nothing if no route takes that."""
        try:
            if isinstance(outgoing, PreparedGroup):
                first = next(request for request in outgoing.requests if request.reference is None)
                route, _ = self._routes.target(first.url)
            else:
                route, _ = self.found[outgoing.id] = self._routes.target(outgoing.url)
        except Refusal:
            return contextlib.AsyncExitStack()
        return self._places[route.prefix]


def _takes(prefix: str, path: str) -> bool:
    """Whether a normalized path is at a prefix or below."""
    return path.startswith(prefix) and (prefix.endswith("/") or path[len(prefix) :][:1] in _ENDS)


def _host(parts: SplitResult) -> str:
    """The host of a URL with its port; raises ValueError if that is not one."""
    return f"{parts.hostname}:{parts.port or _PORTS.get(parts.scheme)}"
