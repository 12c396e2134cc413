"""What the values of the gateway's options may be, each as argparse reads it."""

import argparse
import importlib
import re
from dataclasses import replace
from typing import Any, Callable, Mapping, NamedTuple, Union, cast
from urllib.parse import urlsplit

from .. import arguments
from .._native.calls import MAX_WIDTH
from ..arguments import require
from ..driver.execution import MAX_BODY_BYTES
from ..http.batch_request import is_of_connection
from ..http.observation import OnRequest
from ._credentials import is_own
from ._routes import Route, normalize_path

# What cannot say who a client is: it changes, or is about one batch or one connection.
_SAYS_NOT_WHO = frozenset(
    {
        "connection", "content-length", "content-type", "cookie", "date", "host", "prefer", "proxy-authorization",
        "repeatability-first-sent", "repeatability-request-id", "user-agent",
    }
)  # fmt: skip


class Address(NamedTuple):
    """Where a process listens; an empty host is all addresses."""

    host: str
    port: int

    def __str__(self) -> str:
        return f"{self.host}:{self.port}"

    def for_worker(self, number: int) -> "Address":
        """Returns where the worker of a number, from 1 on, listens: each at the port after that of the one before."""
        return self._replace(port=self.port + number - 1)


def _is_service(url: str) -> bool:
    """Whether a URL can be that of a service."""
    try:
        parts = urlsplit(url)
        port = parts.port or 80
    except ValueError:
        return False
    is_plain = re.fullmatch(r"[!-~]+", url) is not None and not set("?#\\") & set(url) and "@" not in parts.netloc
    is_place = _is_host(parts.hostname or "") and port > 0 and ".." not in parts.path.split("/")
    return parts.scheme in ("http", "https") and is_plain and is_place


def _is_host(host: str) -> bool:
    """Whether a host is a name or an address, which can be looked up."""
    label, address = "[A-Za-z0-9_-]{1,63}", r"[0-9A-Fa-f:.]*:[0-9A-Fa-f:.]*(%\w+)?"
    return re.fullmatch(rf"{label}(\.{label})*\.?|{address}", host) is not None


def route(text: str) -> Route:
    """Reads a prefix with the URL that takes its place."""
    prefix, _, url = text.partition("=")
    is_path = re.fullmatch(r"/[!-~]*", prefix) is not None and not set("?#") & set(prefix)
    is_route = is_path and _is_service(url) and ".." not in prefix.split("/")
    require(is_route, text, "PREFIX=URL, such as /odata/Orders=http://localhost:8101/v2/Orders")
    if not urlsplit(url).path:
        url += "/"
    if prefix.endswith("/") != url.endswith("/"):
        raise argparse.ArgumentTypeError(f"{text!r}: the prefix and the URL both end with /, or neither does")
    return Route(normalize_path(prefix), url)


def upstream(text: str) -> Route:
    """Reads the root of a service, whose path is its prefix."""
    require(_is_service(text), text, "a URL, such as http://localhost:8101/odata/")
    root = text if text.endswith("/") else text + "/"
    return Route(normalize_path(urlsplit(root).path), root)


def address(text: str) -> Address:
    """Reads where to listen."""
    host, _, port = text.rpartition(":") if ":" in text else ("127.0.0.1", "", text)
    name = host[1:-1] if re.fullmatch(r"\[.*:.*\]", host) else host
    is_port = re.fullmatch(r"[0-9]{1,5}", port) is not None and int(port) <= 65_535
    require(is_port and (not name or _is_host(name)), text, "a port or HOST:PORT")
    return Address(name, int(port))


def path(text: str) -> str:
    """Reads the path of a URL."""
    require(re.fullmatch(r"/[A-Za-z0-9._~/-]+", text), text, "a path, such as /metrics")
    return text


def header(text: str) -> str:
    """Reads the name of a header, and returns it in lower case."""
    require(re.fullmatch(r"[A-Za-z0-9-]+", text), text, "the name of a header, such as X-Api-Key")
    return text.lower()


def client(text: str) -> str:
    """Reads the name of the header that says who a client is."""
    name = header(text)
    if name in _SAYS_NOT_WHO:
        raise argparse.ArgumentTypeError(f"{text!r} does not say who a client is")
    return name


def credential_route(text: str) -> tuple[str, str]:
    """Reads the name of a header with the prefix of a route."""
    name, _, prefix = text.partition("=")
    require(re.fullmatch(r"/[!-~]*", prefix), text, "HEADER=PREFIX, such as Authorization=/odata/")
    return header(name), normalize_path(prefix)


def inner_header(text: str) -> str:
    """Reads the name of a header that requests of a batch may have."""
    name = header(text)
    if is_own(name) or is_of_connection(name) or name == "cookie":
        raise argparse.ArgumentTypeError(f"{text!r} is for proxies or the gateway to say")
    return name


def metrics(text: str) -> Union[str, Address]:
    """Reads where metrics are answered: a path here, or an address."""
    return path(text) if text.startswith("/") else address(text)


def hook(text: str) -> OnRequest:
    """Reads the name of a function in a module."""
    module, _, name = text.partition(":")
    try:
        function = getattr(importlib.import_module(module), name)
    except Exception as error:
        raise argparse.ArgumentTypeError(f"{text!r}: {type(error).__name__}: {error}") from None
    require(callable(function), text, "MODULE:NAME of a function, such as tracing:on_request")
    return cast(OnRequest, function)


#: How many there are of something, requests at once, bytes of a document, and processes.
number, width, size, workers = map(arguments.whole_number, (1_000_000_000, MAX_WIDTH, MAX_BODY_BYTES, 256))
#: How long something takes.
seconds = arguments.seconds()

_LIMITS: Mapping[str, Callable[[str], Any]] = {"timeout": seconds, "connections": number}
_TLS = ("ca", "certificate", "key")


def route_table(given: Mapping[str, Any]) -> tuple[Route, list[tuple[str, str]]]:
    """Reads a route of a file, which may have limits, credentials and TLS of its own; and which credentials it gets."""
    for name in given:
        if name not in ("url", "prefix", "send", *_LIMITS, *_TLS):
            raise argparse.ArgumentTypeError(f"{name} is not a member of a route")
    url, prefix = str(given.get("url", "")), given.get("prefix")
    plain = upstream(url) if prefix is None else route(f"{prefix}={url}")
    limits = {name: read(str(given[name])) for name, read in _LIMITS.items() if name in given}
    files: dict[str, Any] = {name: str(given[name]) for name in _TLS if name in given}
    if files and not url.startswith("https:"):
        raise argparse.ArgumentTypeError(f"{plain.prefix}: {', '.join(files)}: only for https")
    if "key" in files and "certificate" not in files:
        raise argparse.ArgumentTypeError(f"{plain.prefix}: key without certificate")
    names = given.get("send", [])
    sent = [(header(str(name)), plain.prefix) for name in (names if isinstance(names, list) else [names])]
    return replace(plain, **limits, **files), sent
