"""Why services have not answered: in a word, and as lines of the log."""

import asyncio
import socket
import ssl
import time
from collections import Counter
from urllib.parse import urlsplit

import aiohttp

from ..http.messages import Answer
from ._log import log_line

# What each error is called; of several that fit the first one counts.
_REASONS = (
    (ssl.CertificateError, "certificate"), (ssl.SSLError, "tls"), (socket.gaierror, "dns"),
    (ConnectionRefusedError, "refused"), (asyncio.TimeoutError, "timeout"),
    (aiohttp.ClientConnectorError, "unreachable"), (aiohttp.ClientResponseError, "not-http"),
)  # fmt: skip
# How many seconds lie between two lines about one service.
_SECONDS = 1.0


def error_code(answer: Answer) -> str:
    """Returns the code of the error in an answer of the gateway."""
    return str(answer.body["error"]["code"])


def failure_reason(error: BaseException) -> str:
    """Returns in a word why there is no answer."""
    cause = getattr(error, "os_error", None) or getattr(error, "certificate_error", None) or error
    return next((word for kind, word in _REASONS if isinstance(cause, kind) or isinstance(error, kind)), "cut")


class FailureLog:
    """Writes lines of the log about services that have not answered, for each at most one a second."""

    def __init__(self) -> None:
        # Services by their routes, so there are few: when there was a line, and how many were left out since.
        self._last: dict[str, float] = {}
        self._left_out: "Counter[str]" = Counter()

    def write(self, url: str, code: str, reason: str, detail: object = "") -> None:
        """Logs why there is no answer from a URL, unless there was a line about its service just now."""
        service, now = "{0.scheme}://{0.netloc}".format(urlsplit(url)), time.monotonic()
        if now - self._last.get(service, now - _SECONDS) < _SECONDS:
            self._left_out[service] += 1
            return
        self._last[service] = now
        more = self._left_out.pop(service, "")
        log_line({"service": service, "code": code, "reason": reason, "error": detail, "more": more})
