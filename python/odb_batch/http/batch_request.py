"""The HTTP request that carries a batch: how the batch is performed, where its requests lead, and which headers they have."""

import re
import threading
from dataclasses import dataclass
from ipaddress import IPv6Address
from typing import Iterable, Mapping
from urllib.parse import quote

from .._native.calls import Mode
from .._native.constants import listed_names
from ..values import Value
from .bodies import media_type
from .messages import LOG, Refusal, rejection

_FORWARDED = re.compile(r'host="?([^";,\s]+)', re.IGNORECASE)
# How many hosts of a header count. There are as many as proxies; a client may send thousands, and each URL is compared with all.
_MAX_HOSTS = 16
# What stays as it is in a path.
_PLAIN = "/$()'*,;=@:!&+~"
_IS_HOST = re.compile(r"[A-Za-z0-9._~-]*|\[[0-9A-Fa-f:.]+\]").fullmatch
# What a batch has for itself: its requests do not inherit it.
_NOT_INHERITED = frozenset(listed_names("headers", "not_inherited"))
_NOT_INHERITED_PREFIXES = listed_names("headers", "not_inherited_prefixes")
# What a request of a batch may say for itself. Another header could be one by which a proxy says who the client is.
_ALLOWED, _ALLOWED_PREFIXES = frozenset(listed_names("headers", "allowed")), listed_names("headers", "allowed_prefixes")
# What clients set on each request by themselves: of a request of a batch it is dropped. The first are of a connection,
# which such a request has not; the others may be allowed.
_OF_CONNECTION, _USUALLY_DROPPED = (
    frozenset(listed_names("headers", name)) for name in ("of_connection", "usually_dropped")
)
# The headers of which the log has a line; a client chooses names, so they are not many.
_WARNED: set[str] = set()
_WARNED_LOCK, _MAX_WARNED = threading.Lock(), 100
# What a header may have for a value: Latin-1 without control characters but a tab (RFC 9110, section 5.5).
_IS_FIELD_VALUE = re.compile("[\t -~\xa0-\xff]*").fullmatch
_PREFERENCES = re.compile(r'(?:[^,"]|"[^"]*"?)+')
# The preferences that are for the batch alone.
_OF_BATCH = frozenset(listed_names("preferences"))


def batch_folder(path: str) -> str:
    """Returns the path that the URLs of a batch are relative to, by the path where batches are sent."""
    return path[: path.rindex("/") + 1]


class BatchRequest:
    """The HTTP request that carries a batch.

    Args:
        method: Its method in upper case.
        scheme, host: Of its URL; the host with the port, if that is not the usual one.
        folder: The decoded path that URLs in the batch are relative to. It ends with /.
        root: The decoded path that each URL has to begin with. It ends with /.
        headers: Its headers by their names in lower case.
        allowed: The names of further headers that requests may have.
        is_kept: Whether the batch is kept, so that its client may send it again.

    Attributes:
        mode: How the batch is performed: ``"stop"``, unless the client prefers to continue on error (OData Protocol
            4.01, section 8.2.8.3).
        base: The folder as a URL.
        headers: The headers of its requests.
        roots: The root as URLs: a client and the application may write them with the scheme and the host that a proxy
            in front has. Whatever they are, a request is dispatched here, by its path.

    Raises:
        Refusal: The method is not POST (405), the body is not in JSON or is compressed (415), or the host is not one
            (400). Or it may be sent again (OASIS Repeatable Requests Version 1.0), and is not kept (501).
    """

    def __init__(
        self,
        method: str,
        scheme: str,
        host: str,
        folder: str,
        root: str,
        headers: Mapping[str, str],
        allowed: Iterable[str] = (),
        is_kept: bool = True,
    ) -> None:
        if method != "POST":
            raise Refusal(405, "NotAllowed", f"{method} does not apply to a batch", allow="POST")
        if media_type(headers) != "application/json":
            raise Refusal(415, "BadMediaType", "A batch is in application/json", accept="application/json")
        _require_identity(headers)
        if not _is_authority(host):
            raise Refusal(400, "BadHost", "The host is not a name with a port")
        if not is_kept and any(name.startswith("repeatability-") for name in headers):
            raise rejection(501, "NotRepeatable", "Batches are not kept here, so they cannot be repeated")
        self.base = f"{scheme}://{host}{quote(folder, _PLAIN)}"
        hosts = dict.fromkeys((host, *forwarded_hosts(headers)))
        self.roots = [f"{prefix}://{name}{quote(root, _PLAIN)}" for name in hosts for prefix in ("http", "https")]
        wanted = preferences(headers)
        continues = next((preference.value for preference in wanted if preference.name == "continue-on-error"), None)
        self.mode: Mode = "continue" if continues in ("", "true") else "stop"
        self.headers = HeaderPolicy(headers, wanted, allowed)


def forwarded_hosts(headers: Mapping[str, str]) -> list[str]:
    """Returns the hosts that a client has asked, by what proxies say."""
    named = headers.get("x-forwarded-host", "").split(",")[:_MAX_HOSTS]
    named += _FORWARDED.findall(headers.get("forwarded", ""))[:_MAX_HOSTS]
    return [host for host in map(str.strip, named) if host and _is_authority(host)]


def _is_authority(host: str) -> bool:
    name, _, _ = host.rpartition(":") if re.search(r":[0-9]*$", host) and not host.endswith("]") else (host, "", "")
    try:
        if name.startswith("["):
            IPv6Address(name[1:-1])
    except ValueError:
        return False
    return _IS_HOST(name) is not None


@dataclass(frozen=True)
class Preference(Value):
    """A preference of RFC 7240: its name without ``odata.``, its value, both in lower case, and its text."""

    name: str
    value: str
    text: str


def preferences(headers: Mapping[str, str]) -> list[Preference]:
    """Returns the preferences of a request in order."""
    found = []
    for part in _PREFERENCES.findall(headers.get("prefer", "")):
        name, _, value = part.partition(";")[0].partition("=")
        name = name.strip().lower()
        name = name[6:] if name.startswith("odata.") else name
        found.append(Preference(name, value.strip().strip('"').lower(), part.strip()))
    return found


class HeaderPolicy:
    """Which headers the requests of a batch have.

    Args:
        headers: Those of the batch, by their names in lower case.
        preferences: The preferences among them.
        allowed: The names of further headers that requests may have.

    Attributes:
        inherited: The headers of the batch that hold for each of its requests.
    """

    def __init__(self, headers: Mapping[str, str], preferences: Iterable[Preference], allowed: Iterable[str]) -> None:
        added = frozenset(map(str.lower, allowed))
        self._allowed, self._dropped = _ALLOWED | added, _OF_CONNECTION | (_USUALLY_DROPPED - added)
        self._prefer = [preference.text for preference in preferences if preference.name not in _OF_BATCH]
        self.inherited = {name: value for name, value in headers.items() if _is_inherited(name)}
        if self._prefer:
            self.inherited["prefer"] = ", ".join(self._prefer)

    def for_request(self, headers: Mapping[str, str]) -> dict[str, str]:
        """Returns the headers of a request of the batch, with those that it inherits.

        Raises:
            Refusal: It has a header that it may not have (400 ``HeaderNotAllowed``), or one with a character that may
                not be in a header (400 ``BadHeader``).
        """
        return {**self.inherited, **self.own(headers)}

    def for_batch(self) -> dict[str, str]:
        """Returns the headers of a batch that has some of the requests of this one, which go to a service as one."""
        prefer = ", ".join(["continue-on-error", *self._prefer])
        return {**self.inherited, "content-type": "application/json", "accept": "application/json", "prefer": prefer}

    def own(self, given: Mapping[str, str]) -> dict[str, str]:
        """Returns what a request of the batch adds to the headers that it inherits; raises Refusal as `for_request`."""
        headers = {}
        for name, value in given.items():
            if name in self._dropped:
                continue
            if name not in self._allowed and not name.startswith(_ALLOWED_PREFIXES):
                _warn_of(name)
                raise Refusal(400, "HeaderNotAllowed", f"A request of a batch may not have the header {name}", name)
            if _IS_FIELD_VALUE(value) is None:
                raise Refusal(400, "BadHeader", f"The header {name} has a character that it may not have", name)
            headers[name] = ", ".join([value, *self._prefer]) if name == "prefer" else value
        return headers


def is_of_connection(name: str) -> bool:
    """Returns whether no request of a batch has a header, by its name in lower case: it is dropped even if it is allowed."""
    return name in _OF_CONNECTION


def _warn_of(name: str) -> None:
    """Logs once in a process that requests have a header that is not allowed: clients may need it."""
    with _WARNED_LOCK:
        if name in _WARNED or len(_WARNED) >= _MAX_WARNED:
            return
        _WARNED.add(name)
    LOG.warning("requests of batches have the header %s, which is not allowed; this is logged once", name)


def _require_identity(headers: Mapping[str, str]) -> None:
    """Raises Refusal if a body is compressed: what it would inflate to is not bounded."""
    codings = {coding.strip().lower() for coding in headers.get("content-encoding", "").split(",")}
    if not codings <= {"", "identity"}:
        raise Refusal(415, "BadEncoding", "A batch may not have a Content-Encoding", accept_encoding="identity")


def _is_inherited(name: str) -> bool:
    return name not in _NOT_INHERITED and not name.startswith(_NOT_INHERITED_PREFIXES)
