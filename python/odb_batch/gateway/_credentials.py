"""Which service gets the headers by which it knows a client, and which headers are the gateway's own."""

from typing import Iterable, Sequence

from ..http.messages import header_dict
from ._routes import Route

#: Headers by which services know a client; the option --credential adds others.
USUAL = ("authorization", "cookie", "api-key", "apikey", "x-access-token", "x-api-key", "x-auth-token")
# What proxies say about a client. The gateway writes the first three anew, and drops the others.
_WRITTEN = frozenset({"x-forwarded-for", "x-forwarded-host", "x-forwarded-proto"})
_OWN = frozenset({"forwarded", "proxy-authorization", "x-real-ip"})
# What a client cannot have removed on the way (RFC 9110, section 7.6.1).
_LASTING = frozenset({"content-type", "host"})
_LASTING_PREFIXES = ("repeatability-", "x-forwarded-")


def is_own(name: str) -> bool:
    """Whether a header, by its name in lower case, is for the gateway and proxies to write."""
    return name in _OWN or name.startswith("x-forwarded-") or name in ("connection", "host")


class ClientHeaders:
    """Reads the headers of the requests that carry batches.

    Args:
        known: The names in lower case of headers by which services or the gateway know a client.
    """

    def __init__(self, known: Iterable[str]) -> None:
        self._lasting = _LASTING.union(known)

    def read(self, given: Iterable[tuple[str, str]]) -> dict[str, str]:
        """Returns headers by their names in lower case, but for those of the connection (RFC 9110, section 7.6.1), and
        for what proxies say in another way than by X-Forwarded-For, -Host and -Proto, unless that is known."""
        headers = header_dict(given)
        of_connection = {name.strip().lower() for name in headers.get("connection", "").split(",")}
        return {name: value for name, value in headers.items() if not self._is_dropped(name, of_connection)}

    def _is_dropped(self, name: str, of_connection: "set[str]") -> bool:
        if name in self._lasting:
            return False
        if name in _OWN or (name.startswith("x-forwarded-") and name not in _WRITTEN):
            return True
        return name in of_connection and not name.startswith(_LASTING_PREFIXES)


class Credentials:
    """Which service gets which credentials.

    Args:
        routes: All routes.
        named: The names in lower case of the headers that are credentials.
        sent: Names of headers with the prefix of the route to which they are sent. If there are none, the one service
            of all routes gets all; of several services none gets any.

    Attributes:
        are_held_back: Whether there are several services, of which none gets any.
        withheld: What the service of a route does not get, by its prefix.
    """

    def __init__(self, routes: Sequence[Route], named: Iterable[str], sent: Sequence[tuple[str, str]]) -> None:
        names = frozenset(named).union(name for name, _ in sent)
        self.are_held_back = not sent and len({route.origin for route in routes}) > 1
        self.withheld: dict[str, frozenset[str]] = {}
        for route in routes:
            own = {name for name, prefix in sent if prefix == route.prefix}
            self.withheld[route.prefix] = names - own if sent or self.are_held_back else frozenset()

    def headers_for(self, routes: Iterable[Route], headers: dict[str, str]) -> dict[str, str]:
        """Returns headers without those that the service of some routes does not get."""
        for route in routes:
            withheld = self.withheld[route.prefix]
            if not withheld.isdisjoint(headers):
                headers = {name: value for name, value in headers.items() if name not in withheld}
        return headers
