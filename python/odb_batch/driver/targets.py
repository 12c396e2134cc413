"""Where the requests of a batch are sent: below roots, which the library sees to, or anywhere."""

import ctypes
import re
import threading
from typing import Optional, Sequence, Union
from urllib.parse import quote, unquote, urljoin, urlsplit, urlunsplit

from .._native import library
from .._native.calls import MORE, status_error
from ..http.messages import Refusal

# What stays as it is in a URL, apart from letters, digits, - . _ and ~.
_PLAIN = "!$%&'()*+,/:;=@"
# The scheme and the host of a root, and its path.
_ROOT = re.compile(
    r"([a-z][a-z0-9+.-]*://[a-z0-9._~!$&'()*+,;=:%\[\]-]+)(/(?:[^?#]*/)?)", re.ASCII | re.IGNORECASE
).fullmatch
_HAS_SCHEME = re.compile("[A-Za-z][A-Za-z0-9+.-]*:").match
# A path that is appended to its base as it is, since urljoin takes its time, and drops empty segments.
_IS_RELATIVE = re.compile(r"[^/:?#.\\]+(/[^/:?#.\\]*)*(\?[^#]*)?").fullmatch


class ServiceTargets:
    """Where requests are sent that may lead below roots alone: `odb_resolve` has the rules.

    Args:
        base: The URL that their URLs are relative to; without it they have to be absolute.
        roots: What the URL of each has to begin with, one of these.

    Raises:
        ValueError: One of these is not an absolute URL that ends with /, or has user information.
    """

    def __init__(self, base: str, roots: Sequence[str]) -> None:
        parts = [_root_parts(root) for root in roots]
        self._base = "".join(_root_parts(base)).encode() if base else b""
        self._first = "".join(parts[0])
        self._path = unquote(parts[0][1])
        self._roots = "\n".join(map("".join, parts)).encode()
        self._hosts = "\n".join(f"{host}/" for host, _ in parts).encode()
        # What the library writes a URL into. Threads may share this object.
        self._lock, self._length = threading.Lock(), ctypes.c_size_t()
        self._text = ctypes.create_string_buffer(len(self._base) + len(self._roots) + MORE)

    def target(self, url: str) -> str:
        """Returns where a request with a URL is sent, in ASCII.

        Raises:
            Refusal: It leads out of the service, or has a control character: 404 ``NotFound``. It has half of a surrogate
                pair: 400 ``BadUrl``.
        """
        return self._resolve(self._base, self._roots, url, given=url)

    def below(self, sent: str, place: Optional[str], context: Optional[str], rest: str) -> str:
        """Returns where a request is sent that refers to another; raises Refusal as `target` does.

        Args:
            sent: Where that one was sent.
            place: The URL of what it has created or returned, if its answer has one.
            context: What that is relative to, if not to `sent`.
            rest: What follows the reference.
        """
        if context is not None and place is not None and not _HAS_SCHEME(place):
            sent = self._resolve(sent.encode(), self._hosts, context)
        return self._resolve(self._base, self._roots, rest, sent, place or "")

    def require_below(self, rest: str) -> None:
        """Raises Refusal, as `target` does, if what follows a reference may lead out of what that stands for."""
        self._resolve(self._base, self._roots, rest, f"{self._first}x")

    def _resolve(self, base: bytes, roots: bytes, url: str, sent: str = "", location: str = "", given: str = "") -> str:
        try:
            rest, own, place = url.encode(), sent.encode(), location.encode()
        except UnicodeEncodeError:
            raise _unreadable() from None
        sizes = len(base), len(roots), len(rest), len(own), len(place)
        with self._lock:
            while True:
                status = library.LIBRARY.odb_resolve(
                    base, sizes[0], roots, sizes[1], rest, sizes[2], own, sizes[3], place, sizes[4], 0,
                    self._text, len(self._text), self._length,
                )  # fmt: skip
                if status != library.SMALL_BUFFER:
                    break
                self._text = ctypes.create_string_buffer(self._length.value)
            if status == library.DONE:
                return self._text.raw[: self._length.value].decode()
        if status not in (library.UNREADABLE, library.OUTSIDE):
            raise status_error("odb_resolve", status)
        is_elsewhere = given.startswith("/") and not unquote(given).startswith(("//", self._path))
        hint = ": drop the / that it begins with" if is_elsewhere else ""
        raise Refusal(404, "NotFound", f"The URL leads out of {self._first}{hint}")


class AnyTargets:
    """Where requests are sent that may lead anywhere: as their URLs are, or relative to a base.

    The methods are those of `ServiceTargets`; they raise Refusal for what cannot be read as a URL: 400 ``BadUrl``.
    """

    def __init__(self, base: str) -> None:
        self._base = base

    def target(self, url: str) -> str:
        """Returns where a request with a URL is sent, in ASCII."""
        return _encode(_join(self._base, url))

    def below(self, sent: str, place: Optional[str], context: Optional[str], rest: str) -> str:
        """Returns where a request is sent that refers to another."""
        for url in (context, place):
            sent = sent if url is None else _join(sent, url)
        path = re.split("[?#]", sent, maxsplit=1)[0]
        # An empty URL is the folder that URLs are relative to, and an empty Location is none.
        return _encode(path.rstrip("/") + rest or path or ".")

    def require_below(self, rest: str) -> None:
        """Does nothing: nothing is outside."""


def targets_of(base: str, roots: Optional[Sequence[str]]) -> Union[ServiceTargets, AnyTargets]:
    """Returns where requests are sent.

    Args:
        base: The URL that their URLs are relative to. It ends with /, or is empty: then URLs stay as they are.
        roots: What the URL of each request has to begin with: one of these URLs, each of which ends with /. None if it
            is the base, and no URLs if it may be anything.

    Raises:
        TypeError: A URL is not a string.
        ValueError: A URL does not end with /, or is not one of a root.
    """
    for url in (base, *(roots or ())):
        if not isinstance(url, str):
            raise TypeError(f"a base or a root must be a URL, not {url!r}")
        if url and (not url.endswith("/") or "?" in url or "#" in url):
            raise ValueError(f"a base or a root must be a URL that ends with /, not {url!r}")
    allowed = [*filter(None, (base,) if roots is None else roots)]
    return ServiceTargets(base, allowed) if allowed else AnyTargets(base)


def _root_parts(url: str) -> tuple[str, str]:
    """Returns the scheme and host of a root, and its path, in ASCII."""
    found = _ROOT(url)
    if found is None:
        raise ValueError(f"a base or a root must be an absolute URL without user information, not {url!r}")
    return found[1], quote(found[2], _PLAIN)


def _join(base: str, url: str) -> str:
    """Returns a URL that is relative to a base, which may be empty."""
    if base.endswith("/") and _IS_RELATIVE(url):
        return base + url
    try:
        return urljoin(base, url)
    except ValueError:
        raise _unreadable() from None


def _encode(url: str) -> str:
    """Returns a URL in ASCII, without its fragment."""
    try:
        parts = urlsplit(url)
        path, query = quote(parts.path, _PLAIN), quote(parts.query, _PLAIN + "?")
    except ValueError:
        raise _unreadable() from None
    return urlunsplit((parts.scheme, parts.netloc, path, query, ""))


def _unreadable() -> Refusal:
    return Refusal(400, "BadUrl", "The URL cannot be read")
