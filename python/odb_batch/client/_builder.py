"""Requests of a batch, as they are added by calls."""

import contextlib
import json
import os
from collections import ChainMap
from typing import AbstractSet, Any, Iterable, Iterator, Mapping, MutableMapping, Optional, Union
from urllib.parse import unquote

from .._native.constants import listed_names
from ..commands import Counts, check
from ..documents.requests import Request
from ..driver.references import CONDITIONS
from ..errors.faults import Fault
from ..http.batches import batch_json, request_json
from ..http.bodies import is_json, to_json
from ..http.messages import Answer, header_dict


class _Named:
    """What a batch has a name for.

    Attributes:
        id: The name.
    """

    def __init__(self, name: str, origin: bytes) -> None:
        self.id, self._origin = name, origin

    def __repr__(self) -> str:
        return f"<{type(self).__name__} {self}>"


class Reference(_Named):
    """A request of a :class:`Batch`. As a text it is the reference ``$id``, for URLs and conditions of later requests.

    Attributes:
        id: The id of the request.
    """

    def __str__(self) -> str:
        return "$" + self.id


class Group(_Named):
    """An atomicity group of a :class:`Batch`, which later requests may depend on.

    Attributes:
        id: The name of the group.
    """

    def __str__(self) -> str:
        return self.id


#: What a request depends on: a request or a group, or its name.
Name = Union[Reference, Group, str]
#: A URL or the value of a header: a text, or a request of the batch, whose reference it is then.
Url = Union[str, Reference]
#: The headers of a request, if it has any.
Headers = Optional[Mapping[str, Url]]
#: The id of a request or the name of a group; None stands for one that is free.
Id = Optional[str]
#: What a request depends on: a request or a group, its name, or several of them.
After = Union[Name, Iterable[Name]]

# Ids to which no URL refers, since $ and such a name mean something else (OData URL Conventions 4.01).
_RESERVED = frozenset(listed_names("reserved_ids"))


class Builder:
    """What :class:`Batch` has to add requests."""

    def __init__(self) -> None:
        self._requests: list[Request] = []
        # The group of each request, by its id, and of each group itself: what is taken as a name.
        self._names: MutableMapping[str, Optional[str]] = {}
        # The names of the batch of which this is the rest: a reference to it means the same in both.
        self._spent: AbstractSet[str] = frozenset()
        # By the prefix of a name, up to which number names are taken.
        self._numbers: dict[str, int] = {}
        self._group: Optional[Group] = None
        # What a Reference and a Group have in common with the batches that they may be used in, also as copies.
        self._origin = os.urandom(16)

    def __len__(self) -> int:
        return len(self._requests)

    def __repr__(self) -> str:
        return f"<Batch of {len(self)} requests>"

    # Adding requests

    def get(self, url: Url, *, after: After = (), headers: Headers = None, id: Id = None) -> Reference:
        """Adds a GET; see :meth:`request`."""
        return self.request("GET", url, after=after, headers=headers, id=id)

    def post(self, url: Url, body: Any = None, *, after: After = (), headers: Headers = None, id: Id = None) -> Reference:
        """Adds a POST; see :meth:`request`."""
        return self.request("POST", url, body, after=after, headers=headers, id=id)

    def put(self, url: Url, body: Any = None, *, after: After = (), headers: Headers = None, id: Id = None) -> Reference:
        """Adds a PUT; see :meth:`request`."""
        return self.request("PUT", url, body, after=after, headers=headers, id=id)

    def patch(self, url: Url, body: Any = None, *, after: After = (), headers: Headers = None, id: Id = None) -> Reference:
        """Adds a PATCH; see :meth:`request`."""
        return self.request("PATCH", url, body, after=after, headers=headers, id=id)

    def delete(self, url: Url, *, after: After = (), headers: Headers = None, id: Id = None) -> Reference:
        """Adds a DELETE; see :meth:`request`."""
        return self.request("DELETE", url, after=after, headers=headers, id=id)

    def request(
        self, method: str, url: Url, body: Any = None, *, after: After = (), headers: Headers = None, id: Id = None
    ) -> Reference:
        """Adds a request, and returns the reference to it.

        Args:
            method: Its method: DELETE, GET, PATCH, POST or PUT.
            url: Its URL, relative to the service, or with a reference: ``order`` or ``f"{order}/Lines"``.
            body: Its body: bytes as they are on the wire, or any other value, which ``json`` writes; a Decimal keeps
                its digits. None if it has none.
            after: What it depends on: a request or a group, its name, or several of them.
            headers: Its headers. The value of ``If-Match`` and ``If-None-Match`` may be a reference, which stands for
                an ETag. A body without ``Content-Type`` is ``application/json``.
            id: Its id; without it that is the first free number.

        Raises:
            ValueError: The id is one that no URL can refer to, as ``metadata``; the bytes of a body are not JSON though
                its media type is; or a reference or a group is of another batch.
            TypeError: ``json`` cannot write the body; or an id, the URL, the value of a header or what is in ``after``
                is of another type.
        """
        name = self._id(id, "", len(self))
        if name in _RESERVED:
            raise ValueError(f"no URL can refer to a request with the id {id!r}")
        url = self._text(url)
        given = header_dict([(key, self._text(value)) for key, value in headers.items()]) if headers else {}
        text = _body_text(body, given)
        needs = self._needs(after, url, given)
        group = None if self._group is None else self._group.id
        self._append(Request(name, method.upper(), url, None, url, given, group, text, needs))
        return Reference(name, self._origin)

    @contextlib.contextmanager
    def group(self, id: Id = None) -> Iterator[Group]:
        """Makes the requests that are added in its block an atomicity group: all of them are performed, or none.

        If the block ends by an exception, none of them is added.

        Args:
            id: The name of the group; without it that is a free one.

        Raises:
            ValueError: The block is in that of another group.
            TypeError: The name is not a text.
        """
        if self._group is not None:
            raise ValueError("a group cannot be in another one")
        begun, names, numbers = len(self._requests), self._names, dict(self._numbers)
        self._group = Group(self._id(id, "g", 0), self._origin)
        own: dict[str, Optional[str]] = {}
        self._names = ChainMap(own, names)
        self._names.setdefault(self._group.id, self._group.id)
        try:
            yield self._group
            names.update(own)
        except BaseException:
            del self._requests[begun:]
            self._numbers = numbers
            raise
        finally:
            self._group, self._names = None, names

    def _id(self, request_id: Id, prefix: str, count: int) -> str:
        """A name that was given; without one the first that is not taken, of a prefix and a greater number."""
        if request_id is not None:
            if not isinstance(request_id, str):
                raise TypeError(f"an id is a str, not {request_id!r}")
            return request_id
        count = max(count, self._numbers.get(prefix, 0))
        while (name := f"{prefix}{count + 1}") in self._names or name in self._spent:
            count += 1
        self._numbers[prefix] = count
        return name

    def _text(self, value: Url) -> str:
        """A URL or the value of a header, in which a request of this batch stands for its reference."""
        if isinstance(value, str):
            return value
        if not isinstance(value, Reference):
            raise TypeError(f"a URL and a value of a header are a str or a Reference, not {value!r}")
        return f"${self._name(value)}"

    def _append(self, request: Request) -> None:
        self._requests.append(request)
        self._names[request.id] = request.group
        if request.group is not None:
            self._names.setdefault(request.group, request.group)

    def _needs(self, after: After, url: str, given: Mapping[str, str]) -> tuple[str, ...]:
        """The names that a request depends on: those that it lists, what it refers to, and the groups of these."""
        listed = [after] if isinstance(after, (Reference, Group, str)) else after
        names = [*map(self._name, listed), *filter(self._names.__contains__, _find_references(url, given))]
        own = None if self._group is None else self._group.id
        groups = (self._names.get(name) for name in names)
        return tuple(dict.fromkeys([*names, *(group for group in groups if group is not None and group != own)]))

    def _name(self, named: Name) -> str:
        if isinstance(named, str):
            return named
        if not isinstance(named, (Reference, Group)):
            raise TypeError(f"a request or a group is named by its reference or its id, not by {named!r}")
        if named._origin != self._origin:
            raise ValueError(f"{named.id} is of another batch")
        return named.id

    def document(self) -> bytes:
        """Returns the document of the batch."""
        return batch_json(map(request_json, self._requests))

    def check(self) -> Counts:
        """Checks the batch as :func:`odb_batch.check` does, and returns its counts.

        Raises:
            Fault: The batch is refused. Its text begins with the code, the id of the request and what is wrong.
            MemoryError: An allocation failed.
        """
        try:
            return check(self.document())
        except Fault as fault:
            raise fault.of_builder()


def _body_text(body: Any, given: dict[str, str]) -> Optional[bytes]:
    """The text of a body in a document, or None. Headers without a media type get one, if there is a body."""
    is_wire = isinstance(body, (bytes, bytearray, memoryview))
    if body is None or (is_wire and not len(body)):
        return None
    given.setdefault("content-type", "application/json")
    text = to_json(Answer(200, given, body), given)
    if is_wire and is_json(given):
        try:
            json.loads(text, parse_constant=_refuse)
        except (ValueError, RecursionError):
            raise ValueError("the body is not JSON") from None
    return text


def _refuse(constant: str) -> None:
    raise ValueError(constant)


def _find_references(url: str, given: Mapping[str, str]) -> Iterator[str]:
    """What follows a $ at the beginning of a URL and of conditions."""
    for value in (unquote(url.replace("?", "/").replace("#", "/").partition("/")[0]), *map(given.get, CONDITIONS)):
        if value is not None and value.startswith("$"):
            yield value[1:]
