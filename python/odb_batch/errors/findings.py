"""What is wrong in a batch that is refused, in words: the id of the request, and the name that is wrong."""

import json
from functools import cached_property
from typing import Any, Callable, Iterable, Optional
from urllib.parse import unquote

_MEMBERS = frozenset({"id", "method", "url", "atomicityGroup", "dependsOn", "headers", "body"})
# How much of a name is shown.
_MAX_LENGTH = 100


class Findings:
    """What is wrong in the requests of a document, which is read once for all its faults."""

    def __init__(self, document: bytes) -> None:
        self._document = document

    @cached_property
    def _batch(self) -> Optional["_Names"]:
        """The requests of the document, or None if it is not one in which they can be found."""
        try:
            return _Names(json.loads(self._document)["requests"])
        except (ValueError, TypeError, LookupError, RecursionError):
            return None

    def describe(self, code: str, place: str) -> str:
        """Returns how a message about a fault begins, such as ``order: "lines" is not listed in dependsOn. ``: with the id
        of the request, and the name that is wrong. Only with the id if it is not about a name; empty without an id."""
        position = place.rpartition("/")[2]
        if self._batch is None or not position.isdecimal():
            return ""
        try:
            request_id = self._batch.requests[int(position)]["id"]
            if not isinstance(request_id, str):
                return ""
            wrong = _find_wrong(code, self._batch, int(position))
        except (TypeError, LookupError, AttributeError, StopIteration):
            return ""
        return f"{_shorten(request_id)}: {wrong}. " if wrong else f"{_shorten(request_id)}: "


def _find_wrong(code: str, batch: "_Names", at: int) -> str:
    request = batch.requests[at]
    listed = list(request.get("dependsOn") or [])
    if code in ("F40", "F41", "F42", "F43"):
        tests = {"F40": batch.is_unknown, "F41": batch.is_later, "F42": batch.is_own_group, "F43": batch.uncovered(at)}
        name = next(name for name in listed if tests[code](at, name))
        if code == "F43":
            group = batch.requests[batch.positions[name]]["atomicityGroup"]
            return f"{_quote(group)}, the group of {_quote(name)}, is not listed in dependsOn"
        says = {"F40": "is unknown", "F41": "does not come before it", "F42": "is its own group"}
        return f"{_quote(name)} in dependsOn {says[code]}"
    if code in ("F44", "F45", "F46"):
        says = {"F44": "in the URL is unknown", "F45": "in the URL does not come before it"}
        return f"{_quote(_reference(request['url']))} {says.get(code, 'is not listed in dependsOn')}"
    if code == "F12":
        name = next(name for name in request if name not in _MEMBERS | {"if"} and "@" not in name)
        return f"the member {_quote(name)} is unknown"
    if code == "F19":
        return f"the header {_quote(_first_repeated(request['headers']))} comes twice"
    if code == "F32":
        return f"the group {_quote(request['atomicityGroup'])} has been left before"
    return {"F30": "an earlier request has this id", "F31": "a group has this name, too"}.get(code, "")


class _Names:
    """The ids and the groups of a batch, each with the position of the first request that has it."""

    def __init__(self, requests: list[dict[str, Any]]) -> None:
        self.requests = requests
        self.positions: dict[str, int] = {}
        self.groups: dict[str, int] = {}
        for at, request in enumerate(requests):
            members = request if isinstance(request, dict) else {}
            for name, found in (("id", self.positions), ("atomicityGroup", self.groups)):
                if isinstance(members.get(name), str):
                    found.setdefault(members[name], at)

    def is_unknown(self, _: int, name: str) -> bool:
        return name not in self.positions and name not in self.groups

    def is_later(self, at: int, name: str) -> bool:
        return self.positions.get(name, -1) >= at or self.groups.get(name, -1) > at

    def is_own_group(self, at: int, name: str) -> bool:
        own: Optional[str] = self.requests[at].get("atomicityGroup")
        return name == own

    def uncovered(self, at: int) -> Callable[[int, str], bool]:
        """Returns whether a name is of a request in a group that the request does not list."""
        listed = {None, self.requests[at].get("atomicityGroup"), *(self.requests[at].get("dependsOn") or [])}
        return lambda _, name: name in self.positions and self._group(name) not in listed

    def _group(self, name: str) -> Optional[str]:
        group: Optional[str] = self.requests[self.positions[name]].get("atomicityGroup")
        return group


def _reference(url: str) -> str:
    return unquote(url.partition("/")[0].partition("?")[0].partition("#")[0])[1:]


def _first_repeated(names: Iterable[str]) -> str:
    seen = set()
    for name in names:
        if name.lower() in seen:
            return name
        seen.add(name.lower())
    return ""


def _shorten(text: str) -> str:
    return text if len(text) <= _MAX_LENGTH else text[:_MAX_LENGTH] + ".."


def _quote(name: str) -> str:
    return json.dumps(_shorten(name), ensure_ascii=False)
