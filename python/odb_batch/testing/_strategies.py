"""Strategies for documents that are accepted.

This module needs hypothesis alone: it does not load the library, so that tests of the program use it without one. The
functions that take `draw` make a part of a document, from what was drawn before it.
"""

import copy
import functools
import re
from typing import Any, Mapping, NamedTuple, Optional, Protocol, Sequence

from hypothesis import strategies as st
from hypothesis.strategies import DrawFn, SearchStrategy

Json = dict[str, Any]


def of(*values: Any) -> SearchStrategy[Any]:
    return st.sampled_from(values)


@functools.cache
def chance(percent: int) -> SearchStrategy[bool]:
    """True for so many of a hundred."""
    return of(*[False] * (100 - percent), *[True] * percent)


ID_NAMES = ("a", "b", "c", "d", "e", "f", "1", "2", "A", "x-1", "~", "metadata", "all")
GROUP_NAMES = ("g", "h", "G")
# How many requests a group has; 0 is a request without one.
SIZES = of(0, 0, 0, 1, 2, 3)
SPECIAL_URLS = ("$crossjoin(A,B)", "$metadata", "$all%ffx", "$batch/", "$root/Books#$")
URLS = of(
    "Books", "/service/Books('dune')", "", "https://host/s/X", "%zz", "/$a/Pages", "/service/%2524batch",
    "Books?x=/$batch", "%", "Bücher", *SPECIAL_URLS,
)  # fmt: skip
# Ids that no URL refers to, since $ and the name mean something else.
RESERVED = frozenset({"all", "batch", "crossjoin", "entity", "id", "metadata", "root"})
IS_RESERVED = re.compile(rf"(\$|%24)({'|'.join(sorted(RESERVED))})([/?#]|$)").match
DOLLARS, TAILS = of("$", "%24"), of("", "/Pages", "?$top=1", "#x")
METHODS = of("get", "post", "PATCH", "Delete", "put")
WITH_BODY = ("post", "PATCH", "put")
#: Bodies whose numbers are whole, which all commands take.
WHOLE: tuple[Any, ...] = ({}, [], 0, False, "", "text!", {"b": 1, "a": [2, {"z": None}]}, 2**64 - 1, -(2**63))
# The media types of bodies that are not JSON, with such bodies.
TEXTS: Mapping[str, SearchStrategy[Any]] = {
    "text/plain": of("", "any text!"),
    " Text/HTML;q=1": of("<p>"),
    "image/png": of("", "AA", "AAA", "AAAA", "AA==", "AA=", "=", "AAAAAA=", "-_A="),
}
MEDIA = of(None, "application/json", "Application/JSON; charset=x", "image/x+json", "text/x+json", *TEXTS)
TYPE_NAMES = of("Content-Type", "content-type")
CONDITIONS = of("If-Match", "if-none-match")
SUCCESSES, FAILURES = of(200, 201, 204, 299), of(304, 300, 399, 400, 404, 409, 500, 599)
HEADERS = of(None, {}, {"ETag": "7"}, {"Location": "X(1)", "age": "\u2028\""}, {"X": "", "Ä": "ä"}).map(copy.copy)
WHOLE_BODIES = of(*WHOLE).map(copy.deepcopy)


class Choices(NamedTuple):
    """What the requests of a batch may have."""

    references: bool
    headers: bool
    bodies: Optional[SearchStrategy[Any]]


# Batches


def unused_names(names: Sequence[str], prefix: str, taken: Sequence[Any]) -> list[str]:
    """The names that are not taken; if all are, one with a number."""
    return [name for name in names if name not in taken] or [f"{prefix}{len(taken)}"]


def names_of(draw: Any, batch: list[Json], group: Optional[str]) -> list[str]:
    """Names of earlier requests and groups in any order, with the groups that have to be listed; some come twice."""
    names: list[str] = []
    for earlier in draw(st.lists(st.sampled_from(batch), unique_by=id, max_size=3)) if batch else []:
        other = earlier.get("atomicityGroup")
        if other in (None, group):
            names.append(earlier["id"])
        else:
            names += draw(of([other], [other, earlier["id"]]))
    if names and draw(st.booleans()):
        names += draw(st.lists(st.sampled_from(names), max_size=2))
        names = draw(st.permutations(names))
    return names


def covered_ids(batch: list[Json], request: Json) -> list[str]:
    """The ids that a URL of a request may refer to, by the names that it lists. What has a reserved URL is not referred
    to: that URL cannot take the place of a reference."""
    around = {*(request.get("dependsOn") or []), request.get("atomicityGroup")} - {None}
    found = [request for request in batch if request["id"] in around or request.get("atomicityGroup") in around]
    return [request["id"] for request in found if request["url"] not in SPECIAL_URLS and not IS_RESERVED(request["url"])]


def add_body(draw: Any, request: Json, choices: Choices) -> None:
    """Adds a body, and the header with its media type."""
    media = draw(MEDIA) if choices.headers else None
    request["body"] = draw(TEXTS[media] if media in TEXTS else choices.bodies)
    if media is not None:
        request["headers"] = {draw(TYPE_NAMES): media, "Prefer": "x"}


def request_after(draw: Any, batch: list[Json], group: Optional[str], choices: Choices) -> Json:
    """A request that may come next in a batch."""
    name = draw(st.sampled_from(unused_names(ID_NAMES, "r", [request["id"] for request in batch])))
    request: Json = {"id": name, "method": draw(METHODS)}
    if group is not None:
        request["atomicityGroup"] = group
    names = names_of(draw, batch, group)
    if names or draw(chance(10)):
        request["dependsOn"] = names or draw(of([], None))
    referred = covered_ids(batch, request) if choices.references else []
    refers = bool(referred) and draw(chance(40))
    request["url"] = draw(DOLLARS) + draw(st.sampled_from(referred)) + draw(TAILS) if refers else draw(URLS)
    if choices.bodies is not None and request["method"] in WITH_BODY and draw(chance(60)):
        add_body(draw, request, choices)
    if referred and choices.headers and draw(chance(10)):
        condition = {draw(CONDITIONS): "$" + draw(st.sampled_from(referred))}
        request["headers"] = {**request.get("headers", {}), **condition}
    return request


@st.composite
def units(draw: DrawFn, batch: list[Json], least: int, most: int, groups: bool, choices: Choices) -> list[Json]:
    """The requests of a unit that may come next in a batch, or none if it ends. All sizes of a batch are as likely. A
    unit is drawn as one, so that it is left out as one where an example shrinks."""
    room = most - len(batch)
    if room <= 0 or (len(batch) >= least and draw(st.integers(0, room)) == 0):
        return []
    size = min(draw(SIZES) if groups else 0, room)
    taken = sorted({request["atomicityGroup"] for request in batch if "atomicityGroup" in request})
    group = unused_names(GROUP_NAMES, "group-", taken)[0] if size else None
    found: list[Json] = []
    for _ in range(size or 1):
        found.append(request_after(draw, [*batch, *found], group, choices))
    return found


@st.composite
def batches(
    draw: DrawFn,
    *,
    min_requests: int = 0,
    max_requests: int = 11,
    groups: bool = True,
    references: bool = True,
    headers: bool = True,
    bodies: Optional[SearchStrategy[Any]] = WHOLE_BODIES,
) -> Json:
    """Returns a strategy for batches that are accepted, as values that ``json`` writes.

    They have dependencies, names that differ in case alone, URLs of all kinds, methods in any case, and bodies of
    several media types. They shrink to fewer requests that have fewer members.

    Args:
        min_requests, max_requests: How many requests a batch has.
        groups: Whether there are atomicity groups.
        references: Whether URLs and, with headers, ``If-Match`` refer to earlier requests.
        headers: Whether there are headers; without them all bodies are JSON.
        bodies: What bodies of JSON are drawn from; without it they are whole numbers, texts and small objects, which
            all commands take. None if there are no bodies.
    """
    choices = Choices(references, headers, bodies)
    batch: list[Json] = []
    while found := draw(units(batch, min_requests, max_requests, groups, choices)):
        batch += found
    return {"requests": batch}


# Outcomes and events


def status(draw: Any, percent: int = 75) -> int:
    """A success for so many of a hundred."""
    found: int = draw(SUCCESSES if not draw(chance(100 - percent)) else FAILURES)
    return found


def with_rest(draw: Any, element: Json, bodies: SearchStrategy[Any] = WHOLE_BODIES) -> Json:
    """Adds headers and a body to an outcome or a report, now and then."""
    if draw(chance(30)):
        element["headers"] = draw(HEADERS)
    if draw(chance(30)):
        element["body"] = draw(bodies)
    return element


@st.composite
def outcomes(draw: DrawFn, batch: Json, *, statuses: Optional[SearchStrategy[int]] = None) -> Json:
    """Returns a strategy for the outcomes of all requests of a batch, as :func:`odb_batch.replay` takes them.

    Args:
        batch: The batch, as a value.
        statuses: What the statuses are drawn from; without it three of four are a success.
    """
    found = []
    for request in batch["requests"]:
        drawn = status(draw) if statuses is None else draw(statuses)
        found.append(with_rest(draw, {"id": request["id"], "status": drawn}))
    return {"outcomes": draw(st.permutations(found))}


class Driven(Protocol):
    """A live run, whoever has its rules."""

    @property
    def ready(self) -> tuple[str, ...]: ...

    @property
    def running(self) -> tuple[str, ...]: ...

    def start(self, id: str) -> None: ...

    def report(self, id: str, status: int) -> None: ...


def events_of(
    draw: Any, run: Driven, statuses: SearchStrategy[int], bodies: SearchStrategy[Any] = WHOLE_BODIES
) -> list[Json]:
    """The events of a run up to its end, in any order in which they may come."""
    found: list[Json] = []
    while choices := [*(ready := run.ready), *run.running]:
        request_id = draw(st.sampled_from(choices))
        if request_id in ready:
            run.start(request_id)
            found.append({"start": request_id})
        else:
            drawn = draw(statuses)
            run.report(request_id, drawn)
            found.append(with_rest(draw, {"report": request_id, "status": drawn}, bodies))
    return found
