"""The commands: what each takes and what it returns."""

from dataclasses import dataclass
from functools import cached_property
from typing import Iterator, Literal, Optional, Sequence, Union, get_args, overload

from ._native import library
from ._native.calls import (
    MAX_WIDTH, MORE, Mode, mode_number, option_number, policy_numbers, read_faults, read_text, status_error,
)  # fmt: skip
from .documents.encoding import Document, Events, Report, Start, document_bytes, events_bytes
from .errors.faults import Fault
from .values import Value

Order = Literal["first", "last", "wide"]
Form = Literal["lines", "json"]
Strict = Union[bool, Literal["units"]]
Command = Literal["check", "plan", "canon", "match", "run", "replay", "rest"]
ORDERS: tuple[str, ...] = get_args(Order)
FORMS: tuple[str, ...] = get_args(Form)
COMMANDS: tuple[str, ...] = get_args(Command)

# The functions of the commands that take a mode and a form.
_OF_MODE = {"match": "odb_match_with", "rest": "odb_rest"}


@dataclass(frozen=True)
class Counts(Value):
    """How many requests and how many different atomicity groups a batch has."""

    requests: int
    groups: int


@dataclass(frozen=True)
class PlannedRequest(Value):
    """A request of a plan.

    Attributes:
        position: Its position in the batch, counted from 0.
        id: Its id.
        level: 0 if it depends on nothing, else one more than the highest level that it depends on.
            Requests of one level may run side by side.
        group: Its atomicity group, or None.
        needs: The ids and groups that it depends on, in order.
    """

    position: int
    id: str
    level: int
    group: Optional[str]
    needs: tuple[str, ...]


@dataclass(frozen=True)
class Plan(Sequence[PlannedRequest]):
    """The requests of a batch in order, with what each depends on. It is a sequence of them that cannot be changed."""

    requests: tuple[PlannedRequest, ...]

    def __len__(self) -> int:
        return len(self.requests)

    def __iter__(self) -> Iterator[PlannedRequest]:
        return iter(self.requests)

    @overload
    def __getitem__(self, position: int) -> PlannedRequest: ...

    @overload
    def __getitem__(self, position: slice) -> tuple[PlannedRequest, ...]: ...

    def __getitem__(self, position: Union[int, slice]) -> Union[PlannedRequest, tuple[PlannedRequest, ...]]:
        return self.requests[position]

    @cached_property
    def _positions(self) -> dict[str, int]:
        return {request.id: position for position, request in enumerate(self.requests)}

    def request(self, id: str) -> PlannedRequest:
        """Returns the request with this id; raises KeyError if there is none."""
        return self.requests[self._positions[id]]


@dataclass(frozen=True)
class Replay(Value):
    """What a replay did.

    Attributes:
        response: The response document, as JSON without a newline.
        steps: The starts and reports in order; empty if no trace was asked for.
        undone: The ids of the requests that have to be undone, in this order; empty if no trace was
            asked for.
    """

    response: bytes
    steps: tuple[Union[Start, Report], ...]
    undone: tuple[str, ...]


@dataclass(frozen=True)
class Output(Value):
    """What a command prints of its documents.

    Attributes:
        accepted: Whether the text is the result; else it is the fault of a document.
        text: The text, with a newline at its end.
    """

    accepted: bool
    text: bytes


def _function(command: str) -> str:
    return _OF_MODE.get(command, f"odb_{command}_as")


def _text(command: Command, *documents: Document, options: tuple[int, ...] = ()) -> bytes:
    """The text that a command writes, in lines."""
    return read_text(_function(command), *map(document_bytes, documents), options=(*options, FORMS.index("lines")))


def check(batch: Document) -> Counts:
    """Checks a batch, and returns its counts.

    Raises:
        Fault: The batch is refused.
        MemoryError: An allocation failed.
    """
    words = _text("check", batch).split()
    return Counts(int(words[1]), int(words[3]))


def faults(batch: Document) -> tuple[Fault, ...]:
    """Returns the faults of a batch; none if :func:`check` accepts it. The first is the one that :func:`check` raises.

    >>> from odb_batch import faults
    >>> batch = '''{"requests": [
    ...     {"id": "a", "method": "get", "url": "Books", "dependsOn": ["c"]},
    ...     {"id": "b", "method": "get", "url": "Loans", "dependsOn": ["b"]}]}'''
    >>> for fault in faults(batch):
    ...     print(fault, fault.line, fault.column)
    F40 UnknownName /requests/0 2 5
    F41 ForwardName /requests/1 3 5

    They are those of the first phase that has any: the document, the form of each request, ids and groups, names and
    references. A rule is listed once for a request.

    Raises:
        MemoryError: An allocation failed.
    """
    return read_faults(document_bytes(batch))


def _read_planned(line: str) -> PlannedRequest:
    """The request of a line ``POS ID level L group G needs NAMES``."""
    position, request_id, _, level, _, group, _, needs = line.split(" ")
    return PlannedRequest(
        int(position),
        request_id,
        int(level),
        None if group == "*" else group,
        () if needs == "*" else tuple(needs.split(",")),
    )


def plan(batch: Document) -> Plan:
    """Plans a batch: returns its requests with their levels and dependencies.

    Raises:
        Fault: The batch is refused.
        MemoryError: An allocation failed.
    """
    return Plan(tuple(map(_read_planned, _text("plan", batch).decode().splitlines())))


def canon(batch: Document) -> bytes:
    """Returns the canonical text of a batch, without a newline.

    Two documents have equal texts if and only if they are the same batch.

    Raises:
        Fault: The batch is refused, or a body has a number that is not whole.
        MemoryError: An allocation failed.
    """
    return _text("canon", batch)[:-1]


def _strict_number(strict: Strict) -> int:
    """Returns the number of how strict a match is."""
    return 2 + option_number(("units",), "strict", strict) if isinstance(strict, str) else int(bool(strict))


def match(batch: Document, responses: Document, *, mode: Mode = "continue", strict: Strict = False) -> dict[str, int]:
    """Matches the response document of a service against a batch.

    Args:
        batch: The batch.
        responses: The response document of the service.
        mode: ``"continue"``, or ``"stop"`` for a service that stops at its first error: if a response has a
            status from 400 to 599, each request without a response is read as answered 424.
        strict: Whether some finished run has to answer the statuses, too (F76 to F78): each is from 200 to 599; of
            a group all are from 200 to 299 or none is; and any but 424 is of a request that can have started. With
            ``"units"`` a group may also start as one, as in a service that performs it in a transaction.

    Returns:
        The status of the response to each request, by its id, in the order of the batch.

    Raises:
        Fault: A document is refused, or the responses do not fit the batch.
        ValueError: The mode or ``strict`` is not one of its values.
        MemoryError: An allocation failed.
    """
    options = (mode_number(mode), _strict_number(strict))
    lines = _text("match", batch, responses, options=options).decode().splitlines()[1:]
    return {request_id: int(status) for request_id, status in (line.split(" ") for line in lines)}


def rest(batch: Document, responses: Document, *, mode: Mode = "continue") -> bytes:
    """Returns the rest of a batch: what may be sent again by the responses of a service, as a batch of its own.

    A unit, a group or a request without one, is done if all of its requests were answered 2xx. It is in the rest if it
    is not done, each of its requests may be sent again, and each unit that it depends on is done or in the rest. A
    request may be sent again if it was answered 2xx, 424, 429 or 503; or 408, 502 or 504, if it is a GET, a PUT or a
    DELETE. Dependencies on what is done are dropped, and a URL that refers to it gets its ``Location``. An ``If-Match``
    or ``If-None-Match`` that is ``$`` and the id of an earlier request, which is not in the rest, gets its ``ETag``. A
    body is the bytes of the document.

    Args:
        batch: The batch.
        responses: The response document of the service.
        mode: That of :func:`match`.

    Returns:
        The document of the rest, as JSON without a newline; one of no requests if nothing may be sent again.

    Raises:
        Fault: A document is refused, the responses do not fit the batch, or what a URL refers to was answered without a
            ``Location`` that the URL of a request may have (F90), or what a condition refers to without an ``ETag`` (F91).
        ValueError: The mode is not one of its values.
        MemoryError: An allocation failed.
    """
    return _text("rest", batch, responses, options=(mode_number(mode),))[:-1]


def run(batch: Document, events: Events, *, mode: Mode = "continue", width: int = MAX_WIDTH) -> bytes:
    """Runs a batch by recorded events.

    Args:
        batch: The batch.
        events: What happened, in order: a document, or starts and reports.
        mode: ``"continue"``, or ``"stop"`` to start nothing more after a status from 400 to 599.
        width: How many requests may run at once, from 1 to 10,000.

    Returns:
        The response document, as JSON without a newline.

    Raises:
        Fault: A document is refused, an event may not come, or the run is not finished.
        ValueError: An option has a value that it may not have.
        MemoryError: An allocation failed.
    """
    return _text("run", batch, events_bytes(events), options=policy_numbers(mode, width))[:-1]


def _read_replay(lines: list[bytes]) -> Replay:
    """The replay of the lines of a trace and its response."""
    steps: list[Union[Start, Report]] = []
    undone: list[str] = []
    for line in lines[:-1]:
        word, request_id, *status = line.decode().split(" ")
        if word == "start":
            steps.append(Start(request_id))
        elif word == "report":
            steps.append(Report(request_id, int(status[0])))
        else:
            undone.append(request_id)
    return Replay(lines[-1], tuple(steps), tuple(undone))


def replay(
    batch: Document,
    outcomes: Document,
    *,
    order: Order = "first",
    mode: Mode = "continue",
    width: int = MAX_WIDTH,
    trace: bool = False,
) -> Replay:
    """Replays a batch by recorded outcomes.

    Args:
        batch: The batch.
        outcomes: The document of what each request was answered.
        order: ``"first"`` and ``"last"`` finish each request before they start the next, by position
            from either end; ``"wide"`` starts everything it can.
        mode: ``"continue"``, or ``"stop"`` to start nothing more after a status from 400 to 599.
        width: How many requests may run at once, from 1 to 10,000.
        trace: Whether the steps are returned, and what has to be undone.

    Raises:
        Fault: A document is refused, or a request that ends has no outcome.
        ValueError: An option has a value that it may not have.
        MemoryError: An allocation failed.
    """
    options = (*policy_numbers(mode, width), option_number(ORDERS, "order", order), int(bool(trace)))
    return _read_replay(_text("replay", batch, outcomes, options=options)[:-1].split(b"\n"))


def output(
    command: Command,
    batch: Document,
    second: Optional[Events] = None,
    *,
    form: Form = "json",
    order: Order = "first",
    mode: Mode = "continue",
    width: int = MAX_WIDTH,
    trace: bool = False,
    strict: Strict = False,
) -> Output:
    """Returns the text that a command prints, to be passed on: a fault is a text, too, and is not raised.

    Args:
        command: ``"check"``, ``"plan"``, ``"canon"``, ``"match"``, ``"run"``, ``"replay"`` or ``"rest"``.
        batch: The batch.
        second: The document that :func:`match`, :func:`run`, :func:`replay` or :func:`rest` takes beside the batch.
        form: ``"json"`` for one line of JSON, as ``odb_batch --json`` prints, or ``"lines"``. A canonical
            text, a response, a trace and a rest are the same in both.
        order, mode, width, trace: The options of :func:`replay`, of which ``run`` takes mode and width, and
            ``match`` and ``rest`` the mode.
        strict: That of :func:`match`.

    Raises:
        ValueError: The command, or an option that it takes, has a value that it may not have.
        TypeError: The second document is missing, or there is one too many.
        MemoryError: An allocation failed.
    """
    if (second is None) == (option_number(COMMANDS, "command", command) > 2):
        raise TypeError(f"{command} takes {'no second' if second is not None else 'a second'} document")
    numbers: tuple[int, ...] = policy_numbers(mode, width) if command in ("run", "replay") else ()
    if command in _OF_MODE:
        numbers = (mode_number(mode),)
    if command == "match":
        numbers = (*numbers, _strict_number(strict))
    if command == "replay":
        numbers = (*numbers, option_number(ORDERS, "order", order), int(bool(trace)))
    given = (document_bytes(batch),) if second is None else (document_bytes(batch), events_bytes(second))
    options = (*numbers, option_number(FORMS, "form", form))
    status, text = library.call(_function(command), given, options, sum(map(len, given)) + MORE)
    if status in (library.DONE, library.REFUSED):
        return Output(status == library.DONE, text)
    raise status_error(command, status)
