"""Live runs: which requests may start now, by what has been reported so far."""

import ctypes
import json
import threading
import weakref
from dataclasses import dataclass
from typing import Any, Literal, Mapping, NoReturn, Optional, SupportsIndex, Union, get_args

from ._native import library
from ._native.calls import MAX_WIDTH, Mode, policy_numbers, read_text, report_error, require_done
from .documents.encoding import Document, Events, body_json, document_bytes, events_bytes, json_bytes
from .documents.requests import Request, open_requests, requests
from .errors.faults import Fault
from .run_parts import RunParts
from .values import Value

_MAX_NUMBER = 2**32 - 1

_State = Literal["waiting", "ready", "running", "reported", "skipped", "undone"]

# The states of a request, by their numbers.
_STATES: tuple[_State, ...] = get_args(_State)


@dataclass(frozen=True)
class RequestState(Value):
    """What has become of a request of a live run.

    A request is ``"waiting"`` if it may not start yet, ``"ready"`` if it may start now, ``"running"``,
    ``"reported"``, or ``"skipped"`` if it never starts any more, since its unit has failed or the run is
    stopped. Once the run is finished, a request that has to be undone is ``"undone"``.
    """

    #: What has become of the request.
    state: _State
    #: The status that it has reported, or None; once the run is finished, the status that it is answered.
    status: Optional[int]


class Run(RunParts):
    """A live run of a batch: it says which requests may start now, and in the end what the batch is answered.

    The caller performs the requests. It starts those that are ``ready``, in any order, and reports what
    each is answered, until the run is ``finished``:

    >>> from odb_batch import Run
    >>> batch = {"requests": [{"id": "a", "method": "get", "url": "Books"},
    ...                       {"id": "b", "method": "get", "url": "Loans", "dependsOn": ["a"]}]}
    >>> with Run(batch) as run:
    ...     while not run.finished:
    ...         for id in run.ready:
    ...             run.start(id)
    ...             run.report(id, 200, body={"of": id})
    ...     run.response()
    b'{"responses":[{"body":{"of":"a"},"id":"a","status":200},{"body":{"of":"b"},"id":"b","status":200}]}'

    A start that may not come is refused, by the exception :class:`Refused`, and so is such a report; the
    run is as it was then. A run that is not finished has a request that is ready or one that is running.

    A run holds memory of the library: close it, by ``with`` or by :meth:`close`. After that each call
    and property raises ValueError. One that is forgotten is closed when it is collected. A run cannot be
    copied or pickled: open another one after the same events.

    Any number of threads may use one run: a lock of the run lets in one at a time. The interpreter's lock
    is released meanwhile. Do not use it in a handler of a signal, nor in the child of a fork.

    Args:
        batch: The batch.
        mode: ``"continue"``, or ``"stop"`` to start nothing more after a status from 400 to 599.
        width: How many requests may run at once, from 1 to 10,000.
        events: What has happened already, in order: a document, or starts and reports. A gateway that
            keeps them goes on from there after it was stopped. They are at most 16,777,216 bytes as a document, with
            only whole numbers. For more, open the run without events and make the calls again, in their order.

    Raises:
        Fault: A document is refused, or an event may not come.
        ValueError: An option has a value that it may not have.
        MemoryError: An allocation failed.
    """

    __slots__ = (
        "_lock", "_handle", "_pointer", "_release", "_is_open", "_ids", "_at", "_listed", "_count", "_batch",
        "__weakref__",
    )  # fmt: skip

    def __init__(
        self, batch: Document, *, mode: Mode = "continue", width: int = MAX_WIDTH, events: Events = ()
    ) -> None:
        options, given, happened = policy_numbers(mode, width), document_bytes(batch), events_bytes(events)
        self._size = len(given) + len(happened)
        # The batch, or what is to be sent of its requests, once that was asked for.
        self._batch: Union[bytes, tuple[Request, ...]] = given
        self._lock = threading.Lock()
        self._handle = ctypes.c_void_p()
        self._pointer = ctypes.byref(self._handle)
        self._open(given, happened, (*options, self._pointer))
        self._release, self._is_open = weakref.finalize(self, library.LIBRARY.odb_run_close, self._handle), True
        # A thread may still be in a call when the process ends, and then all memory goes.
        self._release.atexit = False
        # The ids of the requests by their positions, and the positions by the ids.
        self._ids = self._list_ids(len(given))
        self._at = {request_id: position for position, request_id in enumerate(self._ids)}
        # Room for all positions, so that a list of some always fits.
        self._listed, self._count = (ctypes.c_uint32 * max(len(self._ids), 1))(), ctypes.c_size_t()

    def _open(self, batch: bytes, events: bytes, options: tuple[Any, ...]) -> None:
        read_text("odb_run_open", batch, events, options=options)

    def _list_ids(self, size: int) -> list[str]:
        """The ids of the requests of a batch of so many bytes."""
        return read_text("odb_run_ids", options=(self._pointer,), more=size // 8).decode().splitlines()

    def __reduce_ex__(self, protocol: SupportsIndex) -> NoReturn:
        # A copy would share the handle, and one of the two would free it under the other.
        raise TypeError("a Run cannot be copied")

    def __repr__(self) -> str:
        if not hasattr(self, "_is_open"):
            return "<Run: not open>"
        with self._lock:
            return f"<Run of {len(self._ids)} requests: {self._state() if self._is_open else 'closed'}>"

    def __enter__(self) -> "Run":
        with self._lock:
            self._require_open()
        return self

    def __exit__(self, *_: object) -> None:
        self.close()

    @property
    def ready(self) -> tuple[str, ...]:
        """The ids of the requests that may start now, in the order of the batch.

        It takes a time in proportion to their number. Go through a list to its end before you ask for the
        next one; a start that may not come any more is refused.
        """
        return self._list("odb_run_ready")

    @property
    def running(self) -> tuple[str, ...]:
        """The ids of the requests that have started and not reported yet, in the order of the batch."""
        return self._list("odb_run_running")

    @property
    def undone(self) -> tuple[str, ...]:
        """The ids of the requests that succeeded but are answered 424, since another one of their group did not
        succeed: what they did has to be undone, in this order, from the last to the first.

        Raises:
            Fault: The run is not finished (F66).
            ValueError: The run is closed.
            MemoryError: An allocation failed.
        """
        status, positions = self._positions("odb_run_undone")
        if status == library.REFUSED:
            raise Fault("F66", "Unfinished", "events")
        require_done("odb_run_undone", status)
        return tuple(self._ids[position] for position in positions)

    @property
    def finished(self) -> bool:
        """Whether nothing is running and nothing may start any more, so that there is a response."""
        with self._lock:
            return bool(self._call("odb_run_finished"))

    def next_unit(self) -> Optional[tuple[str, ...]]:
        """Returns the ids of the first unit that may begin, or None if no unit may begin now.

        A unit is a group, or one request without a group. It may begin if none of its members has started,
        it has not failed, what its members need of other units has succeeded, the run is not stopped, and fewer
        requests are running than the width allows. For who performs a group as a whole, as in a transaction:
        start and report its members one after another, each once it is ready, or all by `start_unit`.

        >>> from odb_batch import Run
        >>> batch = {"requests": [{"id": "a", "method": "get", "url": "Books"},
        ...                       {"id": "b", "method": "post", "url": "Loans", "atomicityGroup": "g", "dependsOn": ["a"]},
        ...                       {"id": "c", "method": "post", "url": "Loans", "atomicityGroup": "g"}]}
        >>> with Run(batch) as run:
        ...     run.next_unit()
        ...     run.start("a")
        ...     run.report("a", 200)
        ...     run.next_unit()
        ('a',)
        ('b', 'c')

        Raises:
            ValueError: The run is closed.
        """
        status, positions = self._positions("odb_run_next_unit")
        if status != library.DONE:
            require_done("odb_run_next_unit", status)
        return tuple(map(self._ids.__getitem__, positions)) or None

    def request(self, id: str) -> Request:
        """Returns what is to be sent of a request: its method, URL, headers and body.

        The batch is read once for all requests, when this is called for the first time.

        >>> from odb_batch import Run
        >>> batch = {"requests": [{"id": "a", "method": "post", "url": "Orders", "body": {}},
        ...                       {"id": "b", "method": "get", "url": "$a/Lines", "dependsOn": ["a"]}]}
        >>> with Run(batch) as run:
        ...     run.request("b").reference, run.request("b").rest
        ('a', '/Lines')

        Raises:
            KeyError: No request of the batch has this id.
            ValueError: The run is closed.
            MemoryError: An allocation failed.
        """
        position = self._at[id]
        with self._lock:
            self._require_open()
            if isinstance(self._batch, bytes):
                self._batch = requests(self._batch)
            return self._batch[position]

    def state(self, id: str) -> RequestState:
        """Returns what has become of a request, and whether it may start now. It takes constant time.

        Raises:
            KeyError: No request of the batch has this id.
            ValueError: The run is closed.
        """
        position = self._at[id]
        state, status = ctypes.c_uint32(), ctypes.c_uint32()
        with self._lock:
            end = self._call("odb_run_state", position, ctypes.byref(state), ctypes.byref(status))
        require_done("odb_run_state", end, id)
        return RequestState(_STATES[state.value], status.value or None)

    def stop(self) -> None:
        """Stops the run: from now on no request starts. What is running has to be reported as before, and what
        has not started is answered 424.

        Raises:
            ValueError: The run is closed.
        """
        with self._lock:
            self._require_open()
            library.LIBRARY.odb_run_stop(self._pointer)

    def start(self, id: str) -> None:
        """Starts a request: call it just before the request is sent.

        Raises:
            Refused: The request may not start, by the first of the causes S1 to S5.
            KeyError: No request of the batch has this id.
            ValueError: The run is closed.
        """
        self._begin("odb_run_start", id)

    def start_unit(self, id: str) -> None:
        """Starts all members of a request's unit together: its group, or the request alone if it has none.

        For who sends a group to a service as a batch of its own: call it just before that is sent. The members
        are reported one by one, in any order, and until the last of them the unit counts as one in the width.

        Raises:
            Refused: The unit may not start, by the first of the causes S1 to S5: a member has started before, the
                run is stopped, the unit has failed, something that a member needs of another unit has not
                succeeded, or the width limit is reached. Nothing has started.
            KeyError: No request of the batch has this id.
            ValueError: The run is closed.
        """
        self._begin("odb_run_start_unit", id)

    def _begin(self, name: str, request_id: str) -> None:
        """Calls a function that starts a request or its unit."""
        position = self._at[request_id]
        with self._lock:
            status = self._call(name, position)
        if status != library.DONE:
            require_done(name, status, request_id)

    def report(self, id: str, status: int, headers: Optional[Mapping[str, str]] = None, body: Any = None) -> None:
        """Reports what a running request was answered.

        Args:
            id: The id of the request.
            status: The final status, from 200 to 599. A request without any answer, as over a connection
                that broke, is reported, too: as 502 or 504, or the run would wait for it forever.
            headers: The headers that the response shows, or None.
            body: The body: its JSON text as bytes, which the response repeats byte for byte, whatever
                numbers they have; or a value that ``json`` can write, a ``str`` too. None and empty bytes
                are no body. It nests at most 124 deep.

        Raises:
            Refused: The report may not come, by the first of the causes P1 and P2.
            Fault: The headers or the body are refused, by the fault that they have in a recorded event;
                the request is still running.
            KeyError: No request of the batch has this id.
            ValueError: The run is closed, or the body holds a NaN or an infinity, which have no JSON.
            MemoryError: An allocation failed.
        """
        if isinstance(status, bool) or not isinstance(status, int):
            raise TypeError(f"a status is a whole number, not {status!r}")
        position = self._at[id]
        heads, text = _headers_json(headers), b"" if body is None else body if type(body) is bytes else body_json(body)
        number = min(max(status, 0), _MAX_NUMBER)
        with self._lock:
            end = self._call("odb_run_report", position, number, heads, len(heads), text, len(text))
            if end == library.DONE:
                self._size += len(heads) + len(text)
                return
        if end == library.REFUSED:
            raise report_error(heads, text)
        require_done("odb_run_report", end, id)

    def response(self) -> bytes:
        """Returns the response document of the finished run, as JSON without a newline.

        Raises:
            Fault: The run is not finished (F66).
            ValueError: The run is closed.
            MemoryError: An allocation failed.
        """
        with self._lock:
            self._require_open()
            return read_text("odb_run_response", options=(self._pointer,), more=self._size)[:-1]

    def close(self) -> None:
        """Frees the run, if it is not closed yet."""
        with self._lock:
            self._is_open = False
            self._release()

    def _require_open(self) -> None:
        if not self._is_open:
            raise ValueError("the run is closed")

    def _call(self, name: str, *arguments: Any) -> int:
        """Calls a function over the open run, by the thread that has the lock; returns its status."""
        if not self._is_open:
            raise ValueError("the run is closed")
        status: int = getattr(library.LIBRARY, name)(self._pointer, *arguments)
        return status

    def _list_positions(self, name: str) -> tuple[int, list[int]]:
        """The status that a function returns, and the positions that it lists, by the thread that has the lock."""
        status = self._call(name, self._listed, len(self._listed), self._count)
        return status, self._listed[: self._count.value]

    def _state(self) -> str:
        """How far the open run is, by the thread that has the lock."""
        if self._call("odb_run_finished"):
            return "finished"
        ready, running = (len(self._list_positions(name)[1]) for name in ("odb_run_ready", "odb_run_running"))
        return f"{ready} ready, {running} running"

    def _positions(self, name: str) -> tuple[int, list[int]]:
        """The status that a function returns, and the positions that it lists."""
        with self._lock:
            return self._list_positions(name)

    def _list(self, name: str) -> tuple[str, ...]:
        """The ids of the requests that a function lists, in the order of the batch."""
        status, positions = self._positions(name)
        require_done(name, status)
        return tuple(self._ids[position] for position in sorted(positions))


class ListedRun(Run):
    """A run of which all requests are sent: what is to be sent of them is read when it is opened.

    Attributes:
        requests: What is to be sent, in the order of the batch.
    """

    __slots__ = ("requests",)

    def _open(self, batch: bytes, events: bytes, options: tuple[Any, ...]) -> None:
        self.requests = self._batch = open_requests(batch, events, options)

    def _list_ids(self, size: int) -> list[str]:
        return [request.id for request in self.requests]


# Writes a string; for an object json takes several times as long as for its strings.
_encode = json.JSONEncoder(ensure_ascii=False).encode


def _headers_json(headers: Optional[Mapping[str, str]]) -> bytes:
    """The JSON text of the headers of a report; nothing without them."""
    if headers is None:
        return b""
    given = dict(headers)
    if not {*map(type, given), *map(type, given.values())} <= {str}:
        return json_bytes(given)
    texts = ",".join([f"{_encode(name)}:{_encode(value)}" for name, value in given.items()])
    return f"{{{texts}}}".encode("utf-8", "surrogatepass")
