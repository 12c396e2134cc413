"""The parts of a live run: what of its batch may be sent together."""

import threading
from dataclasses import dataclass
from typing import Any, Optional

from ._native import library
from ._native.calls import MAX_REQUESTS, MORE, Mode, mode_number, read_fault, require_done, require_number
from .documents.encoding import Document, document_bytes
from .values import Value


@dataclass(frozen=True)
class Part(Value):
    """A part of the batch of a live run: requests that may be sent together."""

    #: A batch of these requests, in which what others have been answered stands for references to them.
    document: bytes
    #: The ids of its requests, in the order of the batch.
    ids: tuple[str, ...]


class RunParts:
    """What a live run has for who sends its batch in parts."""

    # How many bytes the response is made of.
    __slots__ = ("_size",)

    # Those of the run: its lock, its handle and whether that is open, the ids of its requests, and room for all positions.
    _lock: threading.Lock
    _pointer: Any
    _is_open: bool
    _ids: list[str]
    _listed: Any
    _size: int

    def part(self, batch: Document, limit: int = MAX_REQUESTS) -> Optional[Part]:
        """Returns the next part of the batch, or None if nothing may be sent now: requests that may be sent together as a batch
        of their own. None of them was in a part before, and what they depend on is in this part or has succeeded.

        A group is whole. Dependencies on what has succeeded are left out, and ``$a`` in a URL is replaced by the Location
        that was reported for ``a``, in ``If-Match`` and ``If-None-Match`` by the ETag; the part ends before the first unit for
        which there is none. A run that is not finished has a part that is not reported, or gives one, or raises F90 or F91. Once a
        part is answered, pass it to :meth:`take`; or start its units
        by `start_unit`, in the order of the batch, and report their requests.

        >>> from odb_batch import Run
        >>> batch = {"requests": [{"id": "a", "method": "post", "url": "Orders"},
        ...                       {"id": "b", "method": "get", "url": "$a/Lines", "dependsOn": ["a"]}]}
        >>> with Run(batch) as run:
        ...     run.part(batch, 1).ids
        ...     run.start("a")
        ...     run.report("a", 201, {"location": "/Orders(7)"})
        ...     run.part(batch, 1).document
        ('a',)
        b'{"requests":[{"id":"b","method":"get","url":"/Orders(7)/Lines"}]}'

        Args:
            batch: The batch of the run.
            limit: How many requests the part may have, from 1 to 10,000.

        Raises:
            Fault: The batch is refused, or a request of the first unit that may begin, at its position in the batch: it refers
                to one for which no Location was reported that its URL may have (F90), or no ETag (F91). Start and report this
                unit, and ask again.
            ValueError: A group has more requests than the limit, it is another batch than that of the run, or the run is closed.
            MemoryError: An allocation failed.
        """
        require_number("limit", limit, MAX_REQUESTS)
        given = document_bytes(batch)
        with self._lock:
            if not self._is_open:
                raise ValueError("the run is closed")
            status, text, positions = library.call_part(self._pointer, given, limit, len(given) + MORE, self._listed)
        if status == library.REFUSED:
            raise read_fault(text, given)
        if status == library.WRONG_OPTION:
            raise ValueError("it is another batch than that of the run, or a group has more requests than the limit")
        require_done("odb_run_part", status)
        return Part(text, tuple(map(self._ids.__getitem__, positions))) if positions else None

    def take(self, part: Part, responses: Document, *, mode: Mode = "continue") -> None:
        """Takes what a service has answered a part, at once: starts its requests, and reports each by the response with its id.

        A request that does not start, since its unit has failed or the run was stopped before, is answered 424.

        >>> from odb_batch import Run
        >>> batch = {"requests": [{"id": "a", "method": "get", "url": "Books"}]}
        >>> with Run(batch) as run:
        ...     run.take(run.part(batch), {"responses": [{"id": "a", "status": 200, "body": 9.990}]})
        ...     run.response()
        b'{"responses":[{"body":9.99,"id":"a","status":200}]}'

        Args:
            part: What :meth:`part` returned.
            responses: The response document of the service. Each body is taken as its bytes.
            mode: What an error does to the service. If it stops, a request without a response is answered 424.

        Raises:
            Fault: The responses do not fit the part, as for :func:`odb_batch.match`; or by F70 a response has a status below
                200, or headers that no report has. The run is as it was.
            ValueError: A request is running, the part was not given by this run or has started, or the run is closed.
            MemoryError: An allocation failed.
        """
        answered, number = document_bytes(responses), mode_number(mode)
        with self._lock:
            if not self._is_open:
                raise ValueError("the run is closed")
            status, line = library.call_take(self._pointer, part.document, answered, number)
            if status == library.DONE:
                self._size += len(answered)
                return
        if status == library.REFUSED:
            raise read_fault(line, part.document, answered)
        if status == library.WRONG_OPTION:
            raise ValueError("a request is running, or the part was not given by this run or has started")
        require_done("odb_run_take", status)
