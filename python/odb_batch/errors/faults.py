"""Why a document is refused, or a start or a report of a live run."""

from functools import cache
from typing import Callable, NamedTuple, Optional

from .._native import library
from .findings import Findings

# A guess of how long the explanation of a fault is.
_LONG = 2048


class Explanation(NamedTuple):
    """What the library says of a code: the name of the fault or the cause, and what it means."""

    name: str
    meaning: str


@cache
def explain(code: str) -> Explanation:
    """Returns what a code means; nothing of one that is not the code of a fault or a cause."""
    status, text = library.call("odb_explain", (code.encode("utf-8", "replace"),), (), _LONG)
    if status != library.DONE:
        return Explanation("", "")
    heading, _, rest = text.decode().partition("\n")
    return Explanation(heading.split(" ")[1], rest.rpartition("\nrefused: ")[0])


class Position(NamedTuple):
    """Where an element begins and ends in a document, as an odb_position has it."""

    line: int
    column: int
    offset: int
    end: int


class OdbError(Exception):
    """The library refuses something by its rules: the base of :class:`Fault` and :class:`Refused`.

    A wrong option and a closed run are a plain ValueError, not of this class.

    It is made of the code, the name, and the place or the id: thousands of faults are listed, so it has no `__init__`.
    """

    @property
    def code(self) -> str:
        """The code of the fault or the cause, as ``F41``, ``S4`` or ``P2``."""
        return str(self.args[0])

    @property
    def name(self) -> str:
        """Its name, as ``ForwardName``."""
        return str(self.args[1])

    def __str__(self) -> str:
        return " ".join(map(str, self.args))

    @property
    def explanation(self) -> str:
        """What it means, and how it is repaired."""
        return explain(self.code).meaning


class Fault(OdbError, ValueError):
    """A document is refused: by its first fault, or by one of all that :func:`faults` returns.

    Its text is the code, the name and the place, as ``F41 ForwardName /requests/0``. Where that begins in the document, as
    ``line``, ``column`` and ``offset`` say, and where it ends, :func:`faults` finds for all faults at once; of a fault that is
    raised it is looked up when one of them is asked for. A fault keeps its document for that.
    In a document that is not JSON (F02) they are those of the first byte that cannot be there, or of the end. Of a mapping
    they are those in the JSON that ``json`` writes of it. They are None for a fault that a live run has found.
    """

    # What its document says for people; the faults of a document share it.
    _findings: Optional[Findings] = None
    # Where it is, or until that is asked for what looks it up.
    _found: Optional[Position] = None
    _locate: Optional[Callable[[], Optional[Position]]] = None
    # Whether its text is for who has not written the document: the message in place of the name and the place.
    _is_of_builder = False

    @property
    def place(self) -> str:
        """The document, as ``batch``, or its element, as ``/requests/0``, counted from 0; ``report`` for the headers or the body of a
        report of a live run."""
        return str(self.args[2])

    def in_document(self, document: bytes, locate: Callable[[], Optional[Position]]) -> "Fault":
        """Notes the document that has the fault, and what looks up where; returns the fault itself."""
        self._findings, self._locate = Findings(document), locate
        return self

    def at(self, findings: Findings, position: Position) -> "Fault":
        """Notes what the document says that has the fault, and where it is; returns the fault itself."""
        self._findings, self._found = findings, position
        return self

    def of_builder(self) -> "Fault":
        """Has its text name the request, not its position; returns the fault itself."""
        self._is_of_builder = True
        return self

    def __str__(self) -> str:
        return f"{self.code} {self.message}" if self._is_of_builder else super().__str__()

    @property
    def message(self) -> str:
        """What is wrong, for people: the id of the request and the name that is wrong, where there are any, then the
        name of the fault and its explanation.

        >>> from odb_batch import Fault, check
        >>> try:
        ...     check({"requests": [{"id": "a", "method": "get", "url": "A", "dependsOn": ["b"]}]})
        ... except Fault as fault:
        ...     print(fault.message[:54])
        a: "b" in dependsOn is unknown. UnknownName: A name in
        """
        found = "" if self._findings is None else self._findings.describe(self.code, self.place)
        return f"{found}{self.name}: {' '.join(self.explanation.split())}"

    def _position(self) -> Optional[Position]:
        locate = self._locate
        if locate is not None:
            self._found = locate()
            self._locate = None
        return self._found

    @property
    def line(self) -> Optional[int]:
        """The line of the document in which the element begins, from 1."""
        position = self._position()
        return position and position.line

    @property
    def column(self) -> Optional[int]:
        """The column in that line, from 1, in characters."""
        position = self._position()
        return position and position.column

    @property
    def offset(self) -> Optional[int]:
        """How many bytes of the document come before the element."""
        position = self._position()
        return position and position.offset

    @property
    def end(self) -> Optional[int]:
        """How many bytes of the document come before the end of the element."""
        position = self._position()
        return position and position.end


class Refused(OdbError):
    """A start or a report of a live run is refused, and nothing has changed.

    Its text is the code, the name and the id, as ``S4 Waiting list``. The code is that of the first cause, S1 to S5 of
    a start, P1 or P2 of a report.
    """

    @property
    def id(self) -> str:
        """The id of the request."""
        return str(self.args[2])
