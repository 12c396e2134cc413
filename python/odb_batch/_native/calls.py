"""Calls of the library that write a text, and the numbers of their options."""

from functools import partial
from typing import Any, Literal, Optional, get_args

from ..errors.faults import Fault, Position, Refused, explain
from ..errors.findings import Findings
from . import library
from .constants import limit

#: Whether a run goes on after an error; the position of a mode is its number.
Mode = Literal["continue", "stop"]

_MODES: tuple[str, ...] = get_args(Mode)
MAX_WIDTH = limit("width")
#: How much longer than its documents a text is thought to be; a longer one takes a second call.
MORE = 256
#: How many requests a batch may have.
MAX_REQUESTS = limit("requests")
# The letters of the codes of causes, by the tens of their statuses: 11 is S1, and 21 is P1.
_FIRST_CAUSES = {1: "S", 2: "P"}
# How short a request or a response may be in a document.
_SHORTEST = 32


def option_number(values: tuple[str, ...], name: str, value: str) -> int:
    """Returns the number of the value of an option."""
    if value not in values:
        raise ValueError(f"{name} must be one of {', '.join(map(repr, values))}, not {value!r}")
    return values.index(value)


def mode_number(mode: Mode) -> int:
    """Returns the number of a mode."""
    return option_number(_MODES, "mode", mode)


def require_number(name: str, number: int, most: int) -> None:
    """Raises ValueError unless an option is a whole number from 1 to another one."""
    if isinstance(number, bool) or not isinstance(number, int) or not 1 <= number <= most:
        raise ValueError(f"{name} must be a whole number from 1 to {most}, not {number!r}")


def policy_numbers(mode: Mode, width: int) -> tuple[int, int]:
    """Returns the numbers of a policy."""
    require_number("width", width, MAX_WIDTH)
    return mode_number(mode), width


def status_error(name: str, status: int) -> Exception:
    """Returns the exception for a status by which a function has written nothing."""
    if status == library.OUT_OF_MEMORY:
        return MemoryError(f"{name} ran out of memory")
    return RuntimeError(f"{name} returned the status {status}")


def read_text(name: str, *documents: bytes, options: tuple[Any, ...] = (), more: int = 0) -> bytes:
    """Returns the text that a function writes, of documents and maybe of `more` bytes; raises what else it returns."""
    status, text = library.call(name, documents, options, sum(map(len, documents)) + more + MORE)
    if status == library.DONE:
        return text
    if status == library.REFUSED:
        raise read_fault(text, *documents)
    raise status_error(name, status)


def refused_error(status: int, request_id: str) -> Optional[Refused]:
    """Returns the exception for a status by which a start or a report is refused; None for another status."""
    first = _FIRST_CAUSES.get(status // 10)
    if first is None or status % 10 == 0:
        return None
    code = f"{first}{status % 10}"
    return Refused(code, explain(code).name, request_id)


def require_done(name: str, status: int, request_id: str = "") -> None:
    """Raises what a function over a run returns but that it is done."""
    if status != library.DONE:
        raise refused_error(status, request_id) or status_error(name, status)


def read_fault(line: bytes, *documents: bytes) -> Fault:
    """Returns the fault of a line ``fault CODE NAME PLACE``, in one of the documents: the batch, and maybe a second."""
    _, code, name, place = line.decode().rstrip("\n").split(" ", 3)
    if not documents:
        return Fault(code, name, place)
    document = documents[0 if place == "batch" or place.startswith("/requests/") else -1]
    return Fault(code, name, place).in_document(document, partial(_position, document, place))


def report_error(headers: bytes, body: bytes) -> Exception:
    """Returns why headers or a body are refused: the fault that the same report has as a recorded event."""
    status, line = library.call("odb_report_fault", (headers, body), (), MORE)
    if status != library.REFUSED:
        return status_error("odb_report_fault", status)
    fault = read_fault(line)
    return Fault(fault.code, fault.name, "report")


def likely_count(batch: bytes) -> int:
    """Returns a guess of how many requests a batch has, or faults if each has one; more take a second call."""
    return min(len(batch) // _SHORTEST + 1, MAX_REQUESTS)


def read_faults(batch: bytes) -> tuple[Fault, ...]:
    """Returns all faults of a batch, with where they are."""
    status, text, found = library.call_faults(batch, len(batch) + MORE, likely_count(batch))
    if status not in (library.DONE, library.REFUSED):
        raise status_error("odb_faults", status)
    words, findings = text.decode(), Findings(batch)
    return tuple(_listed_fault(findings, words, numbers) for numbers in found)


def _listed_fault(findings: Findings, text: str, numbers: tuple[int, ...]) -> Fault:
    """Returns the fault whose words lie there in a text of ASCII."""
    code, code_length, name, name_length, place, place_length, *position = numbers
    fault = Fault(text[code : code + code_length], text[name : name + name_length], text[place : place + place_length])
    return fault.at(findings, Position(*position))


def _position(document: bytes, place: str) -> Optional[Position]:
    status, numbers = library.call_where(document, place.encode())
    if status == library.OUT_OF_MEMORY:
        raise status_error("odb_where", status)
    return Position(*numbers) if status == library.DONE else None
