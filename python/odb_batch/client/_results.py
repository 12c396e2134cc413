"""What the requests of a batch were answered."""

import email.utils
import json
import time
from dataclasses import dataclass
from datetime import timezone
from typing import Any, Callable, Literal, Optional, TypeVar, overload

from ..values import Value

_Self = TypeVar("_Self", bound="Result")
_T = TypeVar("_T")

#: It was performed; it was answered for good by another status, or depends on what is; it may be sent again; or nobody knows
#: whether it was performed, and it may not be sent again.
Outcome = Literal["done", "failed", "left", "unknown"]

#: After these statuses nobody knows whether a request was performed.
UNSURE = frozenset({408, 502, 504})


@dataclass(frozen=True)
class Result(Value):
    """What one request was answered.

    Attributes:
        id: Its id.
        status: The status. 424 is also that of a request that was skipped or undone, since another one failed.
        headers: The headers by their names in lower case.
        body: The bytes of the body as on the wire: of JSON with all digits of its numbers, of another media type
            decoded; empty if it has none.
        operation: Its method and its URL in the batch without the query, as ``POST $order/Lines``.
    """

    id: str
    status: int
    headers: dict[str, str]
    body: bytes
    operation: str = ""

    def __repr__(self) -> str:
        # Without headers and body, since logs should not have them.
        return f"<Result {self.id} {self.status}>"

    @property
    def is_success(self) -> bool:
        """Whether the status is one from 200 to 299."""
        return 200 <= self.status <= 299

    @overload
    def json(self, make: None = None, **options: Any) -> Any: ...

    @overload
    def json(self, make: Callable[[Any], _T], **options: Any) -> _T: ...

    def json(self, make: Optional[Callable[[Any], Any]] = None, **options: Any) -> Any:
        """Returns the value of the body; raises ValueError if it is not JSON.

        Args:
            make: Makes the result of that value, as ``Order.model_validate`` of pydantic or ``lambda value: Order(**value)``.
            options: Those of ``json.loads``, such as ``parse_float=Decimal``.
        """
        value = json.loads(self.body, **options)
        return value if make is None else make(value)

    def raise_for_status(self: _Self) -> _Self:
        """Returns the result itself if it is a success; else raises :class:`RequestFailed`."""
        if not self.is_success:
            raise RequestFailed(self)
        return self


class RequestFailed(Exception):
    """A request of a batch did not succeed.

    Its text is the id, the operation, the status, and what the error object of OData says (OData JSON Format 4.01, section
    21.1), as ``order (POST Orders) 409 Sold: no copy is left``.

    Attributes:
        result: What the request was answered.
    """

    def __init__(self, result: Result) -> None:
        super().__init__(result)
        self.result = result

    def __str__(self) -> str:
        operation = f" ({self.result.operation})" if self.result.operation else ""
        return f"{self.result.id}{operation} {self.result.status}{_error_text(self.result.body)}"


def _error_text(body: bytes) -> str:
    """The code and the message of an error object, where a body is one."""
    try:
        error = json.loads(body)["error"]
        return f" {error['code']}: {error['message']}"
    except (ValueError, TypeError, LookupError, RecursionError):
        return ""


def seconds_of(value: str) -> float:
    """Returns how many seconds a Retry-After asks for: a number, or the time up to a date; 0 if it is neither. It may be
    any text. Of numbers, 2**31 stands for greater ones (RFC 9111, section 1.2.2)."""
    if value.isascii() and value.isdecimal():
        return min(float(value), 2.0**31)
    try:
        at = email.utils.parsedate_to_datetime(value)
    except (TypeError, ValueError, OverflowError):
        return 0.0
    return max((at if at.tzinfo else at.replace(tzinfo=timezone.utc)).timestamp() - time.time(), 0.0)
