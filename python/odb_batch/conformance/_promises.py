"""What the standard promises of a batch, and what a case is that asks for it."""

from typing import Callable, NamedTuple, Optional, Sequence

from ._service import CONTINUE
from ._stage import Stage


class Promise(NamedTuple):
    """What the standard promises of a batch, and where: in OData JSON Format 4.01 or OData Protocol 4.01."""

    name: str
    text: str
    section: str


PROMISES = (
    Promise("answered", "a batch is answered by one document with its responses", "JSON 19.5"),
    Promise("once", "every request has one response, and there are no others", "JSON 19.5"),
    Promise("named", "a response names the atomicity group of its request", "JSON 19.5"),
    Promise("alone", "a request of a batch does what it does alone", "Protocol 11.7"),
    Promise("order", "a request comes after all that it depends on", "JSON 19.4"),
    Promise("failed", "what depends on a failure is not performed, and is answered 424", "Protocol 11.7"),
    Promise("untouched", "a request that is answered 424 has changed nothing", "Protocol 11.7"),
    Promise("group", "a group is applied as a whole or not at all", "JSON 19.4"),
    Promise("reference", "$ and an id lead to the entity that the request has created or returned", "JSON 19.2"),
    Promise("etag", "$ and an id in a condition stand for the ETag that the request is answered", "JSON 19.3"),
    Promise("continue", "with continue-on-error the rest is performed after an error", "Protocol 8.2.8.3"),
    Promise("stop", "without continue-on-error nothing is performed after an error", "Protocol 8.2.8.3"),
)
SECTIONS = {promise.name: promise.section for promise in PROMISES}


class Case(NamedTuple):
    """A batch by plan.

    Attributes:
        name: Its name, for files and options.
        promise: The promise that it is about.
        shows: What it shows, in one line.
        write: Writes its batch.
        stops: Whether the batch is sent without continue-on-error.
        kind: How one of its requests fails; the case does not apply where the service has no such failure.
        may_be_refused: Whether the service may refuse the batch for its size.
        at_once: How many batches of the case are sent at the same time.
        needs: What the service has to have, by names of `learning.LACKS`; else the case does not apply.
        says: What the header Prefer of its batch is, in place of continue-on-error or none.
    """

    name: str
    promise: str
    shows: str
    write: Callable[[Stage], None]
    stops: bool = False
    kind: Optional[str] = None
    may_be_refused: bool = False
    at_once: int = 1
    needs: Sequence[str] = ()
    says: Optional[str] = None

    @property
    def prefer(self) -> str:
        """The header Prefer of its batch; empty if it has none."""
        return self.says or ("" if self.stops else CONTINUE)
