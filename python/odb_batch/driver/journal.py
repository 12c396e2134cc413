"""What a journal keeps of a batch that is performed, so that the batch goes on where a process was ended."""

from dataclasses import dataclass
from typing import Protocol, Sequence, Union

from ..documents.encoding import Report, Start
from ..values import Value


@dataclass(frozen=True)
class StartUnit(Value):
    """An event of a batch: all requests of a group start together, since the group is sent as one.

    Attributes:
        ids: Its requests.
    """

    ids: tuple[str, ...]


@dataclass(frozen=True)
class ReportUnit(Value):
    """An event of a batch: the answers to all requests of a group that was sent as one.

    Attributes:
        reports: The answer to each.
    """

    reports: tuple[Report, ...]


@dataclass(frozen=True)
class Stop(Value):
    """An event of a batch: from now on nothing starts."""


#: What has happened to a batch. The body of a Report is its JSON text as bytes, or None.
JournalEvent = Union[Start, StartUnit, Report, ReportUnit, Stop]


class Journal(Protocol):
    """Where the events of one batch are kept, for :func:`odb_batch.perform_async`.

    After the end of a process another one continues from a journal with the same events: no request is sent
    twice but a GET. What was out then, and is not a GET, is answered 500 ``Lost``.
    """

    @property
    def events(self) -> Sequence[JournalEvent]:
        """What has happened before, in order; none for a new batch."""

    def write(self, event: JournalEvent) -> None:
        """Appends an event. It must not wait; the order of the calls is the order of the events. What is lost is written
        by a thread if the batch is long, before anything is sent."""

    async def sync(self) -> None:
        """Returns once all events that were written before this call outlive the process, or the machine.

        It is awaited before a request is sent, but a GET that is sent alone, and before the response is returned.
        """
