"""What a store of journals is: a batch is a row of numbered parts, and who appends the next part has the batch."""

import math
import secrets
import time
from dataclasses import dataclass
from typing import Callable, Protocol, Sequence

#: Who has written a part: a holder, and a number of it for each time that it opens a batch.
Mark = tuple[int, int]
#: Has written the part before the first one.
NOBODY: Mark = (0, 0)
#: Reserves memory for as many bytes, or raises an exception.
Hold = Callable[[int], None]


def clock() -> float:
    """Returns seconds that go on while the machine sleeps, as those of time.monotonic do not on Linux."""
    return time.clock_gettime(getattr(time, "CLOCK_BOOTTIME", time.CLOCK_MONOTONIC))


class Late(Exception):
    """Nothing was sent: the lease has ended, so another process may go on with the batch."""


class Lease:
    """Until when others leave alone what a holder has open.

    Args:
        seconds: How long it is from a renewal on; infinite if it needs none.
        deadline: When it ends, by `clock` of this machine.

    Attributes:
        holder: A random number above 0, that of this lease alone.
    """

    def __init__(self, seconds: float = math.inf, deadline: float = math.inf) -> None:
        self.holder, self.seconds, self.deadline = secrets.randbits(62) + 1, seconds, deadline

    @property
    def is_over(self) -> bool:
        return clock() >= self.deadline


@dataclass(frozen=True)
class Part:
    """Events of a batch that are kept together.

    Attributes:
        batch: The name of the batch: 32 bytes.
        number: The place of the part in the batch, from 0.
        mark: Who writes it.
        after: Who has written the part before; `NOBODY` for the first.
        is_open: Whether something is out, so that others leave the batch alone while the lease of the holder lasts.
        text: The events; may be empty.
    """

    batch: bytes
    number: int
    mark: Mark
    after: Mark
    is_open: bool
    text: bytes


class Store(Protocol):
    """A database with the parts of batches, for one process: :mod:`odb_batch.journals.testing` says whether it is one.

    The methods are called from one loop, many at a time. Each ends within some seconds, and raises OSError if it is
    not known whether it was done.

    Attributes:
        lease: The lease of this process, another one once the former was ended. Its deadline is moved on by `renew`.
        width: How many appends of short parts are on their way at once; one of a long part comes on top.
    """

    lease: Lease
    width: int

    async def open(self) -> None:
        """Makes what is not there yet, and begins the lease.

        Raises:
            ConnectionError: The database cannot be reached now; this is called again.
            OSError: It cannot be used.
        """

    async def close(self) -> None:
        """Ends the lease. What has failed is not raised."""

    async def renew(self) -> None:
        """Renews the lease, or begins another one if it was ended; called five times in its seconds, if they end."""

    async def now(self) -> float:
        """Returns the seconds since 1970 of the clock by which parts have their time."""

    async def read(self, batch: bytes, hold: Hold) -> list[Part]:
        """Returns the parts of a batch in order, all of one moment. `hold` is called with the size of their texts
        before these are read."""

    async def append(self, parts: Sequence[Part]) -> set[bytes]:
        """Appends parts of different batches, each if the part before has the mark `after`, and no other part its
        number.

        Returns the batches whose part is kept for good, also if an earlier call with the same part has kept it. The
        order of these calls, and of those of other processes, is one for each batch.
        """

    async def is_over(self, holder: int) -> bool:
        """Returns whether the lease of a holder has ended; if its time is over, ends it for good: it is not renewed."""

    async def confirm(self) -> None:
        """Returns once all that was read is kept for good, whoever has appended it."""

    async def prune(self, before: float) -> None:
        """Removes the batches whose parts are all older than a moment, by the clock of `now`, but not one whose last
        part is open and whose holder has not ended."""
