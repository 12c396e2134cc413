"""SIGINT and SIGTERM: they are counted, and end the run where a request begins.

An exception at any other place could leave a lock taken or an entity unknown.
"""

import signal
import time
from typing import Any

# For how many seconds an answer is waited for after an interruption: the service may still create something.
GRACE = 5.0


class Interrupted(Exception):
    """The run ends, since somebody wants it to."""

    def __str__(self) -> str:
        return "interrupted"


class Interruption:
    """The interruptions so far.

    Attributes:
        count: How many there were.
        allowed: How many are allowed until a request is refused: 0, or 1 while the entities are removed.
    """

    def __init__(self) -> None:
        self.count = self.allowed = 0
        self.until = float("inf")

    def catch(self) -> None:
        """Has the signals counted from now on."""
        for number in (signal.SIGINT, signal.SIGTERM):
            signal.signal(number, self._note)

    def ignore(self) -> None:
        """Has no further signal do anything: the run has ended."""
        for number in (signal.SIGINT, signal.SIGTERM):
            signal.signal(number, signal.SIG_IGN)

    def _note(self, *_: Any) -> None:
        self.count += 1
        self.until = time.monotonic() + GRACE

    @property
    def is_due(self) -> bool:
        return self.count > self.allowed

    def end(self, until: float) -> float:
        """Returns when an answer is not waited for any more that else has time until then."""
        return min(until, self.until) if self.is_due else until

    def check(self) -> None:
        """Raises Interrupted if the run has to end."""
        if self.is_due:
            raise Interrupted
