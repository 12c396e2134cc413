"""How much memory batches may take: reserved part by part as it is read, and given back at the end."""

import threading
from typing import Optional

from .messages import LOG, Refusal

#: How many bytes all batches of a process may hold at once, if nothing else is said.
DEFAULT_MEMORY = 268_435_456


class MemoryBudget:
    """How many bytes all batches of a process may hold at once: the batches, and the bodies of their answers.

    Threads may share it.

    Args:
        size: How many.
    """

    def __init__(self, size: int) -> None:
        self.size, self._used, self._lock = size, 0, threading.Lock()

    @property
    def used(self) -> int:
        return self._used

    def take(self, count: int) -> bool:
        """Reserves bytes; returns whether there are as many."""
        with self._lock:
            has_room = self._used + count <= self.size
            self._used += count if has_room else 0
        return has_room

    def give(self, count: int) -> None:
        """Gives bytes back."""
        with self._lock:
            self._used -= count


class BodyBudget:
    """How many bytes the bodies of the answers to one batch may have together. Threads may share it.

    It is left by ``with`` or by :meth:`close`, once the batch is answered.

    Args:
        size: How many.
        budget: That of all batches, or None for one without a bound.
    """

    def __init__(self, size: int, budget: Optional[MemoryBudget] = None) -> None:
        self._left, self._budget, self._taken, self._lock = size, budget, 0, threading.Lock()

    def __enter__(self) -> "BodyBudget":
        return self

    def __exit__(self, *_: object) -> None:
        self.close()

    @property
    def left(self) -> int:
        return self._left

    def hold(self, count: int) -> None:
        """Reserves bytes for the batch itself, which are not those of answers.

        Raises:
            Refusal: Other batches have taken the memory: 503 ``Busy``.
        """
        with self._lock:
            if self._budget is not None and not self._budget.take(count):
                raise _busy()
            self._taken += count

    def read(self, method: str) -> "BodyReader":
        """Returns the body of an answer to a request with a method, while it is read."""
        return BodyReader(self, method)

    def take(self, count: int) -> Optional[Refusal]:
        """Reserves bytes of a body; returns why there are not as many, or None."""
        with self._lock:
            if count > self._left:
                return Refusal(507, "TooLong", "The answers to the batch are too long together")
            if self._budget is not None and not self._budget.take(count):
                return _busy()
            self._left -= count
            self._taken += count
        return None

    def give(self, count: int) -> None:
        """Gives bytes of a body back."""
        with self._lock:
            self._left += count
            self._taken -= count
        if self._budget is not None:
            self._budget.give(count)

    def close(self) -> None:
        """Gives back all that the batch has taken from the budget. A second call does nothing."""
        with self._lock:
            count, self._taken = self._taken, 0
        if self._budget is not None:
            self._budget.give(count)


class BodyReader:
    """The body of one answer while it is read: each part is reserved as it comes.

    What has no room is not kept, and gives back what it had. If it is left by ``with`` before :meth:`body` was called,
    it gives back all.

    Attributes:
        refusal: What a GET is answered in place of the answer, since there is no room for it; or None.
        has_begun: Whether a part has come that is not empty.
    """

    __slots__ = ("_room", "_method", "_parts", "_size", "_is_kept", "_is_lost", "refusal", "has_begun")

    def __init__(self, room: BodyBudget, method: str) -> None:
        self._room, self._method = room, method
        self._parts: list[bytes] = []
        self._size, self._is_kept, self._is_lost, self.has_begun = 0, False, False, False
        self.refusal: Optional[Refusal] = None

    def __enter__(self) -> "BodyReader":
        return self

    def __exit__(self, *_: object) -> None:
        if not self._is_kept:
            self._drop()

    def add(self, part: bytes) -> bool:
        """Keeps a part of the body. Returns whether the body is kept so far; if it is not, the rest need not be read.

        A request that is not a GET was performed, so it keeps its status, and loses its body.

        Raises:
            Refusal: The request is a GET, and there is no room for its answer: 507 ``TooLong``, or 503 ``Busy`` if other
                batches have taken the memory. So do further calls.
        """
        if self.refusal is not None:
            raise self.refusal
        if self._is_lost or not part:
            return not self._is_lost
        self.has_begun = True
        refusal = self._room.take(len(part))
        if refusal is None:
            self._size += len(part)
            self._parts.append(bytes(part))  # an application may use its buffer again
            return True
        self._drop()
        if self._method == "GET":
            self.refusal = refusal
            raise refusal
        self._is_lost = True
        LOG.warning("the answer to a %s loses its body: %s", self._method, refusal)
        return False

    def body(self) -> bytes:
        """Returns the body, which stays reserved until its room is closed; raises Refusal as `add` does."""
        if self.refusal is not None:
            raise self.refusal
        self._is_kept = True
        return bytes(self._parts[0]) if len(self._parts) == 1 else b"".join(self._parts)

    def _drop(self) -> None:
        self._room.give(self._size)
        self._size = 0
        self._parts.clear()


def memory_budget(memory: Optional[int], max_size: int) -> MemoryBudget:
    """Returns the budget of an option; raises ValueError if it has no room for one batch."""
    size = max(DEFAULT_MEMORY, 2 * max_size) if memory is None else memory
    if size < max_size:
        raise ValueError(f"memory must be at least max_size, {max_size}, not {memory!r}")
    return MemoryBudget(size)


def _busy() -> Refusal:
    return Refusal(503, "Busy", "Other batches have taken the memory", retry_after="1")
