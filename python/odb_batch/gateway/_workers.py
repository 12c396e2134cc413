"""Several processes that do the same: each is started again if it ends, and all stop together."""

import contextlib
import os
import signal
import time
import traceback
from typing import Callable, NamedTuple

from ._log import LINES, log_line

# The exit status of a process that cannot run: another one could not, either.
UNUSABLE = 3
_STOPS = {signal.SIGTERM, signal.SIGINT}
# After how many seconds a process is started again.
_AGAIN = 1.0


class Worker(NamedTuple):
    """One of the processes.

    Attributes:
        number: From 1 on.
        orders: Where the first process writes a byte for each signal; it ends if that process does.
    """

    number: int
    orders: int


class Workers:
    """Runs some work in several processes until SIGTERM or SIGINT.

    Only the first process gets signals, so that what is sent to all of them counts once.

    Args:
        count: How many there are.
        work: What they do. It returns the exit status of the process.
    """

    def __init__(self, count: int, work: Callable[[Worker], int]) -> None:
        self._count, self._work = count, work
        # By their ids: the number of each process, and where it gets its orders.
        self._running: dict[int, tuple[int, int]] = {}
        self._is_stopping = False

    def run(self) -> int:
        """Returns the exit status: 0, or that of a process that has failed at the end, or cannot run."""
        for stop in _STOPS:
            signal.signal(stop, self._stop)
        for number in range(1, self._count + 1):
            self._start(number)
        status = 0
        while self._running:
            process, how = os.wait()
            if process not in self._running:  # as the first process of a container it inherits those of others
                continue
            number, orders = self._running.pop(process)
            os.close(orders)
            ended = os.waitstatus_to_exitcode(how)
            if ended == UNUSABLE and not self._is_stopping:
                self._stop()
            if self._is_stopping:
                status = status or abs(ended)
                continue
            LINES.error("worker %s has ended with the status %s, and is started again", number, ended)
            time.sleep(_AGAIN)
            if not self._is_stopping:
                self._start(number)
        return status

    def _stop(self, *_: object) -> None:
        is_first, self._is_stopping = not self._is_stopping, True
        if is_first:
            log_line({"workers": "stopping", "count": len(self._running)})
        for _number, orders in self._running.values():
            with contextlib.suppress(OSError):  # it has ended just now
                os.write(orders, b".")

    def _start(self, number: int) -> None:
        reading, orders = os.pipe()
        before: set[int] = set(signal.pthread_sigmask(signal.SIG_BLOCK, _STOPS))
        process = os.fork()
        if process:
            os.close(reading)
            self._running[process] = number, orders
            signal.pthread_sigmask(signal.SIG_SETMASK, before)
            return
        for other in (orders, *(pipe for _, pipe in self._running.values())):
            os.close(other)
        for stop in _STOPS:
            signal.signal(stop, signal.SIG_IGN)
        signal.pthread_sigmask(signal.SIG_SETMASK, before)
        status = 1
        try:
            status = self._work(Worker(number, reading))
        except BaseException:
            traceback.print_exc()
        finally:
            os._exit(status)
