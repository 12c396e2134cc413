"""The units of a batch that are out, each in a task of the running loop: what they wait for, and when they have to be over."""

import asyncio
import math
import sys
from typing import Any, AsyncContextManager, Awaitable, Callable, Optional, Sequence, TypeVar, Union

from ..http.messages import Answer, Answered, PreparedRequest, Refusal, answer_for, validate_answer
from .execution import Execution, Unit
from .groups import MemberRefused, PreparedGroup
from .task_options import Deadline, Gate, SendGroup, UnitOptions

_Sent = TypeVar("_Sent")
_Given = TypeVar("_Given")
_Result = TypeVar("_Result")


class Places:
    """Bounds how many requests are on their way at once. Each holds a place by ``async with``; others wait in line.

    It belongs to the loop in which it is used.

    Args:
        count: How many places there are.
        seconds: How long a request waits for a place, or None for any time.

    Raises:
        Refusal: On entry: a place was waited for too long: 503 ``Busy``.
    """

    def __init__(self, count: int, seconds: Optional[float] = None) -> None:
        self._free, self._seconds = count, seconds
        # In order: those that wait.
        self._line: "dict[asyncio.Future[None], None]" = {}

    @property
    def waiting(self) -> int:
        """How many requests wait for a place."""
        return len(self._line)

    def take(self) -> bool:
        """Takes a place, if one is free; returns whether it has. :meth:`leave` gives it back."""
        if self._free <= 0:
            return False
        self._free -= 1
        return True

    async def __aenter__(self) -> None:
        if self.take():
            return
        loop = asyncio.get_running_loop()
        turn: "asyncio.Future[None]" = loop.create_future()
        self._line[turn] = None
        timer = None if self._seconds is None else loop.call_later(self._seconds, self.give_up, turn)
        try:
            await turn
        except asyncio.CancelledError:
            if turn.done() and not turn.cancelled() and turn.exception() is None:
                self.leave()  # the place came at the moment at which this was cancelled
            raise
        finally:
            self._line.pop(turn, None)
            if timer is not None:
                timer.cancel()

    async def __aexit__(self, *_: object) -> None:
        self.leave()

    def leave(self) -> None:
        """Gives a place back: to the first in line."""
        while self._line:
            turn = next(iter(self._line))
            del self._line[turn]
            if not turn.done():
                return turn.set_result(None)
        self._free += 1

    def give_up(self, turn: "asyncio.Future[None]") -> None:
        """Refuses a request that has waited for its turn too long."""
        if not turn.done():
            turn.set_exception(Refusal(503, "Busy", "No place was free in time; the request was not sent", retry_after="1"))


class Watch:
    """Cancels tasks that are late, by one timer of the loop for all of them: most tasks end long before.

    No task has to be over before one that was watched earlier. It is left by ``with``.

    Args:
        ends: When all of them have to be over.

    Attributes:
        running: When each task that is watched has to be over.
    """

    def __init__(self, ends: Deadline) -> None:
        self._loop, self._end = asyncio.get_running_loop(), math.inf if ends.at is None else ends.at
        self.running: "dict[asyncio.Task[Any], float]" = {}
        self._late: "set[asyncio.Task[Any]]" = set()
        self._timer: Optional[asyncio.TimerHandle] = None

    def __enter__(self) -> "Watch":
        return self

    def __exit__(self, *_: object) -> None:
        if self._timer is not None:
            self._timer.cancel()

    def begin(self, timeout: Optional[float]) -> "Optional[asyncio.Task[Any]]":
        """Watches the running task, which has to be over after a time, if one is given, and at the deadline. Returns it,
        or None if there is neither; raises TimeoutError if the deadline has passed."""
        now, at = self._loop.time(), self._end
        if at <= now:
            raise asyncio.TimeoutError("the deadline of the batch has passed")
        if timeout is not None:
            at = min(at, now + timeout)
        task = asyncio.current_task(self._loop)
        if at == math.inf or task is None:
            return None
        self.running[task] = at
        if self._timer is None:
            self._timer = self._loop.call_at(at, self._cancel_late)
        return task

    def end(self, task: "Optional[asyncio.Task[Any]]") -> bool:
        """Watches a task no longer, if there is one. Returns whether this has cancelled it; it is then no longer cancelled by this."""
        if task is None or self.running.pop(task, None) is not None or task not in self._late:
            return False
        self._late.remove(task)
        uncancel(task)
        return True

    def _cancel_late(self) -> None:
        self._timer = None
        for task, at in [*self.running.items()]:
            if at > self._loop.time():
                self._timer = self._loop.call_at(at, self._cancel_late)
                return
            del self.running[task]
            self._late.add(task)
            task.cancel()


def uncancel(task: "Optional[asyncio.Task[Any]]") -> int:
    """Takes one cancel of a task back; returns how many are left. Until Python 3.11 nobody counts them."""
    left: int = getattr(task, "uncancel", int)()
    return left


async def within(seconds: float, result: Awaitable[_Result]) -> _Result:
    """Returns what something results in; raises asyncio.TimeoutError if that takes longer."""
    with Watch(Deadline(seconds)) as watch:
        task = watch.begin(None)
        try:
            return await result
        except asyncio.CancelledError:
            if watch.end(task):
                raise asyncio.TimeoutError from None
            raise
        finally:
            watch.end(task)


async def perform_units(execution: Execution, width: int, options: UnitOptions) -> None:
    """Performs all units of a batch; raises what one of them ends by, if that is not reported."""
    with Watch(options.ends) as watch:
        await _Tasks(execution, width, options, watch).run()
    if options.journal is not None:
        await options.journal.sync()


class _Tasks:
    """The units of a batch that are out, each in a task."""

    def __init__(self, execution: Execution, width: int, options: UnitOptions, watch: Watch) -> None:
        self._execution, self._width, self._options, self._watch = execution, width, options, watch
        self._out: "set[asyncio.Task[None]]" = set()
        # Those that wait for a place.
        self._waiting: "set[asyncio.Task[Any]]" = set()
        self._loop = asyncio.get_running_loop()
        self._finished: "asyncio.Future[None]" = self._loop.create_future()
        # Whether the batch is cancelled, and with it what is out.
        self._is_cancelled = False

    async def run(self) -> None:
        """Performs all units."""
        at = self._options.ends.at
        timer = None if at is None else self._loop.call_at(at, self._expire)
        try:
            for unit in self._execution.resumed:
                self._start(unit)
            self._begin_units()
            await self._finished
        finally:
            if timer is not None:
                timer.cancel()
            self._is_cancelled = True
            for task in self._out:
                task.cancel()
            await self._wait_for_out()

    async def _wait_for_out(self) -> None:
        """Waits for what is out, however often this is cancelled meanwhile: a transaction is rolled back by its end."""
        cancelled: Optional[asyncio.CancelledError] = None
        while self._out:
            self._execution.stop()
            try:
                await asyncio.wait(self._out)
            except asyncio.CancelledError as error:
                cancelled = error
        if cancelled is not None:
            raise cancelled

    def _expire(self) -> None:
        """Has what waits for a place wait no longer: the deadline has passed."""
        self._options.ends.is_over = True
        for task in self._waiting:
            task.cancel()

    def _begin_units(self) -> None:
        """Begins what may begin now."""
        for unit in self._execution.begin(self._width - len(self._out)):
            self._start(unit)
        if not self._out:
            self._finished.set_result(None)

    def _start(self, unit: Unit) -> None:
        task = self._loop.create_task(self._perform(unit))
        self._out.add(task)
        task.add_done_callback(self._on_end)

    def _on_end(self, task: "asyncio.Task[None]") -> None:
        self._out.discard(task)
        error = asyncio.CancelledError() if task.cancelled() else task.exception()
        if self._finished.done():
            return
        try:
            if error is not None:
                raise error
            self._begin_units()
        except asyncio.CancelledError:
            self._finished.cancel()
        except BaseException as raised:
            self._finished.set_exception(raised)

    async def _perform(self, unit: Unit) -> None:
        gate = self._options.gate
        if gate is None:
            await self._perform_unit(unit)
        elif isinstance(gate, Places) and gate.take():  # most have one at once
            try:
                await self._perform_unit(unit)
            finally:
                gate.leave()
        else:
            await self._perform_in(gate, unit)

    async def _perform_in(self, gate: Union[AsyncContextManager[Any], Gate], unit: Unit) -> None:
        """Performs a unit once it has its place."""
        place, refused = await self._take_place(unit, gate)
        try:
            if refused is None:
                await self._perform_unit(unit)
            elif self._execution.confirm(unit):
                self._execution.refuse(unit, refused)
        finally:
            if place is not None:
                await place.__aexit__(*sys.exc_info())

    async def _take_place(
        self, unit: Unit, gate: Union[AsyncContextManager[Any], Gate]
    ) -> tuple[Optional[AsyncContextManager[Any]], Optional[Answer]]:
        """Waits for the place of a unit; returns it, or what the unit is answered without it. One that cannot be sent has
        neither."""
        task = asyncio.current_task()
        assert task is not None
        try:
            if callable(gate):
                outgoing = self._outgoing(unit)
                if outgoing is None:
                    return None, None
                gate = gate(outgoing)
            self._waiting.add(task)
            await gate.__aenter__()
            return gate, None
        except asyncio.CancelledError as error:
            if self._options.ends.is_over and not self._is_cancelled:
                uncancel(task)
            if self._is_to_end():
                raise
            return None, answer_for(error, str(unit))
        except Exception as error:
            return None, answer_for(error, str(unit))
        finally:
            self._waiting.discard(task)

    def _outgoing(self, unit: Unit) -> Union[PreparedRequest, PreparedGroup, None]:
        """Returns what of a unit is sent first, or None if that cannot be sent."""
        try:
            if unit.group is not None and self._options.groups is not None:
                return self._execution.prepare_group(unit)
            unit.prepared = self._execution.resolver.prepare(unit.ids[0])
            return unit.prepared
        except (MemberRefused, Refusal):
            return None

    def _perform_unit(self, unit: Unit) -> Awaitable[object]:
        """Performs a unit that has its place, unless nothing more starts."""
        return self._send_requests(unit) if unit.group is None else self._perform_group(unit, unit.group)

    async def _perform_group(self, unit: Unit, group: str) -> None:
        options, execution = self._options, self._execution
        if not execution.confirm(unit):
            return
        if options.transaction is not None:
            await self._send_in(options.transaction(group), unit)
        elif options.groups is not None:
            if options.journal is not None:
                await options.journal.sync()
            execution.finish_group(unit, await self._send_group(unit, options.groups))

    async def _send_in(self, transaction: AsyncContextManager[Any], unit: Unit) -> None:
        """Performs a group in its transaction, as threads do."""
        answer: Optional[Answer] = None
        try:
            async with transaction:
                answer = await self._send_requests(unit)
        except asyncio.CancelledError as error:
            if self._is_to_end():
                raise
            answer = self._execution.failure_answer(unit, error)
        except Exception as error:
            answer = self._execution.failure_answer(unit, error)
        self._execution.finish(unit, answer)

    async def _send_group(self, unit: Unit, send: SendGroup) -> Union[Sequence[Answered], BaseException]:
        """Sends a group as one."""
        try:
            return await self._answered(send, self._execution.prepare_group(unit), list)
        except MemberRefused as refused:
            return refused

    def _is_to_end(self) -> bool:
        """Whether the running task is cancelled, not something that it waited for; until Python 3.11 nobody can say."""
        return self._is_cancelled or getattr(asyncio.current_task(), "cancelling", int)() > 0

    async def _send_requests(self, unit: Unit) -> Optional[Answer]:
        """Takes the steps of a unit, and returns in what they end."""
        steps, journal = self._execution.steps(unit), self._options.journal
        answered: Union[Answer, BaseException, None] = None
        try:
            while True:
                request = steps.send(answered)
                if journal is not None and request.method != "GET":
                    await journal.sync()
                answered = await self._answered(self._options.send, request, validate_answer)
        except StopIteration as end:
            answer: Optional[Answer] = end.value
            return answer

    async def _answered(
        self, send: Callable[[_Sent], Awaitable[_Given]], sent: _Sent, read: Callable[[_Given], _Result]
    ) -> Union[_Result, BaseException]:
        """Sends a request or a group; returns what is read of its answer, or the exception in place of that."""
        watch, task = self._watch, None
        try:
            task = watch.begin(self._options.timeout)
            return read(await send(sent))
        except asyncio.CancelledError as error:
            is_late = watch.end(task)
            if self._is_to_end():
                raise
            # Else it is something else that is cancelled: an answer like any other exception.
            return asyncio.TimeoutError() if is_late else error
        except Exception as error:
            return error
        finally:
            if task is not None and watch.running.pop(task, None) is None:
                watch.end(task)
