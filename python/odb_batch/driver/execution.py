"""A batch on its way: which unit begins, and what is reported. It has no threads, and does not send."""

from dataclasses import dataclass
from typing import Callable, Generator, Optional, Sequence, Union

from .._native.calls import MAX_WIDTH, Mode
from .._native.constants import limit, listed_names
from ..documents.encoding import Report, Start
from ..errors.faults import Fault, Refused
from ..http.bodies import text_json, to_json
from ..http.messages import (
    FAILED, LOG, Answer, Answered, GroupFailed, PreparedRequest, Refusal, answer_for, validate_answer,
)  # fmt: skip
from ..runs import ListedRun
from .groups import SKIPPED, MemberRefused, PreparedGroup
from .journal import Journal, JournalEvent, ReportUnit, StartUnit, Stop
from .references import ReferenceResolver
from .replaying import replay_events


@dataclass(eq=False)
class Unit:
    """An atomicity group, or a request without one, that has begun.

    Attributes:
        ids: Its requests in order: each comes after those of the group that it needs.
        group: The name of the group, or None.
        open: The request that has started and is not reported yet, or None.
        is_noted: Whether the journal has its start.
        prepared: Its first request as it is sent, if a place was asked for by it.
    """

    ids: tuple[str, ...]
    group: Optional[str]
    open: Optional[str]
    is_noted: bool = False
    prepared: Optional[PreparedRequest] = None

    def __str__(self) -> str:
        return self.ids[0] if self.group is None else f"the group {self.group}"


# Headers of an answer that speak of its connection, or have no place in JSON: Set-Cookie may come several times.
_NOT_SHOWN = frozenset(listed_names("headers", "not_shown"))
# How many bytes of a body a live run takes.
MAX_BODY_BYTES = limit("document_bytes")
TOO_LONG = Refusal(507, "TooLong", "The answer is too long for a batch").answer
# The answer to what was out when a process ended, and is not sent again.
LOST = Refusal(500, "Lost", "The gateway was ended: it is not known whether the request was performed").answer


class Execution:
    """A batch on its way from its document to its response.

    The units that :meth:`begin` returns need nothing more from outside of it. So a transaction that begins now does not
    wait for what waits for it. It may have to wait for a place, so :meth:`confirm` asks again whether it is sent.

    One thread calls ``begin`` and ``response``. The other methods may be called by any, for different units.

    Args:
        batch: The batch.
        mode, width: Those of its run.
        limit: How many requests it may have.
        has_transactions: Whether groups can be kept.
        base, roots: Where its requests may lead.
        stop: Is called before a unit begins, and before it is sent. Once it returns true, nothing more starts.
        sends_groups: Whether a group is sent as one.
        journal: Where its events are kept, and what has happened before.

    Attributes:
        resolver: Prepares its requests.
        resumed: The units that were out when another process ended, and are sent again.

    Raises:
        Fault: The batch is refused.
        Refusal: It has too many requests, or groups that cannot be kept.
        ValueError: An event of the journal is not one of this batch.
    """

    def __init__(
        self,
        batch: bytes,
        *,
        mode: Mode,
        width: int,
        limit: int,
        has_transactions: bool,
        base: str,
        roots: Optional[Sequence[str]],
        stop: Optional[Callable[[], bool]],
        sends_groups: bool = False,
        journal: Optional[Journal] = None,
    ) -> None:
        require_limit(limit)
        happened = journal.events if journal is not None else ()
        # What was out before may be more than the width is now.
        self._run = _open(batch, mode, MAX_WIDTH if happened else width, limit, has_transactions or sends_groups)
        given = self._run.requests
        self._requests = {request.id: request for request in given}
        self.resolver, self._stop, self._journal = ReferenceResolver(given, base, roots), stop, journal
        self._sends_groups = sends_groups
        # Whether nothing more starts: since that was asked for, and in mode stop after an error.
        self._is_stopped, self._has_failed, self._mode = False, False, mode
        # How many requests are of units that have not begun.
        self._left = len(given)
        try:
            self.resumed = self._resume(happened) if happened else []
        except (Fault, Refused, LookupError, TypeError, ValueError) as error:
            self.close()
            raise ValueError(f"the journal has an event that is not one of this batch: {error}") from None

    def close(self) -> None:
        """Frees the run."""
        self._run.close()

    def _resume(self, events: Sequence[JournalEvent]) -> list[Unit]:
        """Takes what has happened before; returns the units that were out and are sent again, which are GETs. The
        others that were out are lost."""
        begun, out = replay_events(events, self._run, self.resolver)
        self._left -= begun
        again = []
        for request in map(self._requests.__getitem__, out):
            if request.method == "GET" and request.group is None:
                again.append(Unit((request.id,), None, request.id, is_noted=True))
            else:
                LOG.error("%s was out when a process ended, and is lost", request.id)
                self._report_and_note(request.id, LOST)
        return again

    def begin(self, count: int) -> list[Unit]:
        """Starts the first request of each unit that may begin, or all of them if it is a group that is sent as one; of so many
        units at most."""
        found: list[Unit] = []
        while self._left and len(found) < count:
            if self._stop is not None:
                self._ask_to_stop(self._stop)
            ids = self._run.next_unit()
            if ids is None:
                break
            first = ids[0]
            group = self._requests[first].group
            try:
                if group is None or not self._sends_groups:
                    self._run.start(first)
                else:
                    self._run.start_unit(first)
            except Refused:
                continue  # meanwhile another thread has reported an error that stops the run
            self._left -= len(ids)
            found.append(Unit(ids, group, first))
        return found

    def confirm(self, unit: Unit) -> bool:
        """Notes the start of a unit that is sent now, and returns true. If nothing more may start meanwhile, it is
        answered 424 instead. The journal then has nothing of it, and who goes on from there answers the same."""
        if self._stop is not None:
            self._ask_to_stop(self._stop)
        # One that was on its way when a process ended has started before what failed since.
        is_over = self._is_stopped or (self._has_failed and not unit.is_noted)
        if is_over:
            self._drop(unit)
        elif self._journal is not None and not unit.is_noted:
            self._journal.write(StartUnit(unit.ids) if self._is_one(unit) else Start(unit.ids[0]))
        return not is_over

    def _is_one(self, unit: Unit) -> bool:
        """Whether a unit is a group that is sent as one."""
        return unit.group is not None and self._sends_groups

    def _drop(self, unit: Unit) -> None:
        unit.open = None
        for request_id in unit.ids if self._is_one(unit) else unit.ids[:1]:
            reported = self._report(request_id, SKIPPED)
            if unit.is_noted and self._journal is not None:
                self._journal.write(Report(request_id, *reported))

    def _ask_to_stop(self, is_to_stop: Callable[[], bool]) -> None:
        if not self._is_stopped and is_to_stop():
            self.stop()
            if self._journal is not None:
                self._journal.write(Stop())

    def stop(self) -> None:
        """Lets nothing more start."""
        self._is_stopped = True
        self._run.stop()

    # A group that is sent as one

    def prepare_group(self, unit: Unit) -> PreparedGroup:
        """Returns a group as it is sent; raises MemberRefused if a request of it cannot be."""
        members, inside = [], frozenset(unit.ids)
        for request_id in unit.ids:
            try:
                members.append(self.resolver.prepare_member(request_id, inside))
            except Refusal as refusal:
                raise MemberRefused(request_id, refusal.answer) from None
        return PreparedGroup(str(unit.group), tuple(members))

    def finish_group(self, unit: Unit, answered: Union[Sequence[Answered], BaseException]) -> None:
        """Reports all requests of a group that was sent as one, by what each is answered in order, or by the exception in
        place of that. It is one event: a process that ends keeps all or none."""
        answers = self._group_answers(unit, answered)
        unit.open = None
        reports = tuple(Report(name, *self._report(name, answer)) for name, answer in zip(unit.ids, answers))
        if self._journal is not None:
            self._journal.write(ReportUnit(reports))

    def _group_answers(self, unit: Unit, answered: Union[Sequence[Answered], BaseException]) -> Sequence[Answer]:
        if isinstance(answered, MemberRefused):
            return [answered.answer if request_id == answered.id else SKIPPED for request_id in unit.ids]
        try:
            if isinstance(answered, BaseException):
                return [answer_for(answered, str(unit))] * len(unit.ids)
            if len(answered) != len(unit.ids):
                raise TypeError(f"{unit} has {len(unit.ids)} requests, and {len(answered)} answers")
            return list(map(validate_answer, answered))
        except Exception as error:
            return [answer_for(error, str(unit))] * len(unit.ids)

    # The requests of a unit that are sent one after another

    def steps(self, unit: Unit) -> Generator[PreparedRequest, Union[Answer, BaseException, None], Optional[Answer]]:
        """Yields the requests of a unit as they are sent, and is sent what each is answered, validated, or the exception in
        place of that. The value in the end is the answer to the last one of a group, which is not reported before the commit:
        what needs the group starts then. A request without a group is confirmed and reported here.

        Raises:
            GroupFailed: A request of a group has not succeeded, or the body of the last one cannot be written.
            Refused: Nothing more may start.
        """
        if unit.group is None and not self.confirm(unit):
            return None
        for request_id in unit.ids:
            if unit.open != request_id:
                self._run.start(request_id)
                unit.open = request_id
            answered: Union[Answer, BaseException, None]
            try:
                prepared, unit.prepared = unit.prepared, None
                answered = yield prepared or self.resolver.prepare(request_id)
            except Exception as error:
                answered = error
            if isinstance(answered, BaseException):
                answered = answer_for(answered, f"the request {request_id}")
            answer = answered or FAILED
            if unit.group is None:
                self.finish(unit, answer)
            else:
                self._report_member(unit, answer)
        return None if unit.group is None else answer

    def _report_member(self, unit: Unit, answer: Answer) -> None:
        """Reports the open request of a group; the last one only if it fails, since it is reported after the commit."""
        if unit.open == unit.ids[-1]:
            answer, _ = self._write_body(unit.ids[-1], answer)
            if answer.is_success:
                return
        self.finish(unit, answer)
        if not answer.is_success:
            raise GroupFailed(unit.group)

    # The end of a unit

    def refuse(self, unit: Unit, answer: Answer) -> None:
        """Answers a unit that is not sent, since it has no place."""
        if self._is_one(unit):
            self.finish_group(unit, [answer] * len(unit.ids))
        else:
            self.finish(unit, answer)

    def failure_answer(self, unit: Unit, error: BaseException) -> Optional[Answer]:
        """Returns what the open request of a unit is answered, since its transaction has ended by an exception; None if
        none is open: the group has failed before."""
        if unit.open is not None:
            return answer_for(error, str(unit))
        if not isinstance(error, (GroupFailed, Refused)):
            LOG.error("%s could not be rolled back", unit, exc_info=error)
        return None

    def finish(self, unit: Unit, answer: Optional[Answer]) -> None:
        """Reports the open request of a unit, if there is one; without an answer it has failed."""
        if unit.open is not None:
            request_id, unit.open = unit.open, None
            self._report_and_note(request_id, answer or FAILED)

    def _write_body(self, request_id: str, answer: Answer) -> tuple[Answer, bytes]:
        """Returns an answer to a request, and the text of its body; that of a failure if the body cannot be written. If it is
        too long for a response a GET is refused; any other request was performed, so its answer loses the body."""
        try:
            text = to_json(answer, answer.headers)
        except Exception as error:
            LOG.error("the body of the answer to %s cannot be written", request_id, exc_info=error)
            return FAILED, to_json(FAILED, {})
        if len(text) <= MAX_BODY_BYTES:
            return answer, text
        LOG.error("the body of the answer to %s has more than %d bytes", request_id, MAX_BODY_BYTES)
        if self._requests[request_id].method == "GET":
            return TOO_LONG, to_json(TOO_LONG, TOO_LONG.headers)
        return Answer(answer.status, answer.headers), b""

    def _report_and_note(self, request_id: str, answer: Answer) -> None:
        reported = self._report(request_id, answer)
        if self._journal is not None:
            self._journal.write(Report(request_id, *reported))

    def _report(self, request_id: str, answer: Answer) -> tuple[int, dict[str, str], Optional[bytes]]:
        """Reports the answer to a request; returns the status, the headers and the body that the event has."""
        answer, text = self._write_body(request_id, answer)
        if request_id in self.resolver.referred:
            self.resolver.record(request_id, answer)
        # Before the report, after which another thread may begin what it allows.
        self._has_failed = self._has_failed or (self._mode == "stop" and answer.status >= 400)
        headers = dict(answer.headers)
        if not _NOT_SHOWN.isdisjoint(headers):
            for name in _NOT_SHOWN.intersection(headers):
                del headers[name]
        try:
            self._run.report(request_id, answer.status, headers or None, text)
        except Fault:
            headers, text = self._report_unread(request_id, answer, headers, text)
        return answer.status, headers, text or None

    def _report_unread(
        self, request_id: str, answer: Answer, headers: dict[str, str], text: bytes
    ) -> tuple[dict[str, str], bytes]:
        """Reports an answer that the run cannot read: with its body as a string, or else without the headers that are
        not in ASCII, or both. Returns what it has reported."""
        wire = bytes(answer.body) if isinstance(answer.body, (bytes, bytearray, memoryview)) else text
        string = text_json(wire, {}) if wire else b""
        string = string if len(string) <= MAX_BODY_BYTES else b""
        plain = {name: value for name, value in headers.items() if name.isascii() and value.isascii()}
        for heads, body in ((headers, string), (plain, text), (plain, string)):
            try:
                self._run.report(request_id, answer.status, heads or None, body)
            except Fault:
                if (heads, body) == (plain, string):
                    raise
                continue
            if heads != headers:
                LOG.warning("the answer to %s has a header that is not Unicode", request_id)
            if body != text:
                LOG.warning("the answer to %s has a body that is not JSON", request_id)
            break
        return heads, body

    def response(self) -> bytes:
        """Returns the response document of the finished run.

        Raises:
            RuntimeError: The answer to a request could not be reported. It is not a Fault, which would be one of the
            batch.
        """
        try:
            return self._run.response()
        except Fault:
            raise RuntimeError("a request was started, and its answer could not be reported") from None


def _open(batch: bytes, mode: Mode, width: int, limit: int, keeps_groups: bool) -> ListedRun:
    """Opens the run of a batch; raises Refusal if that has too many requests, or groups that cannot be kept."""
    run = ListedRun(batch, mode=mode, width=width)
    if len(run.requests) > limit:
        refusal = Refusal(413, "BatchTooLong", f"A batch may have {limit} requests")
    elif not keeps_groups and any(request.group is not None for request in run.requests):
        refusal = Refusal(501, "NoGroups", "Atomicity groups are not supported here")
    else:
        return run
    run.close()
    raise refusal


def either(first: Optional[Callable[[], bool]], second: Optional[Callable[[], bool]]) -> Optional[Callable[[], bool]]:
    """Returns a function that says whether one of two conditions holds, as that to stop; None never does."""
    found = [condition for condition in (first, second) if condition is not None]
    if len(found) < 2:
        return found[0] if found else None
    one, other = found
    return lambda: one() or other()


def require_limit(limit: int) -> None:
    """Raises ValueError if no batch may have as many requests."""
    if isinstance(limit, bool) or not isinstance(limit, int) or limit < 1:
        raise ValueError(f"limit must be a whole number above 0, not {limit!r}")
