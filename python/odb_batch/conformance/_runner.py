"""Runs cases against a service: the batch of each, its judgement, and the removal of what it made."""

from concurrent.futures import ThreadPoolExecutor
from typing import Callable, NamedTuple, Optional, Union

from ._entities import Entities
from ._failure_kinds import KINDS, learn_failures
from ._judge import Check, Judge, clear_responses, left_over, responses_of
from ._learning import learn, note_created, refusal
from ._promises import Case
from ._service import Reply, Service, Unanswered, is_success
from ._stage import DONE, FAILS, Stage

# What a service may answer to one of some batches at the same time.
BUSY = (429, 503)
# How often a case is run once more that shows no stop at an error.
MORE_RUNS = 2
# After how many batches without an answer in time the run ends.
MAX_LATE = 3


class Result(NamedTuple):
    """What has become of a case.

    Attributes:
        case: The case.
        checks: The promises that were looked at; none if the case does not apply.
        reason: Why it does not apply, or None.
        batch: Its batch; of several, the first that is broken.
        response: What the service has answered.
    """

    case: Case
    checks: list[Check]
    reason: Optional[str] = None
    batch: bytes = b""
    response: bytes = b""

    @property
    def breaks(self) -> list[Check]:
        return [check for check in self.checks if check.rule is not None]


class Runner:
    """Runs cases one after another.

    Attributes:
        requests: How many requests a batch may have; one with more is not sent.
        has_learned: Whether it is known what the service has.
        continues: Whether it applies the preference continue-on-error, as far as is known.
        late: How many batches of a run had no answer in time.
    """

    def __init__(self, service: Service, entities: Entities, requests: int) -> None:
        self.service, self.entities, self.requests = service, entities, requests
        self.has_learned = False
        self.continues = True
        self.late = 0

    def run(self, cases: list[Case], progress: Callable[[int, str], None] = lambda at, name: None) -> list[Result]:
        """Runs the cases; raises Unusable if the service cannot be judged any more, or Interrupted.

        Before the first run it learns what the service has, which holds for all later ones.
        """
        found = []
        self.late = 0
        try:
            if not self.has_learned:
                self._learn()
            self.entities.before = self.entities.list_all()
            for at, case in enumerate(cases):
                progress(at, case.name)
                found.append(self._run_to_be_sure(case))
                self.entities.clear(self.entities.spare)
            self.entities.find_new()
        finally:
            self.service.interruption.allowed = 1
            self.entities.clear()
            self.entities.spare = []
        return found

    def _learn(self) -> None:
        self.service.require_batches(self.entities.set)
        learn(self.entities)
        self.entities.failures = learn_failures(self.entities)
        self.entities.clear()
        self.has_learned = True

    def _run_to_be_sure(self, case: Case) -> Result:
        """Runs a case. An error may come so late that all after it is over by then; a service that stops shows that it does
        in one of some runs."""
        result = self._run(case)
        for _ in range(MORE_RUNS):
            if all(check.promise != "stop" for check in result.breaks):
                break
            self.entities.clear(self.entities.spare)
            result = self._run(case)
        return result

    def _run(self, case: Case) -> Result:
        reason = self._lack(case)
        if reason is not None:
            return Result(case, [], reason)
        stages = [Stage(self.entities) for _ in range(case.at_once)]
        for stage in stages:
            case.write(stage)
        self.entities.hold_keys()
        if len(stages[0].steps) > self.requests:
            return Result(case, [], f"its batch has more than {self.requests} requests")
        refused = sorted(stages[0].features() & self.entities.lacks.keys())
        if refused:
            return Result(case, [], self.entities.lacks[refused[0]])
        answers = self._send(case, stages)
        reason = next(filter(None, (self._reason(case, answer) for answer in answers)), None)
        if reason is not None:
            return Result(case, [], reason)
        return self._judge(case, stages, answers)

    def _lack(self, case: Case) -> Optional[str]:
        """What the service lacks that a case needs."""
        if case.kind is not None and case.kind not in self.entities.failures:
            return f"alone, no request fails by {KINDS[case.kind].text}"
        return next((self.entities.lacks[need] for need in case.needs if need in self.entities.lacks), None)

    # Sending

    def _send(self, case: Case, stages: list[Stage]) -> list[Union[Reply, Unanswered]]:
        """Sends the batches of a case at the same time, and notes what they have created."""
        documents = [stage.document() for stage in stages]
        if len(documents) == 1:
            answers = [self._answer(documents[0], case)]
        else:
            with ThreadPoolExecutor(len(documents)) as pool:
                answers = list(pool.map(lambda document: self._answer(document, case), documents))
        for answer in answers:
            if isinstance(answer, Reply):
                note_created(self.entities, answer)
        late = [answer for answer in answers if isinstance(answer, Unanswered) and answer.is_late]
        self.late += len(late)
        lost = next((answer for answer in answers if isinstance(answer, Unanswered)), None)
        if lost is not None and (self.late >= MAX_LATE or not self.service.is_reachable()):
            raise lost
        return answers

    def _answer(self, document: bytes, case: Case) -> Union[Reply, Unanswered]:
        try:
            return self.service.batch(document, case.prefer)
        except Unanswered as error:
            return error

    # Judging

    def _judge(self, case: Case, stages: list[Stage], answers: list[Union[Reply, Unanswered]]) -> Result:
        """Judges the batches of a case by their answers, and by what the set has afterwards."""
        known = set(self.entities.made)
        listing = self.entities.find_new()
        checks: list[Check] = []
        result = Result(case, checks)
        for stage, answer in zip(stages, answers):
            if isinstance(answer, Unanswered):
                found, text = [Check("answered", f"the batch is not answered: {answer.reason}")], b""
            else:
                stops = case.stops or case.says is None and not self._applies_preference(stage, answer)
                if stops and case.promise == "continue":
                    return Result(case, [], "the service does not apply the preference continue-on-error")
                found, text = Judge(case, stage, answer, stops).checks(listing), answer.text
            checks += found
            if not result.batch or any(check.rule for check in found) and not any(check.rule for check in checks[: -len(found)]):
                result = result._replace(batch=stage.document(), response=text)
        if listing is not None:
            checks += left_over(case, stages, listing, known)
            if any(step.twin or step.after for stage in stages for step in stage.steps):
                # plain requests came after the batch
                listing = self.entities.find_new()
            if listing is not None and all(isinstance(answer, Reply) for answer in answers):
                self.entities.settle(listing)
        return result

    def _reason(self, case: Case, answer: Union[Reply, Unanswered]) -> Optional[str]:
        """Why a case does not apply: the service refuses the batch, which it may for its size, or beside others."""
        if isinstance(answer, Unanswered):
            return None
        if case.at_once > 1 and answer.status in BUSY:
            return f"the service refuses batches at the same time with {answer}"
        status = refusal(answer) if case.may_be_refused else None
        return status and f"the service refuses the batch with {status}"

    def _applies_preference(self, stage: Stage, answer: Reply) -> bool:
        """Whether the service continues on errors. One that does not may leave it at that: it is a preference."""
        if self.continues and "continue-on-error" not in answer.headers.get("preference-applied", "").lower():
            clear = clear_responses(responses_of(answer) or [])
            statuses = {name: response["status"] for name, response in clear.items()}
            expected = stage.expected(False)
            first = expected.index(FAILS) if FAILS in expected else len(expected)
            after = [step.id for step, outcome in zip(stage.steps[first:], expected[first:]) if outcome == DONE]
            self.continues = all(is_success(statuses.get(name)) for name in after)
        return self.continues
