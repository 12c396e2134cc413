"""Judges what a service has answered to a batch, by the library and by what shows of the batch afterwards."""

from collections import Counter
from typing import Any, Iterator, NamedTuple, Optional

from .. import Fault, Mode, match
from ._entities import BEHIND, Entities, Listing
from ._promises import Case
from ._service import GONE, Reply, is_success
from ._stage import ABSENT, DONE, FAILS, OPEN, SKIPPED, UNDONE, Stage, Step
from ._twin import Taking, Twin, differences, media_type, parts_in_batch

# Which promise a fault of a match breaks.
FAULTS = {
    "F71": "once", "F72": "once", "F73": "once", "F74": "named", "F75": "failed", "F77": "group", "F78": "failed",
}  # fmt: skip


class Check(NamedTuple):
    """A promise that was looked at in one case, and how it is broken, or None if it is kept."""

    promise: str
    rule: Optional[str] = None


class Judge:
    """Judges one case.

    Args:
        case: The case.
        stage: Its batch.
        answer: What the service has answered.
        stops: Whether the batch ends with its first error, since it was sent so or the service has it so.
    """

    def __init__(self, case: Case, stage: Stage, answer: Reply, stops: bool) -> None:
        self.case, self.stage, self.answer, self.stops = case, stage, answer, stops
        self.entities = stage.entities
        self.expected = stage.expected(stops)
        self.responses = responses_of(answer)
        self.clear = clear_responses(self.responses or [])
        self.statuses = {name: response["status"] for name, response in self.clear.items()}

    def checks(self, listing: Optional[Listing]) -> list[Check]:
        """Looks at the response, and at the entities, which may be in a listing."""
        if self.responses is None:
            return [Check("answered", f"the batch is answered {self.answer}, without a document of responses")]
        found = [*self._check_head(), *self._check_by_match()]
        for step, expected in zip(self.stage.steps, self.expected):
            checks = self._check_step_by(listing, step, expected)
            if listing is not None and step.effect and step.effect.url and any(check.rule for check in checks):
                # A list may be behind: what it shows is asked anew before it is called broken.
                checks = self._check_step_by(None, step, expected)
            found += checks
        return [*found, *self._check_stop()]

    def _check_step_by(self, listing: Optional[Listing], step: Step, expected: str) -> list[Check]:
        performed = self.entities.is_shown(step.effect, listing) if step.effect is not None else None
        return list(self._check_step(step, expected, self.statuses.get(step.id), performed))

    def _check_head(self) -> Iterator[Check]:
        """What the status and the headers of the answer say (OData Protocol 4.01, sections 11.7.7 and 8.1.5)."""
        status, version = self.answer.status, self.answer.headers.get("odata-version", "missing")
        yield check("answered", status == 200, f"the batch is answered {status}, and not 200")
        kind = media_type(self.answer.headers)
        yield check("answered", "json" in kind, f"the Content-Type of the answer to the batch is {kind}")
        if self.entities.has_version:
            rule = f"the OData-Version of the answer to the batch is {version}, and a request alone has one"
            yield check("answered", version.startswith("4."), rule)

    # By the library

    def _check_by_match(self) -> Iterator[Check]:
        """What `match` says. A batch that ends with an error may leave out the responses to what was not performed; of
        one that goes on, some finished run has to answer the statuses: also one that sends each group as one."""
        asked = ["once", *(["named"] if "groups" in self.stage.features() else [])]
        try:
            mode: Mode = "stop" if self.stops else "continue"
            match(self.stage.document(), self.answer.text, mode=mode, strict=not self.stops and "units")
        except Fault as fault:
            promise = FAULTS.get(fault.code, "answered")
            text = " ".join(fault.explanation.split())
            yield Check(promise, f"{fault}: {text}")
            asked = asked[: asked.index(promise)] if promise in asked else []
        yield from map(Check, asked)

    # By what is expected

    def _check_step(self, step: Step, expected: str, status: Optional[int], performed: Optional[bool]) -> Iterator[Check]:
        """What the status of a request says, and what shows of it afterwards.

        Without one clear status `match` has judged the response, and only what must not show is looked at.
        """
        if step.twin is not None and status is not None and expected in (DONE, FAILS):
            yield from self._check_twin(step, step.twin)
        elif expected == DONE:
            yield from self._check_done(step, status, performed)
        elif expected == OPEN:
            # Whether there is anything to look at depends on how far the batch came, so it counts if it is broken.
            yield from (check for check in self._check_open(step, status, performed) if check.rule is not None)
        else:
            promise = "failed" if expected == SKIPPED else step.promise or ("group" if step.group else "alone")
            if status is not None:
                yield check(promise, fits(expected, status), wrong_text(step, expected, status))
                if not is_success(status):
                    yield from self._check_error(step, expected, status)
            yield from unseen(promise, step, status, performed)
            if step.after is not None:
                yield Check(promise, step.after())

    def _check_error(self, step: Step, expected: str, status: int) -> Iterator[Check]:
        """A request that fails by itself is answered as alone, and no other member of its group as if it had failed."""
        if expected == FAILS and step.status is not None and not {status, step.status} <= {*GONE}:
            is_other = status == 424 and self._follows_from_another(step)
            text = f"{step.id} is answered {status}, and alone {step.status}"
            yield check(step.promise or "alone", is_other or status == step.status, text)
        if expected == UNDONE:
            failing = [other.id for other in self.stage.steps if other.unit == step.unit and other.fails]
            causes = [name for name in failing if self.statuses.get(name) == status != 424]
            text = f"{step.id} is answered {status} as {' and '.join(causes)}, as if it had failed itself"
            yield check("group", not causes, text)

    def _check_done(self, step: Step, status: Optional[int], performed: Optional[bool]) -> Iterator[Check]:
        """A request that has to succeed."""
        if status is None or self._follows_from_another(step):
            # `match` has judged the response, or another request is judged for it.
            return
        has_failed = FAILS in self.expected[: self.stage.steps.index(step)]
        promise = step.promise or ("group" if step.group else "continue" if has_failed else "alone")
        yield check(promise, is_success(status), wrong_text(step, DONE, status))
        if not is_success(status):
            yield from unseen("alone", step, status, performed)
        else:
            yield from self._check_effect(step, status, performed)
            yield from self._check_values(step, step.promise or "alone")
            if step.needs and not step.promise:
                yield Check("order")

    def _check_twin(self, step: Step, twin: Twin) -> Iterator[Check]:
        """A request that was also sent alone does the same in the batch."""
        taking = Taking(self.entities, twin.entity, twin.marks, twin.is_read)
        batch = parts_in_batch(taking, self.clear[step.id])
        found = differences(twin.alone(), batch)
        yield from (Check("alone", f"{step.id}: {difference}") for difference in found)
        if not found:
            yield Check("alone")

    def _check_values(self, step: Step, promise: str) -> Iterator[Check]:
        """A read returns the entity that its URL leads to, as it is then."""
        if step.shows is None:
            return
        body, (values, maker) = self.clear[step.id].get("body"), step.shows
        values = {**self._key_made_by(maker), **values}
        for name, value in values.items():
            shown = body.get(name, ABSENT) if isinstance(body, dict) else ABSENT
            what = "nothing" if shown is ABSENT else repr(shown)
            other = "nothing" if value is ABSENT else repr(value)
            yield check(promise, shown == value, f"{step.id} returns {what} for {name}, and not {other}")

    def _key_made_by(self, maker: Optional[str]) -> dict[str, Any]:
        """The key of what another request has created, as far as its response shows it."""
        body = self.clear.get(maker or "", {}).get("body")
        key = self.entities.key
        return {key: body[key]} if isinstance(body, dict) and key in body else {}

    def _check_effect(self, step: Step, status: int, performed: Optional[bool]) -> Iterator[Check]:
        """A request that is answered 2xx shows its effect, if it has one."""
        if performed is not None:
            text = f"{step.id} is answered {status}, and shows no effect afterwards"
            yield check("group" if step.group else "alone", performed, text)

    def _check_open(self, step: Step, status: Optional[int], performed: Optional[bool]) -> Iterator[Check]:
        """A request after an error: it may have been performed, if it was on its way."""
        if status is not None and is_success(status):
            yield from self._check_effect(step, status, performed)
        elif status is not None:
            yield from unseen("alone", step, status, performed)
        elif performed:
            yield Check("once", f"{step.id} was performed, and has no response")

    def _check_stop(self) -> Iterator[Check]:
        """Of several requests that fail, the first ends the batch: not all of the others can have been on their way."""
        failing = [step.id for step in self.stage.steps if step.fails] if self.case.promise == "stop" else []
        if len(failing) > 1:
            goes_on = all(is_error(self.statuses.get(name, 424)) for name in failing)
            text = f"each of {len(failing)} requests that fail is performed: no error ends the batch"
            yield check("stop", not goes_on, text)

    def _follows_from_another(self, step: Step) -> bool:
        """Whether a request is answered 424 for the error of another, which is judged by itself: a member of its group,
        or what its group depends on."""
        if self.statuses.get(step.id) != 424:
            return False
        unit = [other for other in self.stage.steps if other.unit == step.unit]
        if any(self.statuses.get(other.id, 424) != 424 and not is_success(self.statuses[other.id]) for other in unit):
            return True
        needs = {name for other in unit for name in other.needs}
        causes = [other.id for other in self.stage.steps if other.unit != step.unit and {other.id, other.unit} & needs]
        return any(request_id in self.statuses and not is_success(self.statuses[request_id]) for request_id in causes)


def is_error(status: int) -> bool:
    """Whether a status is an error of a request that was performed."""
    return status >= 400 and status != 424


def fits(expected: str, status: int) -> bool:
    """Whether a status is as expected of a request that must not succeed."""
    return status == 424 if expected == SKIPPED else not is_success(status)


def wrong_text(step: Step, expected: str, status: int) -> str:
    """What a wrong status shows."""
    if expected == SKIPPED:
        return f"{step.id} is answered {status} and not 424, though something that it depends on has failed"
    if expected == UNDONE:
        return f"{step.id} is answered {status}, though a member of its group has failed"
    if step.promise == "order":
        return f"{step.id} is answered {status}, as if {'it or ' if step.needs else ''}what needs it had not waited"
    if step.promise == "reference":
        return f"{step.id} is answered {status}, so its URL does not lead to the entity of {step.needs[0]}"
    if step.promise == "etag":
        return f"{step.id} is answered {status}, so its condition has not the ETag that {step.needs[0]} is answered"
    if expected == FAILS:
        return f"{step.id} is answered {status}, and alone it fails"
    return f"{step.id} is answered {status}, and nothing keeps it from success"


def check(promise: str, holds: bool, rule: str) -> Check:
    return Check(promise, None if holds else rule)


def unseen(promise: str, step: Step, status: Optional[int], performed: Optional[bool]) -> Iterator[Check]:
    """A request without success shows no effect. One that is answered 424 outside of a group was not even performed."""
    if performed is not None:
        what = "has no clear response" if status is None else f"is answered {status}"
        name = "untouched" if status == 424 and not step.group else promise
        yield check(name, not performed, f"{step.id} {what}, and was performed all the same")


def responses_of(answer: Reply) -> Optional[list[dict[str, Any]]]:
    """The responses in an answer, whatever its status, or None if it has no document of them."""
    value = answer.value
    found = value.get("responses") if isinstance(value, dict) else None
    return found if isinstance(found, list) and all(isinstance(response, dict) for response in found) else None


def clear_responses(responses: list[dict[str, Any]]) -> dict[str, dict[str, Any]]:
    """The responses by the ids that have one response, if that has a status."""
    named = [response for response in responses if isinstance(response.get("id"), str)]
    ids = Counter(response["id"] for response in named)
    clear = (response for response in named if isinstance(response.get("status"), int))
    return {response["id"]: response for response in clear if ids[response["id"]] == 1}


def marks_of(entities: Entities, stages: list[Stage]) -> dict[Any, str]:
    """The ids of the requests by the marks that they write."""
    found = {}
    for step in (step for stage in stages for step in stage.steps):
        body = step.request.get("body")
        mark = body.get(entities.text) if isinstance(body, dict) else None
        # an empty text is no mark: several entities may have it
        if mark and isinstance(mark, (str, int)):
            found[mark] = step.id
    return found


def left_over(case: Case, stages: list[Stage], listing: Listing, known: set[str]) -> Iterator[Check]:
    """Looks for what has appeared in the set; `known` has the addresses that were known before it was listed."""
    entities = stages[0].entities
    writers = marks_of(entities, stages)
    urls: dict[Any, list[str]] = {}
    for url, entity in listing.items():
        mark = entity.get(entities.text or "")
        urls.setdefault(mark if isinstance(mark, (str, int)) and mark in writers else None, []).append(url)
    promise = case.promise if case.promise in ("group", "failed", "untouched") else "once"
    for url in urls.pop(None, []):
        address = entities.service.address(url)
        if address in known:
            continue
        if address in entities.removed and entities.unused is None:
            yield Check(promise, f"{url} was removed by a plain request, and is there all the same: {BEHIND}")
        else:
            yield Check(promise, f"{url} is there afterwards, and no response names it")
    for mark, found in urls.items():
        rule = f"{writers[mark]} is performed {len(found)} times: {', '.join(found)}"
        yield Check("once", rule if len(found) > 1 else None)
