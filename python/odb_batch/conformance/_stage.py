"""A batch as it is written: its requests, what each is expected to be answered, and what shows that it was done."""

import itertools
from typing import Any, Callable, NamedTuple, Optional, Sequence
from urllib.parse import unquote

from ._entities import Effect, Entities, Entity
from ._exact_json import text_of
from ._service import JSON
from ._twin import Twin

# What is expected of a request: success; an error of its own; 424 for a dependency that failed; no success, in a
# group that fails; or anything, since the batch may have ended before it.
DONE, FAILS, SKIPPED, UNDONE, OPEN = "done", "fails", "skipped", "undone", "open"

METHODS = {"create": "post", "read": "get", "patch": "patch", "put": "put", "delete": "delete"}
# How each fails: one that creates if its entity is there, each other one if it is not; names of `failure_kinds.KINDS`.
FAILURES = {"create": "key", "read": "read", "patch": "patch", "put": "put", "delete": "missing"}


# A query option that says nothing to a service.
QUERY = "?conformance=1"
# The value of a property that a read must not return.
ABSENT = object()


class Shown(NamedTuple):
    """What a read has to return.

    Attributes:
        values: The values of properties.
        maker: The id of the request that creates the entity in the batch, whose key is then that of its response.
    """

    values: dict[str, Any]
    maker: Optional[str] = None


class Step(NamedTuple):
    """A request of a batch.

    Attributes:
        request: As it is in the document.
        promise: What is broken if it is not answered as expected, in place of what its place in the batch says.
        fails: Whether it fails by itself.
        status: The status that it has to be answered then, or None if any error will do.
        effect: What shows that it was performed, or None if nothing does.
        shows: What it returns, or None if that is not looked at.
        twin: The same request as it was answered alone, or None.
        after: Looks after the batch, by plain requests; returns what is wrong, or None.
    """

    request: dict[str, Any]
    promise: Optional[str] = None
    fails: bool = False
    status: Optional[int] = None
    effect: Optional[Effect] = None
    shows: Optional[Shown] = None
    twin: Optional[Twin] = None
    after: Optional[Callable[[], Optional[str]]] = None

    @property
    def id(self) -> str:
        return str(self.request["id"])

    @property
    def group(self) -> Optional[str]:
        return self.request.get("atomicityGroup")

    @property
    def unit(self) -> str:
        return self.group or self.id

    @property
    def needs(self) -> Sequence[str]:
        return self.request.get("dependsOn", ())


class Subject:
    """An entity as the requests of a batch leave it, one after another.

    Attributes:
        entity: As it was made, or is made in the batch.
        is_there: Whether it is there after the requests so far.
        mark: What its text property has then.
        last_write: The position of the request whose effect shows afterwards, or None.
        maker: The id of the request that creates it.
    """

    def __init__(self, entity: Entity, is_there: bool) -> None:
        self.entity, self.is_there, self.mark = entity, is_there, entity.mark
        self.last_write: Optional[int] = None
        self.maker: Optional[str] = None


class Stage:
    """Writes the batch of a case, and makes what its requests need by plain requests.

    Attributes:
        writes: The ways to write that take turns.
        is_ascii: Whether the batch has other characters as escapes.
    """

    def __init__(self, entities: Entities) -> None:
        self.entities = entities
        self.steps: list[Step] = []
        self.subjects: dict[str, Subject] = {}
        self.is_ascii = True
        ways = ("create", "delete", "patch", "put")
        self.writes = itertools.cycle([way for way in ways if way not in entities.lacks] or ["delete"])

    def document(self) -> bytes:
        """The batch, a request on each line."""
        lines = ",\n  ".join(text_of(step.request, self.is_ascii) for step in self.steps)
        return f'{{"requests": [\n  {lines}\n]}}\n'.encode()

    def features(self) -> set[str]:
        """What the batch has that a service may refuse."""
        found = {"dependencies" for step in self.steps if step.needs}
        found |= {"groups" for step in self.steps if step.group}
        found |= {"references" for step in self.steps if unquote(step.request["url"]).startswith("$")}
        values = (value for step in self.steps for value in step.request.get("headers", {}).values())
        return found | {"ETags by reference" for value in values if value.startswith("$")}

    # The requests

    def add(
        self,
        name: str,
        method: str,
        url: str,
        body: Any = None,
        group: Optional[str] = None,
        needs: Sequence[str] = (),
        headers: Optional[dict[str, str]] = None,
        **rest: Any,
    ) -> None:
        request: dict[str, Any] = {"id": name}
        if group:
            request["atomicityGroup"] = group
        if needs:
            request["dependsOn"] = list(needs)
        request.update(method=method, url=url)
        given = {**({} if body is None else JSON), **(headers or {})}
        members = {"headers": {name: value for name, value in given.items() if value} or None, "body": body}
        request.update({name: value for name, value in members.items() if value is not None})
        self.steps.append(Step(request, **rest))

    def subject(self, is_there: bool = True) -> Subject:
        """An entity that is there already, or that the batch is to create."""
        return Subject(self.entities.make() if is_there else self.entities.fresh(), is_there)

    def lasting(self) -> Subject:
        """An entity that is there, and that the batch does not remove."""
        return Subject(self.entities.borrow(), True)

    def act(self, name: str, act: str, subject: Subject, by: str = "", **where: Any) -> None:
        """A request on an entity, by its URL or by another way to lead to it."""
        entity, fails = subject.entity, subject.is_there == (act == "create")
        self.subjects[name] = subject
        if fails:
            where.setdefault("status", self.entities.failures.get(FAILURES[act]))
        if act == "read":
            shows = None if fails else self._expected_values(subject)
            self.add(name, "get", by or entity.url, fails=fails, shows=shows, **where)
            return
        is_known = not entity.url or subject.mark == entity.mark
        body, effect = None, Effect(entity.url, False, subject.mark if is_known else None)
        if act != "delete":
            mark = entity.mark if act == "create" else self.entities.new_mark()
            body = entity.body if act == "create" else self.entities.change(act, mark)
            effect = Effect(entity.url, True, mark)
        if not fails:
            self._supersede(subject, effect)
            subject.maker = name if act == "create" else subject.maker
        url = self.entities.set if act == "create" else by or entity.url
        is_seen = not fails and bool(entity.url or "create" not in self.entities.lacks)
        self.add(name, METHODS[act], url, body, fails=fails, effect=effect if is_seen else None, **where)

    def _expected_values(self, subject: Subject) -> Shown:
        """What a read of an entity returns, as far as it is known."""
        values = {self.entities.key: subject.entity.key, self.entities.text or "": subject.mark}
        return Shown({name: value for name, value in values.items() if value is not None}, subject.maker)

    def _supersede(self, subject: Subject, effect: Effect) -> None:
        """The next request writes an entity: what an earlier one did to it does not show any more."""
        if subject.last_write is not None:
            self.steps[subject.last_write] = self.steps[subject.last_write]._replace(effect=None)
        subject.last_write, subject.is_there, subject.mark = len(self.steps), effect.is_there, effect.mark

    def write(self, name: str, **where: Any) -> None:
        """A request that creates, deletes or changes an entity, by turns."""
        act = next(self.writes)
        self.act(name, act, self.lasting() if act in ("patch", "put") else self.subject(act != "create"), **where)

    def create(self, name: str, **where: Any) -> Subject:
        """A request that creates an entity."""
        subject = self.subject(False)
        self.act(name, "create", subject, **where)
        return subject

    def read(self, name: str, **where: Any) -> None:
        """A request that reads an entity which is there all the time."""
        self.act(name, "read", self.lasting(), **where)

    def look(self, name: str, written: str, **where: Any) -> None:
        """A request that reads what a write has done; it is to see that."""
        subject = self.subjects[written]
        by = "" if subject.entity.url else f"${subject.maker}"
        self.act(name, "read", subject, by, promise="order", **where)

    # What is expected

    def expected(self, stops: bool) -> list[str]:
        """What is expected of each request. A batch that stops at an error has done what the error depends on; of the
        rest anything is expected, for the service may have begun with any request that waits for nothing."""
        unit_of = {name: step.unit for step in self.steps for name in (step.id, step.unit)}
        before: dict[str, set[str]] = {}  # each unit with all that it depends on
        failed: set[str] = set()
        causes: list[str] = []
        outcomes: list[str] = []
        for unit, members in itertools.groupby(self.steps, lambda step: step.unit):
            steps = list(members)
            needs = [{unit_of[name] for name in step.needs} - {unit} for step in steps]
            before[unit] = {unit}.union(*(before[need] for names in needs for need in names))
            skipped = [bool(failed & names) for names in needs]
            is_failing = any(skipped) or any(step.fails for step in steps)
            for step, is_skipped in zip(steps, skipped):
                outcome = SKIPPED if is_skipped else FAILS if step.fails else UNDONE if is_failing else DONE
                outcomes.append(outcome)
            if is_failing:
                failed.add(unit)
                causes += [] if any(skipped) else [unit]
        if not stops or not causes:
            return outcomes
        certain = set.intersection(*(before[unit] for unit in causes))
        is_open = [step.unit not in certain and outcome in (DONE, FAILS) for step, outcome in zip(self.steps, outcomes)]
        return [OPEN if flag else outcome for flag, outcome in zip(is_open, outcomes)]
