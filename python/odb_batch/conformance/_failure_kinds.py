"""The ways in which a request may fail by itself."""

from typing import Any, Callable, NamedTuple

from ._entities import Effect, Entities
from ._service import REFUSED, Reply
from ._stage import Stage, Subject

NO_TAG = '"conformance-no-such-tag"'


class Kind(NamedTuple):
    """A way to fail: what it is, and what adds such a request to a stage."""

    text: str
    add: Callable[[Stage, str, dict[str, Any]], None]


def _of_missing(act: str) -> Callable[[Stage, str, dict[str, Any]], None]:
    """A request on an entity that is missing."""

    def add(stage: Stage, name: str, where: dict[str, Any]) -> None:
        entity = stage.entities.missing()
        if act in ("patch", "put"):
            # such a request creates the entity in some services
            stage.entities.note(entity.url)
        stage.act(name, act, Subject(entity, False), **where)

    return add


def _wrong_body(stage: Stage, name: str, where: dict[str, Any]) -> None:
    stage.add(name, "post", stage.entities.set, [], fails=True, **where)


def _taken_key(stage: Stage, name: str, where: dict[str, Any]) -> None:
    """A POST that would show if it replaced what is there."""
    entities, entity = stage.entities, stage.entities.make()
    mark = entities.new_mark()
    body = {**entity.body, entities.text: mark} if entities.text else entity.body
    effect = Effect(entity.url, True, mark) if entities.text else None
    stage.add(name, "post", entities.set, body, fails=True, effect=effect, **where)


def _precondition(stage: Stage, name: str, where: dict[str, Any]) -> None:
    url = stage.entities.make().url
    stage.add(name, "delete", url, headers={"If-Match": NO_TAG}, fails=True, effect=Effect(url, False), **where)


def _unknown_option(stage: Stage, name: str, where: dict[str, Any]) -> None:
    """A system query option that the service cannot know, which it has to refuse (Protocol 11.2.1)."""
    stage.add(name, "get", f"{stage.lasting().entity.url}?$conformance=1", fails=True, **where)


def _wrong_method(stage: Stage, name: str, where: dict[str, Any]) -> None:
    """A POST to an entity. Other methods on a set could change what is not the tool's."""
    entity = stage.entities.make()
    stage.add(name, "post", entity.url, entity.body, fails=True, **where)


KINDS = {
    "missing": Kind("a delete of an entity that is missing", _of_missing("delete")),
    "read": Kind("a read of an entity that is missing", _of_missing("read")),
    "patch": Kind("a PATCH of an entity that is missing", _of_missing("patch")),
    "put": Kind("a PUT of an entity that is missing", _of_missing("put")),
    "body": Kind("a wrong body", _wrong_body),
    "key": Kind("a key that is taken", _taken_key),
    "precondition": Kind("a precondition that does not hold", _precondition),
    "option": Kind("a query option that does not exist", _unknown_option),
    "method": Kind("a method that does not apply", _wrong_method),
}


def fail(stage: Stage, name: str, kind: str, **where: Any) -> None:
    """A request that fails by itself, as it does alone."""
    KINDS[kind].add(stage, name, {"status": stage.entities.failures.get(kind), **where})


def ask_alone(entities: Entities, request: dict[str, Any]) -> Reply:
    """Sends a request of a batch alone."""
    method, headers, body = request["method"].upper(), request.get("headers", {}), request.get("body")
    data = body.encode() if isinstance(body, str) else body
    answer = entities.service.ask(method, request["url"], data, headers)
    if answer.is_success and method == "POST":
        entities.note(answer.headers.get("location", ""))
    return answer


def learn_failures(entities: Entities) -> dict[str, int]:
    """The ways to fail that the service has, each with its status alone: 4xx or 501."""
    found = {}
    for name, kind in KINDS.items():
        if name == "key" and not entities.are_named:
            continue
        stage = Stage(entities)
        kind.add(stage, "1", {})
        status = ask_alone(entities, stage.steps[0].request).status
        if status in REFUSED:
            found[name] = status
    return found
