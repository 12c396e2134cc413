"""Cases in which a request of a batch is compared with the same request alone, on entities of their own."""

from typing import Any, Callable, NamedTuple, Optional, Sequence

from ._entities import Entities, Entity
from ._failure_kinds import ask_alone
from ._promises import Case
from ._rows import BODIES, MINIMAL, ROWS, ROWS_BY_NAME, TARGETS, Row
from ._service import is_success
from ._stage import Stage, Step
from ._twin import Parts, Taking, Twin, parts_alone


# Targets that are no entity, so that none is looked at afterwards, nor removed.
NAMELESS = ("no set", "count", "value", "null", "decimal", "part")


class Asked(NamedTuple):
    """A request of a row, the entity of its own that it is about, and the mark that it writes."""

    step: Step
    entity: Entity
    mark: Any


def make_asked(entities: Entities, row: Row, request_id: str, **where: Any) -> Asked:
    """Makes what a request of a row needs."""
    entity, mark = TARGETS[row.target](entities), entities.new_mark()
    url = entities.set if row.method == "post" and row.target not in ("no set", "itself") else entity.url
    if row.target == "missing" and row.method in ("patch", "put"):
        # such a request creates the entity in some services
        entities.note(url)
    if row.target.startswith("found"):
        url = entities.url_of_marked(entity.mark)
    headers = dict(row.headers)
    if any("{etag}" in value for value in headers.values()):
        tag = entities.tag_of(entity.url) or ""
        headers = {name: value.replace("{etag}", tag) for name, value in headers.items()}
    scratch = Stage(entities)
    scratch.add(request_id, row.method, url, BODIES[row.body](entities, entity, mark), headers=headers, **where)
    return Asked(scratch.steps[0], entity._replace(url="") if row.target in NAMELESS else entity, mark)


def with_twin(entities: Entities, own: Asked, first: Asked, second: Asked, is_last: bool = True) -> Step:
    """The request of a batch, with two others like it: one is sent alone now, and one after the batch.

    Unless it is the last to change its entity, nobody looks at that afterwards.
    """

    is_read = own.step.request["method"] == "get" or not is_last

    def parts(found: Asked) -> Parts:
        taking = Taking(entities, found.entity, [found.mark], is_read)
        return parts_alone(taking, ask_alone(entities, found.step.request))

    before = parts(first)
    twin = Twin(own.entity, [own.mark], is_read, lambda: (before, parts(second)))
    return own.step._replace(fails=not is_success(before["the status"]), twin=twin)


def add_twin(stage: Stage, row: Row, name: str, may_fail: bool = False, **where: Any) -> None:
    """Adds a request that is also sent alone. What fails alone is a member of no group, unless it may fail."""
    own = make_asked(stage.entities, row, name, **where)
    # reads leave their entity as it is, so that they may share it
    first, second = (own if row.method == "get" else make_asked(stage.entities, row, name) for _ in range(2))
    step = with_twin(stage.entities, own, first, second)
    if may_fail or not (step.fails and step.group):
        stage.steps.append(step)


def beside(row: Row) -> Callable[[Stage], None]:
    """Writes a request between two others, with which it shares nothing."""

    def write(stage: Stage) -> None:
        stage.write("before", headers=MINIMAL)
        add_twin(stage, row, "asked")
        stage.read("after")

    return write


def together(names: Sequence[str], group: Optional[str] = None, is_ascii: bool = True) -> Callable[[Stage], None]:
    """Writes requests of which each is about an entity of its own: those that the service has."""

    def write(stage: Stage) -> None:
        stage.is_ascii = is_ascii
        for at, name in enumerate(names):
            row = ROWS_BY_NAME[name]
            if not stage.entities.lacks.keys() & set(row.needs):
                add_twin(stage, row, f"{at}-{name}", group=group)

    return write


def alone() -> list[Case]:
    """All cases of requests that are also sent alone."""
    shows = "{}, in a batch and alone"
    return [Case(f"alone-{row.name}", "alone", shows.format(row.shows), beside(row), needs=row.needs) for row in ROWS]
