"""Cases in which a batch has one URL more than once."""

from typing import Optional

from ._alone import make_asked, together, with_twin
from ._promises import Case
from ._rows import ROWS_BY_NAME
from ._stage import Shown, Stage


LISTS = ("get-filtered", "get-listed", "get-filtered", "get-listed")


class OneOf:
    """Any list of one entity."""

    def __eq__(self, other: object) -> bool:
        return isinstance(other, list) and len(other) == 1

    def __repr__(self) -> str:
        return "one entity"


def read_after_each(stage: Stage, group: Optional[str] = None) -> None:
    """Reads of one entity, with a change between each two of them."""
    subject = stage.subject()
    acts = [act for act in ("patch", "put", "delete") if act not in stage.entities.lacks]
    stage.act("r0", "read", subject, group=group, promise="order")
    for k, act in enumerate(acts if group is None else acts[:-1]):
        stage.act(act, act, subject, needs=[f"r{k}"], group=group, promise="order")
        stage.act(f"r{k + 1}", "read", subject, needs=[act], group=group, promise="order")


def in_group(stage: Stage) -> None:
    read_after_each(stage, "g")


def read_alike(stage: Stage) -> None:
    """Reads of one entity, side by side and one after another, each beside the same read alone."""
    first = make_asked(stage.entities, ROWS_BY_NAME["get"], "r0")
    for k in range(4):
        needs = {"dependsOn": ["r0"]} if k > 1 else {}
        own = first._replace(step=first.step._replace(request={**first.step.request, "id": f"r{k}", **needs}))
        stage.steps.append(with_twin(stage.entities, own, first, first))


def read_around_group(stage: Stage) -> None:
    """Reads of one entity before and after a group that changes it."""
    subject = stage.subject()
    stage.act("before", "read", subject, promise="order")
    stage.act("change", "patch", subject, needs=["before"], group="g")
    stage.write("w", group="g")
    stage.act("after", "read", subject, needs=["g"], promise="order")


def create_twice(stage: Stage) -> None:
    subject = stage.subject(False)
    stage.act("first", "create", subject)
    stage.act("second", "create", subject, needs=["first"])


def list_after_delete(stage: Stage) -> None:
    """A list of what has a mark, before it is removed and after."""
    entities, subject = stage.entities, stage.subject()
    url = entities.url_of_marked(subject.entity.mark)
    stage.add("before", "get", url, promise="order")
    stage.act("drop", "delete", subject, needs=["before"])
    stage.add("after", "get", url, needs=["drop"], shows=Shown({"value": []}), promise="order")


def list_after_create(stage: Stage) -> None:
    """A list of what has a mark, before it is created and after."""
    subject = stage.subject(False)
    url = stage.entities.url_of_marked(subject.entity.mark)
    stage.add("before", "get", url, shows=Shown({"value": []}), promise="order")
    stage.act("new", "create", subject, needs=["before"])
    stage.add("after", "get", url, needs=["new"], shows=Shown({"value": OneOf()}), promise="order")


def delete_twice(stage: Stage) -> None:
    subject = stage.subject()
    stage.act("first", "delete", subject)
    stage.act("second", "delete", subject, needs=["first"], promise="order")


def change_twice(stage: Stage) -> None:
    """The same change twice, with another one between, which the second undoes."""
    subject = stage.subject()
    stage.act("a", "patch", subject)
    stage.act("b", "patch", subject, needs=["a"])
    stage.act("c", "patch", subject, needs=["b"])
    first, last = stage.steps[-3], stage.steps[-1]
    body = first.request["body"]
    assert last.effect is not None
    mark = body[stage.entities.text]
    stage.steps[-1] = last._replace(request={**last.request, "body": body}, effect=last.effect._replace(mark=mark))


def read_property(stage: Stage) -> None:
    """Reads of a property before and after a change of it."""
    subject = stage.subject()
    url = f"{subject.entity.url}/{stage.entities.text}"
    stage.add("before", "get", url, shows=Shown({"value": subject.mark}), promise="order")
    stage.act("change", "patch", subject, needs=["before"])
    stage.add("after", "get", url, needs=["change"], shows=Shown({"value": subject.mark}), promise="order")


CASES = (
    Case("again-read", "order", "reads of one entity, before and after each change of it", read_after_each),
    Case("again-in-group", "order", "the same in a group", in_group, needs=["patch"]),
    Case("again-alike", "alone", "reads of one entity that nothing changes", read_alike),
    Case("again-group", "order", "reads before and after a group", read_around_group, needs=["patch"]),
    Case("again-create", "alone", "a POST of what is created", create_twice, kind="key", needs=["named"]),
    Case("again-lists", "alone", "lists of one set by different options", together(LISTS), needs=["text", "filter"]),
    Case("again-list", "order", "a list before and after a delete", list_after_delete, needs=["text", "filter"]),
    Case("again-list-new", "order", "a list before and after a POST", list_after_create, needs=["text", "filter"]),
    Case("again-property", "order", "a property before and after a change", read_property, needs=["patch", "property"]),
    Case("again-delete", "order", "a delete of what is deleted", delete_twice, kind="missing"),
    Case("again-change", "order", "a change, another one, and the first once more", change_twice, needs=["patch"]),
)
