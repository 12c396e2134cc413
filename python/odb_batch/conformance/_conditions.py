"""Cases of conditions in which $ and an id stand for the ETag that another request is answered."""

from typing import Any, Callable, Sequence

from ._entities import Effect
from ._promises import Case
from ._stage import Shown, Stage, Subject


# Ids that are easily taken for each other.
IDS = ("10", "1", "1.0", "A-1", "A", "a")


def changes(stage: Stage) -> list[str]:
    """The methods by which the service changes or removes what is there."""
    return [act for act in ("patch", "put", "delete") if act not in stage.entities.lacks]


def with_tag(
    stage: Stage, name: str, act: str, subject: Subject, of: str, needs: Sequence[str] = (), **where: Any
) -> None:
    """A request on the condition that the ETag is still the one that another was answered, which holds."""
    headers = {"If-Match": f"${of}"}
    stage.act(name, act, subject, needs=[of, *needs], headers=headers, promise="etag", **where)


def with_old_tag(
    stage: Stage, name: str, act: str, subject: Subject, of: str, needs: Sequence[str], **where: Any
) -> None:
    """The same, where the ETag is another one by now."""
    entities, url, mark = stage.entities, subject.entity.url, stage.entities.new_mark()
    body = None if act == "delete" else entities.change(act, mark)
    effect = Effect(url, act != "delete", mark if act != "delete" else None)
    status = entities.failures.get("precondition")
    where.update(headers={"If-Match": f"${of}"}, fails=True, status=status, effect=effect, promise="etag")
    stage.add(name, act, url, body, needs=[of, *needs], **where)


def of_read(stage: Stage) -> None:
    for act in changes(stage):
        subject = stage.subject()
        stage.act(f"get-{act}", "read", subject)
        with_tag(stage, act, act, subject, f"get-{act}")


def of_old_read(stage: Stage) -> None:
    """Between the read and the request another one changes the entity."""
    for act in changes(stage):
        subject = stage.subject()
        stage.act(f"get-{act}", "read", subject)
        stage.act(f"change-{act}", "patch", subject, needs=[f"get-{act}"])
        with_old_tag(stage, act, act, subject, f"get-{act}", [f"change-{act}"])


def of_each(names: Sequence[str]) -> Callable[[Stage], None]:
    """The ETags of some entities, not in the order in which they are read."""

    def write(stage: Stage) -> None:
        subjects = {name: stage.subject() for name in names}
        for name, subject in subjects.items():
            stage.act(name, "read", subject)
        for name in [*names[1:], names[0]]:
            others = [other for other in names if other != name]
            with_tag(stage, f"change-{name}", changes(stage)[0], subjects[name], name, others)

    return write


def of_new(stage: Stage) -> None:
    for k, act in enumerate(changes(stage)):
        subject = stage.create(f"new{k}")
        by = {"by": f"$new{k}"} if not subject.entity.url else {}
        with_tag(stage, act, act, subject, f"new{k}", **by)


def of_change(stage: Stage) -> None:
    subject = stage.subject()
    stage.act("first", "patch", subject)
    with_tag(stage, "second", "patch", subject, "first")
    with_old_tag(stage, "third", "patch", subject, "first", ["second"])


def of_read_after_change(stage: Stage) -> None:
    """The ETag of a read after a change is the new one."""
    for k, act in enumerate(changes(stage)):
        subject = stage.subject()
        stage.act(f"change{k}", "patch", subject)
        stage.act(f"get{k}", "read", subject, needs=[f"change{k}"])
        with_tag(stage, act, act, subject, f"get{k}")


def of_known(stage: Stage) -> None:
    """A change on the condition that an entity is as it was before the batch, after another change."""
    subject = stage.subject()
    tag, mark = stage.entities.tag_of(subject.entity.url) or "", stage.entities.new_mark()
    stage.act("first", "patch", subject)
    effect, body = Effect(subject.entity.url, True, mark), stage.entities.change("patch", mark)
    headers = {"If-Match": tag}
    stage.add("second", "patch", subject.entity.url, body, needs=["first"], headers=headers, fails=True, effect=effect)


def of_known_in_group(stage: Stage) -> None:
    """The same in a group, which fails by that."""
    subject = stage.subject()
    entities, url, mark = stage.entities, subject.entity.url, stage.entities.new_mark()
    headers = {"If-Match": entities.tag_of(url) or ""}
    body, effect = entities.change("patch", mark), Effect(url, True, mark)
    stage.add("g0", "patch", url, entities.change("patch", entities.new_mark()), "g")
    stage.add("g1", "patch", url, body, "g", ["g0"], headers, fails=True, effect=effect)
    stage.write("g2", group="g")


def of_old_new(stage: Stage) -> None:
    """Changes of what the batch creates and has changed since."""
    subject = stage.create("new")
    stage.act("change", "patch", subject, needs=["new"])
    with_old_tag(stage, "late", "patch", subject, "new", ["change"])


def in_group(stage: Stage) -> None:
    subjects = {name: stage.subject() for name in ("a", "b")}
    for name, subject in subjects.items():
        stage.act(f"get-{name}", "read", subject, group="g")
    for name in ("b", "a"):
        with_tag(stage, f"change-{name}", changes(stage)[0], subjects[name], f"get-{name}", group="g")


def of_change_in_group(stage: Stage) -> None:
    """A member changes what another has changed, on the condition that nobody else has."""
    subject = stage.subject()
    stage.act("first", "patch", subject, group="g")
    with_tag(stage, "second", "patch", subject, "first", group="g")
    stage.write("w", group="g")


def of_old_member(stage: Stage) -> None:
    """After a group, the ETag of a member is not current, since another has changed the same entity."""
    subject = stage.subject()
    stage.act("first", "patch", subject, group="g")
    stage.act("second", "patch", subject, needs=["first"], group="g")
    with_old_tag(stage, "late", "patch", subject, "first", ["g"])


def fails_in_group(stage: Stage) -> None:
    """A group whose last member has a condition that does not hold any more."""
    subject = stage.subject()
    stage.act("get", "read", subject)
    stage.act("change", "patch", subject, needs=["get"])
    stage.write("g0", group="g")
    with_old_tag(stage, "g1", "patch", subject, "get", ["change"], group="g")


def to_group(stage: Stage) -> None:
    subject = stage.subject()
    stage.act("get", "read", subject, group="g")
    stage.write("w", group="g")
    with_tag(stage, "change", changes(stage)[0], subject, "get", ["g"])


def none_match(stage: Stage) -> None:
    """Reads of what is known: of one that nothing changes, and of one that is changed."""
    same, other = stage.subject(), stage.subject()
    stage.act("get", "read", same)
    add_read(stage, "known", same, "get", [], fails=True, status=304)
    stage.act("get-other", "read", other)
    stage.act("change", "patch", other, needs=["get-other"])
    add_read(stage, "changed", other, "get-other", ["change"], shows=Shown({stage.entities.text or "": other.mark}))


def add_read(stage: Stage, name: str, subject: Subject, of: str, needs: Sequence[str], **rest: Any) -> None:
    """A read on the condition that the ETag is not the one any more that another was answered."""
    headers = {"If-None-Match": f"${of}"}
    stage.add(name, "get", subject.entity.url, needs=[of, *needs], headers=headers, promise="etag", **rest)


KNOWN, NEEDS, STALE = ["etags", "patch"], ("etags", "condition", "ETags by reference"), "precondition"
CHANGES = (*NEEDS, "patch")
OF_PATCH = (*CHANGES, "etag of patch")
OF_NEW = (*CHANGES, "etag of new", "named")
CASES = (
    Case("etag-of-read", "etag", "changes on the condition that what was read is current", of_read, needs=NEEDS),
    Case("etag-of-old-read", "etag", "changes of what is not as it was", of_old_read, kind=STALE, needs=CHANGES),
    Case("etag-of-each", "etag", "the ETags of three entities", of_each("abc"), needs=NEEDS),
    Case("etag-ids", "etag", "the same by ids that are much alike", of_each(IDS), needs=NEEDS),
    Case("etag-of-new", "etag", "changes of what is created", of_new, needs=[*NEEDS, "etag of new"]),
    Case("etag-of-change", "etag", "changes after a change", of_change, kind=STALE, needs=OF_PATCH),
    Case("etag-of-old-new", "etag", "changes of what is not as it was created", of_old_new, kind=STALE, needs=OF_NEW),
    Case("etag-of-known", "alone", "a change of what was as before", of_known, kind=STALE, needs=KNOWN),
    Case("etag-of-known-in-group", "group", "the same in a group", of_known_in_group, kind=STALE, needs=KNOWN),
    Case("etag-of-read-after-change", "etag", "the ETag of a read after a change", of_read_after_change, needs=CHANGES),
    Case("etag-in-group", "etag", "the ETags of members in the same group", in_group, needs=NEEDS),
    Case("etag-in-group-of-change", "etag", "a change after a change in a group", of_change_in_group, needs=OF_PATCH),
    Case("etag-of-old-member", "etag", "what another member changed", of_old_member, kind=STALE, needs=OF_PATCH),
    Case("etag-fails-group", "etag", "a member with an old ETag", fails_in_group, kind=STALE, needs=CHANGES),
    Case("etag-to-group", "etag", "the ETag of a member after its group", to_group, needs=NEEDS),
    Case("etag-none-match", "etag", "reads of what is known", none_match, needs=[*CHANGES, "known"]),
)
