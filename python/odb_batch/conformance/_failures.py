"""Cases in which a request fails."""

from functools import partial
from typing import Callable, Optional, Sequence

from ._entities import Effect, Entities, Entity
from ._failure_kinds import KINDS, fail
from ._flows import chain, group
from ._promises import Case
from ._service import CONTINUE
from ._stage import Stage


def among_others(stage: Stage, kind: str) -> None:
    stage.write("a")
    fail(stage, "bad", kind)
    stage.write("b")
    stage.write("c")
    stage.look("l", "b", needs=["b"])


def before_chain(stage: Stage, kind: str) -> None:
    fail(stage, "bad", kind)
    chain(stage)


def failing_chain(stage: Stage, kind: str, at: int) -> None:
    for k in range(5):
        needs = [f"c{k - 1}"] if k else []
        if k == at:
            fail(stage, f"c{k}", kind, needs=needs)
        else:
            stage.write(f"c{k}", needs=needs)


def fan_in(stage: Stage, kind: str) -> None:
    for k in range(4):
        stage.write(f"w{k}")
    fail(stage, "bad", kind)
    stage.write("all", needs=["w0", "w1", "w2", "w3", "bad"])
    stage.write("first", needs=["bad", "w0", "w1"])
    stage.write("good", needs=["w0", "w1", "w2", "w3"])


def fan_out(stage: Stage, kind: str) -> None:
    fail(stage, "bad", kind)
    for k in range(4):
        stage.write(f"w{k}", needs=["bad"])
    stage.read("r", needs=["bad"])
    stage.write("w")


def long_before(stage: Stage, kind: str) -> None:
    """Many requests lie between one that fails and what depends on it."""
    fail(stage, "bad", kind)
    subject = stage.lasting()
    for k in range(30):
        stage.act(f"r{k}", "read", subject)
    stage.write("late", needs=["bad"])
    stage.write("later", needs=["late"])
    stage.read("end", needs=["r0", "r29", "later"])


def reference_failed(stage: Stage, kind: str) -> None:
    fail(stage, "bad", kind)
    stage.add("get", "get", "$bad", needs=["bad"])


def failing_group(stage: Stage, kind: str, at: int, size: int = 4) -> None:
    """A group that fails at one member, what needs it, and what does not."""
    for k in range(size):
        if k == at:
            fail(stage, f"g{k}", kind, group="g")
        else:
            stage.write(f"g{k}", group="g")
    stage.write("needs", needs=["g"])
    stage.write("other")


def failing_group_in_order(stage: Stage, kind: str) -> None:
    """A group in which each member depends on the one before it, and which creates an entity and changes that."""
    subject = stage.create("g0", group="g")
    stage.act("g1", "read", subject, "$g0", group="g", needs=["g0"])
    stage.write("g2", group="g", needs=["g1"])
    fail(stage, "g3", kind, group="g", needs=["g2"])
    stage.write("needs", needs=["g"])


def group_after_failure(stage: Stage, kind: str) -> None:
    fail(stage, "bad", kind)
    group(stage, needs=["bad"])
    stage.write("w", needs=["g"])


def late_failure(stage: Stage, kind: str) -> None:
    fail(stage, "bad", kind)
    for k in range(3):
        stage.write(f"g{k}", group="g", needs=["bad"] if k == 2 else [])


def groups_after_failure(stage: Stage, kind: str) -> None:
    failing_group(stage, kind, 1)
    group(stage, "h", ["g"])
    group(stage, "k")
    stage.write("w", needs=["h"])


def at_once(stage: Stage, kind: str) -> None:
    """Batches at the same time, in each of which a group fails and one does not."""
    failing_group(stage, kind, 2)
    group(stage, "h")
    stage.write("last", needs=["h"])


def beside_groups(stage: Stage, kind: str, at: Sequence[Optional[int]]) -> None:
    """Groups side by side, of which some fail at a member: what becomes of one is nothing to the others."""
    for name, place in zip("ghk", at):
        for k in range(3):
            if k == place:
                fail(stage, f"{name}{k}", kind, group=name)
            else:
                stage.write(f"{name}{k}", group=name)
    for name in "ghk":
        stage.write(f"after-{name}", needs=[name])


def after_others(stage: Stage, kind: str, act: str) -> None:
    """A group of requests by one method, of which the last fails by another."""
    for k in range(3):
        is_lasting = act in ("patch", "put", "read")
        subject = stage.lasting() if is_lasting else stage.subject(act != "create")
        stage.act(f"g{k}", act, subject, group="g")
    fail(stage, "g3", kind, group="g")
    stage.write("other")


def changed_and_undone(stage: Stage, kind: str) -> None:
    """A group that changes and removes entities, and fails: they are as they were, with their ETags."""
    entities = stage.entities
    for k, act in enumerate(("patch", "put", "delete")):
        if act not in entities.lacks:
            url, mark = entities.make().url, entities.new_mark()
            body = None if act == "delete" else {**entities.change(act, mark), **dict(entities.values.values())}
            effect, after = Effect(url, act != "delete", body and mark), as_it_is(entities, url, f"g{k}")
            stage.add(f"g{k}", act, url, body, group="g", effect=effect, after=after)
    fail(stage, "g3", kind, group="g")


def as_it_is(entities: Entities, url: str, name: str) -> Callable[[], Optional[str]]:
    """Returns what looks later whether an entity is as it is now, but for what differs from read to read."""
    before, again = entities.shown(url), entities.shown(url)

    def look() -> Optional[str]:
        now = entities.shown(url)
        fixed = [member for member in before.keys() | now if before.get(member) == again.get(member)]
        changed = sorted(member for member in fixed if before.get(member) != now.get(member))
        return f"{name} is undone, and leaves another value of {', '.join(changed)}" if changed else None

    return look


def created_and_undone(stage: Stage, kind: str) -> None:
    """A group that creates entities and fails: their keys are free again."""
    entities = stage.entities
    for k in range(2):
        subject = stage.create(f"g{k}", group="g")
        after = can_be_made(entities, subject.entity, f"g{k}")
        stage.steps[-1] = stage.steps[-1]._replace(after=after)
    fail(stage, "g2", kind, group="g")


def can_be_made(entities: Entities, entity: Entity, name: str) -> Callable[[], Optional[str]]:
    """Returns what looks later whether an entity can be made by a plain request."""

    def look() -> Optional[str]:
        answer = entities.post(entity.body)
        return None if answer.is_success else f"{name} is undone, and the same POST is answered {answer} then"

    return look


def read_beside(stage: Stage, kind: str) -> None:
    """A group that changes an entity and fails, and reads of it in a row: the last comes when the group is over."""
    entities, subject = stage.entities, stage.subject()
    url, mark = subject.entity.url, entities.new_mark()
    stage.add("g0", "patch", url, entities.change("patch", mark), group="g", effect=Effect(url, True, mark))
    fail(stage, "g1", kind, group="g")
    for k in range(8):
        stage.add(f"r{k}", "get", url, needs=[f"r{k - 1}"] if k else [])
    stage.act("last", "read", subject, needs=["r7"], promise="group")


Failing = Callable[[Stage, str], None]
FAILING: tuple[tuple[str, str, str, Failing], ...] = (
    ("failure-among-others", "continue", "requests beside one that fails are performed", among_others),
    ("failing-fan-in", "failed", "writes depend on some requests, of which one fails", fan_in),
    ("failing-fan-out", "failed", "five requests depend on one that fails", fan_out),
    ("failure-long-before", "failed", "many requests between a failure and what depends on it", long_before),
    ("reference-failed", "failed", "a read of what a failed request should have created", reference_failed),
    ("group-after-failure", "failed", "a group depends on a request that fails", group_after_failure),
    ("group-late-failure", "failed", "one member of a group depends on a failure", late_failure),
    ("groups-after-failure", "failed", "a group depends on one that fails, one does not", groups_after_failure),
    ("group-fails-in-order", "group", "a group in a row fails at its end", failing_group_in_order),
)


# Other forms of continue-on-error.
SAID = (
    ("said", "says continue-on-error=true", f"{CONTINUE}=true"),
    ("said-in-list", "prefers something else, too", f"maxpagesize=1000, {CONTINUE}"),
)


def one_failure(kind: str) -> list[Case]:
    """The cases with one failing request in different places."""
    found = []
    for at, place in ((0, "first"), (2, "third"), (4, "last")):
        write = partial(failing_chain, kind=kind, at=at)
        found.append(Case(f"chain-fails-{place}", "failed", f"of five in a row the {place} fails", write, kind=kind))
    for name, promise, shows, function in FAILING:
        found.append(Case(name, promise, shows, partial(function, kind=kind), kind=kind))
    for name, what, says in SAID:
        write, shows = partial(before_chain, kind=kind), f"ten writes in a row after a failure, and the batch {what}"
        found.append(Case(f"failure-{name}", "continue", shows, write, kind=kind, needs=["continue"], says=says))
    shows = "four batches at the same time, with a group that fails"
    return [*found, Case("failing-at-once", "group", shows, partial(at_once, kind=kind), kind=kind, at_once=4)]


def needing_each(first: str) -> list[Case]:
    """What depends on a failure, by each way to fail but the first."""
    found = []
    for kind, described in KINDS.items():
        if kind != first:
            write, shows = partial(fan_out, kind=kind), f"five requests depend on {described.text}"
            found.append(Case(f"failing-fan-out-{kind}", "failed", shows, write, kind=kind))
    return found


def failing_groups() -> list[Case]:
    """A group of four, which fails at each of its members in each way."""
    found = []
    for kind, described in KINDS.items():
        for at, place in enumerate(("first", "second", "third", "fourth")):
            write = partial(failing_group, kind=kind, at=at)
            shows = f"a group fails at its {place} member, by {described.text}"
            found.append(Case(f"group-fails-{kind}-{at + 1}", "group", shows, write, kind=kind))
    return found


def failing_beside() -> list[Case]:
    """Groups that fail after members by one method, and beside other groups."""
    found = []
    for act, what in (("create", "POSTs"), ("delete", "deletes"), ("patch", "PATCHes"), ("put", "PUTs")):
        write, shows = partial(after_others, kind="missing", act=act), f"a group fails after three {what}"
        needs = [act] if act in ("patch", "put") else []
        found.append(Case(f"group-undone-{act}", "group", shows, write, kind="missing", needs=needs))
    for name, shows, having, function in UNDONE:
        write = partial(function, kind="missing")
        found.append(Case(f"group-undone-{name}", "group", shows, write, kind="missing", needs=having))
    for name, shows, places in BESIDE:
        write = partial(beside_groups, kind="missing", at=places)
        found.append(Case(f"groups-beside-{name}", "group", shows, write, kind="missing"))
    return found


UNDONE: tuple[tuple[str, str, Sequence[str], Failing], ...] = (
    ("whole", "all values and ETags of what a group changes, and fails", ["patch"], changed_and_undone),
    ("keys", "the keys of what a group creates, and fails", ["named"], created_and_undone),
    ("seen", "reads beside a group that fails", ["patch"], read_beside),
)
# Of three groups: at which member each fails, or None.
BESIDE: tuple[tuple[str, str, Sequence[Optional[int]]], ...] = (
    ("first", "a group that fails at its first member, before two others", (0, None, None)),
    ("last", "a group that fails at its last member, after two others", (None, None, 2)),
    ("middle", "a group that fails between two others", (None, 1, None)),
    ("two", "two groups that fail, and one between them", (2, None, 0)),
)


def failing_long_groups(requests: int) -> list[Case]:
    """Groups with as many requests as the service takes, which fail at the first, a middle and the last member."""
    size = max(requests - 2, 1)
    found = []
    for at, place in ((0, "first"), (size // 2, "middle"), (size - 1, "last")):
        write = partial(failing_group, kind="missing", at=at, size=size)
        shows = f"a group of {size} requests fails at its {place} member"
        found.append(Case(f"group-many-{place}", "group", shows, write, kind="missing", may_be_refused=True))
    return found
