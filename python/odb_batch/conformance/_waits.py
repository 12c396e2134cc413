"""Cases of the order: two requests on one entity, of which the second depends on the first.

A chain of writes comes before the first of them. So the second one, if it does not wait, comes while the chain is on
its way, and both show it each time. Each batch has the shape three times.
"""

from typing import Callable, NamedTuple

from ._promises import Case
from ._stage import Stage, Subject

# How many writes come before the first of two requests, and how often a batch has them.
LENGTH, TIMES = 6, 3


class Pair(NamedTuple):
    """Two requests on one entity."""

    first: str
    second: str
    shows: str

    @property
    def needs(self) -> list[str]:
        """What the service has to have, besides keys in the place of a new one."""
        changes = [way for way in (self.first, self.second) if way in ("patch", "put")]
        return [*changes, *(["named"] if "create" in (self.first, self.second) else [])]


PAIRS = (
    Pair("create", "read", "a read of what a write creates"),
    Pair("create", "patch", "a PATCH of what a write creates"),
    Pair("create", "delete", "a delete of what a write creates"),
    Pair("patch", "read", "a read of what a PATCH changes"),
    Pair("put", "read", "a read of what a PUT replaces"),
    Pair("patch", "patch", "a PATCH over a PATCH"),
    Pair("patch", "delete", "a delete after a PATCH"),
    Pair("delete", "read", "a read of what is deleted"),
    Pair("delete", "create", "a key that is free after a delete"),
    Pair("read", "delete", "a delete after a read"),
    Pair("read", "patch", "a PATCH after a read"),
    Pair("read", "put", "a PUT after a read"),
)


def lead(stage: Stage, name: str, besides: str = "") -> str:
    """A chain of writes by one method; returns the id of the last. A service that does not wait with requests of some
    method shows it only after a chain of another one."""
    ways = [act for act in ("patch", "put", "create") if act != besides and act not in stage.entities.lacks]
    way = ways[0] if ways else "delete"
    lasting = stage.lasting() if way in ("patch", "put") else None
    for k in range(LENGTH):
        needs = [f"{name}{k - 1}"] if k else []
        stage.act(f"{name}{k}", way, lasting or stage.subject(way != "create"), needs=needs)
    return f"{name}{LENGTH - 1}"


def pair_after_lead(pair: Pair) -> Callable[[Stage], None]:
    def write(stage: Stage) -> None:
        for k in range(TIMES):
            subject = stage.subject(pair.first != "create")
            last = lead(stage, f"c{k}-", pair.second)
            stage.act(f"first{k}", pair.first, subject, needs=[last], promise="order")
            stage.act(f"second{k}", pair.second, subject, needs=[f"first{k}"], promise="order")

    return write


def slow_write(stage: Stage, k: int, **where: str) -> Subject:
    """A write that comes after a chain, and on which others depend."""
    subject = stage.subject()
    stage.act(f"slow{k}", "delete", subject, needs=[lead(stage, f"c{k}-")], promise="order", **where)
    return subject


def needs_several(place: int) -> Callable[[Stage], None]:
    """A read that depends on three requests, of which one takes longer."""

    def write(stage: Stage) -> None:
        for k in range(TIMES):
            subject = slow_write(stage, k)
            needs = [f"quick{k}", f"other{k}"]
            for name in needs:
                stage.read(name)
            needs.insert(place, f"slow{k}")
            stage.act(f"look{k}", "read", subject, needs=needs, promise="order")

    return write


def look_at_group(stage: Stage) -> None:
    """Reads that depend on a group, whose last member comes late."""
    for k in range(TIMES):
        last = lead(stage, f"c{k}-")
        subject = stage.subject()
        stage.act(f"g{k}-1", "delete", subject, group=f"g{k}")
        stage.write(f"g{k}-2", group=f"g{k}", needs=[last])
        stage.act(f"look{k}", "read", subject, needs=[f"g{k}"], promise="order")


def group_of_reads(stage: Stage) -> None:
    """Groups that only read, and changes that depend on them."""
    for k in range(TIMES):
        subject = stage.subject()
        for member in range(2):
            needs = [] if member else [lead(stage, f"c{k}-")]
            stage.act(f"g{k}-{member}", "read", subject, group=f"g{k}", needs=needs, promise="order")
        stage.act(f"drop{k}", "delete", subject, needs=[f"g{k}"], promise="order")


def group_after_slow(stage: Stage) -> None:
    """Groups whose last member depends on a late write, and sees it."""
    for k in range(TIMES):
        subject = slow_write(stage, k)
        stage.write(f"g{k}-1", group=f"g{k}")
        stage.act(f"g{k}-2", "create", subject, group=f"g{k}", needs=[f"slow{k}"], promise="order")


def group_after_group(stage: Stage) -> None:
    """Groups that depend on a group with a late write, and see it."""
    for k in range(TIMES):
        subject = slow_write(stage, k, group=f"g{k}")
        stage.write(f"g{k}-2", group=f"g{k}")
        stage.act(f"h{k}-1", "create", subject, group=f"h{k}", needs=[f"g{k}"], promise="order")
        stage.write(f"h{k}-2", group=f"h{k}")


def late_reference(stage: Stage) -> None:
    """A reference to what a late write creates, and what depends on that."""
    for k in range(TIMES):
        subject = stage.subject(False)
        stage.act(f"new{k}", "create", subject, needs=[lead(stage, f"c{k}-")])
        stage.act(f"look{k}", "read", subject, f"$new{k}", needs=[f"new{k}"], promise="order")
        stage.act(f"drop{k}", "delete", subject, f"$new{k}", needs=[f"new{k}", f"look{k}"], promise="order")


GROUPS = (
    ("wait-for-group", "a read depends on a group whose last member comes late", look_at_group, ()),
    ("wait-for-reads", "a delete depends on a group of reads", group_of_reads, ()),
    ("group-waits", "the last member of a group depends on a late write", group_after_slow, ("named",)),
    ("group-waits-for-group", "a group depends on a group that comes late", group_after_group, ("named",)),
    ("reference-waits", "a reference to what a late write creates", late_reference, ()),
)


def waits() -> list[Case]:
    """All cases of the order."""
    found = []
    for pair in PAIRS:
        name, shows = f"wait-{pair.first}-{pair.second}", f"{pair.shows}, after six writes in a row"
        found.append(Case(name, "order", shows, pair_after_lead(pair), needs=pair.needs))
    for place, name in enumerate(("first", "second", "third")):
        shows = f"a read depends on three requests, of which the {name} comes late"
        found.append(Case(f"wait-for-{name}", "order", shows, needs_several(place)))
    return [*found, *(Case(name, "order", shows, write, needs=needs) for name, shows, write, needs in GROUPS)]
