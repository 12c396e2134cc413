"""Cases in which a batch ends with its first error.

A service may begin with any request that waits for nothing, so an error may come last, after all that does not depend on
it. But of many errors one is the first. So each batch has a row of requests, each of which waits for the one before it,
and after each of them one that fails by itself: where the batch ends with an error, in whatever order, not all of these
are performed.
"""

import itertools
from functools import partial
from typing import Callable, Optional

from ._failure_kinds import KINDS, fail
from ._promises import Case
from ._service import CONTINUE
from ._stage import Stage

# How many requests are in a row, and how many fail after them.
LENGTH = 24
Link = Callable[[Stage, str, list[str]], None]


def row(stage: Stage, kind: str, link: Link, group: bool = False) -> None:
    """Requests in a row, and after each of them one that fails, or a group that does."""
    for k in range(LENGTH // 2 if group else LENGTH):
        link(stage, f"c{k}", [f"c{k - 1}"] if k else [])
        if group:
            stage.write(f"g{k}", group=f"g-{k}", needs=[f"c{k}"])
        fail(stage, f"bad{k}", kind, needs=[f"c{k}"], **({"group": f"g-{k}"} if group else {}))


def link_by(stage: Stage, act: Optional[str] = None) -> Link:
    """What adds a request to a row: one that writes by turns, or one by this method."""
    lasting = stage.lasting() if act in ("read", "patch", "put") else None

    def add(stage: Stage, name: str, needs: list[str]) -> None:
        if act is None:
            stage.write(name, needs=needs)
        else:
            stage.act(name, act, lasting or stage.subject(act != "create"), needs=needs)

    return add


def link_by_group(stage: Stage) -> Link:
    """What adds a group of two reads to a row."""
    lasting = stage.lasting()

    def add(stage: Stage, name: str, needs: list[str]) -> None:
        stage.act(f"{name}-1", "read", lasting, group=name, needs=needs)
        stage.act(f"{name}-2", "read", lasting, group=name)

    return add


def after_failure(stage: Stage, kind: str, act: Optional[str] = None) -> None:
    fail(stage, "bad", kind)
    row(stage, kind, link_by(stage, act))


def after_group(stage: Stage, kind: str) -> None:
    row(stage, kind, link_by(stage, "read"), group=True)


def groups_follow(stage: Stage, kind: str) -> None:
    row(stage, kind, link_by_group(stage), group=True)


def amid_others(stage: Stage, kind: str) -> None:
    for k in range(4):
        stage.read(f"r{k}")
    row(stage, kind, link_by(stage))


def before_failure(stage: Stage, kind: str) -> None:
    link = link_by(stage)
    for k in range(4):
        link(stage, f"c{k}", [f"c{k - 1}"] if k else [])
    fail(stage, "bad", kind, needs=["c3"])
    stage.write("w", needs=["bad"])


def one_of_four(kind: str) -> Callable[[Stage], None]:
    """Returns what writes batches of which one in four fails amid its requests; the others have nothing that fails."""
    turns = itertools.cycle((True, False, False, False))

    def write(stage: Stage) -> None:
        is_failing, link = next(turns), link_by(stage)
        for k in range(16):
            link(stage, f"c{k}", [f"c{k - 1}"] if k else [])
            if is_failing and k == 7:
                fail(stage, "bad", kind, needs=["c7"])

    return write


STOPS: tuple[tuple[str, str, Callable[[Stage, str], None]], ...] = (
    ("stop-after-failure", "writes in a row, a failure before them and after each", after_failure),
    ("stop-after-group", "reads in a row, and a group that fails after each", after_group),
    ("stop-amid", "reads, then writes in a row, and a failure after each", amid_others),
    ("stop-before-failure", "what came before the error is performed", before_failure),
)
# What is performed in a row, and fails, by one method: what it is, and by which failure.
FOLLOWS: tuple[tuple[str, str, str, str], ...] = (
    ("reads", "reads", "read", "read"),
    ("creates", "requests that create", "create", "body"),
    ("deletes", "deletes", "delete", "missing"),
    ("patches", "PATCHes", "patch", "patch"),
    ("puts", "PUTs", "put", "put"),
)


def stops() -> list[Case]:
    """All cases of what follows an error, by what that is and by what follows."""
    kind = "missing"
    found = [Case(name, "stop", shows, partial(write, kind=kind), True, kind) for name, shows, write in STOPS]
    shows, write = "the same, and the batch says continue-on-error=false", partial(after_failure, kind=kind)
    found.insert(1, Case("stop-said", "stop", shows, write, True, kind, says=f"{CONTINUE}=false"))
    shows = "of four batches at the same time one ends with its error, and no other"
    found.append(Case("at-once-stop", "alone", shows, one_of_four(kind), True, kind, at_once=4))
    for name, what, act, failure in FOLLOWS:
        shows, needs = f"{what} in a row, and one that fails after each", [act] if act in ("patch", "put") else []
        write = partial(after_failure, kind=failure, act=act)
        found.append(Case(f"stop-then-{name}", "stop", shows, write, True, failure, needs=needs))
    shows, write = "groups in a row, and one that fails after each", partial(groups_follow, kind=kind)
    found.append(Case("stop-then-groups", "stop", shows, write, True, kind))
    for other, described in KINDS.items():
        if other != kind:
            write, shows = partial(after_failure, kind=other, act="read"), f"reads in a row, and {described.text} after each"
            found.append(Case(f"stop-after-{other}", "stop", shows, write, True, other))
    return found
