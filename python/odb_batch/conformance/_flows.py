"""Cases in which nothing fails: chains, fans, groups, and many requests."""

from functools import partial
from typing import Callable, Optional

from ._promises import Case
from ._stage import Stage


def one_read(stage: Stage) -> None:
    stage.read("r")


def one_write(stage: Stage) -> None:
    stage.write("w")


def side_by_side(stage: Stage) -> None:
    for k in range(4):
        stage.write(f"w{k}")
        stage.read(f"r{k}")


def chain(stage: Stage, length: int = 10, after: Optional[str] = None) -> None:
    """Writes, each of which needs the one before it."""
    for k in range(length):
        stage.write(f"c{k}", needs=[f"c{k - 1}"] if k else [after] if after else [])


def looks(stage: Stage) -> None:
    for k in range(6):
        stage.write(f"w{k}", needs=[f"w{k - 1}"] if k else [])
        stage.look(f"l{k}", f"w{k}", needs=[f"w{k}"])


def read_then_delete(stage: Stage) -> None:
    for k in range(6):
        subject = stage.subject()
        stage.act(f"r{k}", "read", subject, promise="order")
        stage.act(f"d{k}", "delete", subject, needs=[f"r{k}"])


def fan_out(stage: Stage) -> None:
    stage.write("w")
    for k in range(6):
        stage.look(f"l{k}", "w", needs=["w"])
        stage.write(f"v{k}", needs=["w"])


def fan_in(stage: Stage) -> None:
    for k in range(20):
        stage.write(f"w{k}")
    for k in (0, 7, 12, 19):
        stage.look(f"l{k}", f"w{k}", needs=[f"w{i}" for i in range(20)])


def diamond(stage: Stage) -> None:
    stage.write("top")
    stage.write("left", needs=["top"])
    stage.write("right", needs=["top"])
    stage.write("end", needs=["left", "right"])
    stage.look("look", "end", needs=["end"])


def group(stage: Stage, name: str = "g", needs: Optional[list[str]] = None, size: int = 4) -> None:
    for k in range(size):
        stage.write(f"{name}{k}", group=name, needs=needs if needs and not k else [])


def group_of_one(stage: Stage) -> None:
    stage.write("w", group="g")


def group_inside(stage: Stage) -> None:
    for k in range(4):
        stage.write(f"g{k}", group="g", needs=[f"g{k - 1}"] if k else [])


def group_then_look(stage: Stage) -> None:
    group(stage)
    for k in range(4):
        stage.look(f"l{k}", f"g{k}", needs=["g"])


def group_after(stage: Stage) -> None:
    stage.write("w")
    group(stage, needs=["w"])


def groups_in_a_row(stage: Stage) -> None:
    group(stage)
    group(stage, "h", ["g"])
    stage.write("w", needs=["h"])


def many(requests: int) -> Callable[[Stage], None]:
    """Reads, and a write among every twenty requests."""

    def write(stage: Stage) -> None:
        subject = stage.lasting()
        for k in range(requests):
            if k % 20 == 0:
                stage.write(f"r{k}")
            else:
                stage.act(f"r{k}", "read", subject)

    return write


def long_chain(requests: int) -> Callable[[Stage], None]:
    """Reads, each of which needs the one before it, and a write at the end."""

    def write(stage: Stage) -> None:
        subject = stage.lasting()
        for k in range(requests - 1):
            stage.act(f"c{k}", "read", subject, needs=[f"c{k - 1}"] if k else [])
        stage.write("end", needs=[f"c{requests - 2}"] if requests > 1 else [])

    return write


def all_of_it(stage: Stage) -> None:
    """What batches that are sent at once do: chains, groups and reads under the same ids, on entities of their own."""
    for k in range(3):
        stage.write(f"c{k}", needs=[f"c{k - 1}"] if k else [])
        stage.look(f"l{k}", f"c{k}", needs=[f"c{k}"])
    group(stage, needs=["c0"])
    stage.write("after", needs=["g"])
    for k in range(3):
        stage.read(f"r{k}")


FLOWS = (
    Case("one-read", "answered", "a batch of one read", one_read),
    Case("one-write", "alone", "a batch of one write", one_write),
    Case("side-by-side", "alone", "reads and writes that depend on nothing", side_by_side),
    Case("side-by-side-stop", "alone", "the same without continue-on-error", side_by_side, True),
    Case("chain", "order", "ten writes, each depends on the one before it", chain),
    Case("chain-stop", "order", "the same without continue-on-error", chain, True),
    Case("looks", "order", "each read sees the write that it depends on", looks),
    Case("read-then-delete", "order", "each delete waits for the read that it depends on", read_then_delete),
    Case("fan-out", "order", "six reads and six writes depend on one write", fan_out),
    Case("fan-in", "order", "reads depend on twenty writes, and see each", fan_in),
    Case("diamond", "order", "two ways from one write to another", diamond),
    Case("group", "group", "a group of four writes is applied as a whole", group),
    Case("group-stop", "group", "the same without continue-on-error", group, True),
    Case("group-of-one", "group", "a group of one write", group_of_one),
    Case("group-inside", "order", "members of a group depend on each other", group_inside),
    Case("group-then-look", "order", "reads that depend on a group see all of it", group_then_look),
    Case("group-after", "order", "a group depends on a write", group_after),
    Case("groups-in-a-row", "order", "a group depends on a group, and a write on that", groups_in_a_row),
    Case("at-once", "alone", "four batches with the same ids at the same time", all_of_it, at_once=4),
)


def longest_batches(requests: int) -> list[Case]:
    """The cases with as many requests as the service takes."""
    shows = f"as many requests as the service takes: {requests}"
    whole = partial(group, size=requests)
    return [
        Case("many", "once", shows, many(requests), may_be_refused=True),
        Case("chain-many", "order", shows, long_chain(requests), may_be_refused=True),
        Case("group-many", "group", f"a group of {requests} writes", whole, may_be_refused=True),
    ]
