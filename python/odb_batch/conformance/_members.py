"""Cases of what the members of a group are answered, each beside what it is alone."""

from typing import Callable

from ._alone import Asked, add_twin, make_asked, together, with_twin
from ._promises import Case
from ._rows import ROWS_BY_NAME
from ._stage import Shown, Stage

EACH = ("get", "post", "patch", "put", "delete")
ALIKE = ("post", "get", "post", "get")
CONDITIONS = ("patch-match", "get-if-match", "patch", "get", "delete-match")
LISTS, MISSING, NEW = ("get-listed", "get-filtered"), "delete-missing", ["etags", "put"]
PREFERENCES = ("post-minimal", "post-whole", "patch-whole")
VALUES = ("post", "post-with-null", "post-zero", "post-integer", "post-beyond", "get-numbers", "get-no-text", "get")


def beside_groups(stage: Stage) -> None:
    """Two groups, and requests in no group, by the same methods."""
    for name, group in (("post", "g"), ("get", "g"), ("post", "h"), ("get", "h"), ("post", None), ("get", None)):
        add_twin(stage, ROWS_BY_NAME[name], f"{name}-{group or 'alone'}", group=group)


def in_turn(stage: Stage) -> None:
    """A member creates an entity, others change and read it: each is answered what is there at its turn."""
    entities = stage.entities
    made = make_asked(entities, ROWS_BY_NAME["post-whole"], "0", group="g")
    url, by = made.entity.url or "$0", made.entity._replace(url="")
    add_in_turn(stage, made, "post-whole")
    for k in (1, 2):
        mark = entities.new_mark()
        needs, body = [f"{k - 1}"], entities.change("patch", mark)
        scratch = Stage(entities)
        scratch.add(f"{k}", "patch", url, body, "g", needs, ROWS_BY_NAME["patch-whole"].headers)
        add_in_turn(stage, Asked(scratch.steps[0], by, mark), "patch-whole")
    stage.add("3", "get", url, group="g", needs=["2"], shows=Shown({entities.text or "": mark}), promise="order")


def add_in_turn(stage: Stage, own: Asked, name: str) -> None:
    """Adds a member that is not the last to change its entity."""
    first, second = (make_asked(stage.entities, ROWS_BY_NAME[name], own.step.id) for _ in range(2))
    stage.steps.append(with_twin(stage.entities, own, first, second, is_last=False))


def error_of_a_member(name: str) -> Callable[[Stage], None]:
    """A group whose last member fails by itself."""

    def write(stage: Stage) -> None:
        for k in range(2):
            stage.write(f"g{k}", group="g")
        add_twin(stage, ROWS_BY_NAME[name], "g2", group="g", may_fail=True)

    return write


CASES = (
    Case("members-each", "alone", "members of a group by each method", together(EACH, "g")),
    Case("members-alike", "alone", "members of a group that differ by what they are about", together(ALIKE, "g")),
    Case("members-conditions", "alone", "members with conditions", together(CONDITIONS, "g"), needs=["etags"]),
    Case("members-preferences", "alone", "members that prefer a body or none", together(PREFERENCES, "g")),
    Case("members-values", "alone", "members with null, numbers and other values", together(VALUES, "g")),
    Case("members-in-turn", "alone", "members that create an entity and change it", in_turn, needs=["patch"]),
    Case("members-of-two", "alone", "two groups, and requests in none", beside_groups),
    Case("members-lists", "alone", "lists in a group", together(LISTS, "g"), needs=["text", "filter"]),
    Case("members-error", "alone", "the error of a member that fails", error_of_a_member(MISSING), kind="missing"),
    Case("members-new", "alone", "a member that is to be new and is not", error_of_a_member("put-new"), needs=NEW),
    Case("members-accept", "alone", "a member that takes plain text", error_of_a_member("get-accept-plain")),
)
