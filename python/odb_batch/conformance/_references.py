"""Cases of references: a URL that begins with $ and an id leads to what that request has created."""

from typing import Callable, Sequence

from ._alone import add_twin
from ._promises import Case
from ._rows import MINIMAL, ROWS_BY_NAME
from ._stage import ABSENT, QUERY, Shown, Stage, Subject

FOUR = ("a", "b", "c", "d")
# Ids that are easily taken for each other.
CASE, NUMBERS = ("Ab", "aB", "ab", "AB"), ("1", "10", "100", "01", "1.0")
# Requests that are sent by a reference, and alone by a URL.
ALIKE = (
    "get", "get-if-match", "patch-whole", "patch-signs", "post-entity", "put-mark", "put-whole", "patch-stale",
    "delete-match",
)  # fmt: skip
SIGNS = ("a-b", "a.b", "a_b", "a~b", "-", "~")


def create_all(stage: Stage, ids: Sequence[str], **where: str) -> dict[str, Subject]:
    """Requests that create an entity each."""
    return {name: stage.create(name, **where) for name in ids}


def refer(stage: Stage, name: str, act: str, subject: Subject, needs: Sequence[str] = (), **where: str) -> None:
    """A request on what another has created, by a reference."""
    by = f"${subject.maker}"
    stage.act(name, act, subject, by, needs=[subject.maker, *needs], promise="reference", **where)


def read(stage: Stage) -> None:
    refer(stage, "get", "read", stage.create("new"))


def deleted(stage: Stage) -> None:
    subject = stage.create("new")
    refer(stage, "drop", "delete", subject)
    refer(stage, "get", "read", subject, ["drop"])


def in_group(stage: Stage) -> None:
    refer(stage, "get", "read", stage.create("new", group="g"), group="g")
    stage.write("w", needs=["g"])


def to_group(stage: Stage) -> None:
    subject = stage.create("new", group="g")
    stage.write("w", group="g")
    refer(stage, "get", "read", subject, ["g"])


def to_each(act: str) -> Callable[[Stage], None]:
    """References to some of four entities, not in the order in which they are created."""

    def write(stage: Stage) -> None:
        made = create_all(stage, FOUR)
        for name in ("c", "a", "d") if act == "read" else ("c", "b"):
            refer(stage, f"{act}-{name}", act, made[name])
        if act != "read":
            for name in FOUR:
                needs = [f"{act}-{other}" for other in ("c", "b")]
                refer(stage, f"look-{name}", "read", made[name], needs)

    return write


def encoded(stage: Stage) -> None:
    """References with characters as escapes: $ and a letter (OData URL Conventions 4.01, section 2)."""
    made = create_all(stage, ("one", "two"))
    for k, (name, url) in enumerate((("two", "%24two"), ("one", "$o%6Ee"), ("two", "%24%74wo"))):
        stage.act(f"get{k}", "read", made[name], url, needs=[name], promise="reference")


def to_escaped(stage: Stage) -> None:
    """References to what has a key with characters that a URL escapes."""
    for name in ("a", "b"):
        subject = Subject(stage.entities.fresh(stage.entities.odd_key()), False)
        stage.act(name, "create", subject)
        refer(stage, f"get-{name}", "read", subject)


def with_query(stage: Stage) -> None:
    """References that continue with a query option of the client's own (OData URL Conventions 4.01, section 5.2)."""
    made = create_all(stage, FOUR)
    for name in ("c", "a"):
        stage.act(f"get-{name}", "read", made[name], f"${name}{QUERY}", needs=[name], promise="reference")


def to_read(stage: Stage) -> None:
    """References to what is read: of two entities, and beside one that is created."""
    subjects = {name: stage.subject() for name in ("a", "b")}
    stage.create("new")
    for name, subject in subjects.items():
        stage.act(name, "read", subject)
    for name in ("b", "a"):
        after_all = ["new", "b" if name == "a" else "a"]
        stage.act(f"get-{name}", "read", subjects[name], f"${name}", needs=[name, *after_all], promise="reference")
    stage.act("drop-b", "delete", subjects["b"], "$b", needs=["b", "get-b", "get-a"], promise="reference")
    stage.act("look-a", "read", subjects["a"], "$a", needs=["a", "drop-b"], promise="reference")


def to_read_in_group(stage: Stage) -> None:
    """A member of a group changes or removes what another reads."""
    subject = stage.subject()
    act = next((act for act in ("patch", "put") if act not in stage.entities.lacks), "delete")
    stage.act("get", "read", subject, group="g")
    stage.act("change", act, subject, "$get", group="g", needs=["get"], promise="reference")
    stage.write("w", group="g")


def to_changed(act: str) -> Callable[[Stage], None]:
    """References to what another request changes."""

    def write(stage: Stage) -> None:
        subjects = {name: stage.subject() for name in ("a", "b")}
        stage.create("new")
        for name, subject in subjects.items():
            stage.act(name, act, subject)
        for name in ("b", "a"):
            others = ["new", "b" if name == "a" else "a"]
            stage.act(f"get-{name}", "read", subjects[name], f"${name}", needs=[name, *others], promise="reference")

    return write


def to_minimal(stage: Stage) -> None:
    """References to what is created by requests that prefer no body."""
    subjects = {name: stage.subject(False) for name in ("a", "b")}
    for name, subject in subjects.items():
        stage.act(name, "create", subject, headers=MINIMAL)
    for name in ("b", "a"):
        refer(stage, f"get-{name}", "read", subjects[name])


def to_reference(stage: Stage) -> None:
    """References to requests that have references themselves."""
    made = create_all(stage, ("a", "b"))
    for name, subject in made.items():
        refer(stage, f"get-{name}", "read", subject)
    for name in ("b", "a"):
        before = f"get-{name}"
        stage.act(f"again-{name}", "read", made[name], f"${before}", needs=[before], promise="reference")


def as_by_url(stage: Stage) -> None:
    """Requests by references to what is read, each beside the same alone by its URL."""
    for at, name in enumerate(ALIKE):
        row = ROWS_BY_NAME[name]
        if not stage.entities.lacks.keys() & set(row.needs):
            add_twin(stage, row, name)
            step, before = stage.steps.pop(), f"get{at}"
            stage.add(before, "get", step.request["url"])
            by_reference = {**step.request, "dependsOn": [before], "url": f"${before}"}
            stage.steps.append(step._replace(request=by_reference))


def to_each_in_groups(stage: Stage) -> None:
    """Two groups that create two entities each, and read them inside; one read comes after both."""
    made: dict[str, Subject] = {}
    for group in ("g", "h"):
        ids = [f"{group}1", f"{group}2"]
        made.update(create_all(stage, ids, group=group))
        for name in ids:
            refer(stage, f"get-{name}", "read", made[name], group=group)
    for name in ("h1", "g2", "g1", "h2"):
        refer(stage, f"look-{name}", "read", made[name], ["g", "h"])


def in_chain(stage: Stage) -> None:
    """Each request depends on the one before it, and refers to the first two by turns."""
    made = create_all(stage, ("a", "b"))
    before = "b"
    for k in range(6):
        name = f"get{k}"
        refer(stage, name, "read", made["ab"[k % 2]], [before])
        before = name


def with_ids(ids: Sequence[str]) -> Callable[[Stage], None]:
    """References by ids that are easily taken for each other."""

    def write(stage: Stage) -> None:
        made = create_all(stage, ids)
        for at, name in enumerate(reversed(ids)):
            refer(stage, f"look{at}", "read", made[name])

    return write


def to_property(stage: Stage) -> None:
    """References that continue with a property after the id."""
    made = create_all(stage, FOUR)
    for name in ("c", "a"):
        shows, url = Shown({"value": made[name].mark}), f"${name}/{stage.entities.text}"
        stage.add(f"get-{name}", "get", url, needs=[name], shows=shows, promise="reference")


def with_option(stage: Stage) -> None:
    """References that continue with a query option after the id."""
    made, entities = create_all(stage, FOUR), stage.entities
    for name in ("c", "a"):
        values = {entities.text or "": ABSENT, **({entities.key: made[name].entity.key} if entities.are_named else {})}
        url = f"${name}?$select={entities.key}"
        stage.add(f"get-{name}", "get", url, needs=[name], shows=Shown(values, name), promise="reference")


def at_once(stage: Stage) -> None:
    """The same ids in each of some batches."""
    for k in range(6):
        subject = stage.create(f"new{k}")
        refer(stage, f"get{k}", "read", subject)
        refer(stage, f"drop{k}", "delete", subject, [f"get{k}"])


READ = ["$ to read"]
CASES = (
    Case("reference-read", "reference", "a read of what a request has created", read),
    Case("reference-deleted", "reference", "a request deletes what another has created", deleted),
    Case("reference-in-group", "reference", "a member of a group reads what another has created", in_group),
    Case("reference-to-group", "reference", "a read of what a member of a group has created", to_group),
    Case("reference-each-read", "reference", "reads of three of four entities that a batch creates", to_each("read")),
    Case("reference-each-delete", "reference", "deletes of two of four entities", to_each("delete")),
    Case("reference-each-patch", "reference", "PATCHes of two of four entities", to_each("patch"), needs=["patch"]),
    Case("reference-each-put", "reference", "PUTs of two of four entities", to_each("put"), needs=["put"]),
    Case("reference-groups", "reference", "references inside two groups, and to both", to_each_in_groups),
    Case("reference-chain", "reference", "six reads in a row of two entities by turns", in_chain),
    Case("reference-case", "reference", "ids that differ in upper and lower case", with_ids(CASE)),
    Case("reference-numbers", "reference", "ids that begin with one another", with_ids(NUMBERS)),
    Case("reference-signs", "reference", "ids with each of -._~", with_ids(SIGNS)),
    Case("reference-property", "reference", "a property after the id", to_property, needs=["property"]),
    Case("reference-option", "reference", "a query option after the id", with_option, needs=["options"]),
    Case("reference-encoded", "reference", "references with escaped characters", encoded),
    Case("reference-escaped", "reference", "keys with escaped characters", to_escaped, needs=["odd keys"]),
    Case("reference-query", "reference", "a query option of its own after the id", with_query, needs=["query"]),
    Case("reference-to-read", "reference", "requests on what another has read", to_read, needs=READ),
    Case("reference-in-group-to-read", "reference", "a member changes what one reads", to_read_in_group, needs=READ),
    Case("reference-to-minimal", "reference", "reads of what is created without a body in the answer", to_minimal),
    Case("reference-to-reference", "reference", "reads of what a reference has led to", to_reference, needs=READ),
    Case("reference-alike", "alone", "requests by a reference, and alone", as_by_url, needs=READ),
    Case("reference-to-patch", "reference", "reads of what a PATCH changes", to_changed("patch"), needs=["$ to patch"]),
    Case("reference-to-put", "reference", "reads of what a PUT changes", to_changed("put"), needs=["$ to put"]),
    Case("reference-at-once", "reference", "four batches with the same ids at the same time", at_once, at_once=4),
)
