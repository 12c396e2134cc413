"""Values of properties that a batch may lose or change on the way, and what takes them."""

from typing import Any, Optional

from ._alone import add_twin, together
from ._entities import Entities, Entity
from ._exact_json import Number
from ._promises import Case
from ._rows import LIKE_OTHERS, ROWS_BY_NAME
from ._rows import NUMBERS as EXACT
from ._stage import Stage

# What is tried for a property: a value for each kind.
TRIED = {"decimal": Number("9.990"), "integer": 2**53 + 1, "string": "conformance"}
# How many properties are tried.
MAX_TRIED = 8


def learn_values(entities: Entities) -> dict[str, tuple[str, Any]]:
    """Finds properties, besides that of the marks, that take a fraction, a long integer, a string, and null."""
    found: dict[str, tuple[str, Any]] = {}
    if "patch" in entities.lacks:
        return found
    entity = entities.make()
    for name in other_properties(entities, entity):
        kind = next((kind for kind, value in TRIED.items() if takes(entities, entity, name, value)), None)
        if kind is None:
            continue
        found.setdefault(kind, (name, TRIED[kind]))
        nulls = {"null", "null string"} if kind == "string" else {"null"}
        missing = sorted(nulls - found.keys())
        if missing and takes(entities, entity, name, None):
            found.update(dict.fromkeys(missing, (name, TRIED[kind])))
        if found.keys() >= {*TRIED, "null"}:
            break
    return found


def other_properties(entities: Entities, entity: Entity) -> list[str]:
    """The names of properties that may take such values: those of the body, and those that the service shows."""
    shown = {**entities.body, **(entities.read(entity.url) or {})}
    simple = (str, int, float, type(None))
    names = (name for name, value in shown.items() if "@" not in name and isinstance(value, simple))
    return [name for name in names if name not in (entities.key, entities.text)][:MAX_TRIED]


def takes(entities: Entities, entity: Entity, name: str, value: Any) -> bool:
    """Whether a property of an entity can be changed to a value, by a plain PATCH."""
    if not entities.service.ask("PATCH", entity.url, {name: value}).is_success:
        return False
    shown: Optional[Any] = (entities.read(entity.url) or {}).get(name, "")
    return shown == value and isinstance(shown, bool) == isinstance(value, bool)


def like_reference(stage: Stage) -> None:
    """A text that is also a reference to a request before it."""
    stage.create("new")
    add_twin(stage, ROWS_BY_NAME["post-reference"], "text", needs=["new"])


TEXT = ["text"]
BLANKS, BEYOND = ("post-blanks", "patch-blanks", "get-blanks"), ("post-beyond", "get-beyond")
LONG, FORMS = ("post-long-300", "post-long-5000", "post-long-70000"), ("post-forms", "get-forms")
NULLS = ("patch-null", "post-with-null", "get-null")
LINES = ("post-lines", "post-two-blanks", "post-control")
NUMBERS = [*(f"post-{name}" for name in EXACT), "get-numbers", "get-decimal"]
ALIKE = [f"post-{text}" for text in LIKE_OTHERS]
CHANGES = ("patch-values", "put-values", "get-numbers")
AS_THEY_ARE = together(["post-odd", "patch-odd", *BEYOND], is_ascii=False)

CASES = (
    Case("values-blanks", "alone", "texts with blanks at their ends", together(BLANKS), needs=TEXT),
    Case("values-beyond", "alone", "characters beyond U+FFFF", together(BEYOND), needs=TEXT),
    Case("values-utf-8", "alone", "characters that are not ASCII, without escapes", AS_THEY_ARE, needs=TEXT),
    Case("values-latin", "alone", "a letter that Latin-1 has", together(["post-latin"], is_ascii=False), needs=TEXT),
    Case("values-forms", "alone", "signs that Unicode has in several forms", together(FORMS), needs=TEXT),
    Case("values-lines", "alone", "lines, tabs and control characters", together(LINES), needs=TEXT),
    Case("values-alike", "alone", "texts that could be other values", together(ALIKE), needs=["string"]),
    Case("values-reference", "alone", "a text that is also a reference", like_reference, needs=["string"]),
    Case("values-long", "alone", "texts of 300, 5,000 and 70,000 letters", together(LONG), needs=TEXT),
    Case("values-empty", "alone", "a text that is empty", together(["patch-no-text", "get-no-text"]), needs=TEXT),
    Case("values-null", "alone", "null in place of a value", together(NULLS), needs=["null"]),
    Case("values-numbers", "alone", "numbers with a fraction, and 0", together(NUMBERS), needs=["decimal"]),
    Case("values-together", "alone", "changes of several values", together(CHANGES), needs=["decimal"]),
    Case("values-integer", "alone", "an integer above 2 ** 53", together(["post-integer"]), needs=["integer"]),
)


def values() -> list[Case]:
    return list(CASES)
