"""Requests that are sent in a batch and alone: what each is about, and what it has."""

from functools import partial
from typing import Any, Callable, NamedTuple

from ._entities import Entities, Entity
from ._exact_json import Number
from ._failure_kinds import NO_TAG

ODD = "ä \"\\/ € & '%41 <b>"
MINIMAL, WHOLE = {"Prefer": "return=minimal"}, {"Prefer": "return=representation"}
RIGHT, KNOWN, WRONG = {"If-Match": "{etag}"}, {"If-None-Match": "{etag}"}, {"If-Match": NO_TAG}
JSON = "application/json;odata.metadata="
ONE_OF, KNOWN_OF = {"If-Match": f"{NO_TAG}, {{etag}}"}, {"If-None-Match": f"{{etag}}, {NO_TAG}"}
ANY, WEAK, NEW = {"If-Match": "*"}, {"If-Match": "W/{etag}"}, {"If-None-Match": "*"}
SMALL, LESS = {"if-match": NO_TAG}, {"prefer": "return=minimal"}
MANY = {"OData-MaxVersion": "4.01", "Accept": "application/json", **WHOLE}
WEIGHTS = {"Accept": "application/json;q=0.5, */*;q=0.1"}
NO_TYPE, FULL_TYPE = {"Content-Type": ""}, {"Content-Type": "application/json;charset=utf-8"}

# What is written around a mark: texts that get lost or cut on the way.
TEXTS: dict[str, Callable[[Any], str]] = {
    "odd": lambda mark: f"{ODD}{mark}",
    "blanks": lambda mark: f"  {mark}  ",
    "latin": lambda mark: f"\u00e4 {mark}",
    "beyond": lambda mark: f"\U0001f600 {mark} \U0001d4b3\u00e4",
    "lines": lambda mark: f"a\tb\r\nc\n{mark}",
    "two blanks": lambda mark: f"a  b {mark}",
    "control": lambda mark: f"\x01\x7f{mark}",
    "in a URL": lambda mark: f"{mark}%41+ä'&#",
    "signs": lambda mark: f"$new $1 100% {{{mark}}} %24 $",
    "forms": lambda mark: f"A+b e\u0301 \ufb01 {mark}",
    "long 300": lambda mark: f"{mark}".ljust(300, "x"),
    "long 5000": lambda mark: f"{mark}".ljust(5_000, "x"),
    "long 70000": lambda mark: f"{mark}".ljust(70_000, "x"),
}
# Texts that could be taken for other values.
LIKE_OTHERS = ("0071", "null")
# Numbers that a float, or a number of JavaScript, does not keep as they are written.
NUMBERS = {
    "zero": Number("9.990"),
    "exponent": Number("1.50E+2"),
    "digits": Number("12345678901234567890.1234567890"),
    "negative": Number("-0.50"),
    "nothing": Number("0"),
    "whole-number": Number("10.0"),
    "hundreds": Number("1200"),
}


class Row(NamedTuple):
    """A request that is sent in a batch and alone.

    Attributes:
        name: The name of its case.
        shows: What it is, in a few words.
        method: Its method.
        target: What its URL leads to, of TARGETS.
        body: Its body, of BODIES.
        headers: Its headers, in which {etag} is the ETag of the entity; an empty one is left out.
        needs: What the service has to have.
    """

    name: str
    shows: str
    method: str
    target: str
    body: str = ""
    headers: dict[str, str] = {}
    needs: tuple[str, ...] = ()


def several(entities: Entities) -> Entity:
    """Makes six entities that have the mark of the first."""
    entity = entities.make()

    def same(_: Any) -> Any:
        return entity.mark

    for _ in range(5):
        entities.make(text=same)
    return entity


def with_signs(entities: Entities) -> Entity:
    """Makes an entity whose mark a URL escapes."""
    mark = TEXTS["in a URL"](entities.new_mark())
    return entities.make(text=lambda _: mark)._replace(mark=mark)


def nullable(entities: Entities) -> list[tuple[str, Any]]:
    """Properties that take null, of them a text if there is one, each with a value."""
    return [entities.values[kind] for kind in ("null", "null string") if kind in entities.values]


def property_of(kind: str, value: Any, entities: Entities) -> Entity:
    """A property of an entity that takes values of some kind, and has this one."""
    name, _ = entities.values[kind]
    entity = entities.make({name: value})
    return entity._replace(url=f"{entity.url}/{name}")


def part_of(entities: Entities) -> Entity:
    """The key of an entity, by a query option."""
    entity = entities.make()
    return entity._replace(url=f"{entity.url}?$select={entities.key}")


def value_of(entities: Entities) -> Entity:
    """The text property of an entity, as it is."""
    entity = entities.make()
    return entity._replace(url=f"{entity.url}/{entities.text}/$value")


# Each makes an entity, or names one, that the request is about.
TARGETS: dict[str, Callable[[Entities], Entity]] = {
    "there": lambda entities: entities.make(),
    "missing": lambda entities: entities.missing(),
    "new": lambda entities: entities.fresh(),
    "found": lambda entities: entities.make(),
    "odd key": lambda entities: entities.make(key=entities.odd_key()),
    "new odd key": lambda entities: entities.fresh(entities.odd_key()),
    "found all": several,
    "found by signs": with_signs,
    "formed": lambda entities: entities.make({}, TEXTS["forms"]),
    "filled": lambda entities: entities.make(dict(nullable(entities))),
    "valued": lambda entities: entities.make(dict(entities.values.values()), TEXTS["beyond"]),
    "no text": lambda entities: entities.make({}, lambda mark: ""),
    "blank": lambda entities: entities.make({}, TEXTS["blanks"]),
    "itself": lambda entities: entities.make(),
    "value": value_of,
    "null": partial(property_of, "null", None),
    "decimal": partial(property_of, "decimal", NUMBERS["zero"]),
    "part": part_of,
    "count": lambda entities: Entity(f"{entities.set}/$count", {}),
    "no set": lambda entities: Entity("ConformanceNoSuchSet", {}),
}


def with_text(text: Callable[[Any], str], entities: Entities, entity: Entity, mark: Any) -> dict[str, Any]:
    """The body of an entity with a text around its mark."""
    return {**entity.body, entities.text or "": text(mark)}


def with_other_text(text: str, entities: Entities, entity: Entity, _mark: Any) -> dict[str, Any]:
    """The body of an entity with a text beside that of the marks."""
    return {**entity.body, entities.values["string"][0]: text}


def with_number(number: Number, entities: Entities, entity: Entity, _mark: Any) -> dict[str, Any]:
    """The body of an entity with a number with a fraction."""
    return {**entity.body, entities.values["decimal"][0]: number}


# Each returns a body; the second value is a mark that may be written by it.
BODIES: dict[str, Callable[[Entities, Entity, Any], Any]] = {
    "": lambda entities, entity, mark: None,
    "whole": lambda entities, entity, mark: entity.body,
    **{name: partial(with_text, TEXTS[name]) for name in TEXTS},
    **{f"text {text}": partial(with_other_text, text) for text in LIKE_OTHERS},
    "text reference": partial(with_other_text, "$new"),
    **{name: partial(with_number, NUMBERS[name]) for name in NUMBERS},
    "integer": lambda entities, entity, mark: {**entity.body, **dict([entities.values["integer"]])},
    "values": lambda entities, entity, mark: {**entities.change("put", mark), **dict(entities.values.values())},
    "no text": lambda entities, entity, mark: {entities.text: ""},
    "whole null": lambda entities, entity, mark: {**entity.body, **dict.fromkeys(dict(nullable(entities)))},
    "null": lambda entities, entity, mark: dict.fromkeys(dict(nullable(entities))),
    "mark": lambda entities, entity, mark: entities.change("patch", mark),
    "odd mark": lambda entities, entity, mark: entities.change("patch", TEXTS["odd"](mark)),
    "signs mark": lambda entities, entity, mark: entities.change("patch", TEXTS["signs"](mark)),
    "blanks mark": lambda entities, entity, mark: entities.change("patch", TEXTS["blanks"](mark)),
    "other": lambda entities, entity, mark: entities.change("put", mark),
    "empty": lambda entities, entity, mark: {},
    "list": lambda entities, entity, mark: [],
    "text": lambda entities, entity, mark: "text",
    "unknown": lambda entities, entity, mark: {**entities.change("put", mark), "ConformanceNoSuchProperty": 1},
    "bad value": lambda entities, entity, mark: {**entity.body, entities.text: {"conformance": [1]}},
}

ROWS = (
    Row("get", "a read", "get", "there"),
    Row("get-missing", "a read of what is missing", "get", "missing"),
    Row("get-filtered", "a read with a query option", "get", "found", needs=("text", "filter")),
    Row("get-value", "a read of a text as it is", "get", "value", needs=("value",)),
    Row("get-no-set", "a read of a set that does not exist", "get", "no set"),
    Row("get-count", "a read of how many there are", "get", "count"),
    Row("post", "a POST", "post", "new", "whole"),
    Row("post-minimal", "a POST that prefers no body", "post", "new", "whole", MINIMAL),
    Row("post-whole", "a POST that prefers a body", "post", "new", "whole", WHOLE),
    Row("post-odd", "a POST of letters that are not ASCII", "post", "new", "odd", needs=("text",)),
    Row("post-taken", "a POST of a key that is taken", "post", "there", "whole", needs=("named",)),
    Row("post-list", "a POST of an array", "post", "new", "list"),
    Row("post-text", "a POST of a text", "post", "new", "text", {"Content-Type": "text/plain"}),
    Row("post-unknown", "a POST of a property that does not exist", "post", "new", "unknown"),
    Row("post-bad-value", "a POST of a value of the wrong type", "post", "new", "bad value", needs=("text",)),
    Row("post-entity", "a POST to an entity", "post", "itself", "whole"),
    Row("post-no-set", "a POST to a set that does not exist", "post", "no set", "empty"),
    Row("patch", "a PATCH", "patch", "there", "mark", needs=("patch",)),
    Row("patch-minimal", "a PATCH that prefers no body", "patch", "there", "mark", MINIMAL, ("patch",)),
    Row("patch-whole", "a PATCH that prefers a body", "patch", "there", "mark", WHOLE, ("patch",)),
    Row("patch-odd", "a PATCH with letters that are not ASCII", "patch", "there", "odd mark", needs=("patch",)),
    Row("patch-missing", "a PATCH of what is missing", "patch", "missing", "mark", needs=("patch",)),
    Row("patch-signs", "a PATCH with $ and other signs", "patch", "there", "signs mark", needs=("patch",)),
    Row("patch-empty", "a PATCH of nothing", "patch", "there", "empty", needs=("patch",)),
    Row("patch-list", "a PATCH with an array", "patch", "there", "list", needs=("patch",)),
    Row("patch-unknown", "a PATCH of a property that does not exist", "patch", "there", "unknown", needs=("patch",)),
    Row("put", "a PUT", "put", "there", "other", needs=("put",)),
    Row("put-whole", "a PUT that prefers a body", "put", "there", "other", WHOLE, ("put",)),
    Row("put-missing", "a PUT of what is missing", "put", "missing", "other", needs=("put",)),
    Row("put-empty", "a PUT of nothing", "put", "there", "empty", needs=("put",)),
    Row("put-mark", "a PUT of one property", "put", "there", "mark", needs=("put",)),
    Row("delete", "a delete", "delete", "there"),
    Row("delete-missing", "a delete of what is missing", "delete", "missing"),
    Row("get-known", "a read of what is known", "get", "there", "", KNOWN, ("etags",)),
    Row("get-if-match", "a read with the right ETag", "get", "there", "", RIGHT, ("etags",)),
    Row("patch-match", "a PATCH with the right ETag", "patch", "there", "mark", RIGHT, ("etags", "patch")),
    Row("patch-stale", "a PATCH with a wrong ETag", "patch", "there", "mark", WRONG, ("etags", "patch")),
    Row("put-match", "a PUT with the right ETag", "put", "there", "other", RIGHT, ("etags", "put")),
    Row("put-stale", "a PUT with a wrong ETag", "put", "there", "other", WRONG, ("etags", "put")),
    Row("put-new", "a PUT of what is to be new", "put", "there", "other", NEW, ("etags", "put")),
    Row("delete-match", "a delete with the right ETag", "delete", "there", "", RIGHT, ("etags",)),
    Row("delete-stale", "a delete with a wrong ETag", "delete", "there", "", WRONG, ("etags",)),
    Row("delete-any", "a delete with any ETag", "delete", "there", "", ANY, ("etags",)),
)
# Those of which several are in one batch.
PARTS = (
    Row("patch-one-of", "a PATCH with the right ETag in a list", "patch", "there", "mark", ONE_OF, ("etags", "patch")),
    Row("patch-weak", "a PATCH with the right ETag as a weak one", "patch", "there", "mark", WEAK, ("etags", "patch")),
    Row("patch-new", "a PATCH of what is to be new", "patch", "there", "mark", NEW, ("etags", "patch")),
    Row("patch-small", "a PATCH with a wrong ETag by if-match", "patch", "there", "mark", SMALL, ("etags", "patch")),
    Row("get-known-of", "a read of what is known, by a list", "get", "there", "", KNOWN_OF, ("etags",)),
    Row("get-stale", "a read with a wrong ETag", "get", "there", "", WRONG, ("etags",)),
    Row("post-blanks", "a POST of a text with blanks at its ends", "post", "new", "blanks", needs=("text",)),
    Row("patch-blanks", "a PATCH of such a text", "patch", "there", "blanks mark", needs=("patch",)),
    Row("get-blanks", "a read of such a text", "get", "blank", needs=("text",)),
    Row("post-latin", "a POST of a letter of Latin-1", "post", "new", "latin", needs=("text",)),
    Row("post-beyond", "a POST of characters beyond U+FFFF", "post", "new", "beyond", needs=("text",)),
    Row("get-beyond", "a read of such characters", "get", "valued", needs=("text",)),
    Row("post-lines", "a POST of lines and a tab", "post", "new", "lines", needs=("text",)),
    Row("post-two-blanks", "a POST of two blanks", "post", "new", "two blanks", needs=("text",)),
    Row("post-control", "a POST of control characters", "post", "new", "control", needs=("text",)),
    Row("post-forms", "a POST of signs that have several forms", "post", "new", "forms", needs=("text",)),
    Row("get-forms", "a read of such signs", "get", "formed", needs=("text",)),
    *(
        Row(f"post-{text}", f"a POST of the text {text}", "post", "new", f"text {text}", needs=("string",))
        for text in LIKE_OTHERS
    ),
    Row("post-reference", "a POST of the text $new", "post", "new", "text reference", needs=("string",)),
    Row("get-listed", "a read of six entities of a set", "get", "found all", needs=("text", "filter")),
    Row("get-found-by-signs", "a filter by signs that a URL escapes", "get", "found by signs", needs=("signs",)),
    Row("patch-missing-any", "a PATCH of any that is there", "patch", "missing", "mark", ANY, ("etags", "patch")),
    Row("get-null", "a read of a property that is null", "get", "null", needs=("null", "property")),
    Row("get-decimal", "a read of a property that is 9.990", "get", "decimal", needs=("decimal", "property")),
    Row("get-option", "a read of a part", "get", "part", needs=("options",)),
    Row("patch-headers", "a PATCH with many headers", "patch", "there", "mark", {**MANY, **WRONG}, ("etags", "patch")),
    Row("get-headers", "a read with many headers", "get", "there", "", {**MANY, **KNOWN}, ("etags",)),
    Row("patch-values", "a PATCH with several values", "patch", "there", "values", WHOLE, ("patch", "decimal")),
    Row("put-values", "a PUT with several values", "put", "there", "values", WHOLE, ("put", "decimal")),
    Row("post-key", "a POST of a key that a URL escapes", "post", "new odd key", "whole", needs=("odd keys",)),
    Row("get-key", "a read by such a key", "get", "odd key", needs=("odd keys",)),
    Row("patch-key", "a PATCH by such a key", "patch", "odd key", "mark", needs=("odd keys", "patch")),
    Row("delete-key", "a delete by such a key", "delete", "odd key", needs=("odd keys",)),
    Row("post-no-type", "a POST without Content-Type", "post", "new", "whole", NO_TYPE),
    Row("patch-no-type", "a PATCH without Content-Type", "patch", "there", "mark", NO_TYPE, ("patch",)),
    Row("post-full-type", "a POST with a charset", "post", "new", "whole", FULL_TYPE),
    Row("patch-full-type", "a PATCH with a charset", "patch", "there", "mark", FULL_TYPE, ("patch",)),
    Row("get-accept-weights", "a read with weights", "get", "there", "", WEIGHTS),
    Row("post-minimal-small", "a POST that prefers no body, by prefer", "post", "new", "whole", LESS),
    Row("post-long-300", "a POST of a text of 300 letters", "post", "new", "long 300", needs=("text",)),
    Row("post-long-5000", "a POST of a text of 5,000 letters", "post", "new", "long 5000", needs=("text",)),
    Row("post-long-70000", "a POST of a text of 70,000 letters", "post", "new", "long 70000", needs=("text",)),
    Row("patch-no-text", "a PATCH of a text that is empty", "patch", "there", "no text", needs=("patch",)),
    Row("get-no-text", "a read of such a text", "get", "no text", needs=("text",)),
    Row("patch-null", "a PATCH with null", "patch", "filled", "null", needs=("null",)),
    Row("post-with-null", "a POST with null", "post", "new", "whole null", needs=("null",)),
    *(
        Row(f"post-{name}", f"a POST of {number}", "post", "new", name, needs=("decimal",))
        for name, number in NUMBERS.items()
    ),
    Row("post-integer", "a POST of an integer above 2 ** 53", "post", "new", "integer", needs=("integer",)),
    Row("get-numbers", "a read of numbers", "get", "valued", needs=("decimal",)),
    Row("get-version-4", "a read that takes OData 4.0", "get", "there", "", {"OData-MaxVersion": "4.0"}),
    Row("get-version-3", "a read that takes OData 3.0", "get", "there", "", {"OData-MaxVersion": "3.0"}),
    Row("get-accept-plain", "a read that takes plain text", "get", "there", "", {"Accept": "text/plain"}),
    Row("get-accept-none", "a read without metadata", "get", "there", "", {"Accept": f"{JSON}none"}),
    Row("get-accept-full", "a read with all metadata", "get", "there", "", {"Accept": f"{JSON}full"}),
    Row("post-accept-plain", "a POST that takes plain text", "post", "new", "whole", {"Accept": "text/plain"}),
)
ROWS_BY_NAME = {row.name: row for row in (*ROWS, *PARTS)}
