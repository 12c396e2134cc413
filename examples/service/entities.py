"""The entity sets of the library, as metadata.json describes them, and what a request does to their rows."""

import json
import os
import re
import sqlite3
from decimal import Decimal
from typing import Any, Callable, Dict, List, NamedTuple, Union
from urllib.parse import quote

from conditions import require_readable, unmet_precondition
from odb_batch import Answer, Refusal

ROOT = "/library/"
with open(os.path.join(os.path.dirname(os.path.abspath(__file__)), "metadata.json"), encoding="utf-8") as file:
    METADATA = json.load(file)

TYPES = {name: it for name, it in METADATA["Library"].items() if it.get("$Kind") == "EntityType"}
CONTAINER = {name: it for name, it in METADATA["Library"]["Container"].items() if not name.startswith("$")}
# The sets, each with its properties.
SETS = {
    name: {key: about for key, about in TYPES[it["$Type"].partition(".")[2]].items() if not key.startswith("$")}
    for name, it in CONTAINER.items()
}


class Request(NamedTuple):
    """A request.

    Attributes:
        method: In upper case.
        path: Decoded.
        options: The query, decoded.
        headers: By their names in lower case.
        body: A value of JSON, or None.
    """

    method: str
    path: str
    options: Dict[str, str]
    headers: Dict[str, str]
    body: Any


class Target(NamedTuple):
    """What a path names: a set, or an entity of it by its key."""

    name: str
    key: Union[None, int, str]


Action = Callable[[sqlite3.Connection, Target, Request], Answer]


def perform(database: sqlite3.Connection, request: Request) -> Answer:
    """Performs a request; raises Refusal where OData has an error for it."""
    require_readable(request.headers)
    target = _target(request.path)
    if target.name == "$metadata":
        actions: Dict[str, Action] = {"GET": lambda *_: Answer(200, {}, METADATA)}
    else:
        actions = _OF_SET if target.key is None else _OF_ENTITY
    if request.method not in actions:
        raise Refusal(405, "NotAllowed", f"{request.method} does not apply here", allow=", ".join(actions))
    for option in request.options.keys() - {"$filter"}:
        if option.startswith("$"):
            raise Refusal(501, "NotImplemented", f"{option[:80]} is not supported")
    is_shown = request.method == "GET" or target.key is not None
    current = actions["GET"](database, target, request) if is_shown else Answer(200)
    unmet = unmet_precondition(request.method, request.headers, current.headers.get("etag"))
    if unmet is not None or request.method == "GET":
        return unmet or current
    try:
        return actions[request.method](database, target, request)
    except sqlite3.IntegrityError as error:
        raise Refusal(409, "Conflict", str(error)) from None


def _target(path: str) -> Target:
    named = re.fullmatch(rf"{ROOT}(\$?\w+)(?:\((?:Id=)?(.*)\))?", path, re.DOTALL)
    if named is None:
        raise Refusal(404, "NotFound", f"The service has nothing at {path[:80]!r}")
    if named[1] not in {"$metadata", *SETS}:
        raise Refusal(404, "NotFound", f"The service has no {named[1][:80]}")
    return Target(named[1], None if named[2] is None else _literal(named[2]))


def _literal(text: str) -> Union[int, str]:
    """The value of a literal in a URL: a string in quotes, or an integer of 64 bits."""
    if re.fullmatch(r"'([^']|'')*'", text):
        return text[1:-1].replace("''", "'")
    if re.fullmatch(r"-?[0-9]{1,19}", text) and _is_integer(int(text)):
        return int(text)
    raise Refusal(400, "BadLiteral", f"{text[:80]!r} is neither a string in quotes nor an integer")


def _rows(database: sqlite3.Connection, name: str, rest: str, *values: object) -> List[Dict[str, Any]]:
    """Rows of a set as entities, each with its ETag."""
    found = database.execute(f"SELECT Version, {', '.join(SETS[name])} FROM {name} {rest}", values)
    return [{"@etag": _tag(version), **_entity(name, row)} for version, *row in found]


def _entity(name: str, row: List[Any]) -> Dict[str, Any]:
    shown = dict(zip(SETS[name], row))
    decimals = {key: Decimal(it) for key, it in shown.items() if it is not None and _type(name, key) == "Edm.Decimal"}
    return {**shown, **decimals}


def _tag(version: int) -> str:
    return f'"{version}"'


def _next_version(database: sqlite3.Connection) -> int:
    """A version that no entity has had, so that one that is deleted and created again has another ETag."""
    database.execute("UPDATE Versions SET Last = Last + 1")
    (version,) = database.execute("SELECT Last FROM Versions").fetchone()
    return int(version)


def _list(database: sqlite3.Connection, target: Target, request: Request) -> Answer:
    rest, values = "ORDER BY Id", []
    if "$filter" in request.options:
        name, _, text = request.options["$filter"].partition(" eq ")
        if name not in SETS[target.name]:
            raise Refusal(501, "NotImplemented", "A $filter compares a property: Name eq Value")
        rest, values = f"WHERE {name} = ? {rest}", [_value(target.name, name, _literal(text))]
    body = {"@context": f"{ROOT}$metadata#{target.name}", "value": _rows(database, target.name, rest, *values)}
    return Answer(200, {}, body)


def _show(database: sqlite3.Connection, target: Target, _: Request) -> Answer:
    rows = _rows(database, target.name, "WHERE Id = ?", _value(target.name, "Id", target.key))
    if not rows:
        raise Refusal(404, "NotFound", f"{target.name} has no such entity")
    body = {"@context": f"{ROOT}$metadata#{target.name}/$entity", **rows[0]}
    return Answer(200, {"etag": rows[0]["@etag"]}, body)


def _create(database: sqlite3.Connection, target: Target, request: Request) -> Answer:
    row: Dict[str, Any] = {**_given(target.name, request), "Version": _next_version(database)}
    marks = ", ".join("?" for _ in row)
    done = database.execute(f"INSERT INTO {target.name} ({', '.join(row)}) VALUES ({marks})", tuple(row.values()))
    key = row.get("Id", done.lastrowid)
    shown = _show(database, target._replace(key=key), request)
    text = "'" + key.replace("'", "''") + "'" if isinstance(key, str) else str(key)
    location = f"{ROOT}{target.name}({quote(text, safe=chr(39))})"
    return Answer(201, {"location": location, **shown.headers}, shown.body)


def _change(database: sqlite3.Connection, target: Target, request: Request) -> Answer:
    version = _next_version(database)
    row: Dict[str, object] = {**_given(target.name, request), "Version": version}
    changes = ", ".join(f"{name} = ?" for name in row)
    database.execute(f"UPDATE {target.name} SET {changes} WHERE Id = ?", (*row.values(), target.key))
    # A PUT has no ETag here: the entity is not stored just as it was sent (RFC 9110, section 9.3.4).
    return Answer(204, {"etag": _tag(version)} if request.method == "PATCH" else {})


def _delete(database: sqlite3.Connection, target: Target, _: Request) -> Answer:
    database.execute(f"DELETE FROM {target.name} WHERE Id = ?", (target.key,))
    return Answer(204)


_OF_SET: Dict[str, Action] = {"GET": _list, "POST": _create}
_OF_ENTITY: Dict[str, Action] = {"GET": _show, "PATCH": _change, "PUT": _change, "DELETE": _delete}


def _given(name: str, request: Request) -> Dict[str, object]:
    """The values that a body gives to properties. Only a POST gives a key, and only a PATCH leaves others out."""
    if not isinstance(request.body, dict):
        raise Refusal(400, "BadBody", "The body must be an object")
    given = {key: value for key, value in request.body.items() if "@" not in key}
    unknown = given.keys() - SETS[name].keys()
    if unknown:
        raise Refusal(400, "UnknownProperty", f"{name} have no {min(unknown)[:80]!r}")
    taken = [key for key in SETS[name] if key in given or request.method != "PATCH"]
    if request.method != "POST" or _type(name, "Id") == "Edm.Int64":
        taken = [key for key in taken if key != "Id"]
    return {key: _value(name, key, given.get(key)) for key in taken}


def _type(name: str, key: str) -> str:
    return str(SETS[name][key].get("$Type", "Edm.String"))


def _value(name: str, key: str, value: object) -> object:
    """What the database keeps of a value that suits the property; a missing one is null."""
    kind = _type(name, key)
    if value is None and SETS[name][key].get("$Nullable", False):
        return None
    if kind == "Edm.Int64" and _is_integer(value):
        return value
    if kind == "Edm.Decimal" and isinstance(value, (int, Decimal)) and not isinstance(value, bool):
        return str(value)
    if kind == "Edm.String" and isinstance(value, str) and value.isprintable():
        return value
    raise Refusal(400, "BadValue", f"{key} of {name} must be a value of {kind}, in printable characters", target=key)


def _is_integer(value: object) -> bool:
    """Whether a value is an integer that the database can hold."""
    return isinstance(value, int) and not isinstance(value, bool) and -(2**63) <= value < 2**63
