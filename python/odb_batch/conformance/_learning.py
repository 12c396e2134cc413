"""Finds out by plain requests, and some batches, what the service has; a case that needs more does not apply."""

from typing import Any, Callable, Optional
from urllib.parse import urljoin, urlsplit

from ._entities import Entities, Entity
from ._judge import responses_of
from ._keys import ODD_ENDS
from ._learning_keys import learn_keys, require_reads
from ._rows import with_signs
from ._service import GONE, REFUSED, Reply, Unanswered, etag_of
from ._stage import QUERY, Stage
from ._stops import link_by, row
from ._values import learn_values

# What a service may lack, and the reason why a case does not apply then.
LACKS = {
    "named": "the service makes the keys itself",
    "text": "no property of the body takes any text or number",
    "create": "what a batch creates cannot be found, since the service makes its key",
    "patch": "alone, PATCH does not change an entity",
    "put": "alone, PUT does not change an entity",
    "etags": "the service has no ETags",
    "condition": "alone, If-Match with the ETag of an entity does not hold",
    "etag of new": "alone, a POST is answered without an ETag",
    "etag of patch": "alone, a PATCH is answered without an ETag",
    "known": "alone, a read with If-None-Match is not answered 304",
    "decimal": "no other property takes a number with a fraction",
    "integer": "no other property takes an integer above 2 ** 53",
    "string": "no other property takes a text",
    "null": "no other property takes null in place of a value",
    "odd keys": "the service takes no keys with %, a blank and letters that are not ASCII",
    "property": "alone, a property cannot be read by a URL of its own",
    "value": "alone, a property cannot be read by a URL of its own",
    "filter": "alone, $filter is not applied",
    "signs": "alone, $filter does not find a text with %, + and a quote",
    "options": "alone, $select is not applied",
    "query": "alone, a query option of the client's own is refused",
    "continue": "the service does not apply the preference continue-on-error",
    "$ to read": "the service takes no reference to a read",
    "$ to patch": "the service takes no reference to a PATCH",
    "$ to put": "the service takes no reference to a PUT",
    "absolute": "the service takes no absolute URLs in a batch",
    "rooted": "the service takes no URLs in a batch that begin with /",
}
# Those of values that an entity may have.
OF_VALUES = ("decimal", "integer", "string", "null")
# How many properties of the body are tried.
MAX_TRIED = 8


def learn(entities: Entities) -> None:
    """Learns all that cases need; raises Unusable if no entity can be made."""
    learn_keys(entities)
    require_reads(entities)
    entities.clear()
    entities.before = entities.list_all()
    entities.text = text_property(entities)
    has = {
        "named": entities.are_named,
        "odd keys": takes_odd_keys(entities),
        "text": entities.text is not None,
        "create": entities.are_named or None not in (entities.text, entities.before),
        "patch": changes(entities, "patch"),
        "put": changes(entities, "put"),
        **learn_reads(entities),
        **learn_etags(entities),
        **learn_urls(entities),
    }
    entities.lacks = {name: reason for name, reason in LACKS.items() if not has.get(name, True)}
    entities.values = learn_values(entities)
    no_values = {name: entities.lacks.get("patch", LACKS[name]) for name in OF_VALUES if name not in entities.values}
    entities.lacks.update(no_values)
    entities.lacks.update(learn_features(entities))
    entities.lacks.update(learn_references(entities))
    if "dependencies" not in entities.lacks and not goes_on(entities):
        entities.lacks["continue"] = LACKS["continue"]
    entities.find_new()
    entities.clear()


def text_property(entities: Entities) -> Any:
    """A property of the body in which an entity may have a mark of its own."""
    members = entities.body.items()
    tried = [name for name, value in members if isinstance(value, (str, int)) and not isinstance(value, bool)]
    for name in [member for member in tried if member != entities.key][:MAX_TRIED]:
        entities.text = name
        body, mark = entities.fresh(), None
        answer = entities.post(body.body)
        if answer.is_success:
            url = body.url or entities.url_of(entities.key_of(answer))
            entities.note(url)
            mark = (entities.read(url) or {}).get(name)
        if mark is not None and mark == body.mark:
            return name
    return None


def takes_odd_keys(entities: Entities) -> bool:
    """Whether keys may have characters that a URL escapes. None is made before the service says that it is missing: a
    server that refuses such a URL would keep the entity."""
    if not entities.are_named or not isinstance(entities.new_key(), str):
        return False
    for end in ODD_ENDS:
        entity, ask = entities.fresh(f"{entities.new_key()}{end}"), entities.service.ask
        if ask("GET", entity.url).status not in GONE or not entities.post(entity.body).is_success:
            break
        shown = ask("GET", entity.url).value
        if not isinstance(shown, dict) or shown.get(entities.key) != entity.key:
            break
        entities.odd_end = end
    return entities.odd_end != ""


def changes(entities: Entities, act: str) -> bool:
    """Whether PATCH or PUT changes the text property."""
    if entities.text is None:
        return False
    entity, mark = entities.make(), entities.new_mark()
    answer = entities.service.ask(act.upper(), entity.url, entities.change(act, mark))
    return answer.is_success and (entities.read(entity.url) or {}).get(entities.text) == mark


def learn_reads(entities: Entities) -> dict[str, bool]:
    """Whether entities have ETags, and what of them can be read."""
    entity, ask, text = entities.make(), entities.service.ask, entities.text
    whole = ask("GET", entity.url)
    entities.has_version = "odata-version" in whole.headers
    part = ask("GET", f"{entity.url}/{text}").value if text else None
    plain = ask("GET", f"{entity.url}/{text}/$value").text.decode("utf-8", "replace") if text else None
    some = ask("GET", f"{entity.url}?$select={entities.key}")
    return {
        "etags": etag_of(whole.headers, whole.value) is not None,
        "property": isinstance(part, dict) and part.get("value") == entity.mark,
        "value": plain == str(entity.mark),
        "query": ask("GET", f"{entity.url}{QUERY}").is_success,
        "filter": text is not None and is_filtered(entities, entity),
        "signs": text is not None and is_filtered(entities, with_signs(entities)),
        "options": some.is_success and isinstance(some.value, dict) and bool(text) and text not in some.value,
    }


def learn_etags(entities: Entities) -> dict[str, bool]:
    """Whether requests that create, change and read are answered with ETags, which hold in conditions."""
    entity, ask = entities.fresh(), entities.service.ask
    created = entities.post(entity.body)
    url = entity.url or (entities.url_of(entities.key_of(created)) if created.is_success else "")
    entities.note(url)
    changed = ask("PATCH", url, entities.change("patch", entities.new_mark()))
    read = ask("GET", url)
    tag = etag_of(read.headers, read.value)
    known = ask("GET", url, headers={"If-None-Match": tag}) if tag else read
    return {
        "condition": tag is not None and ask("DELETE", url, headers={"If-Match": tag}).is_success,
        "etag of new": created.is_success and etag_of(created.headers, created.value) is not None,
        "etag of patch": changed.is_success and etag_of(changed.headers, changed.value) is not None,
        "known": known.status == 304,
    }


def is_filtered(entities: Entities, entity: Entity) -> bool:
    """Whether a query option finds an entity, and no other, by its mark."""
    value = entities.service.ask("GET", entities.url_of_marked(entity.mark)).value
    found = value.get("value") if isinstance(value, dict) else None
    return isinstance(found, list) and [row.get(entities.key) for row in found if isinstance(row, dict)] == [entity.key]


def learn_urls(entities: Entities) -> dict[str, bool]:
    """Which forms of a URL a batch may have, besides relative to its root."""
    entity = entities.make()
    absolute = urljoin(entities.service.root, entity.url)
    found = {}
    for name, url in (("absolute", absolute), ("rooted", urlsplit(absolute).path)):
        value = entities.service.probe(url).value
        responses = value.get("responses") if isinstance(value, dict) else None
        first = responses[0] if isinstance(responses, list) and responses else None
        found[name] = isinstance(first, dict) and first.get("status") == 200
    return found


def needing(stage: Stage) -> None:
    stage.read("1")
    stage.read("2", needs=["1"])


def grouped(stage: Stage) -> None:
    stage.write("1", group="g")


def referring(stage: Stage) -> None:
    stage.act("2", "read", stage.create("1"), "$1", needs=["1"])


def conditional(stage: Stage) -> None:
    subject = stage.subject()
    stage.act("1", "read", subject)
    stage.act("2", "delete", subject, needs=["1"], headers={"If-Match": "$1"})


# What writes the smallest batch that has a feature.
FEATURES: dict[str, Callable[[Stage], None]] = {
    "dependencies": needing,
    "groups": grouped,
    "references": referring,
    "ETags by reference": conditional,
}


def learn_features(entities: Entities) -> dict[str, str]:
    """What a batch may have and the service refuses, with the reason."""
    found = {}
    for name, write in FEATURES.items():
        stage = Stage(entities)
        write(stage)
        try:
            answer = entities.service.batch(stage.document())
        except Unanswered as error:
            if error.is_late or not entities.service.is_reachable():
                raise
            continue
        note_created(entities, answer)
        status = refusal(answer)
        if status is not None:
            found[name] = f"the service refuses {name} with {status}"
        elif name == "ETags by reference" and 501 in statuses_of(answer):
            found[name] = "the service refuses a condition with $ and an id with 501"
    return found


def learn_references(entities: Entities) -> dict[str, str]:
    """What references do not lead to, besides what is created. To what a request has read they have to, unless the
    service refuses that; the standard leaves it open whether they lead to what one has changed."""
    lacking = {}
    for act in ("read", "patch", "put"):
        if act in entities.lacks or "references" in entities.lacks:
            lacking[f"$ to {act}"] = entities.lacks.get(act, LACKS[f"$ to {act}"])
            continue
        stage = Stage(entities)
        subject = stage.subject()
        stage.create("0")
        stage.act("1", act, subject, needs=["0"])
        stage.act("2", "read", subject, "$1", needs=["1"])
        answer = entities.service.batch(stage.document())
        note_created(entities, answer)
        responses = responses_of(answer) or []
        statuses = [found.get("status") for found in responses if found.get("id") == "2"]
        if statuses != [200] if act != "read" else not responses or 501 in statuses:
            lacking[f"$ to {act}"] = LACKS[f"$ to {act}"]
    return lacking


def goes_on(entities: Entities) -> bool:
    """Whether a batch goes on after errors if it prefers that: all of some requests that fail are performed."""
    stage = Stage(entities)
    row(stage, "body", link_by(stage, "read"))
    statuses = statuses_of(entities.service.batch(stage.document()))
    return len(statuses) == len(stage.steps) and 424 not in statuses


def statuses_of(answer: Reply) -> list[Any]:
    """The statuses of the responses in an answer."""
    return [response.get("status") for response in responses_of(answer) or ()]


def refusal(answer: Reply) -> Optional[str]:
    """How a service refuses a batch, or all of its requests; None if it does not."""
    responses = responses_of(answer)
    if responses is None:
        return str(answer) if answer.status in REFUSED else None
    return "501 of its requests" if responses and all(response.get("status") == 501 for response in responses) else None


def note_created(entities: Entities, answer: Reply) -> None:
    """Notes what a batch has created, to remove it."""
    for response in responses_of(answer) or []:
        headers = response.get("headers")
        if response.get("status") in (201, 204) and isinstance(headers, dict):
            entities.note({str(name).lower(): str(value) for name, value in headers.items()}.get("location", ""))
