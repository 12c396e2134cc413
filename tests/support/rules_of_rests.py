"""The rules of the rest of a batch as a plain program: what may be sent again by the responses of a service.

The responses fit the batch: `match` of rules_of_runs.py has found the status of each request.
"""

from . import rules
from .full_plans import bodies_of, rest_of
from .rules import first_fault, fold, json_text

UNPERFORMED, UNCERTAIN = (424, 429, 503), (408, 502, 504)
IDEMPOTENT = ("delete", "get", "put")


def is_success(status):
    return status // 100 == 2


def may_repeat(method, status):
    """Whether a request may be sent again, if its unit is not done."""
    return is_success(status) or status in UNPERFORMED or (status in UNCERTAIN and method in IDEMPOTENT)


def unit(batch, i):
    """The members of the request's unit: its group, or the request alone."""
    return rules.members(batch, batch[i].group) or [i]


def needed(batch, i):
    """The positions that a request needs something of."""
    return {j for name in rules.needs(batch, i) for j in rules.needed_positions(batch, name)}


def left_out(batch, statuses):
    """The positions of the units with a request that may not be sent again, and of what needs one of them."""
    out = {i for i, request in enumerate(batch) if not may_repeat(request.method, statuses[i])}
    while True:
        units = {j for i in out for j in unit(batch, i)}
        more = units | {i for i in range(len(batch)) if needed(batch, i) & units}
        if more == out:
            return out
        out = more


def kept(batch, statuses):
    """The positions of the requests in the rest."""
    out = left_out(batch, statuses)
    is_done = [all(is_success(statuses[j]) for j in unit(batch, i)) for i in range(len(batch))]
    return [i for i in range(len(batch)) if i not in out and not is_done[i]]


def recorded(response, header):
    """The Location or the ETag that a response records, or None: of two names that differ in case the first in byte order counts."""
    headers = response.get("headers")
    names = sorted(headers, key=str.encode) if isinstance(headers, dict) and is_success(response.get("status", 0)) else []
    found = [headers[name] for name in names if fold(name) == header]
    return found[0] if found and isinstance(found[0], str) else None


def moved_url(request, location):
    """The URL with a Location in the place of its reference, or None if it is not a plain URL."""
    url = location + rest_of(request) if location else None
    return url if url is not None and rules.front(url)[0] == "plain" and not rules.is_nested_batch(url) else None


def headers_of(batch, i, positions, answers):
    """The headers of a request in the rest: a condition that refers to an earlier request, which is not in it, has its ETag, or None."""
    headers = dict(batch[i].headers)
    for name in ("if-match", "if-none-match"):
        value = headers.get(name, "")
        at = rules.position(batch, value[1:]) if value.startswith("$") else None
        if at is not None and at < i and at not in positions:
            headers[name] = recorded(answers.get(value[1:], {}), "etag")
    return headers


def changes(batch, positions, responses):
    """The URL and the headers of each request in the rest, or F90 or F91."""
    answers = {it["id"]: it for it in responses}
    found = {}
    for i in positions:
        request, at = batch[i], rules.position(batch, batch[i].reference)
        stays = at is None or at in positions
        url = request.url if stays else moved_url(request, recorded(answers.get(request.reference, {}), "location"))
        headers = headers_of(batch, i, positions, answers)
        first_fault({"F90": url is None, "F91": None in headers.values()}, f"/requests/{i}")
        found[i] = url, headers
    return found


def request_text(batch, data, i, positions, url, headers, body):
    """A request in the rest: in canonical form, but its body as the document has it."""
    request = batch[i]
    names = [it for it in request.names if set(rules.needed_positions(batch, it)) <= set(positions)]
    members = {
        "atomicityGroup": request.group and json_text(request.group),
        "body": body and data[body["offset"] : body["offset"] + body["length"]].decode(),
        "dependsOn": json_text(names) if names else None,
        "headers": json_text(headers) if headers else None,
        "id": json_text(request.id),
        "method": json_text(request.method),
        "url": json_text(url),
    }
    return "{" + ",".join(f'"{name}":{text}' for name, text in members.items() if text is not None) + "}"


def rest_text(batch, data, responses, statuses):
    """The rest of the batch in a document, by the responses of a service and the status of each request."""
    positions = kept(batch, statuses)
    changed, bodies = changes(batch, positions, responses), list(bodies_of(data))
    texts = [request_text(batch, data, i, positions, *changed[i], bodies[i]) for i in positions]
    return '{"requests":[' + ",".join(texts) + "]}\n"
