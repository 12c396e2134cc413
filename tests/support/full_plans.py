"""What `plan --full` prints, by the rules: what is to be sent of each request, and where its body is in the document."""

import json
import re

from . import rules

SKIP = re.compile(r"[ \t\r\n,:]*")
END_OF_VALUE = json.JSONDecoder(parse_int=str, parse_float=str).raw_decode


def values_at(text, at):
    """Where each value of the array or the object at a place begins and ends; the names of members are values, too."""
    at = SKIP.match(text, at + 1).end()
    while text[at] not in "]}":
        end = END_OF_VALUE(text, at)[1]
        yield at, end
        at = SKIP.match(text, end).end()


def member_at(text, at, name):
    """Where the value of the last member of this name begins and ends, if the object at a place has one."""
    values = list(values_at(text, at))
    found = [value for key, value in zip(values[::2], values[1::2]) if json.loads(text[slice(*key)]) == name]
    return found[-1] if found else None


def place_of(text, start, end):
    return {"length": len(text[start:end].encode()), "offset": len(text[:start].encode())}


def bodies_of(data):
    """For each request of an accepted batch the place of its body, or None."""
    text = data.decode()
    requests, _ = member_at(text, SKIP.match(text).end(), "requests")
    for start, _ in values_at(text, requests):
        body = member_at(text, start, "body")
        yield None if body is None or text[slice(*body)] == "null" else place_of(text, *body)


def rest_of(request):
    """The part of its URL after the id that it refers to."""
    return request.url if request.reference is None else re.sub("^[^/?#]*", "", request.url)


def full_plan(batch, data):
    """The requests of a full plan, as its JSON has them."""
    found = []
    for request, planned, body in zip(batch, rules.planned(batch), bodies_of(data)):
        sent = {"headers": request.headers, "method": request.method.upper(), "url": request.url}
        optional = {"body": body, "reference": request.reference}
        given = {name: value for name, value in optional.items() if value is not None}
        found.append({**planned, **sent, **given, "rest": rest_of(request)})
    return found
