"""Services without a defect, or with one that no batch shows: a service may be like that."""

import itertools
import json
import os
import secrets
import signal
import time
from urllib.parse import urljoin

import app
import entities
import odb_batch.http.batch_request
import store
from odb_batch import Answer, Refusal
from odb_batch.conformance._exact_json import text_of, value_of
from of_groups import half_group
from of_responses import refuse_beside
from patching import Execution, change_answers, change_document, change_responses


def refuse(what, is_in):
    """Has a batch refused that has such a request."""
    respond = Execution.respond

    def refusing(self):
        if any(map(is_in, self.requests.values())):
            raise Refusal(501, "NotImplemented", f"{what} are not supported")
        return respond(self)

    Execution.respond = refusing


def refuses_groups():
    refuse("Groups", lambda request: "atomicityGroup" in request)


def refuses_references():
    refuse("References", lambda request: request["url"].startswith("$"))


def always_stops():
    """A batch ends with its first error, whatever the client prefers, and leaves out what was not performed."""
    odb_batch.http.batch_request.preferences = lambda headers: []

    def leave_out(responses, requests):
        if any(400 <= it["status"] != 424 for it in responses):
            responses[:] = [it for it in responses if it["status"] != 424]

    change_responses(leave_out)


def slow_deletes():
    """Each delete takes a fifth of a second."""
    delete = entities._delete

    def delayed(*given):
        time.sleep(0.2)
        return delete(*given)

    entities._OF_ENTITY["DELETE"] = delayed


def own_keys():
    """The service makes the keys of books by itself."""
    given = entities._given

    def with_own_key(name, request):
        if isinstance(request.body, dict):
            request = request._replace(body={**request.body, "Id": secrets.token_hex(8)})
        return given(name, request)

    entities._given = with_own_key


def from_the_sixth_on(happens):
    """Has something happen before each batch but the first five."""
    respond, numbers = Execution.respond, itertools.count(1)

    def responding(self):
        if next(numbers) >= 6:
            happens()
        return respond(self)

    Execution.respond = responding


def ends():
    """The service ends in the middle of its sixth batch, with all its processes."""
    from_the_sixth_on(lambda: os.killpg(0, signal.SIGKILL))


def stalls():
    """From the sixth batch on, the service takes its time."""
    from_the_sixth_on(lambda: time.sleep(3))


def one_batch_at_a_time():
    """A batch beside another is refused with 503."""
    refuse_beside(Refusal(503, "Busy", "A batch is being performed; try again"))


def hidden_keys():
    """The service makes the keys of books by itself, and does not list them."""
    own_keys()
    hidden = {"error": {"code": "Hidden", "message": "Books are not listed"}}
    entities._OF_SET["GET"] = lambda *_: Answer(403, {}, hidden)


def own_keys_half_group():
    """The service makes the keys, and commits what a failing group has done before its failure."""
    own_keys()
    half_group()


def own_keys_posts_twice():
    """The service makes the keys, and performs a POST of a batch twice, as after a lost connection."""
    own_keys()
    answer = Execution.answer

    def answering(self, request):
        if request.method == "POST":
            answer(self, request)
        return answer(self, request)

    Execution.answer = answering


def fixed_titles():
    """The service makes the keys, and every book has the same title."""
    own_keys()
    value = entities._value

    def checked(name, key, given):
        if key == "Title" and given != "Conformance":
            raise Refusal(400, "BadTitle", "A book is titled Conformance")
        return value(name, key, given)

    entities._value = checked


def fixed_titles_half_group():
    """Such a service, which commits what a failing group has done before its failure."""
    fixed_titles()
    half_group()


def no_etags():
    """The service has no ETags."""
    perform = app.perform

    def performing(database, request):
        answer = perform(database, request)
        body = answer.body
        if isinstance(body, dict):
            body = {name: it for name, it in body.items() if name != "@etag"}
        return answer._replace(body=body, headers={name: it for name, it in answer.headers.items() if name != "etag"})

    app.perform = performing


def properties():
    """The service shows properties by URLs of their own, and applies $select."""
    perform = app.perform

    def performing(database, request):
        path, _, part = request.path.partition(")/")
        name = request.options.get("$select")
        if request.method != "GET" or not (name or part):
            return perform(database, request)
        options = {key: it for key, it in request.options.items() if key != "$select"}
        answer = perform(database, request._replace(path=path + ")" if part else path, options=options))
        if answer.status != 200 or (name or part) not in answer.body:
            return answer
        return answer._replace(body={name or "value": answer.body[name or part]})

    app.perform = performing


def texts():
    """Such a service, which also shows the text of a property as it is."""
    properties()
    call = app.Library.__call__

    def calling(self, environ, start_response):
        path, rest, after = environ["PATH_INFO"].partition("/$value")
        heads = []
        (body,) = call(self, {**environ, "PATH_INFO": path + after}, lambda *head: heads.append(head))
        status, headers = heads[0]
        value = json.loads(body)["value"] if rest and status.startswith("200") else None
        if isinstance(value, str):
            body = value.encode()
            of_body = {"content-type": "text/plain;charset=utf-8", "content-length": str(len(body))}
            headers = [*{**dict(headers), **of_body}.items()]
        start_response(status, headers)
        return [body]

    app.Library.__call__ = calling


def reused_keys():
    """The service makes the keys, and gives that of a deleted book again, as an INTEGER PRIMARY KEY of SQLite does."""
    first, *rest = store.SCHEMA
    numbered = (
        it.replace("Id TEXT PRIMARY KEY NOT NULL", "Id INTEGER PRIMARY KEY")
        .replace("Book TEXT", "Book INTEGER")
        .replace("'dune', 'Dune'", "1, 'Dune'")
        .replace("'emma', 'Emma'", "2, 'Emma'")
        for it in first
    )
    store.SCHEMA = (tuple(numbered), *rest)
    entities.SETS["Books"]["Id"] = {"$Type": "Edm.Int64"}


def slow():
    """Each request of a batch takes its time."""
    answer = Execution.answer

    def answering(self, request):
        time.sleep(0.005)
        return answer(self, request)

    Execution.answer = answering


def in_order(order):
    """Has the groups and requests of a batch performed one at a time, in an order of their names: by these, and by the
    names that each depends on."""

    def unit_of(request):
        return request.get("atomicityGroup", request["id"])

    def turn(requests):
        names = {name: unit_of(it) for it in requests for name in (it["id"], unit_of(it))}
        units, needs = {}, {}
        for it in requests:
            units.setdefault(unit_of(it), []).append(it)
            needs.setdefault(unit_of(it), set()).update(names[name] for name in it.get("dependsOn", ()))
        order_of_units = order(list(units), {unit: needs[unit] - {unit} for unit in units})
        requests[:] = [it for unit in order_of_units for it in units[unit]]

    change_document(turn)
    with_options(width=1)


def from_the_last():
    """Requests that may be performed side by side are performed from the last to the first."""

    def order(units, needs):
        levels = {}
        for unit in units:
            levels[unit] = 1 + max((levels[name] for name in needs[unit]), default=0)
        return sorted(reversed(units), key=lambda unit: levels[unit])

    in_order(order)


def last_first():
    """Of the requests that may be performed the last is performed, so that a whole chain comes before an error."""

    def order(units, needs):
        found = []
        while len(found) < len(units):
            ready = [unit for unit in units if unit not in found and needs[unit] <= {*found}]
            found.append(ready[-1])
        return found

    in_order(order)


def last_first_and_stops():
    """Such a service, which ends each batch with its first error."""
    last_first()
    always_stops()


def with_options(**options):
    """Has batches performed with some options."""
    respond = Execution.respond

    def responding(self):
        self.options.update(options)
        return respond(self)

    Execution.respond = responding


def responses_reversed():
    """The last response comes first."""
    change_responses(lambda responses, _: responses.reverse())


def headers_in_other_case():
    """Names of headers in responses are written as on the wire."""

    def change(responses, _):
        for it in responses:
            it["headers"] = {name.title(): value for name, value in it.get("headers", {}).items()}

    change_responses(change)


def more_headers():
    """Responses have all headers of their answers, and none is shorter than it was."""

    def change(responses, _):
        for it in responses:
            length = str(len(text_of(it.get("body", ""))))
            more = {"date": "Sun, 06 Nov 1994 08:49:37 GMT", "vary": "Accept", "content-length": length}
            it["headers"] = {"x-request-id": it["id"], **more, **it.get("headers", {})}

    change_responses(change)


def absolute_locations():
    """Locations in responses are absolute."""

    def change(given, answer):
        return with_location(answer, lambda location: urljoin(given["base"], location))

    change_answers_with_base(change)


def relative_locations():
    """Locations in responses are relative to the root of the service."""
    change_answers(lambda given, answer: with_location(answer, lambda location: location.rpartition("/")[2]))


def with_location(answer, change):
    location = answer.headers.get("location")
    return answer._replace(headers={**answer.headers, "location": change(location)}) if location else answer


def change_answers_with_base(change):
    """Has answers changed, by the request with the URL that its batch is relative to."""
    answer = Execution.answer

    def answering(self, request):
        return change({"base": self.options["base"]}, answer(self, request))

    Execution.answer = answering


def annotated():
    """A response document has annotations, and its responses have, too."""
    respond = Execution.respond

    def responding(self):
        value = value_of(respond(self))
        for it in value["responses"]:
            it["@conformance.seconds"] = 0.5
        return text_of({"@context": "$metadata#Batch", **value, "responses@count": len(value["responses"])}).encode()

    Execution.respond = responding


def null_groups():
    """A response without a group has null as its group, and one without a body has null as its body."""

    def change(responses, _):
        for it in responses:
            it.update(atomicityGroup=it.get("atomicityGroup"), body=it.get("body"), headers=it.get("headers"))

    change_responses(change)


def bodies_of_424():
    """What is answered 424 has an error in its body."""

    def change(responses, _):
        for it in responses:
            if it["status"] == 424:
                it["body"] = {"error": {"code": "FailedDependency", "message": "Something failed before"}}

    change_responses(change)


def dressed():
    """All of these at once."""
    absolute_locations()
    bodies_of_424()
    more_headers()
    headers_in_other_case()
    null_groups()
    annotated()
    responses_reversed()
