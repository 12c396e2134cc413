"""Defects in what a batch is answered, and in what its requests do."""

import itertools
import json
import threading
import time

from odb_batch import Answer, Refusal
from patching import (
    Execution,
    change_answers,
    change_bodies,
    change_requests,
    change_responses,
    hide_failures,
    request_of,
)


def hangs_up():
    """One batch in seven is not answered: its connection ends."""
    respond, numbers = Execution.respond, itertools.count(1)

    def hanging_up(self):
        if next(numbers) % 7 == 0:
            raise ConnectionResetError("hung up")
        return respond(self)

    Execution.respond = hanging_up


def missing():
    """The last of several responses is left out."""
    change_responses(lambda responses, _: responses.pop() if len(responses) > 1 else None)


def twice():
    """The last response is there twice."""
    change_responses(lambda responses, _: responses.append(responses[-1]))


def change_ids(change):
    change_responses(lambda responses, _: [it.update(id=change(it["id"])) for it in responses])


def lower_case_ids():
    """Responses have their ids in lower case."""
    change_ids(str.lower)


def ids_as_names():
    """Ids are taken for file names: what follows a full stop is dropped."""
    change_ids(lambda id: id.partition(".")[0])


def long_ids_cut():
    """Ids are kept in 32 characters."""
    change_ids(lambda id: id[:32])


def numbers_as_ids():
    """Ids that are numbers are kept as such."""
    change_ids(lambda id: str(int(id)) if id.isdigit() else id)


def no_group_names():
    """Responses do not name their groups."""
    change_responses(lambda responses, _: [it.pop("atomicityGroup", None) for it in responses])


def lower_case_groups():
    """Responses name their groups in lower case."""
    change_responses(
        lambda responses, _: [
            it.update(atomicityGroup=it["atomicityGroup"].lower()) for it in responses if "atomicityGroup" in it
        ]
    )


def false_success():
    """A request whose dependency has failed is answered 204."""

    def change(responses, requests):
        for it in responses:
            if it["status"] == 424 and "dependsOn" in requests[it["id"]]:
                it["status"] = 204

    change_responses(change)


def false_424():
    """The last request outside of a group is answered 424, though it was performed."""

    def change(responses, requests):
        for it in responses[-1:]:
            if it["status"] < 300 and "atomicityGroup" not in it and requests[it["id"]]["method"] != "get":
                it["status"] = 424

    change_responses(change)


def failures_forgotten(is_forgotten):
    """Has what depends on some failures outside of groups performed."""
    hide_failures(lambda execution, request, status: not request.group and is_forgotten(status))


def performed_after_others():
    """What depends on a failure is performed unless something is missing."""
    failures_forgotten(lambda status: status != 404)


def performed_after_412():
    """What depends on a precondition that does not hold is performed."""
    failures_forgotten(lambda status: status == 412)


def performed_after_400():
    """What depends on a wrong body is performed."""
    failures_forgotten(lambda status: status == 400)


def performed_after_409():
    """What depends on a key that is taken is performed."""
    failures_forgotten(lambda status: status == 409)


def skipped_as_400():
    """What depends on a failure is answered 400 in place of 424."""
    change_responses(lambda responses, _: [it.update(status=400) for it in responses if it["status"] == 424])


def performed_all_the_same():
    """What depends on a failure is answered 424, and performed."""
    respond = Execution.respond

    def performing(self):
        self.started = set()
        found = respond(self)
        for id, given in self.requests.items():
            if id not in self.started and "atomicityGroup" not in given and not given["url"].startswith("$"):
                self.send(request_of(self, given))
        return found

    def answering(self, request, answer=Execution.answer):
        self.started.add(request.id)
        return answer(self, request)

    Execution.respond, Execution.answer = performing, answering


def without(answer, header):
    """An answer without one of its headers."""
    return answer._replace(headers={name: it for name, it in answer.headers.items() if name != header})


def no_location():
    """What is created has no Location in a batch."""
    change_answers(lambda given, it: without(it, "location"))


def no_etags_in_batches():
    """Responses of a batch have no ETag."""
    change_answers(lambda given, it: without(it, "etag"))


def old_etags():
    """The ETag that a PATCH of a batch returns is that of the first version."""

    def change(given, answer):
        is_patch = given["method"] == "patch" and answer.is_success
        return answer._replace(headers={**answer.headers, "etag": '"1"'}) if is_patch else answer

    change_answers(change)


def no_preconditions():
    """If-Match is not looked at in a batch."""

    def change(request):
        return request._replace(headers={name: it for name, it in request.headers.items() if name != "if-match"})

    change_requests(change)


def no_body_of_a_post():
    """A POST of a batch returns no body."""
    change_answers(lambda given, it: without(it, "content-type")._replace(body=b"") if it.status == 201 else it)


def created_is_200():
    """A POST of a batch is answered 200."""
    change_answers(lambda given, it: it._replace(status=200) if it.status == 201 else it)


def not_found_is_400():
    """Each error of a request in a batch is 400."""
    change_answers(lambda given, it: it._replace(status=400) if it.status in (404, 409, 412, 415) else it)


def no_error_objects():
    """Errors in a batch have a text as their body."""

    def change(given, answer):
        return Answer(answer.status, {}, json.loads(answer.body)["error"]["message"]) if answer.status >= 400 else answer

    change_answers(change)


def body_as_text():
    """Bodies in a batch are texts of JSON."""
    change_answers(lambda given, it: it._replace(body=json.dumps(it.body.decode()).encode()) if it.body else it)


def wrong_type():
    """Bodies in a batch have the type of a page."""
    page = {"content-type": "text/html"}
    change_answers(lambda given, it: it._replace(headers={**it.headers, **page}) if it.body else it)


def no_request_headers():
    """The headers of requests in a batch are dropped."""
    change_requests(lambda request: request._replace(headers={}))


def no_query():
    """The query of a URL is dropped in a batch."""
    change_requests(lambda request: request._replace(url=request.url.partition("?")[0]))


def no_signs():
    """Letters that are not ASCII get lost in a batch."""

    def plain(value):
        if isinstance(value, dict):
            return {name: plain(it) for name, it in value.items()}
        return value.encode("ascii", "replace").decode() if isinstance(value, str) else value

    change_bodies(lambda request: True, plain)


def put_as_patch():
    """A PUT of a batch keeps what it does not name."""
    change_requests(lambda request: request._replace(method="PATCH") if request.method == "PUT" else request)


def patch_as_put():
    """A PATCH of a batch clears what it does not name."""
    cleared = {"Title": "", "Shelf": None, "Reader": None}
    change_bodies(lambda request: request.method == "PATCH", lambda body: {**cleared, **body})


def lost_changes():
    """A PATCH of a batch outside of a group is answered, and not kept."""
    change_bodies(lambda request: request.method == "PATCH", lambda body: {})


def deletes_nothing():
    """A delete of what is missing succeeds in a batch."""
    change_answers(lambda given, it: Answer(204) if given["method"] == "delete" and it.status == 404 else it)


def other_urls_answered():
    """A delete by an absolute URL, or one that begins with /, is answered 204 and not performed."""
    answer = Execution.answer

    def answering(self, request):
        given = self.requests[request.id]
        if given["method"] == "delete" and given["url"].startswith(("/", "http")):
            return Answer(204)
        return answer(self, request)

    Execution.answer = answering


def mixed_answers():
    """Batches at the same time share the bodies of their answers, by the ids."""
    bodies, respond = {}, Execution.respond

    def keep(given, answer):
        if answer.body:
            bodies[given["id"]] = json.loads(answer.body)
        return answer

    def responding(self):
        value = json.loads(respond(self))
        for it in value["responses"]:
            if "body" in it and it["id"] in bodies:
                it["body"] = bodies[it["id"]]
        return json.dumps(value).encode()

    change_answers(keep)
    Execution.respond = responding


def refuse_beside(refusal):
    """Has a batch beside another refused. Each takes 10 ms, so that those of a test that come together meet."""
    respond, turn = Execution.respond, threading.Lock()

    def responding(self):
        if not turn.acquire(blocking=False):
            raise refusal
        try:
            time.sleep(0.01)
            return respond(self)
        finally:
            turn.release()

    Execution.respond = responding


def one_at_a_time():
    """A batch beside another is refused, as by a service that fails."""
    refuse_beside(Refusal(500, "Busy", "The state of a batch is in use"))


def with_mode(mode, **options):
    """Has each batch performed in a mode, whatever the client prefers."""
    respond = Execution.respond

    def responding(self):
        self.options.update(options, mode=mode)
        return respond(self)

    Execution.respond = responding


def no_stop():
    """A batch continues after an error, whatever the client prefers."""
    with_mode("continue")


def stops_by_itself():
    """A batch ends with its first error, and the client is told that its preference to continue applies.

    Requests are performed one after another: of those that have started with the error, all are performed.
    """
    with_mode("stop", width=1)
