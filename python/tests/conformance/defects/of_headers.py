"""Defects in headers, on their way to the service and back."""

import json
from dataclasses import replace

import odb_batch.wsgi
from odb_batch import Refusal
from of_responses import without
from patching import Execution, change_answers, change_document, change_requests


def drop(*names):
    """Has headers of requests dropped."""

    def change(request):
        return request._replace(headers={name: it for name, it in request.headers.items() if name not in names})

    change_requests(change)


def conditions_in_small_letters_dropped():
    """A header if-match is dropped."""
    change_document(lambda requests: [it.get("headers", {}).pop("if-match", None) for it in requests])


def other_host():
    """Locations have the host of a server behind."""
    at_other_host(lambda location: f"http://internal:8000{location}")


def other_port():
    """Locations have another port."""
    at_other_host(lambda location: f"http://127.0.0.1:1{location}")


def at_other_host(change):
    """Has the Locations in answers changed."""

    def changed(given, answer):
        location = answer.headers.get("location")
        return answer._replace(headers={**answer.headers, "location": change(location)}) if location else answer

    change_answers(changed)


def no_versions():
    """Answers in a batch have no OData-Version."""
    change_answers(lambda given, answer: without(answer, "odata-version"))


def other_versions():
    """Answers in a batch have another OData-Version than alone."""
    change_answers(lambda given, answer: answer._replace(headers={**answer.headers, "odata-version": "4.0"}))


def batches_as_html():
    """The answer to a batch is called HTML."""
    wire_message = odb_batch.wsgi.wire_message

    def changed(answer):
        headers, body = wire_message(answer)
        return {name: "text/html" if name == "content-type" else it for name, it in headers.items()}, body

    odb_batch.wsgi.wire_message = changed


def no_version_of_batches():
    """The answer to a batch has no OData-Version."""
    wire_message = odb_batch.wsgi.wire_message

    def changed(answer):
        headers, body = wire_message(answer)
        return {name: it for name, it in headers.items() if name != "odata-version"}, body

    odb_batch.wsgi.wire_message = changed


def no_accept():
    """Accept of a request in a batch is dropped."""
    drop("accept")


def no_max_version():
    """OData-MaxVersion of a request in a batch is dropped."""
    drop("odata-maxversion")


def accept_sticks():
    """A request without Accept has that of the request before it in the batch."""

    def change(requests):
        last = {}
        for it in requests:
            headers = it.get("headers") or {}
            last = {name: value for name, value in headers.items() if name.lower() == "accept"} or last
            it["headers"] = {**last, **headers}

    change_document(change)


def answered_207():
    """A batch is answered 207 if a request fails."""
    batch_response = odb_batch.wsgi.batch_response

    def changed(response, *rest):
        answer = batch_response(response, *rest)
        has_failed = any(it["status"] >= 400 for it in json.loads(response)["responses"])
        return replace(answer, status=207) if has_failed else answer

    odb_batch.wsgi.batch_response = changed


def answered_as_the_first_error():
    """A batch is answered the status of its first request that fails."""
    batch_response = odb_batch.wsgi.batch_response

    def changed(response, *rest):
        failed = [it["status"] for it in json.loads(response)["responses"] if it["status"] >= 400]
        return replace(batch_response(response, *rest), status=(failed or [200])[0])

    odb_batch.wsgi.batch_response = changed


def refuse_types(is_refused):
    """Has requests with a body answered 415 by the Content-Type that they have in the batch."""
    answer = Execution.answer

    def answering(self, request):
        given = {name.lower(): value for name, value in self.requests[request.id].get("headers", {}).items()}
        if request.body and is_refused(given.get("content-type", "")):
            return Refusal(415, "BadMediaType", "An entity is in application/json").answer
        return answer(self, request)

    Execution.answer = answering


def types_needed():
    """A request with a body has to have a Content-Type."""
    refuse_types(lambda value: not value)


def types_without_parameters():
    """A Content-Type has no parameters."""
    refuse_types(lambda value: ";" in value)


def accept_of_members_dropped():
    """Accept of a member of a group is dropped."""

    def change(request):
        kept = {name: it for name, it in request.headers.items() if name != "accept" or request.group is None}
        return request._replace(headers=kept)

    change_requests(change)


def weights_refused():
    """Accept with weights is answered 406."""
    answer = Execution.answer

    def answering(self, request):
        if ";q=" in request.headers.get("accept", ""):
            return Refusal(406, "NotAcceptable", "The service answers in application/json").answer
        return answer(self, request)

    Execution.answer = answering


def three_headers():
    """A request has three headers at most."""

    def change(requests):
        for it in requests:
            it["headers"] = dict([*it.get("headers", {}).items()][:3])

    change_document(change)
