"""How a defect gets into the service: parts of it, and of how batches are performed, are patched before it starts."""

import json
from urllib.parse import urljoin

import odb_batch.wsgi
from odb_batch import Answer, PreparedRequest, perform
from odb_batch.conformance._exact_json import text_of, value_of


class Execution:
    """A batch on its way from its document to its response. Defects patch its methods.

    Attributes:
        send: Has the service answer a request.
        options: What a batch is performed with.
        requests: As the document has them, by their ids, with methods in lower case.
    """

    def __init__(self, document, send, options):
        self.document, self.send, self.options = document, send, options
        listed = json.loads(document)["requests"]
        self.requests = {it["id"]: {**it, "method": it["method"].lower()} for it in listed}

    def respond(self):
        """Performs the batch, and returns the response document."""
        return perform(self.document, self.answer, **self.options)

    def answer(self, request):
        """Returns what a request is answered."""
        return self.send(request)

    def members(self, group):
        """The ids of the requests of a group."""
        return [id for id, it in self.requests.items() if it.get("atomicityGroup") == group]


odb_batch.wsgi.perform = lambda document, send, **options: Execution(document, send, options).respond()


def change_document(change):
    """Has each batch changed before it is planned: its list of requests."""
    prepare = Execution.__init__

    def with_change(self, document, *rest):
        value = value_of(document)
        change(value["requests"])
        prepare(self, text_of(value).encode(), *rest)

    Execution.__init__ = with_change


def change_needs(is_changed, change=lambda needs, requests: []):
    """Has the dependencies of some requests changed, but of those by a reference, which is led by them."""

    def changed(requests):
        for it in requests:
            if it.get("dependsOn") and is_changed(it) and not it["url"].startswith("$"):
                it["dependsOn"] = change(it["dependsOn"], requests)

    change_document(changed)


def change_answers(change):
    """Has the answer to each request of a batch changed: by the request as it is given, and the answer."""
    answer = Execution.answer

    def changed(self, request):
        return change(self.requests[request.id], answer(self, request))

    Execution.answer = changed


def change_requests(change):
    """Has each request of a batch changed before it is performed."""
    answer = Execution.answer

    def changed(self, request):
        return answer(self, change(request))

    Execution.answer = changed


def change_bodies(is_changed, change):
    """Has the bodies of some requests changed that are objects, as values."""

    def changed(request):
        if not request.body.startswith(b"{") or not is_changed(request):
            return request
        return request._replace(body=json.dumps(change(json.loads(request.body))).encode())

    change_requests(changed)


def change_responses(change):
    """Has the list of the responses of each batch changed, with the requests by their ids."""
    respond = Execution.respond

    def changed(self):
        value = value_of(respond(self))
        change(value["responses"], self.requests)
        return text_of(value).encode()

    Execution.respond = changed


def hide_failures(is_hidden):
    """Has some failures be successes until the response is written: by the execution, the request and the status."""
    answer, respond = Execution.answer, Execution.respond

    def answering(self, request):
        found = answer(self, request)
        if found.is_success or not is_hidden(self, request, found.status):
            return found
        self.hidden = {**getattr(self, "hidden", {}), request.id: found.status}
        return Answer(204)

    def responding(self):
        value = value_of(respond(self))
        for it in value["responses"]:
            it["status"] = getattr(self, "hidden", {}).get(it["id"], it["status"])
        return text_of(value).encode()

    Execution.answer, Execution.respond = answering, responding


def is_success(status):
    return 200 <= status <= 299


def request_of(execution, given):
    """A request of a batch, to be sent though its batch does not say so."""
    headers = {name.lower(): value for name, value in given.get("headers", {}).items()}
    body = json.dumps(given["body"]).encode() if "body" in given else b""
    url = urljoin(execution.options["base"], given["url"])
    return PreparedRequest(given["id"], given["method"].upper(), url, headers, body)
