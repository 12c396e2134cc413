"""Defects in what reads show: lists, parts of an entity, and what has changed since."""

import json
import re

import variants
from odb_batch import Answer, PreparedRequest
from odb_batch.conformance._exact_json import text_of, value_of
from patching import Execution, change_answers, change_document, change_requests, change_responses


def change_shown(is_changed, change):
    """Has the bodies changed of some reads that succeed, with the digits of their numbers."""

    def changed(given, answer):
        if given["method"] != "get" or not answer.is_success or not answer.body or not is_changed(given["url"]):
            return answer
        return answer._replace(body=text_of(change(value_of(answer.body))).encode())

    change_answers(changed)


def is_list(url):
    return "(" not in url.partition("?")[0]


def lists_of_three():
    """A list has three entities at most."""
    change_shown(is_list, lambda body: {**body, "value": body["value"][:3]})


def lists_without_new():
    """A list lacks what its batch has created."""
    answer = Execution.answer

    def answering(self, request):
        found = answer(self, request)
        self.new = getattr(self, "new", set())
        if found.status == 201:
            self.new.add(json.loads(found.body)["Id"])
        if request.method != "GET" or not found.is_success or not is_list(request.url):
            return found
        body = value_of(found.body)
        return found._replace(body=text_of({**body, "value": [it for it in body["value"] if it["Id"] not in self.new]}).encode())

    Execution.answer = answering


def removed_are_400():
    """A read of what its batch has removed is answered 400."""
    answer = Execution.answer

    def answering(self, request):
        found = answer(self, request)
        self.removed = getattr(self, "removed", set())
        if request.method == "DELETE" and found.is_success:
            self.removed.add(request.url)
        return found._replace(status=400) if request.method == "GET" and request.url in self.removed else found

    Execution.answer = answering


def read_before_changes(self, request):
    """The ETags of what is there before a batch changes it, by its URL."""
    self.before = getattr(self, "before", {})
    if request.method in ("PATCH", "PUT") and request.url not in self.before:
        read = self.send(PreparedRequest(request.id, "GET", request.url, {}, b""))
        self.before[request.url] = read.headers.get("etag")
    return self.before


def tags_of_reads_from_before():
    """A read has the ETag that its entity had before the batch."""
    answer = Execution.answer

    def answering(self, request):
        before = read_before_changes(self, request)
        found = answer(self, request)
        if request.method != "GET" or not found.is_success or request.url not in before:
            return found
        body = text_of({**value_of(found.body), "@etag": before[request.url]}).encode()
        return found._replace(headers={**found.headers, "etag": before[request.url]}, body=body)

    Execution.answer = answering


def texts_without_type():
    """A text that is shown as it is has no Content-Type."""
    variants.texts()

    def change(responses, _):
        for it in responses:
            if it.get("headers", {}).get("content-type", "").startswith("text/"):
                del it["headers"]["content-type"]

    change_responses(change)


def texts_cut():
    """A text that is shown as it is loses its last character."""
    variants.texts()

    def change(given, answer):
        return answer._replace(body=answer.body[:-1]) if given["url"].endswith("/$value") else answer

    change_answers(change)


def null_properties_are_204():
    """A property that is null is answered 204."""
    variants.properties()

    def change(given, answer):
        is_null = ")/" in given["url"] and answer.is_success and json.loads(answer.body).get("value", "") is None
        return Answer(204) if is_null else answer

    change_answers(change)


def decimals_of_properties_short():
    """A property that is a number with a fraction loses the zeros at its end."""
    variants.properties()

    def change(given, answer):
        return answer._replace(body=answer.body.replace(b"9.990", b"9.99")) if ")/" in given["url"] else answer

    change_answers(change)


def queries_decoded_twice():
    """The query of a URL is decoded once too often."""
    change_requests(lambda request: request._replace(url=re.sub("%25", "%", request.url)) if "?" in request.url else request)


def without_query(prefix):
    """Has URLs of a batch that begin so lose their query."""

    def change(requests):
        for it in requests:
            if it["url"].startswith(prefix):
                it["url"] = it["url"].partition("?")[0]

    change_document(change)


def queries_of_absolute_urls_lost():
    """An absolute URL loses its query."""
    without_query("http")


def queries_of_rooted_urls_lost():
    """A URL that begins with / loses its query."""
    without_query("/")


def change_keys(change):
    """Has the keys in the paths of requests changed, as they are written."""

    def changed(request):
        path, mark, query = request.url.partition("?")
        found = re.match(r"(.*\()(.*)(\).*)", path)
        return request._replace(url=found[1] + change(found[2]) + found[3] + mark + query) if found else request

    change_requests(changed)


def keys_in_lower_case():
    """Keys in URLs are read in lower case."""
    change_keys(str.lower)


def plus_in_keys_as_blank():
    """A plus in the path of a URL becomes a blank, as in a form."""
    change_keys(lambda key: key.replace("+", "%20"))
