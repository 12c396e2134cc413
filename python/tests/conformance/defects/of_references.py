"""Defects in references."""

import re
from urllib.parse import unquote, urljoin

from odb_batch import Answer
from patching import Execution, change_document, change_requests, change_responses

# What stands for a reference, so that the library leaves it as it is.
HIDDEN = re.compile(r".*/reference-([\w.~-]+)(.*)$", re.DOTALL)


def resolve(lead, locations=None, keeps_rest=True):
    """Has references lead elsewhere: by an execution, in which `locations` has what was created, and the id."""
    prepare, answer = Execution.__init__, Execution.answer

    def hide(requests):
        for it in requests:
            found = re.match(r"\$([\w.~-]+)(?=[/?#]|$)", it["url"], re.ASCII)
            if found and any(found[1] == other["id"] for other in requests):
                it["url"] = "reference-" + it["url"][1:]

    def preparing(self, *rest):
        self.locations = {} if locations is None else locations
        prepare(self, *rest)

    def answering(self, request):
        found = HIDDEN.match(request.url)
        if found:
            url = urljoin(request.url, lead(self, found[1]))
            request = request._replace(url=url + found[2] if keeps_rest else url)
        given = answer(self, request)
        if "location" in given.headers:
            self.locations[request.id] = given.headers["location"]
        return given

    Execution.__init__, Execution.answer = preparing, answering
    change_document(hide)


def no_references():
    """A URL that begins with a reference is taken as it is."""
    resolve(lambda execution, id: f"/library/${id}")


def first_reference():
    """Each reference leads to what the batch created first."""
    resolve(lambda execution, id: next(iter(execution.locations.values())))


def last_reference():
    """Each reference leads to what the batch created last."""
    resolve(lambda execution, id: list(execution.locations.values())[-1])


def by_name(is_same):
    """Has references lead to the first id that is taken for theirs."""
    resolve(lambda execution, id: next(it for name, it in execution.locations.items() if is_same(name, id)))


def references_in_any_case():
    """Ids of references are compared without their case."""
    by_name(lambda name, id: name.lower() == id.lower())


def references_by_prefix():
    """A reference leads to the first id that it begins with."""
    by_name(lambda name, id: id.startswith(name))


def references_by_word():
    """Of the id of a reference the letters and digits count."""
    by_name(lambda name, id: re.sub("[^A-Za-z0-9]", "", name) == re.sub("[^A-Za-z0-9]", "", id))


def shared_references():
    """Batches share what the ids of their requests lead to."""
    resolve(lambda execution, id: execution.locations[id], locations={})


def references_of_first_group():
    """Inside a group a reference leads to what its first member created."""

    def lead(execution, id):
        group = execution.requests[id].get("atomicityGroup")
        first = execution.members(group)[0] if group else id
        return execution.locations.get(first, execution.locations[id])

    resolve(lead)


def references_without_rest():
    """What follows the id of a reference is dropped, in a service that shows properties by URLs of their own."""
    from variants import properties

    properties()
    resolve(lambda execution, id: execution.locations[id], keeps_rest=False)


def changes_by_reference_lost():
    """A PATCH, PUT or DELETE by a reference is answered 204, and not performed."""
    answer = Execution.answer

    def answering(self, request):
        if self.requests[request.id]["url"].startswith("$") and request.method != "GET":
            return Answer(204)
        return answer(self, request)

    Execution.answer = answering


def encoded_references_as_they_are():
    """A reference with escaped characters is taken as it is."""

    def hide(requests):
        for it in requests:
            if "%" in it["url"].partition("/")[0] and unquote(it["url"]).startswith("$"):
                it["url"] = "reference-" + it["url"].replace("%", "-")

    change_document(hide)


def references_to_minimal_nowhere():
    """A reference to a POST that prefers no body is answered 404."""

    def lead(execution, id):
        is_minimal = "return=minimal" in execution.requests[id].get("headers", {}).values()
        return f"/library/${id}" if is_minimal else execution.locations[id]

    resolve(lead)


def url_of(execution, id):
    """Where a reference to a request leads that has created nothing."""
    return execution.locations.get(id) or urljoin("/library/", execution.requests[id]["url"])


def references_to_references_nowhere():
    """A reference to a request that has a reference itself is answered 404."""

    def lead(execution, id):
        return f"/library/${id}" if HIDDEN.match("/" + execution.requests[id]["url"]) else url_of(execution, id)

    resolve(lead)


def references_to_changes_first():
    """A reference to a PATCH leads to what the batch created first."""

    def lead(execution, id):
        is_change = execution.requests[id]["method"] == "patch"
        return next(iter(execution.locations.values()), url_of(execution, id)) if is_change else url_of(execution, id)

    resolve(lead)


def puts_by_reference_as_patch():
    """A PUT by a reference leaves what it does not name."""
    answer = Execution.answer

    def answering(self, request):
        is_put = request.method == "PUT" and self.requests[request.id]["url"].startswith("$")
        return answer(self, request._replace(method="PATCH") if is_put else request)

    Execution.answer = answering


def texts_as_references():
    """A text that begins with $ and is an id of the batch is replaced."""

    def change(requests):
        ids = {"$" + it["id"] for it in requests}
        for it in requests:
            if isinstance(it.get("body"), dict):
                it["body"] = {name: "Books" if value in ids else value for name, value in it["body"].items()}

    change_document(change)


def references_to_new_alone():
    """A reference leads to the entity that was created last, if its request has created none."""

    def lead(execution, id):
        return execution.locations.get(id) or ([*execution.locations.values(), f"/library/${id}"])[-1]

    resolve(lead)


def references_to_reads_nowhere():
    """A reference to a read is answered 404."""
    resolve(lambda execution, id: execution.locations.get(id, f"/library/${id}"))


def urls_decoded_twice():
    """The path of a URL is decoded once too often."""
    change_requests(lambda request: request._replace(url=unquote(request.url)))


def locations_decoded():
    """A Location is decoded."""

    def change(responses, requests):
        for it in responses:
            headers = it.get("headers", {})
            headers.update({name: unquote(value) for name, value in headers.items() if name == "location"})

    change_responses(change)


def references_decoded_twice():
    """What a reference leads to is decoded once too often."""
    resolve(lambda execution, id: unquote(execution.locations[id]))


def signs_of_references_lost():
    """A PATCH by a reference loses the $ of its texts."""

    def change(request):
        return request._replace(body=request.body.replace(b"$", b"")) if request.method == "PATCH" else request

    answer = Execution.answer

    def answering(self, request):
        is_referring = self.requests[request.id]["url"].startswith("$")
        return answer(self, change(request) if is_referring else request)

    Execution.answer = answering


def posts_by_reference_as_patch():
    """A POST to a reference changes the entity."""
    answer = Execution.answer

    def answering(self, request):
        is_post = request.method == "POST" and self.requests[request.id]["url"].startswith("$")
        return answer(self, request._replace(method="PATCH") if is_post else request)

    Execution.answer = answering


def locations_in_lower_case():
    """What a reference leads to is read in lower case."""
    resolve(lambda execution, id: re.sub(r"\(.*", lambda found: found[0].lower(), url_of(execution, id)))


def quotes_of_locations_lost():
    """Of two quotes in the key that a reference leads to, one is lost."""
    resolve(lambda execution, id: url_of(execution, id).replace("''", "'"))
