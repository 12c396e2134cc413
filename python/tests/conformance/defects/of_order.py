"""Defects in the order of requests."""

import json
import threading
import time

from odb_batch import Answer
from patching import Execution, change_document, change_needs


def no_waiting():
    """Dependencies are dropped where no reference needs them, and writes take their time."""
    change_needs(lambda request: True)
    answer = Execution.answer

    def slow_answer(self, request):
        if request.method != "GET":
            time.sleep(0.02)
        return answer(self, request)

    Execution.answer = slow_answer


def reads_do_not_wait():
    """Reads do not wait for what they depend on."""
    change_needs(lambda request: request["method"].lower() == "get")


def deletes_do_not_wait():
    """Deletes do not wait for what they depend on."""
    change_needs(lambda request: request["method"].lower() == "delete")


def patches_do_not_wait():
    """PATCHes do not wait for what they depend on."""
    change_needs(lambda request: request["method"].lower() == "patch")


def puts_do_not_wait():
    """PUTs do not wait for what they depend on."""
    change_needs(lambda request: request["method"].lower() == "put")


def posts_do_not_wait():
    """POSTs do not wait for what they depend on."""
    change_needs(lambda request: request["method"].lower() == "post")


def waits_for_the_first():
    """Of several dependencies the first is waited for."""
    change_needs(lambda request: True, lambda needs, requests: needs[:1])


def waits_for_the_last():
    """Of several dependencies the last is waited for."""
    change_needs(lambda request: True, lambda needs, requests: needs[-1:])


def no_waiting_for_groups():
    """A name of a group in dependsOn is not waited for."""

    def without_groups(needs, requests):
        return [it for it in needs if it not in {request.get("atomicityGroup") for request in requests}]

    change_needs(lambda request: True, without_groups)


def groups_do_not_wait():
    """Members of a group wait for members alone."""

    def inside(needs, requests):
        groups = {request["id"]: request.get("atomicityGroup") for request in requests}
        return [it for it in needs if groups.get(it)]

    change_needs(lambda request: "atomicityGroup" in request, inside)


def reads_are_kept():
    """A URL that is read again in a batch is answered as before."""
    keep_answers(lambda request: request.method == "GET")


def deletes_are_kept():
    """A URL that is deleted again in a batch is answered as before."""
    keep_answers(lambda request: request.method == "DELETE")


def changes_are_kept():
    """A change that a batch has twice is performed once."""
    keep_answers(lambda request: request.method in ("PATCH", "PUT"))


def properties_are_kept():
    """A property that is read again in a batch is answered as before."""
    from variants import properties

    properties()
    keep_answers(lambda request: ")/" in request.url)


def keep_answers(is_kept):
    """Has some requests of a batch answered as the same request before."""
    answer = Execution.answer

    def answering(self, request):
        self.kept = getattr(self, "kept", {})
        key = request.method, request.url, request.body
        if not is_kept(request) or key not in self.kept:
            self.kept[key] = answer(self, request)
        return self.kept[key]

    Execution.answer = answering


def reads_again_are_304():
    """A URL that is read again in a batch is answered without its body."""
    answer = Execution.answer

    def answering(self, request):
        self.read = getattr(self, "read", set())
        found = answer(self, request)
        if request.method == "GET" and found.is_success:
            if request.url in self.read:
                return Answer(304)
            self.read.add(request.url)
        return found

    Execution.answer = answering


def posts_are_kept():
    """A POST that a batch has twice is performed once."""
    keep_answers(lambda request: request.method == "POST")


def reads_are_kept_by_path():
    """A read is answered as one of the same path before, whatever its query options."""
    answer, one = Execution.answer, threading.Lock()

    def answering(self, request):
        key = request.url.partition("?")[0]
        if request.method != "GET" or "?" not in request.url:
            return answer(self, request)
        with one:  # else all that are performed at once would be the first
            self.kept = getattr(self, "kept", {})
            if key not in self.kept:
                self.kept[key] = answer(self, request)
            return self.kept[key]

    Execution.answer = answering


def groups_keep_reads():
    """A read is answered as one before it, unless a request in no group has written since."""
    answer = Execution.answer

    def answering(self, request):
        self.kept = getattr(self, "kept", {})
        if request.method != "GET":
            self.kept = self.kept if request.group is not None else {}
            return answer(self, request)
        key = request.url, tuple(request.headers.items())
        if key not in self.kept:
            self.kept[key] = answer(self, request)
        return self.kept[key]

    Execution.answer = answering


def chains_of_twenty():
    """Of more than twenty requests in a row the rest is answered 424."""
    respond = Execution.respond

    def responding(self):
        value = json.loads(respond(self))
        length = {}
        for it in self.requests.values():
            length[it["id"]] = 1 + max((length.get(name, 0) for name in it.get("dependsOn", ())), default=0)
        value["responses"] = [it if length[it["id"]] <= 20 else {"id": it["id"], "status": 424} for it in value["responses"]]
        return json.dumps(value).encode()

    Execution.respond = responding


def far_failures_forgotten():
    """A dependency on a request more than twenty places before does not count."""

    def change(requests):
        places = {it["id"]: at for at, it in enumerate(requests)}
        for at, it in enumerate(requests):
            if not it["url"].startswith("$"):
                it["dependsOn"] = [name for name in it.get("dependsOn", ()) if at - places.get(name, at) <= 20]

    change_document(change)


def groups_of_reads_last():
    """A group that only reads is performed after all other requests."""

    def change(requests):
        groups = {}
        for it in requests:
            groups.setdefault(it.get("atomicityGroup"), set()).add(it["method"].lower())
        late = {name for name, methods in groups.items() if name and methods == {"get"}}
        for it in requests:
            it["dependsOn"] = [name for name in it.get("dependsOn", ()) if name not in late]
        requests.sort(key=lambda it: it.get("atomicityGroup") in late)

    change_document(change)
