"""Defects in groups."""

import json
from contextlib import contextmanager

import entities
import store
from odb_batch import Refusal
from patching import Execution, change_responses, hide_failures, is_success, request_of


def half_group():
    """A group that fails is committed up to its failure."""
    begin = store.Store.group

    @contextmanager
    def group(self, name):
        failure = None
        with begin(self, name):
            try:
                yield
            except Exception as error:
                failure = error
        if failure is not None:
            raise failure

    store.Store.group = group


def half_of_long_groups():
    """A group of more than sixteen requests is committed in parts."""
    begin, session = store.Store.group, store.Store.session
    counts = {}

    @contextmanager
    def group(self, name):
        with begin(self, name):
            counts[self._group.get()] = 0
            yield

    @contextmanager
    def counting(self, is_writing):
        with session(self, is_writing) as database:
            if self._group.get() is not None:
                counts[database] += 1
                if counts[database] % 16 == 0:
                    database.execute("COMMIT")
                    database.execute("BEGIN IMMEDIATE")
            yield database

    store.Store.group, store.Store.session = group, counting


def shown_success():
    """Members of a failed group keep the success that they had before."""
    change_responses(
        lambda responses, _: [
            it.update(status=204) for it in responses if it["status"] == 424 and "atomicityGroup" in it
        ]
    )


def failures_ignored(is_ignored):
    """Has a group go on, and be committed, though a member fails."""

    def is_hidden(execution, request, _):
        members = execution.members(request.group) if request.group else []
        return len(members) > 1 and is_ignored(request, members)

    hide_failures(is_hidden)


def failed_reads_ignored():
    """A read that fails does not fail its group."""
    failures_ignored(lambda request, members: request.method == "GET")


def failed_puts_ignored():
    """A PUT that fails does not fail its group."""
    failures_ignored(lambda request, members: request.method == "PUT")


def last_failure_ignored():
    """A group is committed before its last member is performed."""
    failures_ignored(lambda request, members: request.id == members[-1])


def stays(method, is_left=lambda execution, id: True, change=lambda request: request):
    """Has what members of a failed group did by a method stay, as if its undoing were forgotten: of some of them, or
    another request in its place."""
    answer, respond = Execution.answer, Execution.respond

    def answering(self, request):
        found = answer(self, request)
        self.done = {**getattr(self, "done", {}), request.id: (request, found.status)}
        return found

    def responding(self):
        document = respond(self)
        statuses = {it["id"]: it["status"] for it in json.loads(document)["responses"]}
        for id, (request, status) in getattr(self, "done", {}).items():
            is_undone = is_success(status) and not is_success(statuses[id])
            is_found = request.method == method and not self.requests[id]["url"].startswith("$")
            if is_undone and is_found and is_left(self, id):
                self.send(change(request))
        return document

    Execution.answer, Execution.respond = answering, responding


def posts_stay():
    """What a failed group created stays."""
    stays("POST")


def patches_stay():
    """What a failed group changed by PATCH stays."""
    stays("PATCH")


def puts_stay():
    """What a failed group changed by PUT stays."""
    stays("PUT")


def tags_change():
    """What a failed group changed by PATCH has another ETag, and the values from before."""
    stays("PATCH", change=lambda request: request._replace(body=b"{}"))


def deletes_stay():
    """What a failed group deleted stays so."""
    stays("DELETE")


def is_first(execution, id):
    """Whether a request is the first of its group."""
    return execution.members(execution.requests[id]["atomicityGroup"])[0] == id


def first_delete_stays():
    """What the first member of a failed group deleted stays so."""
    stays("DELETE", is_first)


def first_patch_stays():
    """What the first member of a failed group changed by PATCH stays."""
    stays("PATCH", is_first)


def first_put_stays():
    """What the first member of a failed group changed by PUT stays."""
    stays("PUT", is_first)


def groups_fail_together():
    """If one group fails, all groups of the batch are answered 424."""

    def change(responses, requests):
        members = [it for it in responses if "atomicityGroup" in it]
        if any(not is_success(it["status"]) for it in members):
            [it.update(status=424) for it in members if is_success(it["status"])]

    change_responses(change)


def groups_before_a_failure_lost():
    """A group whose response comes before that of a group that fails is undone, and answered 2xx."""
    respond = Execution.respond

    def responding(self):
        document = respond(self)
        responses = json.loads(document)["responses"]
        failed = [at for at, it in enumerate(responses) if "atomicityGroup" in it and not is_success(it["status"])]
        for it in responses[: failed[-1]] if failed else ():
            if "atomicityGroup" in it and it["status"] == 201:
                self.send(request_of(self, {"id": it["id"], "method": "delete", "url": it["headers"]["location"]}))
        return document

    Execution.respond = responding


def other_values_stay():
    """What a failed group changed by PATCH stays, but for the title."""

    def change(request):
        body = {name: it for name, it in json.loads(request.body).items() if name != "Title"}
        return request._replace(body=json.dumps(body).encode())

    stays("PATCH", change=change)


def keys_stay_taken():
    """What a failed group created has a key that is taken afterwards."""
    answer, respond, create = Execution.answer, Execution.respond, entities._create
    taken = set()

    def answering(self, request):
        found = answer(self, request)
        self.made = getattr(self, "made", {})
        if found.status == 201 and request.group:
            self.made[request.id] = json.loads(found.body)["Id"]
        return found

    def responding(self):
        document = respond(self)
        statuses = {it["id"]: it["status"] for it in json.loads(document)["responses"]}
        taken.update(key for id, key in getattr(self, "made", {}).items() if not is_success(statuses[id]))
        return document

    def creating(database, target, request):
        if isinstance(request.body, dict) and request.body.get("Id") in taken:
            raise Refusal(409, "Conflict", "The key is taken")
        return create(database, target, request)

    Execution.answer, Execution.respond, entities._OF_SET["POST"] = answering, responding, creating


def undone_at_the_end():
    """What a failed group changed by PATCH is undone at the end of the batch."""
    answer = Execution.answer

    def answering(self, request):
        found = answer(self, request)
        self.done = getattr(self, "done", {})
        if request.group and request.method == "PATCH":
            self.done[request.url] = json.loads(request.body)
        if request.method != "GET" or request.url not in self.done or not found.is_success:
            return found
        return found._replace(body=json.dumps({**json.loads(found.body), **self.done[request.url]}).encode())

    Execution.answer = answering
