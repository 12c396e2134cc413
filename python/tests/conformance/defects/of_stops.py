"""Defects in how a batch ends with its first error."""

import json
import time

import odb_batch.wsgi
from patching import Execution, is_success, request_of


def stop_by(is_end):
    """Has a batch without continue-on-error end with other errors."""
    respond, answer = Execution.respond, Execution.answer

    def responding(self):
        self.has_ended = False
        if self.options.get("mode") == "stop":
            self.options.update(mode="continue", stop=lambda: self.has_ended)
        return respond(self)

    def answering(self, request):
        found = answer(self, request)
        self.has_ended = self.has_ended or is_end(request, found.status)
        return found

    Execution.respond, Execution.answer = responding, answering


def stops_by_404_alone():
    """A batch ends with an error only if something is missing."""
    stop_by(lambda request, status: status == 404)


def no_stop_by_412():
    """A batch does not end with a precondition that does not hold."""
    stop_by(lambda request, status: status >= 400 and status != 412)


def no_stop_by_400():
    """A batch does not end with a body that is wrong."""
    stop_by(lambda request, status: status > 400)


def no_stop_by_reads():
    """A batch does not end with a read that fails."""
    stop_by(lambda request, status: status >= 400 and request.method != "GET")


def no_stop_by_patches():
    """A batch does not end with a PATCH that fails."""
    stop_by(lambda request, status: status >= 400 and request.method != "PATCH")


def go_on(is_performed):
    """Has some requests performed though the batch has ended before them."""
    respond = Execution.respond

    def responding(self):
        document = respond(self)
        if self.options.get("mode") != "stop":
            return document
        value = json.loads(document)
        statuses = {it["id"]: it["status"] for it in value["responses"]}
        groups = {}
        for id, it in self.requests.items():
            groups.setdefault(it.get("atomicityGroup"), []).append(id)
        for it in value["responses"]:
            given = self.requests[it["id"]]
            needs = [id for name in given.get("dependsOn", ()) for id in groups.get(name, [name])]
            is_free = all(is_success(statuses[id]) for id in needs) and not given["url"].startswith("$")
            if it["status"] == 424 and is_free and is_performed(given):
                answer = self.send(request_of(self, given))
                it["status"] = statuses[it["id"]] = answer.status
        return json.dumps(value).encode()

    Execution.respond = responding


def reads_go_on():
    """Reads are performed after an error, too."""
    go_on(lambda given: given["method"] == "get")


def creates_go_on():
    """What creates is performed after an error, too."""
    go_on(lambda given: given["method"] == "post" and "atomicityGroup" not in given)


def deletes_go_on():
    """Deletes are performed after an error, too."""
    go_on(lambda given: given["method"] == "delete")


def patches_go_on():
    """PATCHes are performed after an error, too."""
    go_on(lambda given: given["method"] == "patch")


def puts_go_on():
    """PUTs are performed after an error, too."""
    go_on(lambda given: given["method"] == "put")


def groups_go_on():
    """Groups are performed after an error, too."""
    go_on(lambda given: "atomicityGroup" in given)


def no_stop_by_501():
    """A batch does not end with a status from 500 on."""
    stop_by(lambda request, status: 400 <= status < 500)


def stop_by_first_alone():
    """A batch ends with an error of its first request alone."""
    respond, answer = Execution.respond, Execution.answer

    def responding(self):
        self.first_status = 0
        if self.options.get("mode") == "stop":
            self.options.update(mode="continue", stop=lambda: self.first_status >= 400)
        return respond(self)

    def answering(self, request):
        is_first = request.id == next(iter(self.requests))
        found = answer(self, request)
        self.first_status = found.status if is_first else self.first_status
        return found

    Execution.respond, Execution.answer = responding, answering


def false_is_true():
    """A batch that says continue-on-error=false goes on after an error."""
    prepare = odb_batch.wsgi.BatchRequest.__init__

    def preparing(self, *rest, **options):
        prepare(self, *rest, **options)
        if "continue-on-error" in rest[5].get("prefer", ""):
            self.mode = "continue"

    odb_batch.wsgi.BatchRequest.__init__ = preparing


def stops_all():
    """An error ends all batches that are performed at that time."""
    respond, answer, running = Execution.respond, Execution.answer, set()

    def responding(self):
        self.has_ended, self.stops = False, self.options.get("mode") == "stop"
        if self.stops:
            self.options.update(mode="continue", stop=lambda: self.has_ended)
        running.add(self)
        try:
            return respond(self)
        finally:
            running.discard(self)

    def answering(self, request):
        time.sleep(0.01)  # so that batches meet
        found = answer(self, request)
        for other in [*running] if self.stops and found.status >= 400 else ():
            other.has_ended = True
        return found

    Execution.respond, Execution.answer = responding, answering


def prefer_by(is_understood):
    """Has a batch go on after an error if the value of its header Prefer is understood."""
    prepare = odb_batch.wsgi.BatchRequest.__init__

    def preparing(self, *rest, **options):
        prepare(self, *rest, **options)
        if not is_understood(rest[5].get("prefer", "")):
            self.mode = "stop"

    odb_batch.wsgi.BatchRequest.__init__ = preparing


def true_not_understood():
    """continue-on-error=true is not understood."""
    prefer_by(lambda prefer: "=true" not in prefer)


def preferences_not_listed():
    """Of several preferences none is understood."""
    prefer_by(lambda prefer: "," not in prefer)
