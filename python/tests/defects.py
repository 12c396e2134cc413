"""Defects that `test_defects.py` plants into a copy of the package, each with the tests that have to find it.

Of each: the module, its text, what takes the place of that, the module of the tests, and a word of their names.
"""

PERFORM, PERFORM_ORDER, PERFORM_REQUESTS = "test_perform", "test_perform_order", "test_perform_requests"
MIDDLEWARE, WSGI_ASGI, TESTING = "test_middleware", "test_wsgi_asgi", "test_testing"
ENDS, PLACES, ROOMS = "test_ends", "test_places", "test_rooms"
BUILDING, SENDING, REST, URLS = "client/test_building", "client/test_sending", "client/test_rest", "test_urls"

DEFECTS = {
    "headers-of-the-batch-stay": (
        "wsgi", ' and not name.startswith("HTTP_")}\n', "}\n", MIDDLEWARE, "inherited",
    ),
    "success-before-the-commit": (
        "driver/execution", "if answer.is_success:\n                return", "", PERFORM, "commit",
    ),
    "a-commit-without-a-body": ("driver/execution", "answer, _ = self._write_body(unit.ids[-1], answer)", "pass", PERFORM, "cannot_be_written"),
    "success-without-an-answer": (
        "driver/threads", "with transaction(unit.group):\n", "answer = Answer(200)\n        with transaction(unit.group):\n",
        PERFORM, "swallows_all",
    ),
    "no-gate": ("asgi", "gate=self._gate()", "gate=None", WSGI_ASGI, "at_once"),
    "a-gate-of-one-loop": ("asgi", "if loop not in self._places:", "if not self._places:", WSGI_ASGI, "at_once"),
    "a-client-that-stays": ("asgi", "self._gone.set_result(None)", "pass", ENDS, "nothing_more_starts"),
    "any-transaction": ("asgi", "if inspection.isgeneratorfunction(function) or", "if False and", ENDS, "refused_at_the_start"),
    "memory-until-the-end": ("http/budget", "self._room.give(self._size)", "pass", ROOMS, "takes_nothing"),
    "a-stop-before-the-place-alone": ("driver/execution", "self._ask_to_stop(self._stop)\n        # One", "pass\n        # One", PLACES, "waits_for_a_place"),
    "a-start-before-its-place": ("driver/execution", "self._left -= len(ids)\n            found", "self._left -= len(ids); self._journal and self._journal.write(Start(first))\n            found", PLACES, "has_not_started"),
    "a-place-that-is-lost": ("driver/unit_tasks", "self.leave()  # the place", "pass  # the place", PLACES, "none_is_lost"),
    "a-disconnect-after-the-body": (
        "asgi", "await self._completed.wait()\n", "pass\n", WSGI_ASGI, "receive_blocks",
    ),
    "a-success-without-its-commit": ("asgi", " or self.is_success", "", WSGI_ASGI, "after_a_success"),
    "a-cut-answer-is-one": ("asgi", "(self._status is None or not self.is_complete)", "self._status is None", WSGI_ASGI, "answers_half"),
    "an-answer-ends-a-request": (
        "asgi", "await app(scope, self.receive, self.send)",
        "asyncio.ensure_future(app(scope, self.receive, self.send))\n"
        "                while not self.is_complete:\n                    await asyncio.sleep(0)",
        WSGI_ASGI, "when_the_application_returns",
    ),
    "any-url": ("driver/targets", "ServiceTargets(base, allowed) if allowed else ", "", MIDDLEWARE, "lead_out"),
    "any-root": ("driver/targets", "self._base, self._roots, url, given", "self._base, self._hosts, url, given", PERFORM_REQUESTS, "outside_of_the_base"),
    "any-rest": ("driver/targets", 'self._resolve(self._base, self._roots, rest, f"{self._first}x")', "pass", URLS, "stays_in_a_group"),
    "queries-in-references": ("driver/targets", 're.split("[?#]", sent, maxsplit=1)[0]', "sent", PERFORM_REQUESTS, "location"),
    "any-context": ("driver/targets", "and not _HAS_SCHEME(place)", "", URLS, "context"),
    "urls-in-a-body-without-its-context": (
        "driver/references", '_first(entity, ("@context", "@odata.context"))', "None", PERFORM_REQUESTS, "created_or_returned",
    ),
    "any-status": ("http/messages", "if 200 <= status <= 599 else 502", "", PERFORM, "an_answer_that_is_none"),
    "a-late-stop": ("driver/execution", "except Refused:\n                continue", "except KeyError:\n                continue", PERFORM, "while_a_unit_begins"),
    "no-stop": ("driver/execution", "if not self._is_stopped and is_to_stop():", "if False:", PERFORM, "a_stop_answers"),
    "broken-json-ends-all": ("driver/execution", "except Fault:\n            headers", "except KeyError:\n            headers", PERFORM_REQUESTS, "of_answers"),
    "a-place-that-stays-free": ("driver/unit_tasks", "self._begin_units()\n        except", "self._out or self._begin_units()\n        except", PERFORM_ORDER, "place"),
    "any-number-of-requests": ("driver/execution", "if len(run.requests) > limit:", "if False:", PERFORM, "that_is_refused"),
    "a-cancelled-batch-goes-on": ("driver/unit_tasks", 'return self._is_cancelled or getattr(asyncio.current_task(), "cancelling", int)() > 0', "return False", PERFORM_ORDER, "cancellation"),
    "a-request-that-is-lost": ("driver/unit_tasks", 'return self._is_cancelled or getattr(asyncio.current_task(), "cancelling", int)() > 0', "return True", PERFORM, "something_else"),
    "a-cancellation-leaves-tasks": ("driver/unit_tasks", "while self._out:", "if self._out:", PERFORM_ORDER, "however_often"),
    "an-interruption-goes-on": ("driver/threads", "execution.stop()\n            #", "#", PERFORM, "nothing_more_start"),
    "a-pool-blocks": ("driver/threads", " if not future.cancel()", "", PERFORM_ORDER, "is_shut_down"),
    "another-context": ("driver/threads", "copy_context().run\n", "lambda it, *more: it(*more)\n", PERFORM_ORDER, "context_of_the_caller"),
    "long-answers": ("http/budget", "if count > self._left:", "if False:", MIDDLEWARE, "too_long_together"),
    "any-header": ("http/batch_request", "if name not in self._allowed and", "if False and", MIDDLEWARE, "of_a_request"),
    "a-preference-lost": ("http/batch_request", '", ".join([value, *self._prefer]) if name == "prefer" else value', "value", MIDDLEWARE, "inherited"),
    "batches-in-batches": ("wsgi", 'if environ["PATH_INFO"] == self._middleware.path:', "if False:", MIDDLEWARE, "batch_in_a_batch"),
    "no-dependencies-of-references": (
        "client/_builder", ", *filter(self._names.__contains__, _find_references(url, given))]", "]", BUILDING, "dependencies",
    ),
    "no-groups-of-dependencies": ("client/_builder", "if group is not None and group != own", "if False", BUILDING, "dependencies"),
    "half-a-group": ("client/_builder", "del self._requests[begun:]", "pass", BUILDING, "block_that_fails"),
    "digits-of-a-decimal": ("documents/encoding", "raise _HasDecimal", "return float(value)", BUILDING, "bodies"),
    "digits-of-an-answer": (
        "http/batches", "body if is_json(own) or not body",
        "(body and json.dumps(json.loads(body)).encode()) if is_json(own) or not body", SENDING, "bodies",
    ),
    "what-depends-on-a-failure": (
        "client/_parts", "return Answer(answer.status, ", "return Answer(200, ", SENDING, "depends_on_a_failure",
    ),
    "parts-of-any-length": ("client/_parts", "self._run.part(self.document, self._most)", "self._run.part(self.document, 10_000)", SENDING, "as_many"),
    "longer-parts-as-they-are": ("client/_parts", "if len(self._part.ids) > self._limit:", "if False:", SENDING, "longer_parts"),
    "a-refusal-that-is-not-shown": ("client/_parts", "self.answers[name] = refusal.answer", "pass", SENDING, "etags_that_are_not_there"),
    "a-stop-that-goes-on": ("client/_parts", "ListedRun(document, mode=mode)", "ListedRun(document)", SENDING, "error_in_mode_stop"),
    "no-location-for-no-etag": ("client/_parts", 'if code == "F90"', "if True", SENDING, "etags_that_are_not_there"),
    "each-error-goes-on": ("client/_parts", "self._groups), mode=self._mode)", "self._groups))", SENDING, "error_in_mode_stop"),
    "a-part-that-is-not-reported": ("client/_parts", "if not self._is_stopped:\n", "if False:\n", SENDING, "as_many"),
    "a-part-after-a-refusal": ("client/_parts", "self._is_stopped = True\n", "pass\n", SENDING, "answer_to_the_whole"),
    "responses-to-something-else": ("client/_parts", "match(self._part.document, text, mode=self._mode)", "pass", SENDING, "not_the_response"),
    "places-of-any-kind": ("client/_parts", "self._resolver.recorded(request_id) if", '{"location": "x"} if', SENDING, "no_url_may_have"),
    "the-shortest-wait": ("client/_batch", "max(map(seconds_of", "min(map(seconds_of", SENDING, "retry_after"),
    "etags-that-are-not-there": ("client/_rest", 'fault.code not in ("F90", "F91")', 'fault.code != "F90"', REST, "stands_for_nothing"),
    "a-place-that-is-there": ("client/_rest", "if place is None:", "if True:", SENDING, "no_url_may_have"),
    "one-status-for-ever": ("testing/_scripted", "left.pop(0) if len(left) > 1 else left[0]", "left[0]", TESTING, "in_turn"),
    "an-etag-by-luck": ("driver/references", "if request_id not in self._answers:", "if False:", PERFORM_REQUESTS, "not_in_depends_on"),
}  # fmt: skip
