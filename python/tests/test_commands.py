"""What the functions return and raise."""

import collections.abc
import copy
import json
import pickle
import re
import threading
from unittest import mock

import pytest

import odb_batch
from odb_batch import Fault, OdbError, Output, PlannedRequest, Refused, Report, Start
from odb_batch import canon, check, match, output, plan, replay, run

BATCH = {
    "requests": [
        {"id": "book", "method": "get", "url": "Books('dune')"},
        {"id": "mark", "atomicityGroup": "lend", "dependsOn": ["book"], "method": "delete", "url": "Books('dune')"},
        {"id": "loan", "atomicityGroup": "lend", "dependsOn": ["book"], "method": "post", "url": "Loans",
         "headers": {"Content-Type": "application/json"}, "body": {"Book": "dune", "Größe": 1}},
        {"id": "list", "dependsOn": ["lend"], "method": "get", "url": "Loans"},
    ]
}
TEXT = json.dumps(BATCH)
OUTCOMES = {"outcomes": [{"id": "book", "status": 200}, {"id": "mark", "status": 204}, {"id": "loan", "status": 409}]}
RESPONSE = {
    "responses": [
        {"id": "book", "status": 200},
        {"atomicityGroup": "lend", "id": "mark", "status": 424},
        {"atomicityGroup": "lend", "id": "loan", "status": 409},
        {"id": "list", "status": 424},
    ]
}
EVENTS = {
    "events": [
        {"start": "book"},
        {"report": "book", "status": 200},
        {"start": "mark"},
        {"start": "loan"},
        {"report": "loan", "status": 409},
        {"report": "mark", "status": 204},
    ]
}
WRONG_OPTIONS = [{"mode": "half"}, {"width": 0}, {"width": 10_001}, {"width": True}, {"width": 1.5}]


class TestCommands:
    def test_plans(self):
        planned = plan(BATCH)
        assert len(planned) == 4
        assert planned[0] == PlannedRequest(0, "book", 0, None, ())
        assert planned.request("loan") == PlannedRequest(2, "loan", 1, "lend", ("book",))
        assert [it.level for it in planned] == [0, 1, 1, 2]
        assert planned == plan(TEXT)
        assert hash(planned) == hash(plan(TEXT))
        with pytest.raises(KeyError):
            planned.request("lend")

    def test_a_plan_is_a_sequence(self):
        planned = plan(BATCH)
        assert isinstance(planned, collections.abc.Sequence)
        mark = planned.request("mark")
        assert (planned.index(mark), planned.count(mark), mark in planned) == (1, 1, True)
        assert (planned[1:3], planned[-1]) == (planned.requests[1:3], planned.request("list"))
        assert list(reversed(planned)) == list(planned)[::-1]

    def test_a_plan_is_not_changed(self):
        planned = plan(BATCH)
        for name in ("requests", "other"):
            with pytest.raises(AttributeError):
                setattr(planned, name, ())
        with pytest.raises(TypeError):
            planned[0] = planned[1]
        assert planned != planned.requests
        for same in (copy.copy(planned), copy.deepcopy(planned), pickle.loads(pickle.dumps(planned))):
            assert (same, hash(same), same.request("loan")) == (planned, hash(planned), planned[2])

    def test_plans_the_empty_batch(self):
        assert plan({"requests": []}).requests == ()

    def test_makes_the_canonical_text(self):
        text = canon('{"requests": [{"url": "X", "method": "GET", "id": "1", "body": null}]}')
        assert text == b'{"requests":[{"id":"1","method":"get","url":"X"}]}'

    def test_matches(self):
        assert list(match(BATCH, RESPONSE).items()) == [("book", 200), ("mark", 424), ("loan", 409), ("list", 424)]

    def test_runs(self):
        assert json.loads(run(BATCH, EVENTS)) == RESPONSE
        assert json.loads(run(BATCH, EVENTS, mode="stop", width=2)) == RESPONSE

    def test_replays(self):
        found = replay(BATCH, OUTCOMES)
        assert json.loads(found.response) == RESPONSE
        assert (found.steps, found.undone) == ((), ())

    def test_replays_in_an_order_with_a_trace(self):
        found = replay(BATCH, OUTCOMES, order="wide", trace=True)
        first = (Start("book"), Report("book", 200), Start("mark"), Start("loan"))
        steps = (*first, Report("mark", 204), Report("loan", 409))
        assert (found.steps, found.undone) == (steps, ("mark",))

    def test_returns_a_text_longer_than_its_documents(self):
        ids = [f"r{i}" for i in range(1000)]
        batch = {"requests": [{"id": id, "method": "get", "url": "X"} for id in ids]}
        outcomes = {"outcomes": [{"id": ids[0], "status": 500}]}
        found = replay(batch, outcomes, mode="stop", trace=True)
        assert [it["status"] for it in json.loads(found.response)["responses"]] == [500] + [424] * 999


class TestOutputs:
    def test_are_json(self):
        printed = output("check", BATCH)
        assert printed.accepted
        assert printed.text == b'{"groups":1,"requests":4}\n'
        planned = json.loads(output("plan", BATCH).text)["requests"]
        assert planned[2] == {"group": "lend", "id": "loan", "level": 1, "needs": ["book"]}
        matched = json.loads(output("match", BATCH, RESPONSE).text)["responses"]
        assert matched[1] == {"id": "mark", "status": 424}

    def test_are_lines(self):
        assert output("check", BATCH, form="lines").text == b"ok 4 requests 1 groups\n"
        text = output("replay", BATCH, OUTCOMES, form="lines", order="last", trace=True).text
        assert text.startswith(b"start book\nreport book 200\nstart loan\nreport loan 409\n")

    @pytest.mark.parametrize("form", ["json", "lines"])
    def test_have_responses_and_canonical_texts_in_both_forms(self, form):
        assert output("canon", BATCH, form=form).text == canon(BATCH) + b"\n"
        assert json.loads(output("run", BATCH, EVENTS, form=form, mode="stop", width=2).text) == RESPONSE
        assert json.loads(output("replay", BATCH, OUTCOMES, form=form).text) == RESPONSE

    def test_take_events_as_a_list(self):
        printed = output("run", BATCH, [Start("book")])
        assert not printed.accepted
        assert printed.text == b'{"fault":{"code":"F66","name":"Unfinished","place":"events"}}\n'

    def test_are_faults(self):
        printed = output("match", BATCH, b"[")
        assert not printed.accepted
        assert json.loads(printed.text)["fault"] == {"code": "F02", "name": "NotJson", "place": "responses"}
        assert output("plan", "", form="lines") == Output(False, b"fault F02 NotJson batch\n")

    @pytest.mark.parametrize(
        "options", [{"form": "xml"}, {"form": 1}, {"width": 0}, {"mode": "half"}, {"order": "middle"}]
    )
    def test_refuse_wrong_options(self, options):
        with pytest.raises(ValueError):
            output("replay", BATCH, OUTCOMES, **options)

    def test_refuse_other_commands(self):
        with pytest.raises(ValueError):
            output("explain", BATCH)

    def test_take_the_documents_of_the_command(self):
        with pytest.raises(TypeError):
            output("check", BATCH, RESPONSE)
        for command in ("match", "run", "replay"):
            with pytest.raises(TypeError):
                output(command, BATCH)

    def test_run_out_of_memory(self):
        with mock.patch("odb_batch._native.library.call", return_value=(4, b"")), pytest.raises(MemoryError):
            output("check", BATCH)


class TestRefusals:
    def test_raises_the_fault(self):
        with pytest.raises(Fault) as raised:
            later = '{"id":"2","method":"get","url":"B"}'
            check('{"requests":[{"id":"1","method":"get","url":"A","dependsOn":["2"]},' + later + "]}")
        fault = raised.value
        assert (fault.code, fault.name, fault.place) == ("F41", "ForwardName", "/requests/0")
        assert str(fault) == "F41 ForwardName /requests/0"
        assert "dependsOn" in fault.explanation
        assert isinstance(fault, ValueError)

    @pytest.mark.parametrize("kind", [Fault, Refused])
    def test_faults_and_refusals_have_one_base(self, kind):
        with pytest.raises(OdbError) as raised:
            raise kind("S4", "Waiting", "list")
        error = raised.value
        assert (error.code, error.name, str(error)) == ("S4", "Waiting", "S4 Waiting list")
        assert error.explanation

    def test_other_errors_have_another_base(self):
        assert not (issubclass(ValueError, OdbError) or issubclass(Refused, ValueError))

    def test_a_fault_is_pickled(self):
        fault = pickle.loads(pickle.dumps(Fault("F02", "NotJson", "batch")))
        assert (fault.code, fault.name, fault.place) == ("F02", "NotJson", "batch")

    def test_explains_the_causes_of_events(self):
        with pytest.raises(Fault) as raised:
            run(BATCH, {"events": [{"start": "list"}]})
        assert str(raised.value) == "S4 Waiting /events/0"
        assert raised.value.explanation

    @pytest.mark.parametrize("options", WRONG_OPTIONS)
    def test_run_refuses_wrong_options(self, options):
        with pytest.raises(ValueError):
            run(BATCH, EVENTS, **options)

    @pytest.mark.parametrize("options", [*WRONG_OPTIONS, {"order": "middle"}])
    def test_replay_refuses_wrong_options(self, options):
        with pytest.raises(ValueError):
            replay(BATCH, OUTCOMES, **options)

    def test_an_option_is_no_fault(self):
        with pytest.raises(ValueError) as raised:
            run(b"", b"", width=0)
        assert not isinstance(raised.value, OdbError)


class TestStatuses:
    @pytest.mark.parametrize(
        "status, kind", [(4, MemoryError), (2, RuntimeError), (5, RuntimeError), (77, RuntimeError)]
    )
    def test_of_calls_are_errors(self, status, kind):
        with mock.patch("odb_batch._native.library.call", return_value=(status, b"")), pytest.raises(kind):
            check(BATCH)


class TestThreads:
    def test_eight_threads_call_at_once(self):
        wrong = []

        def work(count):
            batch = {"requests": [{"id": f"r{i}", "method": "get", "url": "X"} for i in range(count)]}
            for _ in range(50):
                if check(batch).requests != count or len(plan(batch)) != count:
                    wrong.append(count)

        threads = [threading.Thread(target=work, args=(20 * i,)) for i in range(8)]
        for thread in threads:
            thread.start()
        for thread in threads:
            thread.join()
        assert wrong == []


class TestPackage:
    def test_has_the_version_of_the_library(self):
        assert re.fullmatch(r"\d+\.\d+\.\d+", odb_batch.__version__)

    def test_exports_what_it_lists(self):
        for name in odb_batch.__all__:
            assert hasattr(odb_batch, name), name
