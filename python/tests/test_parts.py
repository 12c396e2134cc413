"""The parts of a live run: a batch that is sent in parts is answered as one that is sent whole."""

import contextlib
import json
import unittest

import pytest
from hypothesis import given

from odb_batch import Fault, Part, Refused, RequestState, Run, plan
from odb_batch.testing import Scripted
from support.profiles import share
from support.scripted import scripted

ORDER = {
    "requests": [
        {"id": "o", "method": "post", "url": "Orders"},
        {"id": "l", "method": "post", "url": "$o/Lines", "dependsOn": ["o"], "atomicityGroup": "g"},
        {"id": "m", "method": "get", "url": "Stock", "atomicityGroup": "g"},
        {"id": "s", "method": "get", "url": "Stock", "dependsOn": ["g"]},
    ]
}


def placed(text):
    """A response document in which each success has a Location, so that others may refer to it."""
    responses = json.loads(text)["responses"]
    for it in responses:
        if 200 <= it["status"] <= 299:
            it["headers"] = {**it.get("headers", {}), "location": f"/Made('{len(it['id'])}')"}
    return responses


def statuses_of(text):
    return {it["id"]: it["status"] for it in json.loads(text)["responses"]}


def report_all(run, part, responses):
    """Reports what a part was answered: first the successes, each in the order of the batch."""
    at = {it["id"]: it for it in responses}
    for is_success in (True, False):
        for request, it in at.items():
            if (it["status"] < 300) == is_success:
                with contextlib.suppress(Refused):
                    run.start_unit(request)
                with contextlib.suppress(Refused):
                    run.report(request, it["status"], it.get("headers"))


def take_all(run, part, responses):
    """Takes what a part was answered, at once."""
    run.take(part, {"responses": responses})


@pytest.mark.parametrize("take", [report_all, take_all])
@share(10)
@given(scripted())
def test_a_batch_in_parts_is_answered_as_the_whole(take, drawn):
    batch, script, limit = drawn
    service = Scripted(script)
    wanted = statuses_of(service.post(json.dumps(batch).encode())[2])
    needs = {it.id: {*it.needs} for it in plan(batch)}
    groups = {it["id"]: it.get("atomicityGroup") for it in batch["requests"]}
    sent, good = [], set()
    with Run(batch) as run:
        while (part := run.part(batch, limit)) is not None:
            assert 0 < len(part.ids) <= limit and [it.id for it in plan(part.document)] == list(part.ids)
            own = {*part.ids, *map(groups.get, part.ids)}
            assert all(needs[it] <= own | good for it in part.ids), "a request waits for what has not succeeded"
            assert all(group is None or (it in part.ids) == (group in own) for it, group in groups.items()), "a group is cut"
            sent += part.ids
            found = placed(service.post(part.document)[2])
            take(run, part, sorted(found, key=lambda it: part.ids.index(it["id"])))
            good |= {it["id"] for it in found if it["status"] < 300}
            good |= {group for group in groups.values() if {it for it in groups if groups[it] == group} <= good}
        assert run.finished and len(sent) == len({*sent})
        assert statuses_of(run.response()) == wanted


@pytest.mark.parametrize("mode", ["continue", "stop"])
@share(4)
@given(scripted())
def test_a_run_has_the_answers_that_it_takes(mode, drawn):
    batch, script, _ = drawn
    with Run(batch, mode=mode) as run:
        part = run.part(batch)
        if part is None:
            return
        answered = Scripted(script, mode=mode).post(part.document)[2]
        run.take(part, answered, mode=mode)
        assert run.finished and statuses_of(run.response()) == dict.fromkeys(part.ids, 424) | statuses_of(answered)


class TestParts(unittest.TestCase):
    def test_an_order(self):
        with Run(ORDER) as run:
            self.assertEqual(run.part(ORDER, 2), Part(b'{"requests":[{"id":"o","method":"post","url":"Orders"}]}', ("o",)))
            self.assertIsNone(run.part(ORDER, 2))
            run.start("o")
            run.report("o", 201, {"Location": "/Orders(7)"})
            part = run.part(ORDER, 3)
            self.assertEqual(part.ids, ("l", "m", "s"))
            self.assertEqual([it["url"] for it in json.loads(part.document)["requests"]], ["/Orders(7)/Lines", "Stock", "Stock"])

    def test_what_is_refused(self):
        with Run(ORDER) as run:
            for limit in (0, True, 10_001, "2"):
                self.assertRaisesRegex(ValueError, "limit must be", run.part, ORDER, limit)
            self.assertRaisesRegex(ValueError, "another batch", run.part, ORDER, 1)
            self.assertRaisesRegex(ValueError, "another batch", run.part, {"requests": []})
            self.assertRaisesRegex(Fault, "F04", run.part, {"requests": 7})
            self.assertEqual(run.part(ORDER, 2).ids, ("o",))
            run.start("o")
            run.report("o", 200)
            with self.assertRaises(Fault) as raised:
                run.part(ORDER, 2)
            self.assertEqual((raised.exception.code, raised.exception.place), ("F90", "/requests/1"))
        self.assertRaisesRegex(ValueError, "closed", run.part, ORDER)

    def test_a_part_ends_before_what_lacks_a_location(self):
        batch = {
            "requests": [
                {"id": "o", "method": "post", "url": "Orders"},
                {"id": "a", "method": "get", "url": "A"},
                {"id": "l", "method": "post", "url": "$o/Lines", "dependsOn": ["o"]},
                {"id": "b", "method": "get", "url": "B"},
            ]
        }
        with Run(batch) as run:
            run.start("o")
            run.report("o", 201)
            part = run.part(batch)
            self.assertEqual(part.ids, ("a",))
            run.take(part, {"responses": [{"id": "a", "status": 200}]})
            self.assertRaisesRegex(Fault, "F90 NoLocation /requests/2", run.part, batch)
            run.start_unit("l")
            run.report("l", 424)
            self.assertEqual(run.part(batch).ids, ("b",))

    def test_a_part_has_the_etags_of_earlier_ones(self):
        headers = {"If-Match": "$o", "If-None-Match": "$n"}
        changed = {"id": "n", "method": "patch", "url": "N", "dependsOn": ["o"], "headers": headers}
        batch = {"requests": [{"id": "o", "method": "post", "url": "Orders"}, changed]}
        for reported in ({"ETag": "7"}, {}):
            with Run(batch) as run:
                run.start("o")
                run.report("o", 201, reported)
                if reported:
                    found = json.loads(run.part(batch).document)["requests"]
                    self.assertEqual([it["headers"] for it in found], [{"if-match": "7", "if-none-match": "$n"}])
                else:
                    self.assertRaisesRegex(Fault, "F91 NoETag /requests/1", run.part, batch)

    def test_answers_that_are_refused(self):
        good = {"responses": [{"id": "o", "status": 201, "headers": {"Location": "/Orders(7)"}, "body": {"n": 1}}]}
        with Run(ORDER) as run:
            part = run.part(ORDER, 2)
            for responses, fault in (
                ("", "F02 NotJson responses"),
                ({"responses": []}, "F73 ResponseMissing /requests/0"),
                ({"responses": [{"id": "o", "status": 102}]}, "F70 BadResponses /responses/0"),
                ({"responses": [{"id": "o", "status": 200, "headers": {"a": 1}}]}, "F70 BadResponses /responses/0"),
            ):
                with self.assertRaisesRegex(Fault, fault):
                    run.take(part, responses)
            self.assertRaisesRegex(ValueError, "mode must be", run.take, part, good, mode="go")
            self.assertRaisesRegex(ValueError, "not given by this run", run.take, Part(json.dumps(ORDER).encode(), ()), good)
            run.take(part, good)
            self.assertEqual(run.state("o"), RequestState("reported", 201))
            self.assertRaisesRegex(ValueError, "has started", run.take, part, good)
        self.assertRaisesRegex(ValueError, "closed", run.take, part, good)
