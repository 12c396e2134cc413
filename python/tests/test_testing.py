"""The test bench: strategies are accepted, or have their fault; a script is answered as a replay of it."""

import asyncio
import json
from decimal import Decimal

import pytest
from hypothesis import Phase, find, given, settings
from hypothesis import strategies as st

from odb_batch import Answer, Fault, canon, check, match, replay, run
from odb_batch.errors.faults import explain
from odb_batch.testing import Scripted, batches, events, faulty_batches, outcomes
from odb_batch.testing._faulty import CHANGES
from odb_batch.testing._strategies import covered_ids
from support.profiles import share

PRICE = Decimal("9.990")
PRICES = st.just(PRICE)
MODES, WIDTHS = st.sampled_from(["continue", "stop"]), st.sampled_from([1, 2, 10_000])


def fault_of(call, *arguments, **options):
    with pytest.raises(Fault) as raised:
        call(*arguments, **options)
    return raised.value.code, raised.value.place


def drawn(strategy, count):
    """Some values of a strategy, always the same."""
    found = []

    @settings(max_examples=count, database=None, derandomize=True, phases=[Phase.generate])
    @given(strategy)
    def collect(value):
        found.append(value)

    collect()
    return found


class TestStrategies:
    @share(10)
    @given(st.data(), MODES, WIDTHS)
    def test_what_is_drawn_is_accepted(self, data, mode, width):
        batch = data.draw(batches())
        canon(batch)
        replay(batch, data.draw(outcomes(batch)), mode=mode, width=width)
        run(batch, data.draw(events(batch, mode=mode, width=width)), mode=mode, width=width)

    @share(10)
    @given(st.data())
    def test_events_that_end_anywhere(self, data):
        batch = data.draw(batches())
        happened = data.draw(events(batch, finished=False, statuses=st.just(404)))
        assert all(it.get("status", 404) == 404 for it in happened["events"])
        try:
            run(batch, happened)
        except Fault as fault:
            assert fault.code == "F66"

    @share(5)
    @given(faulty_batches())
    def test_what_is_refused_has_its_fault(self, drawn):
        batch, code, position = drawn
        assert fault_of(check, batch) == (code, f"/requests/{position}")

    @pytest.mark.slow
    def test_each_fault_is_drawn(self):
        assert set(CHANGES) == {code for code in (f"F{number}" for number in range(10, 50)) if explain(code).name}
        assert {code for _, code, _ in drawn(faulty_batches(max_requests=4), 500)} == set(CHANGES)

    @share(40)
    @given(batches(min_requests=2, max_requests=3, groups=False, references=False, headers=False, bodies=PRICES))
    def test_options(self, batch):
        check(batch)
        assert 2 <= len(batch["requests"]) <= 3
        for request in batch["requests"]:
            assert {"atomicityGroup", "headers"}.isdisjoint(request) and request.get("body", PRICE) is PRICE
            assert not request["url"].startswith(tuple(f"${it['id']}/P" for it in batch["requests"]))

    @share(100)
    @given(batches(min_requests=30, max_requests=40, bodies=None))
    def test_many_requests_without_bodies(self, batch):
        assert check(batch).requests >= 30 and not any("body" in it for it in batch["requests"])

    @pytest.mark.parametrize("url, ids", [
        ("Books", ["a"]), ("$metadata/Pages", []), ("%24root?$top=1", []), ("$all", []), ("$all-/Pages", ["a"]),
    ])  # fmt: skip
    def test_what_has_a_reserved_url_is_not_referred_to(self, url, ids):
        assert covered_ids([{"id": "a", "url": url}], {"dependsOn": ["a"]}) == ids

    @pytest.mark.slow
    def test_each_part_is_drawn(self):
        requests = [it for batch in drawn(batches(), 150) for it in batch["requests"]]
        texts = [json.dumps(it).lower() for it in requests]
        for part in ('"atomicitygroup": "', '"url": "$', '"body": ', '"if-match": "$', '"dependson": ["', "image/png"):
            assert any(part in text for text in texts), part

    def test_batches_shrink(self):
        quick = settings(database=None, derandomize=True)
        assert find(batches(min_requests=1), lambda it: True, settings=quick) == {
            "requests": [{"id": "a", "method": "get", "url": "Books"}]
        }

    @pytest.mark.slow
    @pytest.mark.parametrize("has, count", [
        (lambda batch: any(it.get("body") for it in batch), 1),
        (lambda batch: len({it.get("atomicityGroup") for it in batch} - {None}) > 1, 2),
    ], ids=["body", "groups"])  # fmt: skip
    def test_requests_of_no_use_are_left_out(self, has, count):
        quick = settings(database=None, derandomize=True, max_examples=1000, deadline=None)
        found = find(batches(), lambda it: has(it["requests"]), settings=quick)
        assert len(found["requests"]) <= count


def located(script, batch):
    """The outcomes that a script of statuses stands for."""
    found = []
    for it in batch["requests"]:
        status, headers = script[it["id"]], {}
        if 200 <= status <= 299:
            headers["ETag"] = '"1"'
            if it["method"].lower() == "post":
                headers["Location"] = f"/Made('{it['id']}')"
        if status in (429, 503):
            headers["Retry-After"] = "1"
        found.append({"id": it["id"], "status": status, "headers": headers})
    return {"outcomes": found}


class TestScripted:
    @share(10)
    @given(st.data(), MODES)
    def test_is_a_replay(self, data, mode):
        batch = data.draw(batches())
        script = {it["id"]: data.draw(st.sampled_from([200, 201, 204, 304, 404, 429, 503])) for it in batch["requests"]}
        status, _, body = Scripted(script, mode=mode).post(json.dumps(batch).encode())
        wanted = replay(batch, located(script, batch), order="first", mode=mode, width=1).response
        assert (status, json.loads(body)) == (200, json.loads(wanted))

    BATCH = {
        "requests": [
            {"id": "a", "method": "post", "url": "A"},
            {"id": "b", "method": "get", "url": "B", "dependsOn": ["a"]},
            {"id": "c", "method": "delete", "url": "C"},
        ]
    }

    def statuses(self, service):
        status, given, body = service.post(json.dumps(self.BATCH).encode())
        assert (status, given["content-type"]) == (200, "application/json")
        return list(match(self.BATCH, body).values())

    def test_without_a_script(self):
        service = Scripted()
        assert self.statuses(service) == [201, 200, 204] and service.documents == [json.dumps(self.BATCH).encode()]

    def test_statuses_in_turn(self):
        service = Scripted({"a": [429, 503, 200], "b": [404, 204]})
        found = [self.statuses(service) for _ in range(5)]
        assert found == [[429, 424, 204], [503, 424, 204], [200, 404, 204], [200, 204, 204], [200, 204, 204]]

    def test_an_answer_is_what_it_is(self):
        answer = Answer(201, {"X-A": "1"}, b'{"Price": 9.990}')
        _, _, body = Scripted({"a": answer}).post(json.dumps(self.BATCH).encode())
        assert b'{"body":{"Price": 9.990},"headers":{"x-a":"1"},"id":"a","status":201}' in body

    def test_in_mode_stop(self):
        assert self.statuses(Scripted({"a": 404}, mode="stop")) == [404, 424, 424]

    @pytest.mark.parametrize("service, document, status, code", [
        (Scripted(limit=2), BATCH, 413, "BatchTooLong"),
        (Scripted(), {"requests": [7]}, 400, "F10"),
        (Scripted(schedule=[503]), BATCH, 503, "Refused"),
    ])  # fmt: skip
    def test_what_is_answered_as_a_whole(self, service, document, status, code):
        found, _, body = service.post(json.dumps(document).encode())
        assert (found, json.loads(body)["error"]["code"]) == (status, code)

    def test_refusals_as_a_whole_in_turn(self):
        service = Scripted(retry_after=9, schedule=[429, 500])
        found = [service.post(json.dumps(self.BATCH).encode())[:2] for _ in range(3)]
        kind = {"content-type": "application/json"}
        assert found == [(429, {**kind, "retry-after": "9"}), (500, kind), (200, kind)]

    @pytest.mark.parametrize("scene", [[], None, "409", (409, {}, b""), [503, "201"], 99, 600, Answer(600)])
    def test_what_is_no_answer(self, scene):
        with pytest.raises(TypeError, match="a is answered by statuses from 200 to 599"):
            Scripted({"a": scene})

    @pytest.mark.parametrize("schedule", [["lost"], "lose", [99], [None]])
    def test_what_becomes_of_no_batch(self, schedule):
        with pytest.raises(TypeError, match="a batch is answered by statuses from 200 to 599"):
            Scripted(schedule=schedule)

    def test_what_is_kept_is_answered_again(self):
        service, sent = Scripted(repeatable=True, schedule=["lose", "hang up"]), "Sun, 29 Nov 2026 12:00:00 GMT"
        document, headers = json.dumps(self.BATCH).encode(), {"Repeatability-Request-ID": "x", "repeatability-first-sent": sent}
        for _ in range(2):
            with pytest.raises(ConnectionError):
                service.post(document, headers)
        first, second = service.post(document, headers), service.post(document, headers)
        assert first == second and first[1]["repeatability-result"] == "accepted" and set(service.performed.values()) == {1}
        other = service.post(document + b" ", headers)
        assert (other[0], other[1]["repeatability-result"]) == (422, "rejected")
        assert Scripted(repeatable=False).post(document, headers)[0] == 501 and Scripted().post(document, headers)[0] == 200

    def test_for_clients_that_await(self):
        assert asyncio.run(Scripted().post_async(b'{"requests":[]}'))[2] == b'{"responses":[]}'
