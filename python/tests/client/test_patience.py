"""A client that waits and repeats, over a scripted service: what is posted again, how long it waits, when and why it ends."""

import copy
import time
from email.utils import formatdate, parsedate_to_datetime

import pytest

from odb_batch import Answer, Fault, Refusal
from odb_batch.client import AsyncBatchClient, Batch, BatchClient, BatchFailed
from odb_batch.client import _retry
from odb_batch.testing import Scripted

ID, FIRST_SENT = "repeatability-request-id", "repeatability-first-sent"


def rejected(status):
    return Answer(status, {"Repeatability-Result": "rejected"})


def posts(*ids):
    batch = Batch()
    for id in ids:
        batch.post("A", {}, id=id)
    return batch


def send(batch, service, limit=10, mode="continue", **options):
    return BatchClient(service.post, **{"backoff": 0, **options}).send(batch, limit=limit, mode=mode)


def counts(results):
    return [len(it) for it in (results.done, results.failed, results.left, results.unknown)]


@pytest.fixture
def waits(monkeypatch):
    """The seconds that are slept; the clock of deadlines goes on by them."""
    found = []
    monkeypatch.setattr(time, "sleep", found.append)
    monkeypatch.setattr(_retry.random, "uniform", lambda least, most: most)
    return found


class Heard:
    """A scripted service, and the headers of what it was posted."""

    def __init__(self, **options):
        self.service, self.headers = Scripted(**options), []

    def post(self, document, headers):
        self.headers.append(headers)
        return self.service.post(document, headers)

    @property
    def ids(self):
        return [it.get(ID) for it in self.headers]


class TestRests:
    def test_until_nothing_is_left(self):
        service = Scripted({"b": [429, 503, 201], "d": 409}, schedule=["answer", 429, 503], retry_after=0)
        batch = Batch()
        first = batch.post("A", {}, id="a")
        batch.post(f"{first}/B", {}, id="b")
        batch.get("$b", id="c")
        batch.post("D?x=1", {}, id="d")
        results = send(batch, service, limit=2)
        assert [it.status for it in results.values()] == [201, 201, 200, 409] and counts(results) == [3, 1, 0, 0]
        assert results.reason == "" and not results.rest() and results.error is None
        assert results[first].operation == "POST A" and results["d"].operation == "POST D"
        assert set(service.performed.values()) == {1}

    def test_what_is_left_may_be_sent_later(self):
        batch = posts("a", "b")
        first = send(batch, Scripted({"b": 503}, retry_after=0), attempts=1)
        assert counts(first) == [1, 0, 1, 0] and first.reason == "the last 1 attempts have brought nothing"
        assert counts(send(first.rest(), Scripted())) == [1, 0, 0, 0]

    def test_a_rest_that_cannot_be_made(self):
        batch = posts("a")
        batch.get("$a/B", id="b")
        results = send(batch, Scripted({"a": Answer(201), "b": 503}))
        assert results.reason == "b refers to a, which was answered without a Location" and counts(results) == [1, 0, 1, 0]
        with pytest.raises(ValueError, match="without a Location"):
            results.rest()

    def test_a_group_that_a_service_has_half_performed(self):
        batch = Batch()
        with batch.group():
            batch.post("A", id="a")
            batch.post("B", id="b")
        response = b'{"responses":[{"id":"a","atomicityGroup":"g1","status":201},{"id":"b","atomicityGroup":"g1","status":%d}]}'
        for status, expected in ((409, [0, 2, 0, 0]), (503, [0, 0, 2, 0])):
            assert counts(batch.send(lambda document: (200, {}, response % status))) == expected

    def test_nothing_after_an_error_in_mode_stop(self):
        batch = posts("a", "b", "c", "d")
        service = Scripted({"a": [429, 201], "c": 404}, mode="stop", retry_after=0)
        results = send(batch, service, mode="stop")
        assert [it.status for it in results.values()] == [201, 201, 404, 424] and results.reason == "c has failed"
        assert [it.id for it in results.rest().send(Scripted().post).values()] == ["d"]


class TestWaits:
    def test_what_the_service_asks_for_and_a_backoff(self, waits):
        schedule = [429, 429, 503, "answer", 429]
        send(posts("a", "b"), Scripted(schedule=schedule, retry_after=7), limit=1, backoff=1.0)
        assert waits == [7 + 2, 7 + 4, 7 + 8, 7 + 1]  # it begins anew once something was performed

    def test_a_date(self, waits):
        late = Answer(503, {"Retry-After": formatdate(time.time() + 100, usegmt=True)})
        send(posts("a"), Scripted(schedule=[late]))
        assert 90 < waits[0] <= 100

    def test_a_backoff_has_a_bound(self, waits):
        results = send(posts("a"), Scripted(schedule=[503] * 99, retry_after=0), attempts=9, backoff=1)
        assert waits == [2, 4, 8, 16, 30, 30, 30, 30] and results.reason == "the last 9 attempts have brought nothing"

    def test_only_attempts_that_bring_nothing_count(self, waits):
        script = {str(k): [429] * k + [201] for k in range(9)}
        batch = posts(*script)
        assert counts(send(batch, Scripted(script, retry_after=0), attempts=2)) == [9, 0, 0, 0] and len(waits) == 8

    def test_longer_than_is_waited_for(self, waits):
        results = send(posts("a"), Scripted(schedule=[503], retry_after=601))
        assert results.reason == "the service asks to wait 601 seconds" and waits == [] and results.retry_after == 601

    def test_a_deadline(self, waits, monkeypatch):
        seconds = []
        results = send(posts("a", "b"), Scripted(schedule=[503], retry_after=9), deadline=5)
        assert results.reason == "the deadline of 5 seconds is over" and waits == [] and counts(results) == [0, 0, 2, 0]
        monkeypatch.setattr(_retry.time, "monotonic", lambda: 0.0)
        client = BatchClient(lambda document, headers: None, deadline=5, timeout=60)
        client._post = lambda document, headers, found: seconds.append(found) or (200, {}, b'{"responses":[]}')
        client.send(posts("a"))
        assert seconds[0] <= 5


class TestRepeatableParts:
    def test_an_id_and_a_date_for_each_part(self):
        heard = Heard(repeatable=True)
        assert counts(send(posts("a", "b"), heard, limit=1)) == [2, 0, 0, 0]
        assert len(set(heard.ids)) == 2 and None not in heard.ids
        assert abs(parsedate_to_datetime(heard.headers[0][FIRST_SENT]).timestamp() - time.time()) < 60

    @pytest.mark.parametrize("trouble", ["lose", "hang up", 502, 504, 408, rejected(409), Answer(200, {}, b"{")])
    def test_are_posted_again_as_they_were(self, trouble):
        heard = Heard(repeatable=True, schedule=["answer", trouble, 503, rejected(409), 500, "hang up"], retry_after=0)
        assert counts(send(posts("a", "b"), heard, limit=1)) == [2, 0, 0, 0]
        assert len(set(heard.ids)) == 2 and heard.ids[1:] == heard.ids[1:2] * 6
        assert set(heard.service.performed.values()) == {1} and len({it[FIRST_SENT] for it in heard.headers[1:]}) == 1

    def test_a_service_that_is_not_known_is_asked_by_a_batch_of_nothing(self):
        heard = Heard(repeatable=True, schedule=["lose", "hang up"])
        assert counts(send(posts("a"), heard)) == [1, 0, 0, 0] and heard.service.performed == {"a": 1}
        part, *asked, again = heard.service.documents
        assert asked == [b'{"requests":[]}'] * 2 and part == again and heard.ids[0] == heard.ids[-1]
        assert len(set(heard.ids)) == 3

    @pytest.mark.parametrize("repeatable", [False, None])
    def test_a_service_that_keeps_none(self, repeatable):
        batch = posts("a")
        batch.put("B", {}, id="b")
        heard = Heard(repeatable=repeatable, schedule=["answer"] * (repeatable is False) + ["lose"], retry_after=0)
        results = send(batch, heard)
        assert counts(results) == [1, 0, 0, 1] and results["a"].status == 502 and heard.service.performed == {"a": 1, "b": 2}
        assert heard.ids[-1] is None and isinstance(results.error, ConnectionError)

    @pytest.mark.parametrize("status, body", [(200, b"<html>"), (202, b"")])
    def test_what_is_no_response_to_a_batch(self, status, body):
        """As a page for a login, or a batch that is performed later: the service keeps none, and is not asked again."""
        heard = Heard(schedule=[Answer(status, {}, body)])
        results = send(posts("a"), heard)
        assert counts(results) == [0, 0, 0, 1] and len(heard.ids) == 1 and results.error.code == "F02"

    def test_what_is_repeated_is_in_the_log(self, caplog):
        caplog.set_level("INFO", "odb_batch")
        send(posts("a", "b"), Scripted({"b": [503, 201]}, schedule=["answer", "lose"], repeatable=True, retry_after=0), limit=1)
        assert "a part is posted again in 0.0 seconds: ConnectionError('the answer is lost')" in caplog.text
        assert "1 requests are sent again in 0.0 seconds" in caplog.text

    def test_without_asking_for_it(self):
        heard = Heard(repeatable=True, schedule=["lose"])
        assert counts(send(posts("a"), heard, repeatable=False)) == [0, 0, 0, 1] and heard.ids == [None]

    @pytest.mark.parametrize("status", [400, 412, 422, 501])
    def test_a_part_that_is_lost_and_given_up(self, status):
        heard = Heard(repeatable=True, schedule=["answer", "lose", rejected(status)])
        results = send(posts("a", "b"), heard, limit=1)
        assert counts(results) == [1, 0, 0, 1] and len(heard.ids) == 3

    @pytest.mark.parametrize("status", [400, 412, 422])
    def test_a_part_that_is_not_taken(self, status):
        results = send(posts("a", "b"), Scripted(repeatable=True, schedule=[rejected(status)]), limit=1)
        assert [it.status for it in results.values()] == [status, 424] and results.reason == f"a part was answered {status} as a whole"

    def test_a_service_that_says_501_to_all(self):
        results = send(posts("a"), Scripted(schedule=[rejected(501)] * 9), attempts=2)
        assert [it.status for it in results.values()] == [501]

    def test_a_part_that_stays_lost(self):
        heard = Heard(repeatable=True, schedule=["answer", "lose"] + [503] * 99, retry_after=0)
        results = send(posts("a", "b", "c"), heard, limit=1, attempts=4)
        assert counts(results) == [1, 0, 1, 1] and results.reason == "the last 4 attempts have brought nothing"
        assert len(heard.ids) == 6

    def test_a_refusal_is_its_answer(self):
        def post(document, headers):
            raise Refusal(429, "Busy", "later", retry_after="0")

        results = BatchClient(post, backoff=0, attempts=2).send(posts("a"))
        assert [it.status for it in results.values()] == [429] and counts(results) == [0, 0, 1, 0]


class TestTexts:
    def test_what_became_of_each(self):
        batch = posts("a", "b", "c")
        batch.get("$b", id="d")
        sold = Answer(409, {}, {"error": {"code": "Sold", "message": "no copy is left"}})
        results = send(batch, Scripted({"a": sold, "b": 502, "c": 503}, retry_after=0), attempts=2)
        assert str(results).splitlines() == [
            "4 requests: 0 done, 2 failed, 1 left, 1 unknown (the last 2 attempts have brought nothing)",
            "failed: a (POST A) 409 Sold: no copy is left", "unknown: b (POST A) 502", "left: c (POST A) 503",
            "failed: d (GET $b) 424",
        ]  # fmt: skip
        with pytest.raises(BatchFailed) as raised:
            results.raise_for_status()
        assert raised.value.results is results and str(raised.value) == str(results)
        assert [it.result.id for it in raised.value.errors] == ["a", "b", "c", "d"]
        assert send(posts("a"), Scripted()).raise_for_status()["a"].status == 201

    def test_of_many_only_some_are_listed(self):
        lines = str(send(posts(*map(str, range(300))), Scripted(schedule=[404]))).splitlines()
        assert len(lines) == 22 and lines[-1] == "and 280 more"

    def test_a_body_by_a_function(self):
        results = posts("a").send(Scripted({"a": Answer(201, {}, {"Id": 5})}).post)
        assert results["a"].json(lambda it: it["Id"]) == 5 and results["a"].json() == {"Id": 5}


@pytest.mark.parametrize("options, message", [
    ({"attempts": 0}, "attempts must be a whole number from 1, not 0"), ({"attempts": True}, "attempts .*, not True"),
    ({"timeout": 0}, "timeout must be a number of seconds above 0, or None, not 0"), ({"deadline": -1}, "deadline .* not -1"),
    ({"backoff": -1}, "backoff must be a number of seconds from 0, not -1"),
])  # fmt: skip
@pytest.mark.parametrize("client", [BatchClient, AsyncBatchClient])
def test_options_without_a_value(client, options, message):
    with pytest.raises(ValueError, match=message):
        client(Scripted().post, **options)


@pytest.mark.parametrize("session", [None, "https://host/odata/", object()])
def test_what_is_no_session(session):
    with pytest.raises(TypeError, match="session must be of requests or httpx, or a function, not a "):
        BatchClient(session)


def test_a_refused_batch_names_the_request():
    batch = posts("a")
    batch.get("B", id="b", after="nobody")
    for refused in (batch.check, lambda: send(batch, Scripted()), lambda: batch.send(Scripted().post)):
        with pytest.raises(Fault, match='^F40 b: "nobody" in dependsOn is unknown. UnknownName: ') as raised:
            refused()
        assert raised.value.place == "/requests/1" and str(copy.copy(raised.value)) == str(raised.value)


def test_what_a_function_has_to_return():
    with pytest.raises(TypeError, match="post must return"):
        BatchClient(lambda document, headers: 7).send(posts("a"))
