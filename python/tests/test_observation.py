"""What is seen of the requests of a batch in front of an application: a line of the log for each, and the hook."""

import asyncio
import logging
import re

import pytest

from odb_batch import Refusal
from support.applications import OverAsgi, batch


@pytest.fixture
def lines(caplog):
    """The lines of the requests, in the order of their ends, without the numbers of batches and times."""
    caplog.set_level(logging.INFO, "odb_batch.requests")

    def shown():
        found = [re.fullmatch(r"batch (\d+): (.*) \d+\.\d ms", record.getMessage()) for record in caplog.records]
        return [match.group(1, 2) for match in found if match]

    return shown


def test_each_request_has_a_line(service, lines):
    batch(service, {"url": "Books(1)?secret=1"}, {"method": "post", "url": "missing"})
    batch(service, {"url": "A%20B"}, {"url": "/elsewhere"})
    (one, first), (same, second), (other, third) = sorted(lines(), key=lambda line: (int(line[0]), line[1]))
    assert [first, second] == ["GET /odata/Books(1) 200", "POST /odata/missing 404"] and third == "GET /odata/A%20B 200"
    assert one == same and int(other) > int(one)


def test_a_request_that_fails_has_a_line(service, lines):
    assert batch(service, {"url": "fail"})["r0"]["status"] == 500
    assert [line for _, line in lines()] == ["GET /odata/fail 500"]


def test_a_request_that_is_cancelled_has_a_line(lines):
    class Hanging(OverAsgi):
        async def app(self, scope, receive, send):
            await asyncio.Event().wait()

    assert batch(Hanging("/odata/$batch", timeout=0.01), {"url": "a"})["r0"]["status"] == 504
    assert [line for _, line in lines()] == ["GET /odata/a 504"]


def test_nobody_who_reads_no_log_pays_for_it(service, caplog, monkeypatch):
    caplog.set_level(logging.WARNING, "odb_batch")
    monkeypatch.setattr("odb_batch.http.observation.ObservedRequest", None)
    assert batch(service, {"url": "a"})["r0"]["status"] == 200


def test_a_hook_sees_each_request_and_its_answer(over):
    seen = []

    def on_request(request):
        seen.append((request.id, request.url, request.headers["accept-language"]))
        return lambda answer: seen.append((request.id, answer.status, answer.body))

    service = over("/odata/$batch", on_request=on_request)
    batch(service, {"url": "text", "headers": {"Accept-Language": "de"}})
    assert seen == [("r0", "http://host/odata/text", "de"), ("r0", 200, "Grüße".encode("latin-1"))]


def test_a_hook_that_returns_nothing(over):
    seen = []
    assert batch(over("/odata/$batch", on_request=seen.append), {"url": "a"})["r0"]["status"] == 200
    assert [request.id for request in seen] == ["r0"]


def test_a_hook_sees_what_stands_for_an_exception(over):
    seen = []
    service = over("/odata/$batch", on_request=lambda request: seen.append)
    batch(service, {"url": "fail"})
    assert [answer.status for answer in seen] == [500]


def test_what_a_hook_raises_before_a_request_is_its_answer(over):
    def on_request(request):
        raise Refusal(403, "Denied", "not here")

    service = over("/odata/$batch", on_request=on_request)
    assert batch(service, {"url": "a"})["r0"]["status"] == 403 and service.seen == []


def test_what_a_hook_raises_after_a_request_changes_nothing(over, caplog):
    def fail(answer):
        raise RuntimeError("no span")

    found = batch(over("/odata/$batch", on_request=lambda request: fail), {"method": "post", "url": "a"})
    assert found["r0"]["status"] == 200 and "the hook after a request failed" in caplog.text
