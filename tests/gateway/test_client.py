"""The client of the package behind a gateway: what it makes of 409, 412 and 501, and of answers that are lost."""

import email.utils
import threading
import time

import pytest

from odb_batch.client import Batch, BatchClient
from odb_batch.client import _retry
from support.gateways import usual, waiting


@pytest.fixture
def gateway(upstream, front, tmp_path):
    """A gateway with a journal, and the service behind it, which answers by a function."""

    def start(answer=usual, journal=True):
        service = upstream(answer)
        words = ("--journal", str(tmp_path), "--one-client") if journal else ()
        return front("--upstream", service.url, *words), service

    return start


def posting(gateway, troubles):
    """Posts to a gateway, whose first answers are lost as a list says."""

    def post(document, headers):
        answer = gateway.ask("POST", "/odata/$batch", document, headers)
        if troubles and troubles.pop(0) == "lose":
            raise ConnectionError("the answer is lost")
        return answer

    return post


def posts(count):
    batch = Batch()
    for number in range(count):
        batch.post(f"Orders{number}", {"Number": number})
    return batch


@pytest.mark.parametrize("troubles", [["lose"] * 2, ["answer", "lose", "lose", "answer", "lose"]])
def test_each_request_is_sent_once(gateway, troubles):
    it, service = gateway()
    results = BatchClient(posting(it, troubles), backoff=0).send(posts(7), limit=2)
    assert len(results.raise_for_status().done) == 7
    assert sorted(service.paths) == [f"/odata/Orders{number}" for number in range(7)]


def test_a_gateway_without_a_journal(gateway):
    it, service = gateway(journal=False)
    results = BatchClient(posting(it, ["answer", "lose"]), backoff=0).send(posts(3), limit=2)
    assert [len(results.done), len(results.unknown), len(service.paths)] == [1, 2, 3]


def test_a_batch_that_is_still_performed(gateway):
    """The first answer does not come in time, so the client posts the part again, which is 409 until it is done."""
    event, statuses = threading.Event(), []
    it, service = gateway(waiting(event))
    ask = lambda document, headers: it.ask("POST", "/odata/$batch", document, headers)

    def post(document, headers):
        if b"slow" in document and not statuses:
            threading.Thread(target=ask, args=(document, headers), daemon=True).start()
            while not service.seen:
                time.sleep(0.01)
            statuses.append(0)
            raise TimeoutError
        answer = ask(document, headers)
        statuses.append(answer[0])
        if answer[0] == 409:
            event.set()
        return answer

    batch = Batch()
    batch.post("slow", {})
    results = BatchClient(post, backoff=0.1, attempts=50).send(batch)
    assert len(results.raise_for_status().done) == 1 and 409 in statuses and len(service.seen) == 1


def test_a_clock_that_is_days_behind(gateway, monkeypatch):
    it, service = gateway()
    late = email.utils.formatdate(time.time() - 200_000, usegmt=True)
    monkeypatch.setattr(_retry.email.utils, "formatdate", lambda **options: late)
    results = BatchClient(posting(it, []), backoff=0).send(posts(2), limit=1)
    assert [it.status for it in results.values()] == [412, 424] and service.seen == []
    assert results.reason == "a part was answered 412 as a whole" and len(results.left) == 1
