"""Tests of lend.py: by a service that is scripted, and with random batches."""

from hypothesis import given
from hypothesis import strategies as st

from lend import lending
from odb_batch import requests
from odb_batch.client import Batch, BatchClient
from odb_batch.testing import Scripted, batches


def statuses(service):
    """What the requests of the lending are answered."""
    return [it.status for it in BatchClient(service.post, backoff=0).send(lending(42)).values()]


def test_a_lending():
    assert statuses(Scripted()) == [201, 204, 201, 200]


def test_a_book_that_is_lent():
    service = Scripted({"loan": 409})
    assert statuses(service) == [201, 424, 409, 424]
    assert len(service.documents) == 1  # a 409 stays one


def test_a_busy_service():
    service = Scripted({"loan": [503, 201]}, retry_after=0)
    assert statuses(service) == [201, 204, 201, 200]
    first, second = map(requests, service.documents)
    assert [it.id for it in second] == ["mark", "loan", "lent"]
    assert (first[1].url, second[0].url) == ("$book", "/Made('book')")


def test_a_service_that_loses_an_answer():
    service = Scripted(schedule=["lose", "hang up"], repeatable=True)
    assert statuses(service) == [201, 204, 201, 200]
    assert set(service.performed.values()) == {1}


@given(batches(), st.data())
def test_each_request_has_a_result(batch, data):
    drawn = st.sampled_from([200, 404, 429, 503])
    script = {it["id"]: data.draw(drawn) for it in batch["requests"]}
    service = Scripted(script, limit=20, retry_after=0)
    results = BatchClient(service.post, backoff=0, attempts=1).send(Batch.read(batch))
    assert results.keys() == script.keys()
    assert all(it.status in (424, 429, 503) for it in results.left)
