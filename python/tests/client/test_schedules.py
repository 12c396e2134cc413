"""Random batches, and services that are busy, hang up and lose answers by random schedules: what a patient client reports
of each request is what was done."""

import asyncio
from collections import Counter

import pytest
from hypothesis import event, given
from hypothesis import strategies as st

from odb_batch import Answer
from odb_batch.client import AsyncBatchClient, Batch, BatchClient
from odb_batch.testing import Scripted, batches
from support.profiles import share

IN_PROGRESS = Answer(409, {"Repeatability-Result": "rejected"})
TOO_LATE = Answer(412, {"Repeatability-Result": "rejected"})
HAPPENINGS = st.sampled_from(["answer", "answer", "hang up", "lose", 429, 503, 500, 502, 404, IN_PROGRESS, TOO_LATE])
STATUSES = st.sampled_from([200, 201, 204, 201, 200, 304, 404, 409, 408, 424, 429, 500, 502, 503, 504])
MODES = st.sampled_from(["continue", "stop"])
ONCE = ("POST", "PATCH")


@st.composite
def services(draw, repeatable):
    """A batch, a service with a script and a schedule for it, and a limit that leaves its groups whole."""
    batch = draw(batches(min_requests=1))
    requests = batch["requests"]
    script = {it["id"]: draw(st.lists(STATUSES, min_size=1, max_size=3)) for it in requests if draw(st.integers(0, 2)) == 0}
    groups = Counter(it["atomicityGroup"] for it in requests if it.get("atomicityGroup") is not None)
    schedule = draw(st.lists(HAPPENINGS, max_size=12))
    service = Scripted(script, retry_after=0, schedule=schedule, repeatable=repeatable, mode=draw(MODES))
    return batch, service, draw(st.integers(max(groups.values(), default=1), 12))


def send(service, batch, limit, **options):
    """Sends a batch, by a function or by a coroutine function."""
    mode = service._mode
    if limit % 2:
        return BatchClient(service.post, backoff=0, **options).send(batch, limit=limit, mode=mode)
    return asyncio.run(AsyncBatchClient(service.post_async, backoff=0, **options).send(batch, limit=limit, mode=mode))


def ids_of(results):
    return {it.id for it in results}


def check_reports(batch, service, results):
    """Each request is of one kind. What is reported as done was done; what has failed or is left was not, or may be repeated."""
    kinds = [ids_of(it) for it in (results.done, results.failed, results.left, results.unknown)]
    assert sum(map(len, kinds)) == len(results) and set().union(*kinds) == {it["id"] for it in batch["requests"]}
    done, failed, left, unknown = kinds
    assert all(service.performed[id] >= 1 for id in done)
    # A GET, a PUT and a DELETE may have been performed by a part that was lost, and be answered otherwise once more.
    once = {it["id"] for it in batch["requests"] if it["method"].upper() in ONCE}
    assert not any(service.performed[id] for id in (failed | left) & once)
    if not results.reason:
        assert not left
    event(f"{len(kinds[2]) > 0} left, {len(unknown) > 0} unknown")
    return once


@pytest.mark.parametrize("repeatable", [True, False, None], ids=["kept", "refused", "ignored"])
@share(3)
@given(st.data())
def test_what_is_reported_is_what_was_done(repeatable, data):
    batch, service, limit = data.draw(services(repeatable))
    results = send(service, Batch.read(batch), limit, attempts=data.draw(st.integers(1, 4)))
    once = check_reports(batch, service, results)
    # Whatever the schedule and the service: only what may be repeated is performed more than once.
    assert all(service.performed[id] <= 1 for id in once)


@share(3)
@given(st.data())
def test_the_kinds_are_those_of_the_rest(data):
    batch, service, limit = data.draw(services(True))
    results = send(service, Batch.read(batch), limit, attempts=1)
    try:
        rest = results.rest()
    except ValueError:
        return  # it refers to what has no Location
    assert [it.id for it in results.left] == [it.id for it in rest.send(Scripted().post).values()]


@share(3)
@given(st.data())
def test_a_service_that_keeps_parts_performs_each_request_once(data):
    """However often it hangs up or loses an answer, as long as it is asked often enough."""
    batch = data.draw(batches(min_requests=1))
    troubles = st.sampled_from(["answer", "hang up", "lose", 429, 503, 502, 504, IN_PROGRESS])
    schedule = data.draw(st.lists(troubles, max_size=12))
    service = Scripted(retry_after=0, schedule=schedule, repeatable=True)
    results = BatchClient(service.post, backoff=0, attempts=20).send(Batch.read(batch))
    assert results.raise_for_status() is results and len(results.done) == len(batch["requests"])
    assert service.performed == Counter(it["id"] for it in batch["requests"])
