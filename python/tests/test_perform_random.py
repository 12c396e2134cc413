"""Random batches with random outcomes: what is performed, in threads and in tasks, is what `replay` answers."""

import asyncio
import contextlib
import json
import threading

from hypothesis import given
from hypothesis import strategies as st

from odb_batch import Answer, match, perform, perform_async, replay
from support.profiles import share
from support.replays import MODES, placed, responses_of
from support.rules import front
from support.strategies import recorded_batches

class Service:
    """Answers by outcomes, and keeps which groups are committed, and how many units are performed at once."""

    def __init__(self, batch, outcomes):
        self.requests = {it["id"]: it for it in batch["requests"]}
        self.outcomes = {it["id"]: it for it in outcomes}
        self.committed, self.sent = [], []
        self.now, self.most, self.lock = 0, 0, threading.Lock()

    def answer(self, request):
        """What a request is answered; its references are replaced."""
        given, outcome = self.requests[request.id], self.outcomes[request.id]
        self.sent.append(request.id)
        _, reference = front(given["url"])
        assert reference is None or f"Made('{reference}')" in request.url
        assert request.method == given["method"].upper() and request.group == given.get("atomicityGroup")
        body = outcome.get("body")
        wire = None if body is None else json.dumps(body).encode()
        return Answer(outcome["status"], outcome.get("headers") or {}, wire)

    def count(self, more):
        with self.lock:
            self.now += more
            self.most = max(self.most, self.now)

    def send(self, request):
        self.count(+1)
        try:
            return self.answer(request)
        finally:
            self.count(-1)

    async def send_async(self, request):
        self.count(+1)
        try:
            await asyncio.sleep(0)
            return self.answer(request)
        finally:
            self.count(-1)

    @contextlib.contextmanager
    def transaction(self, group):
        yield
        self.committed.append(group)

    @contextlib.asynccontextmanager
    async def transaction_async(self, group):
        await asyncio.sleep(0)
        yield
        self.committed.append(group)


def in_threads(batch, service, mode, width):
    return perform(batch, service.send, mode=mode, width=width, transaction=service.transaction)


def in_tasks(batch, service, mode, width):
    return asyncio.run(
        perform_async(batch, service.send_async, mode=mode, width=width, transaction=service.transaction_async)
    )


def judge(batch, service, response, width):
    """What holds of every run: some run answers its statuses, it sends nothing twice, keeps to the width, and groups are whole."""
    statuses = match(batch, response, strict=True)
    assert len(set(service.sent)) == len(service.sent) and service.most <= width
    for it in batch["requests"]:
        is_success = 200 <= statuses[it["id"]] <= 299
        assert it["id"] in service.sent or statuses[it["id"]] == 424
        if "atomicityGroup" in it:
            assert is_success == (it["atomicityGroup"] in service.committed)
    assert len(set(service.committed)) == len(service.committed)


@share(1)
@given(recorded_batches(), MODES)
def test_one_after_another_is_a_replay(recorded, mode):
    batch, outcomes = recorded[0], placed(recorded[1])
    wanted = responses_of(replay(batch, {"outcomes": outcomes}, order="first", mode=mode, width=1).response)
    for performed in (in_threads, in_tasks):
        service = Service(batch, outcomes)
        response = performed(batch, service, mode, 1)
        judge(batch, service, response, 1)
        assert responses_of(response) == wanted


@share(1)
@given(recorded_batches(), MODES, st.integers(2, 4))
def test_side_by_side_is_a_replay(recorded, mode, width):
    batch, outcomes = recorded[0], placed(recorded[1])
    wanted = responses_of(replay(batch, {"outcomes": outcomes}, order="first", mode=mode, width=1).response)
    for performed in (in_threads, in_tasks):
        service = Service(batch, outcomes)
        response = performed(batch, service, mode, width)
        judge(batch, service, response, width)
        if mode == "continue":
            assert responses_of(response) == wanted
