"""Under ASGI: a batch whose client leaves, or whose task a server cancels, at each turn of the loop: nothing is left behind."""

import asyncio
import contextlib
import itertools
import json

import pytest

from odb_batch import asgi

# A defect has some of them wait for ever.
pytestmark = pytest.mark.seconds(60)

REQUESTS = [
    {"id": "a", "method": "get", "url": "a"},
    {"id": "b", "method": "post", "url": "b", "atomicityGroup": "g", "body": {}},
    {"id": "c", "method": "delete", "url": "c", "atomicityGroup": "g", "dependsOn": ["b"]},
    {"id": "d", "method": "get", "url": "d"},
]
SCOPE = {
    "type": "http", "method": "POST", "path": "/$batch",
    "headers": [(b"content-type", b"application/json"), (b"host", b"host"), (b"prefer", b"continue-on-error")],
}  # fmt: skip
AT_ONCE = 2


class Service:
    """An application with a batch, each of whose calls takes a turn of the loop."""

    def __init__(self):
        self.running = self.opened = 0
        self.ends, self.sent = [], []
        self.middleware = asgi.BatchMiddleware(self.app, transaction=self.transaction, at_once=AT_ONCE)
        self.gone = asyncio.Event()
        text = json.dumps({"requests": REQUESTS}).encode()
        self.incoming = [
            {"type": "http.request", "body": text[:9], "more_body": True}, {"type": "http.request", "body": text[9:]},
        ]  # fmt: skip

    async def app(self, scope, receive, send):
        self.running += 1
        try:
            await asyncio.sleep(0)
            await receive()
            await send({"type": "http.response.start", "status": 200, "headers": [(b"content-type", b"text/plain")]})
            await send({"type": "http.response.body", "body": b"x", "more_body": True})
            await asyncio.sleep(0)
            await send({"type": "http.response.body", "body": b"y"})
        finally:
            self.running -= 1

    @contextlib.asynccontextmanager
    async def transaction(self, name):
        await asyncio.sleep(0)
        self.opened += 1
        try:
            yield
            await asyncio.sleep(0)
        except BaseException:
            await asyncio.sleep(0)
            self.ends.append("rollback")
            raise
        self.ends.append("commit")

    async def receive(self):
        await asyncio.sleep(0)
        if not self.incoming:
            await self.gone.wait()
        if self.gone.is_set():
            return {"type": "http.disconnect"}
        return self.incoming.pop(0)

    async def send(self, message):
        await asyncio.sleep(0)
        self.sent.append(message)

    def require_nothing_left(self):
        places = self.middleware._gate()
        assert [places.take() for _ in range(AT_ONCE + 1)] == [True] * AT_ONCE + [False] and places.waiting == 0
        assert self.middleware.budget.used == 0
        assert self.running == 0 and len(self.ends) == self.opened
        assert len(asyncio.all_tasks()) == 1


async def leave_after(turns, leave):
    """Has a client leave after so many turns of the loop; returns whether its batch was over before."""
    service = Service()
    task = asyncio.ensure_future(service.middleware(SCOPE, service.receive, service.send))
    for _ in range(turns):
        await asyncio.sleep(0)
    is_over = task.done()
    leave(service, task)
    await asyncio.wait([task])
    await asyncio.sleep(0)  # the end of what was cancelled
    service.require_nothing_left()
    return is_over, task, service


def cancel(service, task):
    task.cancel()


def disconnect(service, task):
    service.gone.set()


def test_a_batch_that_is_cancelled_leaves_nothing():
    """As by a server that ends the task of a client that has gone. An open transaction is rolled back, however late."""
    for turns in itertools.count():
        is_over, task, service = asyncio.run(leave_after(turns, cancel))
        if is_over:
            break
        assert task.cancelled() or len(service.sent) == 2
    assert turns > 10 and service.ends == ["commit"]


def test_a_batch_whose_client_disconnects_is_answered_and_leaves_nothing():
    for turns in itertools.count():
        is_over, task, service = asyncio.run(leave_after(turns, disconnect))
        assert task.exception() is None and len(service.sent) == 2
        if is_over:
            break
    assert turns > 10 and service.ends == ["commit"]
