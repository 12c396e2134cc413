"""What the tests share of batches that are performed by a function: a batch, both drivers, and a database."""

import asyncio
import contextlib
import json
import threading

from odb_batch import Answer, perform, perform_async

GROUP = {
    "requests": [
        {"id": "x", "method": "post", "url": "X", "body": 1},
        {"id": "a", "atomicityGroup": "g", "method": "post", "url": "A", "body": 1},
        {"id": "b", "atomicityGroup": "g", "method": "post", "url": "B", "body": 1, "dependsOn": ["x"]},
        {"id": "c", "method": "get", "url": "C", "dependsOn": ["g"]},
    ]
}
PLACES = Answer(201, {"Location": "Made(1)"})


def in_threads(batch, send, **options):
    return perform(batch, send, **options)


def in_tasks(batch, send, **options):
    async def send_soon(request):
        await asyncio.sleep(0)
        return send(request)

    return asyncio.run(perform_async(batch, send_soon, **{"width": 1, **options}))


def gets(*ids, **more):
    return {"requests": [{"id": id, "method": "get", "url": "Books", **more} for id in ids]}


def shown(response):
    return {it["id"]: it["status"] for it in json.loads(response)["responses"]}


def answering(statuses, log=None):
    """A function that answers by the statuses of ids, or else 200."""

    def send(request):
        if log is not None:
            log.append(request.id)
        return (statuses.get(request.id, 200),)

    return send


class Ledger:
    """A database that one may write at a time: which groups it has committed, and which it has rolled back."""

    def __init__(self, fails=()):
        self.committed, self.rolled_back, self.fails = [], [], fails
        self.writer = threading.Lock()

    @contextlib.contextmanager
    def transaction(self, group):
        assert self.writer.acquire(timeout=60), "deadlock"
        try:
            yield
            if group in self.fails:
                raise RuntimeError("the commit failed")
            self.committed.append(group)
        except BaseException:
            self.rolled_back.append(group)
            raise
        finally:
            self.writer.release()


class Memory:
    """A journal in memory, which notes how many of its events are synced."""

    def __init__(self, events=()):
        self.events, self.written, self.synced = tuple(events), list(events), len(events)

    def write(self, event):
        self.written.append(event)

    async def sync(self):
        await asyncio.sleep(0)
        self.synced = len(self.written)


class Clock:
    """The clock of the running loop, which an hour later shows what is due then."""

    def __init__(self):
        loop, self.is_later = asyncio.get_running_loop(), False
        clock = loop.time
        loop.time = lambda: clock() + 3600 * self.is_later
