"""Under ASGI: answers that do not end, clients that leave, deadlines, and transactions that would block the loop."""

import asyncio
import contextlib
import functools
import json

import pytest

from odb_batch import asgi
from support.applications import CONTINUE, OverAsgi, batch
from support.performing import Clock

# A defect has some of them wait for ever.
pytestmark = pytest.mark.seconds(60)

# Parts of an answer that stands for one without an end: a middleware that does not end it fails its test, and does not hang.
MANY = 100_000
START = {"type": "http.response.start", "status": 200, "headers": [(b"content-type", b"text/plain")]}


def over(app, **options):
    service = OverAsgi("/odata/$batch", **options)
    service.middleware.app = app
    return service


async def plain(send, body=b"plain"):
    await send(START)
    await send({"type": "http.response.body", "body": body})


async def flood(send, catch=()):
    """Sends parts without an end, and goes on after exceptions that it catches."""
    await send(START)
    for _ in range(MANY):
        with contextlib.suppress(catch):
            await send({"type": "http.response.body", "body": b"x" * 100, "more_body": True})


class TestAnswersThatDoNotEnd:
    @pytest.mark.parametrize("catch", [(), Exception])
    @pytest.mark.parametrize("is_in_task", [False, True])
    def test_a_get_is_ended_and_answered_507(self, catch, is_in_task):
        """Also one that catches the exception of send, or sends in another task; its place is free then."""
        ended = []

        async def app(scope, receive, send):
            if scope["path"] == "/odata/price":
                return await plain(send)
            try:
                await (asyncio.ensure_future(flood(send, catch)) if is_in_task else flood(send, catch))
                ended.append("by nobody")
            finally:
                ended.append(scope["path"])

        service = over(app, at_once=1, max_size=1000, timeout=None)
        found = batch(service, {"url": "a"}, {"url": "b"}, {"url": "price"})
        assert {id: it["status"] for id, it in found.items()} == {"r0": 507, "r1": 507, "r2": 200}
        assert ended == ["/odata/a", "/odata/b"]

    def test_an_application_is_told_by_an_exception_first(self):
        """As by a server whose client has gone."""
        told = []

        async def app(scope, receive, send):
            try:
                await flood(send)
            except OSError:
                told.append(scope["path"])
                raise

        assert batch(over(app, max_size=1000), {"url": "a"})["r0"]["status"] == 507 and told == ["/odata/a"]

    @pytest.mark.parametrize("method, part", [("post", b"x" * 100), ("get", b"")])
    def test_one_that_has_room_is_ended_by_the_timeout(self, method, part):
        async def app(scope, receive, send):
            await send(START)
            for _ in range(MANY):  # this leaves no turn to others by itself
                await send({"type": "http.response.body", "body": part, "more_body": True})

        found = batch(over(app, max_size=1000, timeout=0.05), {"url": "a", "method": method})
        assert found["r0"]["status"] == 504

    def test_a_timeout_holds_without_an_option(self):
        assert asgi.BatchMiddleware(None).timeout == 30
        with pytest.raises(ValueError, match="timeout must be above 0, or None, not 0"):
            asgi.BatchMiddleware(None, timeout=0)

    def test_a_long_answer_that_ends_is_no_exception_for_the_application(self):
        seen = []

        async def app(scope, receive, send):
            await plain(send, b"x" * 2000)
            seen.append("went on")

        assert batch(over(app, max_size=1000), {"url": "a"})["r0"]["status"] == 507 and seen == ["went on"]

    def test_memory_is_given_back(self):
        async def app(scope, receive, send):
            await {"/odata/flood": flood}.get(scope["path"], plain)(send)

        service = over(app, max_size=1000)
        batch(service, {"url": "flood"}, {"url": "a"}, {"url": "flood", "method": "post"}, {"url": "a", "method": "post"},
              headers={"Content-Type": "application/json"})  # fmt: skip
        assert service.middleware.budget.used == 0


class TestMemory:
    def test_answers_on_their_way_take_no_more_than_the_room(self):
        """Eight at once, each with a part of a body that would fit alone."""
        most = []

        async def app(scope, receive, send):
            await send(START)
            for k in range(10):
                await send({"type": "http.response.body", "body": b"x" * 90, "more_body": True})
                most.append(service.middleware.budget.used)
                await asyncio.sleep(0)
            await send({"type": "http.response.body"})

        service = over(app, max_size=1000)
        found = batch(service, *[{"url": "a"}] * 8)
        assert sorted(it["status"] for it in found.values()) == [200] + [507] * 7
        assert 900 <= max(most) <= 2000  # the batch has as many bytes as it may, and its answers

    def test_a_batch_without_memory_is_answered_503(self):
        service = over(None, max_size=100, memory=100)
        service.middleware.budget.take(90)
        status, headers, text = service.ask("POST", "/odata/$batch", CONTINUE, b'{"requests":[]}')
        assert (status, json.loads(text)["error"]["code"], headers["retry-after"]) == (503, "Busy", "1")
        assert service.middleware.budget.used == 90

    def test_what_fails_after_its_answer_gives_its_memory_back(self):
        async def app(scope, receive, send):
            await plain(send, b"x" * 150)
            raise RuntimeError("as planned")

        service = over(app, max_size=300, width=1)
        found = batch(service, *[{"url": "a"}] * 3)
        assert [it["status"] for it in found.values()] == [500, 500, 500]

    def test_half_an_answer_gives_its_memory_back(self):
        async def app(scope, receive, send):
            await send(START)
            await send({"type": "http.response.body", "body": b"x" * 150, "more_body": True})

        found = batch(over(app, max_size=300, width=1), *[{"url": "a"}] * 3)
        assert [it["status"] for it in found.values()] == [500, 500, 500]

    def test_is_held_until_the_answer_is_sent(self):
        async def main():
            used = []

            async def app(scope, receive, send):
                await plain(send, b"x" * 300)

            async def send(message):
                used.append(middleware.budget.used)

            middleware = asgi.BatchMiddleware(app)
            body = json.dumps({"requests": [{"id": "a", "method": "get", "url": "a"}]}).encode()
            await middleware(scope_of(), receiver(body), send)
            return used, middleware.budget.used

        used, left = asyncio.run(main())
        assert min(used) > 300 and left == 0


def scope_of():
    headers = [(b"content-type", b"application/json"), (b"host", b"host"), (b"prefer", b"continue-on-error")]
    return {"type": "http", "method": "POST", "path": "/$batch", "headers": headers}


def receiver(body, gone=None):
    """A function that receives a body, and then waits until an event says that the client has gone."""
    incoming = [{"type": "http.request", "body": body}]

    async def receive():
        if incoming:
            return incoming.pop()
        await (gone or asyncio.Event()).wait()
        return {"type": "http.disconnect"}

    return receive


class TestClientsThatLeave:
    def test_nothing_more_starts(self):
        async def main():
            gone, seen, sent = asyncio.Event(), [], []

            async def app(scope, receive, send):
                seen.append(scope["path"])
                gone.set()
                while len(asyncio.all_tasks()) > 2:  # this one and the batch: the client was noticed
                    await asyncio.sleep(0)
                await plain(send)

            async def send(message):
                sent.append(message)

            requests = [{"id": str(k), "method": "delete", "url": f"Books({k})"} for k in range(6)]
            middleware = asgi.BatchMiddleware(app, width=1)
            await middleware(scope_of(), receiver(json.dumps({"requests": requests}).encode(), gone), send)
            return seen, [it["status"] for it in json.loads(sent[1]["body"])["responses"]]

        assert asyncio.run(main()) == (["/Books(0)"], [200, *[424] * 5])

    def test_nobody_waits_for_one_after_its_batch(self):
        async def main():
            async def send(message):
                pass

            await asgi.BatchMiddleware(None)(scope_of(), receiver(b'{"requests":[]}'), send)
            await asyncio.sleep(0)
            return len(asyncio.all_tasks())

        assert asyncio.run(main()) == 1

    def test_a_server_that_does_not_say_it(self, caplog):
        """The batch is performed as before."""

        async def main():
            async def app(scope, receive, send):
                await plain(send)

            async def send(message):
                sent.append(message)

            incoming = [{"type": "http.request", "body": b'{"requests":[{"id":"a","method":"get","url":"a"}]}'}]

            async def receive():
                return incoming.pop()

            sent = []
            await asgi.BatchMiddleware(app)(scope_of(), receive, send)
            return sent[1]["body"]

        assert b'"status":200' in asyncio.run(main()) and "does not say whether" in caplog.text


class TestBatchesThatDoNotCome:
    def test_are_waited_for_no_longer_than_they_may(self):
        async def main():
            clock, sent = Clock(), []

            async def receive():
                if not clock.is_later:
                    clock.is_later = True
                    return {"type": "http.request", "body": b"{", "more_body": True}
                await asyncio.Event().wait()

            async def send(message):
                sent.append(message)

            middleware = asgi.BatchMiddleware(None)
            await middleware(scope_of(), receive, send)
            return sent[0]["status"], middleware.budget.used

        assert asyncio.run(main()) == (408, 0)


class TestDeadlines:
    def test_a_batch_that_takes_too_long(self):
        async def app(scope, receive, send):
            await asyncio.Event().wait()

        found = batch(over(app, deadline=0.05, width=1, timeout=None), {"url": "a"}, {"url": "b"})
        assert sorted(it["status"] for it in found.values()) in ([424, 504], [424, 424])

    def test_who_waits_too_long_for_a_place_is_busy(self):
        async def app(scope, receive, send):
            [places] = service.middleware._places.values()
            try:
                await asyncio.Event().wait()
            finally:
                while places.waiting:  # it holds its place until the other one has given up
                    await asyncio.sleep(0)

        service = over(app, at_once=1, timeout=0.05)
        found = batch(service, {"url": "a"}, {"url": "b"})
        assert [it["status"] for it in found.values()] == [504, 503]
        assert found["r1"]["body"]["error"]["code"] == "Busy" and found["r1"]["headers"]["retry-after"] == "1"


@contextlib.contextmanager
def blocking(name):
    yield


@contextlib.asynccontextmanager
async def group(name, using=None):
    yield


class Store:
    @contextlib.contextmanager
    def group(self, name):
        yield


class Manager:
    def __init__(self, name):
        pass

    def __enter__(self):
        pass

    def __exit__(self, *_):
        pass


class TestTransactions:
    @pytest.mark.parametrize("transaction", [blocking, functools.partial(blocking), Store().group, Manager])
    def test_one_that_is_not_asynchronous_is_refused_at_the_start(self, transaction):
        with pytest.raises(ValueError, match="@contextlib.asynccontextmanager above `async def group"):
            asgi.BatchMiddleware(None, transaction=transaction)

    def test_one_of_which_that_shows_late_fails_its_group(self, caplog):
        async def app(scope, receive, send):
            pytest.fail("sent")

        one = {"url": "a", "method": "post", "atomicityGroup": "g"}
        found = batch(over(app, transaction=lambda name: blocking(name)), one)
        assert found["r0"]["status"] == 500 and "@contextlib.asynccontextmanager" in caplog.text

    @pytest.mark.parametrize("transaction", [group, functools.partial(group, using="other"), lambda name: group(name)])
    def test_an_asynchronous_one_is_taken(self, transaction):
        async def app(scope, receive, send):
            await plain(send)

        one = {"url": "a", "method": "post", "atomicityGroup": "g"}
        assert batch(over(app, transaction=transaction), one)["r0"]["status"] == 200
