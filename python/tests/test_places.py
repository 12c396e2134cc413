"""Places for what is on its way at once: who waits for one is not started before, nor after a stop."""

import asyncio
import contextlib
import json
import threading
from concurrent.futures import ThreadPoolExecutor

import pytest

from odb_batch import PreparedGroup, Refusal, Report, Start, perform, perform_async
from odb_batch.driver.unit_tasks import Places
from support.performing import Memory, gets, shown

# A defect has some of them wait for ever.
pytestmark = pytest.mark.seconds(60)

EIGHT = {"requests": [{"id": f"r{k}", "method": "delete", "url": f"Books({k})"} for k in range(8)]}
# How long a place is waited for where it has to be free in the end: no test waits for it.
LONG = 60


def over(batch, send, **options):
    return shown(asyncio.run(perform_async(batch, send, **{"width": 8, "base": "http://host/", **options})))


class TestStop:
    @pytest.mark.parametrize("places", [asyncio.Semaphore, Places, lambda count: lambda _: Places(count)])
    def test_what_waits_for_a_place_does_not_start(self, places):
        stopped, sent = threading.Event(), []

        async def send(request):
            sent.append(request.id)
            stopped.set()
            return (204,)

        async def main():
            gate = places(1)
            shared = gate(None) if callable(gate) else gate
            return await perform_async(
                EIGHT, send, width=8, gate=(lambda _: shared) if callable(gate) else gate, stop=stopped.is_set
            )

        found = shown(asyncio.run(main()))
        assert sent == ["r0"] and sorted(found.values()) == [204, *[424] * 7]

    def test_what_waits_for_a_thread_does_not_start(self):
        stopped, sent = threading.Event(), []

        def send(request):
            sent.append(request.id)
            stopped.set()
            return (204,)

        with ThreadPoolExecutor(1) as pool:
            found = shown(perform(EIGHT, send, width=8, pool=pool, stop=stopped.is_set))
        assert sent == ["r0"] and sorted(found.values()) == [204, *[424] * 7]

    def test_what_waits_for_a_place_does_not_start_after_an_error_that_stops_the_batch(self):
        sent = []

        async def send(request):
            sent.append(request.id)
            return (409,)

        found = over(EIGHT, send, mode="stop", gate=Places(1))
        assert sent == ["r0"] and sorted(found.values()) == [409, *[424] * 7]

    def test_a_group_that_waits_does_not_begin(self):
        stopped, begun = threading.Event(), []
        group = {**EIGHT["requests"][1], "atomicityGroup": "g"}

        async def send(request):
            stopped.set()
            return (204,)

        @contextlib.asynccontextmanager
        async def transaction(name):
            begun.append(name)
            yield

        batch = {"requests": [EIGHT["requests"][0], group, {**group, "id": "x"}]}
        found = over(batch, send, gate=Places(1), stop=stopped.is_set, transaction=transaction)
        assert (found, begun) == ({"r0": 204, "r1": 424, "x": 424}, [])


class TestJournals:
    def test_what_waits_for_a_place_has_not_started(self):
        """So it is sent after the end of a process, not lost."""

        async def main():
            journal, begun = Memory(), asyncio.Event()

            async def hang(request):
                begun.set()
                await asyncio.Event().wait()

            task = asyncio.ensure_future(perform_async(EIGHT, hang, width=8, gate=Places(1), journal=journal))
            await begun.wait()
            kept = tuple(journal.written)
            task.cancel()
            await asyncio.wait([task])
            return kept

        kept, sent = asyncio.run(main()), []
        assert kept == (Start("r0"),)

        async def send(request):
            sent.append(request.id)
            return (204,)

        found = over(EIGHT, send, journal=Memory(kept))
        assert found == {"r0": 500, **dict.fromkeys(sent, 204)} and len(sent) == 7

    @pytest.mark.parametrize("mode", ["continue", "stop"])
    def test_what_was_not_sent_is_answered_the_same_when_it_goes_on(self, mode):
        """After an error, a stop, or no place in time."""
        for stop in (None, threading.Event()):
            journal = Memory()

            async def send(request):
                if stop is not None:
                    stop.set()
                return (409,)

            @contextlib.asynccontextmanager
            async def gate(request):
                if request.id == "r3":
                    raise Refusal(503, "Busy", "no place")
                async with places:
                    yield

            places = Places(1)
            options = {"mode": mode, "width": 8, "base": "http://host/"}
            asked = stop.is_set if stop is not None else None
            first = asyncio.run(perform_async(EIGHT, send, gate=gate, stop=asked, journal=journal, **options))
            again = asyncio.run(perform_async(EIGHT, None, journal=Memory(journal.written), **options))
            assert again == first

    def test_a_get_that_is_not_sent_again_is_answered_the_same(self):
        """One that was out when a process ended, and is stopped before it has a place."""
        journal = Memory([Start("a")])
        first = asyncio.run(perform_async(gets("a"), None, gate=Places(1), stop=lambda: True, journal=journal))
        again = asyncio.run(perform_async(gets("a"), None, journal=Memory(journal.written)))
        assert (shown(first), again) == ({"a": 424}, first)

    def test_a_request_without_a_place_in_time_is_reported(self):
        journal = Memory()

        def gate(request):
            raise Refusal(503, "Busy", "no place")

        assert over(gets("a"), None, gate=gate, journal=journal) == {"a": 503}
        assert [type(it) for it in journal.written] == [Start, Report]


class TestGates:
    def test_is_asked_for_each_request_as_it_is_sent(self):
        seen = []

        def gate(request):
            seen.append((request.method, request.url))
            return Places(1)

        async def send(request):
            return 201, {"Location": "Books(7)"}

        batch = {"requests": [{"id": "a", "method": "post", "url": "Books"},
                              {"id": "b", "method": "get", "url": "$a/Loans", "dependsOn": ["a"]},
                              {"id": "c", "method": "get", "url": "http://evil/"}]}  # fmt: skip
        assert over(batch, send, gate=gate) == {"a": 201, "b": 201, "c": 404}
        assert seen == [("POST", "http://host/Books"), ("GET", "http://host/Books(7)/Loans")]

    def test_is_asked_for_the_first_request_of_a_transaction(self):
        seen, sent = [], []

        def gate(request):
            seen.append(request.id)
            return Places(1)

        async def send(request):
            sent.append(request.id)
            return (204,)

        @contextlib.asynccontextmanager
        async def transaction(name):
            yield

        batch = {"requests": [{**it, "atomicityGroup": "g"} for it in EIGHT["requests"][:3]]}
        assert set(over(batch, send, gate=gate, transaction=transaction).values()) == {204}
        assert (seen, sent) == (["r0"], ["r0", "r1", "r2"])

    def test_is_asked_for_a_group_that_is_sent_as_one(self):
        seen = []
        batch = {"requests": [{**it, "atomicityGroup": "g"} for it in EIGHT["requests"][:2]]}

        async def send_group(group):
            return [(204,), (204,)]

        def gate(group):
            seen.append(group)
            return Places(1)

        assert over(batch, None, groups=send_group, gate=gate) == {"r0": 204, "r1": 204}
        assert isinstance(seen[0], PreparedGroup) and seen[0].name == "g"

        def busy(group):
            raise Refusal(503, "Busy", "no place")

        assert over(batch, None, groups=send_group, gate=busy) == {"r0": 503, "r1": 503}

    def test_a_slow_service_does_not_starve_another_one(self):
        """With places of its own for each, as a gateway has them."""

        async def main():
            places, answered = {"slow": Places(1, 0.01), "fast": Places(1, LONG)}, asyncio.Event()

            async def send(request):
                if "slow" in request.url:
                    await answered.wait()
                elif request.id == "f1":
                    answered.set()
                return (200,)

            urls = {"s0": "slow", "s1": "slow", "f0": "fast", "f1": "fast"}
            batch = {"requests": [{"id": id, "method": "get", "url": url} for id, url in urls.items()]}

            def gate(request):
                return places[request.url.rpartition("/")[2]]

            done = asyncio.ensure_future(perform_async(batch, send, width=4, base="http://host/", gate=gate))
            await answered.wait()
            return json.loads(await done)["responses"]

        found = {it["id"]: it for it in asyncio.run(main())}
        assert {id: it["status"] for id, it in found.items() if id != "s1"} == {"s0": 200, "f0": 200, "f1": 200}
        assert found["s1"]["status"] in (200, 503)

    def test_a_place_is_waited_for_no_longer_than_it_may(self):
        async def main():
            places = Places(1, 0.01)

            async def send(request):
                given_up = False
                while not given_up:
                    await asyncio.sleep(0)
                    seen.append(places.waiting)
                    given_up = 1 in seen and seen[-1] == 0
                return (200,)

            seen = []
            return json.loads(await perform_async(gets("a", "b"), send, gate=places))["responses"]

        first, second = asyncio.run(main())
        assert (first["status"], second["status"]) == (200, 503)
        assert second["body"]["error"]["code"] == "Busy" and second["headers"]["retry-after"] == "1"


class TestPlaces:
    def test_are_handed_on_in_order(self):
        async def main():
            places, order = Places(1), []

            async def hold(name):
                async with places:
                    order.append(name)
                    await asyncio.sleep(0)

            await asyncio.gather(*map(hold, "abcd"))
            return order, places.waiting

        assert asyncio.run(main()) == (list("abcd"), 0)

    def test_none_is_lost_by_who_is_cancelled(self):
        """Before its turn, and at the moment of its turn."""

        async def main():
            places = Places(1)

            async def hold():
                async with places:
                    await asyncio.sleep(0)

            for is_late in (False, True):
                async with places:
                    waiting = asyncio.ensure_future(hold())
                    await asyncio.sleep(0)
                    if not is_late:
                        waiting.cancel()
                        await asyncio.wait([waiting])
                waiting.cancel()
                await asyncio.wait([waiting])
                free = asyncio.ensure_future(hold())
                for _ in range(5):
                    await asyncio.sleep(0)
                assert free.done()

        asyncio.run(main())
