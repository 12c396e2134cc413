"""A deadline for a whole batch: nothing more starts, and what runs is answered 504."""

import asyncio
import contextlib
import threading
from concurrent.futures import ThreadPoolExecutor

import pytest

from odb_batch import Stop, perform, perform_async
from odb_batch.driver import threads
from odb_batch.driver.task_options import Deadline
from odb_batch.driver.unit_tasks import Places, Watch
from support.performing import Clock, Ledger, Memory, gets, shown

# A defect has some of them wait for ever.
pytestmark = pytest.mark.seconds(60)


def over(batch, **options):
    """Performs a batch whose requests have no answer, and whose deadline passes once the first is sent."""

    async def main():
        clock = Clock()

        async def hang(request):
            clock.is_later = True
            await asyncio.Event().wait()

        return await perform_async(batch, hang, **{"deadline": 600, "base": "http://host/", **options})

    return shown(asyncio.run(main()))


class TestTasks:
    def test_what_runs_is_answered_504_and_the_rest_424(self):
        assert over(gets("a", "b", "c"), width=1) == {"a": 504, "b": 424, "c": 424}

    def test_what_waits_for_a_place_waits_no_longer(self):
        async def main():
            clock, taken = Clock(), Places(1)
            async with taken:  # it is never free
                done = asyncio.ensure_future(perform_async(gets("a", "b"), None, gate=taken, deadline=600))
                while not taken.waiting:
                    await asyncio.sleep(0)
                clock.is_later = True
                return await done

        assert shown(asyncio.run(main())) == {"a": 424, "b": 424}

    def test_a_batch_that_is_cancelled_while_it_waits_is_cancelled(self, caplog):
        async def main():
            taken = Places(1)
            async with taken:
                task = asyncio.ensure_future(perform_async(gets("a"), None, gate=taken, deadline=600))
                while not taken.waiting:
                    await asyncio.sleep(0)
                task.cancel()
                await asyncio.wait([task])
                return task.cancelled(), taken.waiting

        assert asyncio.run(main()) == (True, 0)
        assert caplog.text == ""

    @pytest.mark.parametrize("statuses", [{"a": 504}, {"a": 504, "b": 424}], ids=str)
    def test_a_group_is_rolled_back(self, statuses):
        ledger = Ledger()
        batch = {"requests": [{"id": id, "method": "post", "url": "A", "atomicityGroup": "g"} for id in statuses]}
        found = over(batch, transaction=ledger.transaction)
        assert (found, ledger.rolled_back, ledger.committed) == (statuses, ["g"], [])

    def test_a_timeout_holds_beside_it(self):
        async def hang(request):
            await asyncio.Event().wait()

        found = asyncio.run(perform_async(gets("a", "b"), hang, width=1, timeout=0.01, deadline=600))
        assert shown(found) == {"a": 504, "b": 504}

    def test_it_bounds_a_longer_timeout(self):
        async def main():
            ends = Deadline(600)
            with Watch(ends) as watch:
                return [watch.running[watch.begin(timeout)] == ends.at for timeout in (7200, None, 1)]

        assert asyncio.run(main()) == [True, True, False]

    def test_a_request_is_not_sent_after_it(self):
        """Where the loop was busy until then."""

        async def main():
            clock, sent = Clock(), []

            @contextlib.asynccontextmanager
            async def late(request):
                clock.is_later = True
                yield

            async def send(request):
                sent.append(request.id)
                return (200,)

            return shown(await perform_async(gets("a"), send, gate=late, deadline=600)), sent

        assert asyncio.run(main()) == ({"a": 504}, [])

    def test_in_time_it_changes_nothing(self):
        async def send(request):
            return (200,)

        assert shown(asyncio.run(perform_async(gets("a", "b"), send, deadline=600))) == {"a": 200, "b": 200}

    def test_a_journal_has_the_stop(self):
        journal = Memory()
        first = over(gets("a", "b"), width=1, journal=journal)
        assert Stop() in journal.written and first == {"a": 504, "b": 424}
        assert over(gets("a", "b"), journal=Memory(journal.written)) == first


class TestThreads:
    @pytest.mark.parametrize("width", [1, 2])
    def test_nothing_more_starts(self, width, monkeypatch):
        """A thread cannot be ended, so what runs is waited for."""
        sent, now = [], [0.0]
        monkeypatch.setattr(threads, "monotonic", lambda: now[0])

        def send(request):
            sent.append(request.id)
            now[0] = 60.0
            return (200,)

        ids = [f"r{k}" for k in range(5)]
        with ThreadPoolExecutor(1) as pool:
            found = shown(perform(gets(*ids), send, width=width, pool=pool, deadline=60))
        assert (found, sent) == ({**dict.fromkeys(ids, 424), "r0": 200}, ["r0"])

    def test_a_stop_is_asked_beside_it(self):
        assert shown(perform(gets("a"), None, deadline=60, stop=threading.Event().is_set)) == {"a": 500}
        assert shown(perform(gets("a"), None, deadline=60, stop=lambda: True)) == {"a": 424}
