"""Old batches: which are removed, and by which clock."""

import asyncio
import contextlib

from odb_batch import Report, Start
from odb_batch.journals import Journals
from support.journals import EVENTS, FIRST, age, events_of, opened, stop_renewing, written


class Clocks:
    """The clock of a store and one that nobody sets, as a test says."""

    def __init__(self, journals):
        self.ahead = self.steady = 0.0
        now = journals.store.now

        async def shown():
            return await now() + self.ahead

        journals.store.now, journals._steady = shown, lambda: self.steady

    async def prune(self, journals, seconds=60):
        """Removes what is old, and stays so for some seconds."""
        await journals.prune()
        self.steady += seconds
        await journals.prune()


@contextlib.asynccontextmanager
async def clocked(folder, **more):
    async with opened(str(folder), **more) as journals:
        stop_renewing(journals)  # and looking for old ones
        yield journals, Clocks(journals)


def test_old_batches_are_removed_unless_they_are_in_use(tmp_path):
    async def run():
        async with clocked(tmp_path, ahead=300) as (journals, clocks), opened(str(tmp_path)) as other:
            await written(journals, EVENTS, b"old")
            async with other.journal(b"used", FIRST) as used:
                used.write(Start("a"))
                await used.sync()
                age(tmp_path, 361)
                await written(journals, EVENTS, b"new")
                await clocks.prune(journals, 59)
                assert await events_of(journals, b"old") == EVENTS
                await clocks.prune(journals, 1)
                assert await events_of(journals, b"old") == [] and await events_of(journals, b"new") == EVENTS
                used.write(Report("a", 200))
                await used.sync()

    asyncio.run(run())


def test_a_clock_that_is_ahead_removes_nothing(tmp_path):
    """As that of a machine until it is set: what is too old has to stay so for a while."""
    async def run():
        async with clocked(tmp_path) as (journals, clocks):
            await written(journals)
            clocks.ahead = 172_800
            await journals.prune()
            clocks.ahead, clocks.steady = 0, 59
            await journals.prune()
            clocks.ahead, clocks.steady = 172_800, 60
            await journals.prune()
            assert await events_of(journals) == EVENTS
            clocks.ahead, clocks.steady = 172_800, 118
            await journals.prune()
            assert await events_of(journals) == EVENTS
            clocks.steady = 180
            await clocks.prune(journals)
            assert await events_of(journals) == []

    asyncio.run(run())


def test_a_repeat_does_not_keep_a_batch_for_longer(tmp_path):
    async def run():
        async with clocked(tmp_path) as (journals, clocks):
            await written(journals)
            age(tmp_path, 61)
            assert await events_of(journals) == EVENTS
            await clocks.prune(journals)
            assert await events_of(journals) == []

    asyncio.run(run())


def test_old_batches_are_looked_for_again_after_an_error(tmp_path, monkeypatch, front):
    calls = []

    async def prune(journals):
        calls.append(journals)
        raise OSError(24, "Too many open files")

    monkeypatch.setattr(Journals, "prune", prune)
    front("--upstream", "http://127.0.0.1:1/", "--journal", str(tmp_path), "--one-client", "--keep", "0.01")
    from support.servers import until

    until(lambda: len(calls) >= 3)
