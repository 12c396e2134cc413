"""What stores keep of batches: the kit for any of them, and journals over both."""

import asyncio
import contextlib

import pytest

from odb_batch import Refusal, Report, ReportUnit, Start
from odb_batch.journals import Journals, SqliteStore, store_of
from odb_batch.journals._encoding import PIECE, encode_events
from odb_batch.journals.testing import CHECKS
from support.journals import EVENTS, FIRST, LEASE, events_of, opened, parts_of, soon, written
from support.servers import SECONDS


@pytest.mark.parametrize("check", CHECKS, ids=lambda it: it.__name__)
def test_the_kit(check, place):
    asyncio.run(check(lambda: store_of(place, LEASE)))


async def all_kept(parts, append):
    await append(parts)
    return {it.batch for it in parts}


async def says(value, *given):
    return value


@pytest.mark.parametrize("name, function, checks", [
    ("append", lambda real: lambda parts: all_kept(parts, real),
     ["of_two_parts_with_one_number_one_is_kept", "a_part_goes_after_the_one_that_its_writer_has_read"]),
    ("read", lambda real: lambda batch, hold: real(batch, lambda size: None),
     ["memory_is_reserved_before_texts_are_read"]),
    ("is_over", lambda real: lambda holder: says(True), ["a_holder_ends_with_its_store"]),
    ("is_over", lambda real: lambda holder: says(False), ["what_is_kept_outlives_its_store"]),
    ("prune", lambda real: lambda before: says(None), ["old_batches_are_removed"]),
], ids=["all kept", "no memory", "all over", "none over", "none removed"])  # fmt: skip
def test_the_kit_finds_a_store_that_is_none(tmp_path, name, function, checks):
    def make():
        store = SqliteStore(str(tmp_path))
        setattr(store, name, function(getattr(store, name)))
        return store

    for check in CHECKS:
        if check.__name__ in checks:
            with pytest.raises(AssertionError):
                asyncio.run(check(make))
            checks.remove(check.__name__)
    assert checks == []


def status_of(error):
    return error.value.answer.status


def test_a_body_is_not_copied_where_the_loop_writes_its_event():
    bodies = b"1" * 1_000_000, b"[" + b" " * 1_000_000 + b"]"
    reports = [Report("a", 200, {}, bodies[0]), Report("b", 201, {}, bodies[1])]
    chunks = [*encode_events(reports[:1]), *encode_events([ReportUnit(tuple(reports))])]
    assert [sum(it is body for it in chunks) for body in bodies] == [2, 1]
    assert sum(len(it) for it in chunks if len(it) < 1_000_000) < 200


# Journals over both stores


def test_events_are_read_as_they_were_written(place):
    async def run():
        async with opened(place) as one, opened(place) as other:
            assert await written(one) == []
            assert await events_of(other) == EVENTS
            assert len(await parts_of(other)) == len(EVENTS)  # each sync is a part, and to read is none
            with pytest.raises(Refusal) as error:
                await events_of(other, first=FIRST[:-2] + b" }\n")
            assert status_of(error) == 422

    asyncio.run(run())


def test_of_two_that_go_on_one_has_the_batch(place):
    async def run():
        async with opened(place) as one, opened(place) as other:
            async with one.journal(b"x", FIRST) as first, other.journal(b"x", FIRST) as second:
                first.write(Start("a"))
                second.write(Start("a"))
                found = await asyncio.gather(first.sync(), second.sync(), return_exceptions=True)
                assert sorted(map(type, found), key=str) == sorted([type(None), Refusal], key=str)
                loser = [first, second][[it is None for it in found].index(False)]
                with pytest.raises(Refusal):
                    loser.write(Start("b"))
            assert one.refused + other.refused == 1

    asyncio.run(run())


def test_a_batch_is_refused_while_it_is_open(place):
    async def run():
        async with opened(place) as one, opened(place) as other:
            async with one.journal(b"x", FIRST) as journal:
                with pytest.raises(Refusal) as error:
                    await events_of(one)
                assert status_of(error) == 409
                journal.write(Start("a"))
                await journal.sync()
                with pytest.raises(Refusal) as error:
                    await events_of(other)
                assert status_of(error) == 409
                journal.write(Report("a", 200))
                await journal.sync()
                assert len(await events_of(other)) == 2  # nothing is out

    asyncio.run(run())


def test_the_end_waits_for_no_task_that_has_missed_its_cancellation(tmp_path):
    """As one does that makes a connection in the same turn of the loop."""
    class Missing(SqliteStore):
        async def now(self):
            with contextlib.suppress(asyncio.CancelledError):
                await asyncio.Event().wait()
            return 0.0

    async def run():
        journals = Journals(Missing(str(tmp_path)))
        await journals.open()
        await asyncio.sleep(0)
        await asyncio.wait_for(journals.close(), SECONDS)

    asyncio.run(run())


def test_many_batches_share_an_append(place):
    async def run():
        async with opened(place) as journals:
            async def one(name):
                return await written(journals, EVENTS[:2], name)

            await asyncio.gather(*(one(b"%d" % k) for k in range(200)))
            assert journals.parts == 400 and journals.appends <= 100, journals.appends

    asyncio.run(run())


def test_an_answer_is_kept_soon_while_another_one_is_waited_for(place):
    """Else a crash would lose what was answered seconds ago."""
    async def run():
        async with opened(place) as journals:
            async with journals.journal(b"x", FIRST) as journal:
                journal.write(Start("a"))
                journal.write(Start("b"))
                await journal.sync()
                journal.write(Report("a", 200, {}, b"1"))
                await soon(lambda: journals.parts == 2)
                assert b'{"report":[["a"' in (await parts_of(journals))[1].text

    asyncio.run(run())


LONG = Report("a", 200, {}, b"1" * 2 * PIECE)


async def broken_off(journals, monkeypatch, events, count):
    """Writes events, of whose last text only so many pieces are kept, as if the process had ended then."""
    async with journals.journal(b"x", FIRST) as journal:
        for event in events[:-1]:
            journal.write(event)
            await journal.sync()
        append, given = journals.store.append, []

        async def ending(parts):
            given.extend(parts)
            if len(given) > count:
                raise OSError("it has ended")
            return await append(parts)

        with monkeypatch.context() as patched:
            patched.setattr(journals.store, "append", ending)
            journal.write(events[-1])
            with pytest.raises(OSError, match="it has ended"):
                await journal.sync()
            assert not journal.has_kept or len(events) > 1
    await soon(lambda: not journals._releases)
    return given


@pytest.mark.parametrize("count", [0, 1, 2])
def test_a_text_whose_last_piece_is_not_kept_is_left_out(place, monkeypatch, count):
    async def run():
        async with opened(place) as one, opened(place) as other:
            await broken_off(one, monkeypatch, [Start("a"), LONG], count)
            parts = await parts_of(other)
            assert [len(it.text) == PIECE for it in parts] == [False] + [True] * count + [False]
            assert [it.is_open for it in parts] == [True] * (1 + count) + [False]
            assert await written(other, [LONG]) == [Start("a")]
            assert await events_of(one) == [Start("a"), LONG]

    asyncio.run(run())


def test_a_batch_whose_first_text_was_broken_off_begins_anew(place, monkeypatch):
    async def run():
        async with opened(place) as one, opened(place) as other:
            await broken_off(one, monkeypatch, [LONG], 1)
            assert await written(other, EVENTS[:2]) == []
            assert await events_of(one) == EVENTS[:2]
            with pytest.raises(Refusal) as error:
                await events_of(one, first=FIRST[:-2] + b" }\n")
            assert status_of(error) == 422

    asyncio.run(run())


def test_others_wait_while_pieces_are_kept(place, monkeypatch):
    """A request is out until the last piece of its answer is kept."""
    async def run():
        async with opened(place) as one, opened(place) as other:
            async with one.journal(b"x", FIRST) as journal:
                journal.write(Start("a"))
                await journal.sync()
                append, statuses = one.store.append, []

                async def asking(parts):
                    with contextlib.suppress(Refusal):
                        await events_of(other)
                        statuses.append(200)
                    return await append(parts)

                monkeypatch.setattr(one.store, "append", asking)
                journal.write(LONG)
                await journal.sync()
                monkeypatch.undo()
                assert statuses == [] and len(await parts_of(other)) == 4
            assert await events_of(other) == [Start("a"), LONG]

    asyncio.run(run())


def test_a_text_as_long_as_its_pieces(place):
    async def run():
        async with opened(place) as journals:
            size = len(b"".join(encode_events([Report("a", 200, {}, b"1" * PIECE)]))) - PIECE
            exact = Report("a", 200, {}, b"1" * (2 * PIECE - size))
            await written(journals, [Start("a"), exact])
            assert [len(it.text) for it in await parts_of(journals)][1:] == [PIECE, PIECE, 0]
            assert await events_of(journals) == [Start("a"), exact]

    asyncio.run(run())


def test_what_was_not_synced_yet_is_kept_at_the_end(place):
    async def run():
        async with opened(place) as one, opened(place) as other:
            async with one.journal(b"x", FIRST) as journal:
                for event in EVENTS[:3]:
                    journal.write(event)
            await soon(lambda: not one._releases)
            assert await events_of(other) == EVENTS[:3]  # nobody waits for a lease

    asyncio.run(run())


def test_a_lost_request_is_counted(place):
    async def run():
        async with opened(place) as journals:
            await written(journals, [Start("a"), Start("b")])
            await soon(lambda: not journals._releases)
            lost = Report("a", 500, {}, b'{"error":{"code":"Lost"}}')
            await written(journals, [lost, Report("b", 500, {}, b"1")])
            assert journals.lost == 1
            assert ("journal_lost_total", 1) in [(name, value) for name, _, value in journals.metrics()]

    asyncio.run(run())
