"""What is easily done wrong with leases, statements and what is long, each by a test."""

import asyncio
import contextlib
import os

import pytest

from odb_batch import Refusal, Report, Start
from odb_batch.journals import Late, SqliteStore
from odb_batch.journals import _journals as journals_module
from odb_batch.journals._encoding import PIECE, digest
from support.cuts import Cut
from support.journals import EVENTS, FIRST, LEASE, events_of, opened, parts_of, soon, stop_renewing, written


def status_of(error):
    return error.value.answer.status


def test_a_lease_counts_for_a_part_only_once_that_is_kept(schema):
    """What was started under the lease before may have been taken over."""
    async def run():
        async with opened(schema, LEASE) as one, opened(schema, LEASE) as other:
            async with one.journal(b"x", FIRST) as journal:
                journal.write(Start("a"))
                await journal.sync()
                stop_renewing(one)
                while True:
                    with contextlib.suppress(Refusal):
                        await written(other, [Report("a", 500)])
                        break
                    await asyncio.sleep(0.02)
                with pytest.raises(Late):
                    journal.require_held()
                journal.write(Start("b"))
                await one.store.renew()  # another lease
                assert not one.store.lease.is_over
                syncing = asyncio.ensure_future(journal.sync())
                while not syncing.done():
                    with pytest.raises(Late):
                        journal.require_held()
                    await asyncio.sleep(0)
                with pytest.raises(Refusal) as error:
                    await syncing
                assert status_of(error) == 409
                with pytest.raises(Refusal):
                    await journal.sync()

    asyncio.run(run())


@contextlib.asynccontextmanager
async def after_a_lease(schema):
    """Journals whose lease is over and is not renewed, and one of them with a start."""
    async with opened(schema, LEASE) as journals:
        async with journals.journal(b"x", FIRST) as journal:
            journal.write(Start("a"))
            await journal.sync()
            stop_renewing(journals)
            await soon(lambda: journals.store.lease.is_over)
            yield journals, journal


def test_a_lease_that_is_renewed_late_holds_again(schema):
    """If nobody has ended it, nobody has gone on."""
    async def run():
        async with after_a_lease(schema) as (journals, journal):
            syncing = asyncio.ensure_future(journal.sync())
            await asyncio.sleep(0.1)
            assert not syncing.done()
            await journals.store.renew()
            await syncing
            journal.require_held()
            assert len(await parts_of(journals)) == 1

    asyncio.run(run())


def test_holding_without_a_lease_appends_nothing_until_there_is_one(schema):
    async def run():
        async with after_a_lease(schema) as (journals, journal):
            with pytest.raises(OSError, match="the lease cannot be renewed"):
                await journal.sync()
            assert (journals.parts, len(await parts_of(journals))) == (1, 1)

    asyncio.run(run())


def test_after_a_failed_append_no_other_text_has_its_number(place, monkeypatch):
    """It may still be kept, and would be taken for the other one, as it has the same mark."""
    async def run():
        async with opened(place) as journals:
            append, given = journals.store.append, []

            async def failing(parts):
                given.extend(parts)
                await append(parts)
                raise OSError("the reply is lost")

            async with journals.journal(b"x", FIRST) as journal:
                journal.write(Start("a"))
                monkeypatch.setattr(journals.store, "append", failing)
                with pytest.raises(OSError, match="lost"):
                    await journal.sync()
                for call in (lambda: journal.write(Start("b")), lambda: asyncio.ensure_future(journal.sync())):
                    with pytest.raises(OSError, match="lost"):
                        found = call()
                        await found
                monkeypatch.undo()
            assert len(given) == 1
            await soon(lambda: not journals._releases)
            assert not (await parts_of(journals))[-1].is_open

    asyncio.run(run())


def test_a_batch_that_was_left_is_released_by_a_process_that_lives(place, monkeypatch):
    """Else others would be answered 409 for as long as that lives; also if the store is away for a while."""
    monkeypatch.setattr(journals_module, "_AGAIN", 0.05)

    async def run():
        async with opened(place) as one, opened(place) as other:
            append, tries = one.store.append, []

            async def failing(parts):
                tries.append(parts)
                if 2 <= len(tries) <= 5:
                    raise OSError("it is away")
                return await append(parts)

            monkeypatch.setattr(one.store, "append", failing)
            with contextlib.suppress(OSError):
                async with one.journal(b"x", FIRST) as journal:
                    journal.write(Start("a"))
                    await journal.sync()
                    journal.write(Report("a", 200))
                    await journal.sync()
            with pytest.raises(Refusal) as error:
                await events_of(other)
            assert status_of(error) == 409
            await soon(lambda: not one._releases)
            assert len(tries) > 5 and await events_of(other) == [Start("a")]

    asyncio.run(run())


def test_a_long_text_keeps_no_short_one_waiting(place, monkeypatch):
    """It goes alone, and others beside it, however long it takes."""
    async def run():
        async with opened(place) as journals:
            append, begun, ended = journals.store.append, asyncio.Event(), asyncio.Event()

            async def appending(parts):
                if any(len(it.text) > 100_000 for it in parts):
                    assert len(parts) == 1
                    begun.set()
                    await ended.wait()
                return await append(parts)

            monkeypatch.setattr(journals.store, "append", appending)
            async with journals.journal(b"x", FIRST) as journal:
                journal.write(Start("a"))
                await journal.sync()
                journal.write(Report("a", 200, {}, b"1" * 16_000_000))
                keeping = asyncio.ensure_future(journal.sync())
                await begun.wait()
                for k in range(3):
                    assert await written(journals, EVENTS[:1], b"%d" % k) == []
                assert not keeping.done()
                ended.set()
                await keeping
            assert len((await events_of(journals))[1].body) == 16_000_000

    asyncio.run(run())


def test_pieces_of_a_long_text_take_turns_with_short_ones(tmp_path, monkeypatch):
    """SQLite has one writer."""
    done, write = [], SqliteStore._write

    def writing(store, words, rows):
        done.append("piece" if len(rows[0][-1]) == PIECE else "part")
        return write(store, words, rows)

    monkeypatch.setattr(SqliteStore, "_write", writing)

    async def run():
        async with opened(str(tmp_path)) as journals:
            long = [Start("a"), Report("a", 200, {}, b"1" * 16_000_000)]
            keeping = asyncio.ensure_future(written(journals, long))
            while not keeping.done():
                await written(journals, EVENTS[:1], b"%d" % len(done))

    asyncio.run(run())
    first, last = done.index("piece"), len(done) - done[::-1].index("piece")
    assert done.count("piece") == 61 and done[first:last].count("part") >= 3


def test_a_statement_that_takes_too_long_is_not_cancelled(schema, postgresql):
    """A commit that waits for a standby would be reported as done. Its connection is ended, and it is sent again."""
    import asyncpg

    async def run():
        async with opened(schema, 6.0) as journals:
            locking = await asyncpg.connect(schema)
            async with locking.transaction():
                await locking.execute("LOCK TABLE odb_part IN ACCESS EXCLUSIVE MODE")
                writing = asyncio.ensure_future(written(journals, EVENTS[:1]))
                await soon(lambda: journals.store.breaks)
            assert await writing == []
            await locking.close()
            assert journals.store.breaks
            assert sum(b'{"start":"a"}' in it.text for it in await parts_of(journals)) == 1

    asyncio.run(run())
    with open(os.path.join(postgresql.data, "log"), encoding="utf-8") as log:
        assert "canceling statement due to user request" not in log.read()


def test_a_second_try_sees_what_it_has_waited_for(schema):
    """The first one may not have ended yet: a statement does not see what it has waited for, but the next one does."""
    import asyncpg

    async def run():
        async with opened(schema) as journals:
            batch, holder = bytes.fromhex(digest(b"x")), journals.store.lease.holder
            connection = await asyncpg.connect(schema)
            transaction = connection.transaction()
            await transaction.start()
            first = "INSERT INTO odb_part VALUES ($1, 0, $2, 1, true, now(), $3)"
            await connection.execute(first, batch, holder, b"")
            async with journals.journal(b"x", FIRST) as journal:
                assert journal._writer == 1
                journal.write(Start("a"))
                syncing = asyncio.ensure_future(journal.sync())
                waits = "SELECT count(*) FROM pg_locks WHERE NOT granted"
                while not await connection.fetchval(waits):
                    await asyncio.sleep(0.01)
                await transaction.commit()
                await syncing
            await connection.close()

    asyncio.run(run())


def test_a_commit_that_no_standby_has_confirmed_is_not_taken_for_kept(postgresql):
    """A wait that an operator cancels is reported as done, with a warning alone."""
    import asyncpg

    from support.databases import Postgresql

    server = Postgresql()  # the others would wait, too
    try:
        url = server.url("public")

        async def run():
            async with opened(url) as journals:
                other = await asyncpg.connect(url)
                async with journals.journal(b"x", FIRST) as journal:
                    journal.write(Start("a"))
                    await journal.sync()
                    await other.execute("SET synchronous_commit = local")
                    await other.execute("ALTER SYSTEM SET synchronous_standby_names = 'nobody'")
                    await other.execute("SELECT pg_reload_conf()")
                    waiting = "SELECT pid FROM pg_stat_activity WHERE wait_event = 'SyncRep' AND query LIKE 'INSERT INTO odb_part%'"
                    for k in range(10_000):  # until the server has read its configuration
                        journal.write(Start(f"b{k}"))
                        syncing = asyncio.ensure_future(journal.sync())
                        while not (waits := await other.fetch(waiting)) and not syncing.done():
                            await asyncio.sleep(0.01)
                        if waits:
                            break
                    await other.fetch(f"SELECT pg_cancel_backend(pid) FROM ({waiting}) AS it")
                    await soon(lambda: journals.store.breaks)
                    assert not syncing.done()
                    await other.execute("ALTER SYSTEM RESET synchronous_standby_names")
                    await other.execute("SELECT pg_reload_conf()")
                    await syncing
                await other.close()

        asyncio.run(run())
    finally:
        server.end()


def test_a_query_without_an_answer_ends(schema, postgresql):
    """Also the first one of a connection, whose time `connect` does not bound."""
    async def run():
        async with Cut(postgresql.port) as cut:
            url = schema.replace(f":{postgresql.port}/", f":{cut.port}/")
            async with opened(url, LEASE) as journals:
                cut.is_cut = True
                with pytest.raises(OSError):
                    await written(journals, EVENTS[:1])
                with pytest.raises(OSError):
                    await journals.store.renew()
                assert journals.store.breaks
                cut.is_cut = False
                assert await written(journals, EVENTS[:1], b"y") == []

    asyncio.run(run())


def test_removals_keep_no_lease_from_its_renewal(schema):
    import asyncpg

    async def run():
        async with opened(schema, 5.0) as journals:
            connection = await asyncpg.connect(schema)
            async with connection.transaction():
                await connection.execute("LOCK TABLE odb_part IN ACCESS EXCLUSIVE MODE")
                pruning = asyncio.ensure_future(journals.store.prune(0.0))
                waits = "SELECT count(*) FROM pg_locks WHERE NOT granted"
                while not await connection.fetchval(waits):
                    await asyncio.sleep(0.01)
                before = journals.store.lease.deadline
                await journals.store.renew()
                assert journals.store.lease.deadline > before and not pruning.done()
            await asyncio.wait({pruning})
            await connection.close()

    asyncio.run(run())


def test_an_open_batch_of_a_process_that_lives_is_not_removed(place):
    """With a short --keep its next append would be refused."""
    async def run():
        async with opened(place) as one, opened(place) as other:
            async with one.journal(b"x", FIRST) as journal:
                journal.write(Start("a"))
                await journal.sync()
                await other.store.prune(await other.store.now() + 1_000)
                journal.write(Report("a", 200))
                await journal.sync()
            await other.store.prune(await other.store.now() + 1_000)
            assert await events_of(other) == []

    asyncio.run(run())
