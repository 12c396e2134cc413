"""Journals in a folder: files, locks, and commits that fail."""

import asyncio
import contextlib
import os
import sqlite3
import threading

import pytest

from odb_batch import Refusal, Report, Start
from odb_batch.journals import Journals, SqliteStore
from odb_batch.journals import _sqlite
from odb_batch.journals._encoding import digest
from support.journals import EVENTS, FIRST, events_of, opened, parts_of, soon, written
from support.servers import SECONDS


def test_processes_write_by_turns(tmp_path, monkeypatch):
    """SQLite alone would ask again and again; who writes and hangs is not waited for for ever."""
    monkeypatch.setattr(_sqlite, "_SECONDS", 0.3)

    async def run():
        async with opened(str(tmp_path)) as one, opened(str(tmp_path)) as other:
            entered, left = threading.Event(), threading.Event()

            def writing():
                with one.store._in_turn():
                    entered.set()
                    left.wait(SECONDS)

            thread = threading.Thread(target=writing)
            thread.start()
            await asyncio.get_running_loop().run_in_executor(None, entered.wait, SECONDS)
            with pytest.raises(OSError, match="no answer in time"):
                await written(other, EVENTS[:1])
            with pytest.raises(OSError, match="hangs"):  # at once
                await events_of(other, b"y")
            left.set()
            thread.join()
            await soon(lambda: other.store._hanging is None)
            await soon(lambda: not other._releases)
            assert await events_of(other) == [Start("a")]

    asyncio.run(run())


def test_what_another_process_has_written_is_synced_before_it_is_answered(tmp_path, monkeypatch):
    """It may have been killed before it synced the end of the log, which is read all the same."""
    async def run():
        async with opened(str(tmp_path)) as journals:
            await written(journals)
            synced, sync = [], os.fsync
            monkeypatch.setattr(_sqlite.os, "fsync", lambda file: (synced.append(os.fstat(file).st_ino), sync(file)))
            async with journals.journal(b"x", FIRST) as journal:
                assert (journal.events, synced) == (EVENTS, [])
                await journal.sync()
            assert synced == [os.stat(tmp_path / "journal.sqlite-wal").st_ino]

    asyncio.run(run())


def test_the_loop_goes_on_while_the_file_is_read_and_written(tmp_path, monkeypatch):
    """Whatever waits for the device waits here until the loop has moved, so on the loop it would wait for itself."""
    moves, report = [], Report("a", 200, {}, b"1" * 1_000_000)

    async def run():
        async with opened(str(tmp_path)) as journals:
            loop = asyncio.get_running_loop()

            def waiting(function):
                def wait(*given):
                    moved = threading.Event()
                    loop.call_soon_threadsafe(moved.set)
                    moves.append((function.__name__, moved.wait(SECONDS / 10)))
                    return function(*given)

                return wait

            for name in ("_write", "_read", "_sync"):
                monkeypatch.setattr(journals.store, name, waiting(getattr(journals.store, name)))
            await written(journals, [Start("a"), report])
            async with journals.journal(b"x", FIRST) as journal:
                await journal.sync()
                assert journal.events == [Start("a"), report]

    asyncio.run(run())
    assert {*moves} == {("_write", True), ("_read", True), ("_sync", True)}


def test_a_lock_file_that_is_removed_before_it_is_locked_is_made_again(tmp_path, monkeypatch):
    lock, removed = _sqlite.fcntl.flock, []

    def late(file, kind):
        path = os.readlink(f"/dev/fd/{file}")
        if path.endswith(".lock") and not removed:
            os.unlink(path)
            removed.append(path)
        return lock(file, kind)

    monkeypatch.setattr(_sqlite.fcntl, "flock", late)

    async def run():
        async with opened(str(tmp_path)) as one, opened(str(tmp_path)) as other:
            assert removed and not await other.store.is_over(one.store.lease.holder)

    asyncio.run(run())


def test_a_text_whose_pieces_were_removed_is_not_kept(tmp_path, monkeypatch):
    write = SqliteStore._write

    def removing(store, words, rows):
        write(store, "DELETE FROM odb_part", [()])
        return write(store, words, rows)

    async def run():
        async with opened(str(tmp_path)) as journals:
            monkeypatch.setattr(SqliteStore, "_write", removing)
            with pytest.raises(Refusal):
                await written(journals, [Report("a", 200, {}, b"1" * 300_000)])
            monkeypatch.undo()
            await soon(lambda: not journals._releases)
            assert await parts_of(journals) == []

    asyncio.run(run())


def test_pieces_go_with_their_batch(tmp_path):
    async def run():
        async with opened(str(tmp_path)) as journals:
            await written(journals, [Start("a"), Report("a", 200, {}, b"1" * 1_000_000)])
            assert len(await parts_of(journals)) == 5
            await journals.store.prune(await journals.store.now() + 1_000)

    asyncio.run(run())
    with contextlib.closing(sqlite3.connect(tmp_path / "journal.sqlite")) as connection:
        assert connection.execute("SELECT count(*) FROM odb_part").fetchone() == (0,)


@pytest.mark.parametrize("kind", ["full", "write", "sync"])
def test_nothing_is_kept_after_a_failure(tmp_path, monkeypatch, kind):
    """Of a commit that fails nothing is kept, and the batch goes on from what was kept before."""
    async def run():
        async with opened(str(tmp_path)) as journals:
            async with journals.journal(b"x", FIRST) as journal:
                journal.write(Start("a"))
                await journal.sync()
                store = journals.store
                await store._run(store._writer, FAILURES[kind], store._to_write, True)
                journal.write(Report("a", 200, {}, b"1" * 200_000))
                for _ in range(2):
                    with pytest.raises(OSError):
                        await journal.sync()
                await store._run(store._writer, FAILURES[kind], store._to_write, False)
            await soon(lambda: not journals._releases)
            assert await events_of(journals) == [Start("a")]

    asyncio.run(run())


def fill(connection, fails):
    """Gives the file no page more than it has, or many."""
    (count,) = connection.execute("PRAGMA page_count").fetchone()
    connection.execute(f"PRAGMA max_page_count = {count if fails else 1_000_000}")


def deny(action, *of):
    """What has a connection refuse a step of SQLite, or no more."""

    def change(connection, fails):
        wanted = (action, *of) if fails else ()
        connection.set_authorizer(
            lambda *given: sqlite3.SQLITE_DENY if wanted and given[: len(wanted)] == wanted else sqlite3.SQLITE_OK
        )

    return change


FAILURES = {
    "full": fill, "write": deny(sqlite3.SQLITE_INSERT, "odb_part"), "sync": deny(sqlite3.SQLITE_TRANSACTION, "COMMIT"),
}  # fmt: skip


def test_a_size_that_the_folder_may_have(tmp_path):
    async def run():
        store = SqliteStore(str(tmp_path), 1_000_000)
        journals = Journals(store)
        await journals.open()
        report = Report("a", 200, {}, b"1" * 100_000)
        with pytest.raises(OSError, match="full"):
            for k in range(100):
                await written(journals, [Start("a"), report], b"%d" % k)
        assert 3 < k < 10
        assert os.stat(tmp_path / "journal.sqlite").st_size <= 1_000_000
        await store.prune(await store.now() + 1_000)
        assert await written(journals, [Start("a"), report], b"again") == []
        await journals.close()

    asyncio.run(run())


def test_only_the_owner_reads_the_files(tmp_path):
    async def run():
        async with opened(str(tmp_path)) as journals:
            await written(journals)
            names = os.listdir(tmp_path)
            assert len(names) == 5, names
            assert {os.stat(tmp_path / name).st_mode & 0o777 for name in names} == {0o600}

    asyncio.run(run())
    assert sorted(os.listdir(tmp_path)) == ["journal.sqlite", "journal.sqlite-turn"]


@pytest.mark.parametrize("name", ["journal.sqlite", "journal.sqlite-wal", "journal.sqlite-turn"])
@pytest.mark.parametrize("kind", ["link", "pipe"])
def test_a_link_is_not_followed(tmp_path, name, kind):
    folder, other = tmp_path / "journals", tmp_path / "other"
    folder.mkdir()
    other.write_text("")
    (folder / name).symlink_to(other) if kind == "link" else os.mkfifo(folder / name)
    with pytest.raises(OSError, match="is not a file"):
        asyncio.run(SqliteStore(str(folder)).open())
    assert other.read_text() == ""


@pytest.mark.parametrize("folder", ["no", "file"])
def test_a_folder_that_is_not_there(tmp_path, folder):
    (tmp_path / "file").write_text("")
    with pytest.raises(OSError):
        asyncio.run(SqliteStore(str(tmp_path / folder)).open())


def test_a_folder_with_journals_of_an_earlier_version_is_refused(tmp_path):
    (tmp_path / digest(b"x")).write_text('{"form": 2}\n')
    with pytest.raises(OSError, match="has journals of an earlier version"):
        asyncio.run(SqliteStore(str(tmp_path)).open())
