"""Journals that tests write and read, over both stores."""

import asyncio
import contextlib
import os
import sqlite3

from odb_batch import Report, ReportUnit, Start, StartUnit, Stop
from odb_batch.journals import NOBODY, Journals, Part, digest, identity, store_of
from odb_batch.journals._encoding import encode_events

from .servers import SECONDS

EVENTS = [
    Start("a"), Report("a", 201, {"location": "/x(1)"}, b'{"n":\n 9.990, "t": "\xc3\xbc"}'), StartUnit(("b", "c")),
    Report("c", 204, {}), Report("b", 200, {}, b'"text"'), StartUnit(("d", "e")),
    ReportUnit((Report("d", 201, {"location": "/y"}, b"1.0"), Report("e", 204, {}))), Stop(),
]  # fmt: skip
FIRST = identity(batch="1", mode="stop")
TEXTS = [b"".join(encode_events([event])) for event in EVENTS]
# How long a lease is in tests that wait for its end, in seconds.
LEASE = 1.0


@contextlib.asynccontextmanager
async def opened(place, lease=60.0, **more):
    """Journals at a place, as those of a gateway."""
    found = Journals(store_of(place, lease), **{"keep": 60, **more})
    await found.open()
    try:
        yield found
    finally:
        await found.close()


async def written(journals, events=EVENTS, name=b"x", first=FIRST):
    """Writes events, each of which is synced; returns what has happened before."""
    async with journals.journal(name, first) as journal:
        for event in events:
            journal.write(event)
            await journal.sync()
        return journal.events


async def events_of(journals, name=b"x", first=FIRST):
    return await written(journals, [], name, first)


async def parts_of(journals, name=b"x"):
    return await journals.store.read(bytes.fromhex(digest(name)), lambda size: None)


def text_at(place, name):
    """The texts of the parts of a batch, joined."""

    async def read():
        async with opened(place) as journals:
            return b"".join(it.text for it in await parts_of(journals, name))

    return asyncio.run(read())


def plant(place, name, text, is_open=True):
    """Keeps a text as the journal of a batch, by a process that has ended."""

    async def append():
        store = store_of(place)
        await store.open()
        batch = bytes.fromhex(digest(name))
        assert await store.append([Part(batch, 0, (store.lease.holder, 1), NOBODY, is_open, text)]) == {batch}
        await store.close()

    asyncio.run(append())


def count_at(place):
    """How many batches are kept in a folder."""
    path = os.path.join(place, "journal.sqlite")
    if not os.path.exists(path):
        return 0
    with contextlib.closing(sqlite3.connect(path)) as connection:
        return connection.execute("SELECT count(DISTINCT batch) FROM odb_part").fetchone()[0]


def age(place, seconds):
    """Has all that is kept in a folder been written so many seconds earlier."""
    with contextlib.closing(sqlite3.connect(os.path.join(place, "journal.sqlite"))) as connection:
        with connection:
            connection.execute("UPDATE odb_part SET at = at - ?", (seconds,))


async def soon(condition):
    """Waits until a condition holds."""
    for _ in range(SECONDS * 100):
        if condition():
            return
        await asyncio.sleep(0.01)
    raise AssertionError(f"nothing came within {SECONDS} seconds")


def stop_renewing(journals):
    """Lets the lease of a process end, as if it were paused."""
    for task in journals._tasks:
        if task.get_coro().__name__ == "_repeat":
            task.cancel()
