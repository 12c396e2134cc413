"""Journals in PostgreSQL: rights, and databases that cannot be used, or are away. And tables of another form."""

import asyncio
import contextlib
import gc
import os
import socket
import sqlite3

import pytest

from odb_batch.journals import Journals, store_of
from odb_batch.journals import _journals as journals_module
from odb_batch.journals.testing import CHECKS
from support.journals import LEASE, events_of, opened, soon, written
from support.servers import SECONDS


def test_tables_of_another_form_are_refused(place, postgresql):
    asyncio.run(CHECKS[0](lambda: store_of(place)))
    if place.startswith("postgresql"):
        postgresql.ask("UPDATE odb_form SET form = 7", place.rpartition("%3D")[2])
    else:
        with contextlib.closing(sqlite3.connect(os.path.join(place, "journal.sqlite"))) as connection:
            connection.execute("PRAGMA user_version = 7")
    with pytest.raises(OSError, match="form 7, not [12]$") as error:
        asyncio.run(store_of(place).open())
    assert not isinstance(error.value, ConnectionError)


def test_a_role_needs_no_more_rights_than_the_page_says(postgresql):
    """docs/gateway.md has the rights, and docs/journal.sql the tables for a role that may not make any."""
    from odb_batch.journals._postgresql import TABLES
    from support.program import ROOT

    with open(os.path.join(ROOT, "docs", "journal.sql"), encoding="utf-8") as file:
        page = file.read()
    assert TABLES in page
    schema = postgresql.schema()
    postgresql.ask(page.replace("gateway_role", f"role_{schema}").replace("-- CREATE ROLE", "CREATE ROLE"), schema)
    postgresql.ask(f"GRANT USAGE ON SCHEMA {schema} TO role_{schema}")
    url = postgresql.url(schema, user=f"role_{schema}")
    for check in CHECKS:
        asyncio.run(check(lambda: store_of(url, LEASE)))


def test_a_role_without_rights(postgresql, schema):
    """It does not wait for them."""
    asyncio.run(CHECKS[0](lambda: store_of(schema)))
    name = schema.rpartition("%3D")[2]
    postgresql.ask(f"CREATE ROLE poor_{name} LOGIN; GRANT USAGE ON SCHEMA {name} TO poor_{name}; "
                   f"GRANT SELECT ON ALL TABLES IN SCHEMA {name} TO poor_{name}")  # fmt: skip
    with pytest.raises(OSError, match="permission denied for table odb_gateway") as error:
        asyncio.run(store_of(postgresql.url(name, user=f"poor_{name}")).open())
    assert not isinstance(error.value, ConnectionError)


def test_a_statement_whose_caller_has_gone_reports_nothing(schema):
    async def run():
        reported = []
        asyncio.get_running_loop().set_exception_handler(lambda loop, context: reported.append(context))
        store = store_of(schema)
        await store.open()
        caller = asyncio.ensure_future(store._pruner.rows("SELECT pg_sleep(600)"))
        await asyncio.sleep(0.1)
        caller.cancel()
        await asyncio.wait([caller])
        await asyncio.sleep(0)
        gc.collect()
        assert reported == []
        await store.close()

    asyncio.run(run())


@pytest.mark.parametrize("url", ["postgresql://[", "postgresql://h:x/", "postgresql://127.0.0.1:1/x?sslmode=no"])
def test_a_url_that_is_none(url):
    pytest.importorskip("asyncpg", reason="asyncpg is not installed")
    with pytest.raises(OSError, match="PostgreSQL: ") as error:
        asyncio.run(store_of(url).open())
    assert not isinstance(error.value, ConnectionError)


@pytest.mark.parametrize("change, message", [
    ({"/postgres?": "/nobody?"}, "nobody"), ({"//odb@": "//nobody@"}, "nobody"), ({"//odb@": "//reader@"}, "no schema"),
], ids=["database", "role", "rights"])  # fmt: skip
def test_a_database_that_cannot_be_used(schema, postgresql, change, message):
    postgresql.ask("DO $$ BEGIN CREATE ROLE reader LOGIN; EXCEPTION WHEN duplicate_object THEN NULL; END $$")
    for old, new in change.items():
        assert old in schema
        schema = schema.replace(old, new)
    with pytest.raises(OSError, match=message) as error:
        asyncio.run(store_of(schema).open())
    assert not isinstance(error.value, ConnectionError)


def test_a_database_that_may_lose_what_it_has_committed_is_refused():
    from support.databases import Postgresql, skip_without_postgresql

    skip_without_postgresql()
    server = Postgresql("fsync = off")
    try:
        with pytest.raises(OSError, match="fsync is off"):
            asyncio.run(store_of(server.url("public")).open())
    finally:
        server.end()


def test_a_database_that_is_away_at_the_start_is_waited_for(postgresql, monkeypatch):
    from support.databases import Postgresql

    monkeypatch.setattr(journals_module, "_AGAIN", 0.05)
    server = Postgresql()
    try:
        server.stop()

        async def run():
            async with opened(server.url("public"), LEASE) as journals:
                assert not journals.is_ready
                with pytest.raises(OSError, match="not reached yet"):
                    await events_of(journals)
                await asyncio.get_running_loop().run_in_executor(None, server.start)
                await soon(lambda: journals.is_ready)
                assert await written(journals) == []

        asyncio.run(run())
    finally:
        server.end()


def test_a_database_that_turns_out_to_be_unusable(postgresql, schema, monkeypatch):
    monkeypatch.setattr(journals_module, "_AGAIN", 0.05)

    async def run():
        with socket.socket() as closed:
            closed.bind(("127.0.0.1", 0))
            url = schema.replace(f":{postgresql.port}/", f":{closed.getsockname()[1]}/")
            journals = Journals(store_of(url, LEASE))
            await journals.open()
        journals.store.url = schema.replace("/postgres?", "/nobody?")
        with pytest.raises(OSError, match="nobody"):
            await asyncio.wait_for(journals.broken, SECONDS)
        await journals.close()

    asyncio.run(run())
