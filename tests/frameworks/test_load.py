"""The small services under load: conformance in every set-up, groups that hold a lock, and SIGKILL."""

import asyncio
import http.client
import random
import secrets
import signal
import sqlite3
import threading
from concurrent.futures import ThreadPoolExecutor

import pytest

from odb_batch.asgi import BatchMiddleware
from support.servers import JSON, SECONDS, conformance, skip_without, until, with_gunicorn

# An application, how it is served if otherwise, and its environment.
SETUPS = {
    "flask-sqlite": ("flask_sqlite", None, {}),
    "flask-sqlite-width-4": ("flask_sqlite", None, {"WIDTH": "4"}),
    "flask-sqlite-two-workers": ("flask_sqlite", with_gunicorn("flask_sqlite:app", 2, 4), {}),
    "flask-sqlite-one-thread": ("flask_sqlite", with_gunicorn("flask_sqlite:app", 1, 1), {"WIDTH": "8"}),
    "flask-sqlalchemy": ("flask_sqlalchemy", None, {}),
    "flask-sqlalchemy-width-4": ("flask_sqlalchemy", None, {"WIDTH": "4"}),
    "django": ("django_app", None, {}),
    "django-width-4": ("django_app", None, {"WIDTH": "4"}),
    "django-atomic-requests": (
        "django_app",
        with_gunicorn("django_app:application", 2, 4),
        {"ATOMIC": "1", "CONN_MAX_AGE": "60"},
    ),
    "fastapi": ("fastapi_app", None, {}),
    "fastapi-width-1": ("fastapi_app", None, {"WIDTH": "1"}),
}


@pytest.mark.slow
@pytest.mark.parametrize("name", SETUPS)
def test_conformance(serve, tmp_path, name):
    app, command, variables = SETUPS[name]
    server = serve(app, command, **variables)
    try:
        status, printed = conformance(server, tmp_path)
    finally:
        server.stop()
    assert status == 0, printed
    assert " 0 of them broken" in printed


def writes(key, singles, members):
    new = lambda name: {"method": "post", "url": "Books", "body": {"Id": f"{key}-{name}", "Title": "T"}}
    return [new(f"s{k}") for k in range(singles)] + [{**new(f"g{k}"), "atomicityGroup": "g"} for k in range(members)]


def test_more_threads_answer_than_requests_are_out():
    """Else all threads might wait for the lock that a group holds, whose next request waits for a thread."""
    skip_without("anyio")
    from anyio.to_thread import current_default_thread_limiter

    async def threads():
        return current_default_thread_limiter().total_tokens

    assert BatchMiddleware(None).at_once < asyncio.run(threads())


def test_groups_beside_many_requests_in_a_pool_of_threads(serve):
    server = serve("fastapi_app")
    with ThreadPoolExecutor(8) as clients:
        found = list(clients.map(lambda k: server.statuses(*writes(secrets.token_hex(4), 16, 4)), range(8)))
    assert set(sum(found, [])) == {201}


def load(server, end, asked, answered):
    """Sends groups of five until the end, and keeps which ones were answered."""
    while not end.is_set():
        key = secrets.token_hex(4)
        asked.add(key)
        try:
            if set(server.statuses(*writes(key, 0, 5), headers=JSON)) == {201}:
                answered.add(key)
        except (OSError, http.client.HTTPException):
            pass  # it was killed before it had answered


@pytest.mark.slow
@pytest.mark.parametrize("name", ["flask_sqlite", "flask_sqlalchemy", "django_app", "fastapi_app"])
def test_killed_under_load(serve, tmp_path, name):
    """Of each group everything is there or nothing, and all of what was answered."""
    path = str(tmp_path / "books.sqlite")
    asked, answered = set(), set()
    for _ in range(5):
        server = serve(name, BOOKS=path)
        assert server.ask("GET", "/odata/Books")[0] == 200
        end = threading.Event()
        threads = [threading.Thread(target=load, args=(server, end, asked, answered)) for _ in range(4)]
        for thread in threads:
            thread.start()
        wanted = len(answered) + random.randrange(2, 20)
        try:
            until(lambda: len(answered) >= wanted)
        finally:
            server.stop(signal.SIGKILL)
            end.set()
        for thread in threads:
            thread.join(SECONDS)
        counts = counted(path)
        assert set(counts.values()) <= {5} and answered <= counts.keys()
    assert len(answered) > 5


def counted(path):
    """How many books there are of each group."""
    database = sqlite3.connect(path)
    try:
        rows = [row[0].partition("-")[0] for row in database.execute("SELECT Id FROM Books")]
    finally:
        database.close()
    return {key: rows.count(key) for key in set(rows)}
