"""Gateways with services behind them; what needs them is skipped where aiohttp is not installed."""

import io
import logging
import signal

import pytest

from support.databases import Postgresql, skip_without_postgresql
from support.limits import limit  # noqa: F401
from support.servers import skip_without


@pytest.fixture(scope="session")
def aiohttp():
    skip_without("aiohttp")


@pytest.fixture
def loop(aiohttp):
    from support.gateways import Loop

    found = Loop()
    yield found
    found.stop()


@pytest.fixture
def upstream(loop):
    """Makes services, which answer by a function or in the usual way."""
    from support.gateways import Upstream

    return lambda answer=None: Upstream(loop, answer)


@pytest.fixture
def front(loop):
    """Makes gateways in this process, by the words of their command lines."""
    from support.gateways import Front

    return lambda *words: Front(loop, *words)


@pytest.fixture
def running(aiohttp):
    """Makes gateways as processes."""
    from support.gateways import Running

    made = []

    def start(*words):
        made.append(Running(*words))
        return made[-1]

    yield start
    for it in made:
        it.stop(signal.SIGKILL)


@pytest.fixture
def logged(aiohttp):
    """The lines that this process logs from now on, without their time."""
    from odb_batch.gateway._log import LINES, log_to_stderr

    log_to_stderr("batches")
    handler, text = logging.getLogger().handlers[-1], io.StringIO()
    handler.setStream(text)
    yield lambda: [line.partition(" ")[2] for line in text.getvalue().splitlines()]
    logging.getLogger().removeHandler(handler)
    LINES.setLevel(logging.NOTSET)


@pytest.fixture(scope="session")
def postgresql():
    """A PostgreSQL in memory."""
    skip_without_postgresql()
    found = Postgresql()
    yield found
    found.end()


@pytest.fixture
def schema(postgresql):
    """The URL of a journal in PostgreSQL that has nothing yet."""
    return postgresql.url(postgresql.schema())


@pytest.fixture(params=["sqlite", "postgresql"])
def place(request):
    """What --journal names: a journal of each kind that has nothing yet."""
    if request.param == "postgresql":
        return request.getfixturevalue("schema")
    return str(request.getfixturevalue("tmp_path"))
