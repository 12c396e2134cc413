"""Clients that wait and repeat, over HTTP: 300 requests to a service under gunicorn that refuses a fifth of the batches and
loses some answers. Each request is performed once.
"""

import asyncio
import json
import os
import sys

import pytest

from support.commands import run
from support.markdown import text_of
from support.program import EXAMPLES
from support.servers import Server, skip_without, with_gunicorn

HERE = os.path.dirname(os.path.abspath(__file__))


@pytest.fixture
def service(library, tmp_path):
    skip_without("gunicorn", "hypothesis")
    found = Server(with_gunicorn("lossy:app"), os.path.join(HERE, "clients"), tmp_path / "log")
    yield found
    found.stop()


def check_each_once(service):
    """Each of the 300 requests was performed once, though the service was as bad as it should be."""
    found = json.loads(service.ask("GET", "/")[2])
    assert sorted(found["performed"].values()) == [1] * 300
    assert {429, "lose", "hang up"} <= set(found["happened"])


@pytest.mark.slow
def test_ten_lines_of_python(service, environment):
    skip_without("requests")
    run(sys.executable, os.path.join(EXAMPLES, "orders.py"), service.url, env=environment, wanted="300 requests: 300 done\n")
    check_each_once(service)


@pytest.mark.slow
def test_ten_lines_of_javascript(service, module, tmp_path):
    packages = tmp_path / "node_modules"
    packages.mkdir()
    (packages / "odb-batch").symlink_to(module)
    assert text_of("examples", "orders.js").partition("\n\n")[2] in text_of("node", "README.md")
    environment = {**os.environ, "NODE_PATH": str(packages)}
    run("node", os.path.join(EXAMPLES, "orders.js"), service.url, env=environment, wanted="300 requests: 300 done\n")
    check_each_once(service)


def orders(client):
    """A batch of 300 requests in 50 groups."""
    batch = client.Batch()
    for number in range(50):
        with batch.group():
            order = batch.post("Orders", {"Number": number})
            for article in range(5):
                batch.post(f"{order}/Lines", {"Article": article})
    return batch


def test_by_httpx(service, package):
    skip_without("httpx")
    import httpx

    from odb_batch import client

    with client.BatchClient(httpx.Client(base_url=service.url), backoff=0, attempts=30) as sender:
        sender.send(orders(client), limit=20).raise_for_status()
    check_each_once(service)


def test_by_httpx_in_tasks(service, package):
    skip_without("httpx")
    import httpx

    from odb_batch import client

    async def send():
        async with client.AsyncBatchClient(httpx.AsyncClient(), service.url, backoff=0, attempts=30) as sender:
            return await sender.send(orders(client), limit=20)

    assert asyncio.run(send()).raise_for_status().reason == ""
    check_each_once(service)
