"""The middleware of the module for Node under Express, over HTTP: judged by the conformance tool, and under load."""

import http.client
import json
import os
import re
import select
import subprocess
import sys
from concurrent.futures import ThreadPoolExecutor
from contextlib import contextmanager

import pytest

from support.commands import run, with_package
from support.program import ROOT

APP = os.path.join(ROOT, "examples", "frameworks", "express_app.js")
TOOL = ("-m", "odb_batch", "conformance")
ABOUT = ("--set", "Books", "--key", "Id", "--body", '{"Title": "Conformance"}')
SECONDS = 120
WIDTHS = (1, 8)
CLIENTS, ROUNDS = 8, 12


@pytest.fixture(scope="session")
def environment_of_node(module, tmp_path_factory):
    """The variables of a process in which `odb-batch` and Express can be required."""
    packages = tmp_path_factory.mktemp("packages")
    (packages / "odb-batch").symlink_to(module)
    found = {**os.environ, "NODE_PATH": f"{packages}:/usr/share/nodejs"}
    if subprocess.run(["node", "-e", "require('express')"], env=found, capture_output=True).returncode:
        pytest.skip("express is not installed")
    return found


@contextmanager
def serving(environment, width):
    """The app on a free port; yields the URL of the service."""
    words = ["node", APP, "0"]
    process = subprocess.Popen(words, stdout=subprocess.PIPE, text=True, env={**environment, "WIDTH": str(width)})
    try:
        first = process.stdout.readline() if select.select([process.stdout], [], [], SECONDS)[0] else ""
        yield f"http://127.0.0.1:{int(first)}/odata/"
    finally:
        process.kill()
        process.wait()
        process.stdout.close()


@pytest.mark.slow
@pytest.mark.parametrize("width", WIDTHS)
def test_conformance(width, environment_of_node, tmp_path):
    with serving(environment_of_node, width) as url:
        lines = run(sys.executable, *TOOL, url, *ABOUT, "--breaks", tmp_path, env=with_package()).splitlines()
    assert re.fullmatch(r"[0-9]+ cases, 0 of them broken", lines[-1])


def ask(url, method, path, value=None):
    """Sends a request; returns the status and the value of the answer."""
    connection = http.client.HTTPConnection(url.split("/")[2], timeout=SECONDS)
    headers = {"Content-Type": "application/json", "Prefer": "continue-on-error"}
    connection.request(method, f"/odata/{path}", json.dumps(value) if value else None, headers)
    answer = connection.getresponse()
    text = answer.read()
    connection.close()
    return answer.status, json.loads(text) if text else None


def member(id, key, group=None):
    """A request that creates a book."""
    found = {"id": id, "method": "post", "url": "Books", "body": {"Id": key, "Title": key}}
    return {**found, "atomicityGroup": group} if group else found


def batch_of(client, number):
    """A book alone, a group that succeeds, and one that fails at its last member; and the keys that are there then."""
    key = f"{client}-{number}"
    requests = [
        member("alone", f"{key}-alone"),
        *(member(f"good{k}", f"{key}-good{k}", "good") for k in range(3)),
        *(member(f"bad{k}", f"{key}-bad{k}", "bad") for k in range(2)),
        {**member("taken", f"{key}-alone", "bad"), "dependsOn": ["alone"]},
    ]
    return {"requests": requests}, [f"{key}-alone", *(f"{key}-good{k}" for k in range(3))]


@pytest.mark.slow
@pytest.mark.parametrize("width", WIDTHS)
def test_groups_of_many_clients(width, environment_of_node):
    """Each group is whole or not there, and undoes no write of another client."""
    with serving(environment_of_node, width) as url:

        def client(name):
            kept = []
            for number in range(ROUNDS):
                batch, keys = batch_of(name, number)
                status, answer = ask(url, "POST", "$batch", batch)
                assert status == 200
                assert [it["status"] for it in answer["responses"]] == [201, 201, 201, 201, 424, 424, 409]
                kept += keys
            return kept

        with ThreadPoolExecutor(CLIENTS) as pool:
            wanted = [key for keys in pool.map(client, range(CLIENTS)) for key in keys]
        status, answer = ask(url, "GET", "Books")
    assert status == 200
    assert sorted(it["Id"] for it in answer["value"]) == sorted(wanted)
