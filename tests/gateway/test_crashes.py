"""Gateways over one journal that end, are paused or cut off: nothing is sent twice, or after it was lost."""

import asyncio
import contextlib
import json
import os
import secrets
import signal
import subprocess
import sys
import threading
import time
from collections import Counter
from concurrent.futures import ThreadPoolExecutor
from http.client import HTTPException

import pytest

from support.commands import with_package
from support.databases import folder_for_databases
from support.journals import LEASE
from support.servers import CONTINUE, SECONDS, Asked, repeatable, until

ONE = json.dumps({"requests": [{"id": "a", "method": "post", "url": "A", "body": 1}]})


class Counting:
    """A service that counts what it performs, and at some request ends a process, before it performs it or after."""

    def __init__(self):
        self.performed, self.left, self.process, self.is_before = Counter(), 0, None, False

    def __call__(self, seen):
        return self.answer(seen)

    async def answer(self, seen):
        from aiohttp import web

        from support.gateways import usual

        self.left -= 1
        ends = self.left == 0
        if ends and self.is_before:
            self.process.kill()
        await asyncio.sleep(0.02)
        if seen.path.endswith("/$batch"):
            given = json.loads(seen.body)["requests"]
            self.performed.update(it["url"].rpartition("/")[2] for it in given)
            answers = [{"id": it["id"], "status": 201, "atomicityGroup": "g"} for it in given]
            found = web.Response(text=json.dumps({"responses": answers}), content_type="application/json")
        else:
            found = usual(seen)
            self.performed[seen.path.rpartition("/")[2]] += seen.method == "POST"
        if ends and not self.is_before:
            self.process.kill()
        return found


def until_answered(it, id, batch):
    """Sends a batch until another gateway has not the batch any more."""
    end = time.monotonic() + SECONDS
    while True:
        found = it.ask("POST", "/odata/$batch", batch, {**CONTINUE, **repeatable(id)})
        if found[0] != 409 or time.monotonic() > end:
            return found
        time.sleep(0.05)


@pytest.mark.slow
def test_sigkill_at_twenty_moments(upstream, running, place):
    """No POST is performed twice, and what was answered stays so. At least one moment is within a group. In a folder the
    next gateway goes on at once."""
    from support.chaos import requests_of

    service = Counting()
    words = ["--groups", "forward", "--journal", place, "--one-client", "--log", "none", "--lease", str(LEASE)]
    words += ["--upstream", upstream(service).url]
    it, answered, lost = running(*words), {}, Counter()

    def ask(key):
        headers = {**CONTINUE, **repeatable(key)}
        try:
            return key, it.ask("POST", "/odata/$batch", json.dumps({"requests": requests_of(key)}), headers)
        except (OSError, HTTPException):
            return key, None

    def ask_again(key):
        return key, until_answered(it, key, json.dumps({"requests": requests_of(key)})) if "//" in place else ask(key)[1]

    with ThreadPoolExecutor(4) as clients:
        for moment in range(20):
            service.process, service.left, service.is_before = it.process, moment + 1, moment % 2 == 0
            keys = [secrets.token_hex(4) for _ in range(4)]
            answered.update((key, found) for key, found in clients.map(ask, keys) if found)
            it.process.wait(SECONDS)
            it = running(*words)
            for key, (status, _, text) in clients.map(ask_again, keys):
                assert status == 200 and text == answered.setdefault(key, (status, _, text))[2]
                lost.update(judged(service, key, json.loads(text)["responses"]))
        assert len(answered) == 80
        assert all(found[2] == answered[key][2] for key, found in clients.map(ask, answered))
    assert set(service.performed.values()) <= {0, 1}
    assert lost["a"] > 0 and lost["d"] == lost["e"] > 0, lost


def judged(service, key, responses):
    """The requests of a batch that are lost; any other one was performed once if it was answered 2xx, else never."""
    lost, statuses = [], {it["id"]: it["status"] for it in responses}
    for it in responses:
        count = service.performed[f"{key}-{it['id']}"]
        if it["status"] == 500:
            assert it["body"]["error"]["code"] == "Lost" and count <= 1
            lost.append(it["id"])
        elif it["id"] != "b":
            assert count == (it["status"] == 201), statuses
    return lost


# A gateway that wakes up


@contextlib.contextmanager
def process_with(before, *words):
    """A gateway whose process runs some code first."""
    main = "from odb_batch.__main__ import main; sys.exit(main(sys.argv[1:]))"
    command = [sys.executable, "-c", f"import sys\n{before}\n{main}", "gateway", "--listen", "127.0.0.1:0", *words]
    with subprocess.Popen(command, env=with_package(), stderr=subprocess.PIPE, text=True) as process:
        it = Asked()
        it.port, it.process = int(process.stderr.readline().rpartition(":")[2]), process
        try:
            yield it
        finally:
            process.kill()


# Waits, until a file is there, between the place of a request and its connection.
HELD = """
import asyncio, os
from aiohttp import TCPConnector
connect = TCPConnector.connect
async def late(connector, *given, **more):
    open({0!r} + '/waits', 'w').close()
    while not os.path.exists({0!r} + '/goes'):
        await asyncio.sleep(0.01)
    return await connect(connector, *given, **more)
TCPConnector.connect = late
"""
# A mutant that does not look at its lease any more.
UNHELD = "from odb_batch.journals import StoreJournal; StoreJournal.require_held = lambda journal: None"


@pytest.mark.slow
@pytest.mark.parametrize("mutant", ["", UNHELD], ids=["as is", "mutant"])
def test_a_gateway_that_wakes_up_sends_nothing_that_is_lost(upstream, running, schema, tmp_path, mutant):
    """It was paused after it had kept the start, before it had a connection. Without the check it sends."""
    service = upstream()
    words = ["--upstream", service.url, "--journal", schema, "--one-client", "--log", "none", "--lease", str(LEASE)]
    other = running(*words)
    with process_with(f"{HELD.format(str(tmp_path))}\n{mutant}", *words) as it, ThreadPoolExecutor(1) as clients:
        asked = clients.submit(it.ask, "POST", "/odata/$batch", ONE, {**CONTINUE, **repeatable("x")})
        until((tmp_path / "waits").exists)
        it.process.send_signal(signal.SIGSTOP)
        status, _, text = until_answered(other, "x", ONE)
        assert (status, json.loads(text)["responses"][0]["body"]["error"]["code"]) == (200, "Lost")
        assert service.seen == []
        (tmp_path / "goes").touch()
        it.process.send_signal(signal.SIGCONT)
        status, _, _ = asked.result(SECONDS)
        assert (len(service.seen), status == 409) == ((1, True) if mutant else (0, True))
        assert until_answered(other, "x", ONE)[2] == text


@pytest.mark.parametrize("is_mutant", [False, True], ids=["as is", "mutant"])
def test_of_two_gateways_that_begin_at_once_one_sends(upstream, front, loop, place, monkeypatch, is_mutant):
    """Both have read that there is nothing. If a conflict counts for success, the request is sent twice."""
    service = upstream()
    words = ["--upstream", service.url, "--journal", place, "--one-client"]
    fronts, read = [front(*words), front(*words)], []

    def meet(store):
        append = store.append

        async def appending(parts):
            read.append(store)
            while len(set(map(id, read))) < 2:
                await asyncio.sleep(0.01)
            kept = await append(parts)
            return {it.batch for it in parts} if is_mutant else kept

        monkeypatch.setattr(store, "append", appending)

    for it in fronts:
        meet(it.gateway._journals.store)
    with ThreadPoolExecutor(2) as clients:
        headers = {**CONTINUE, **repeatable("x")}
        asked = [clients.submit(it.ask, "POST", "/odata/$batch", ONE, headers) for it in fronts]
        found = sorted(it.result(SECONDS)[0] for it in asked)
    assert (found, len(service.seen)) == (([200, 200], 2) if is_mutant else ([200, 409], 1))


# A store that is away, or full


def test_a_database_that_is_started_again_is_a_delay(upstream, running, schema, postgresql):
    from support.gateways import waiting

    event = threading.Event()
    service = upstream(waiting(event))
    it = running("--upstream", service.url, "--journal", schema, "--one-client", "--log", "none", "--lease", "60")
    requests = [{"id": "a", "method": "post", "url": "slow"}, {"id": "b", "method": "post", "url": "B", "dependsOn": ["a"]}]
    with ThreadPoolExecutor(1) as clients:
        headers = {**CONTINUE, **repeatable("x")}
        asked = clients.submit(it.ask, "POST", "/odata/$batch", json.dumps({"requests": requests}), headers)
        until(lambda: service.seen)
        postgresql.restart("immediate")
        event.set()
        status, _, text = asked.result(SECONDS)
    assert (status, [it["status"] for it in json.loads(text)["responses"]]) == (200, [201, 201])
    assert len(service.seen) == 2


def test_a_database_that_is_away_for_longer_than_a_lease(upstream, running, schema, postgresql):
    """503 before anything is sent, and not ready; then the same gateway goes on."""
    service = upstream()
    it = running("--upstream", service.url, "--journal", schema, "--one-client", "--lease", str(LEASE))
    postgresql.stop("immediate")
    try:
        status, headers, text = it.ask("POST", "/odata/$batch", ONE, {**CONTINUE, **repeatable("x")})
        assert (status, json.loads(text)["error"]["code"], headers["retry-after"]) == (503, "NoJournal", "1")
        until(lambda: it.ask("GET", "/health/ready")[0] == 503)
        assert service.seen == []
    finally:
        postgresql.start()
    until(lambda: it.ask("GET", "/health/ready")[0] == 200)
    assert until_answered(it, "x", ONE)[0] == 200
    log = it.stop(signal.SIGTERM)[1]
    assert "the lease is not renewed: PostgreSQL: " in log and "level=error number=1 from=127.0.0.1 the journal " in log


@pytest.fixture
def small():
    """A folder in memory of 6 MB."""
    folder = folder_for_databases()
    command = ["mount", "-t", "tmpfs", "-o", "size=6m,mode=777", "tmpfs", folder]
    try:
        if os.getuid() or subprocess.run(command, stderr=subprocess.DEVNULL).returncode:
            pytest.skip("a small file system cannot be mounted")
        yield folder
        subprocess.run(["umount", "-l", folder], check=True)
    finally:
        os.rmdir(folder)


def fill(folder):
    """Fills a file system; returns the path of what has to be removed."""
    path = os.path.join(folder, "ballast")
    with open(path, "wb", buffering=0) as file, contextlib.suppress(OSError):
        for size in (65_536, 4_096, 512):
            with contextlib.suppress(OSError):
                while True:
                    file.write(b"x" * size)
    return path


@pytest.mark.slow
@pytest.mark.parametrize("kind", ["sqlite", "postgresql"])
def test_a_disk_that_is_full(upstream, running, small, kind, request):
    """Refused before anything is sent; once there is room the same gateway goes on. Nothing is damaged."""
    place = small
    if kind == "postgresql":
        postgresql = request.getfixturevalue("postgresql")
        name = postgresql.schema()
        os.chmod(small, 0o777)
        os.mkdir(os.path.join(small, "space"))
        if not os.getuid():
            import shutil

            shutil.chown(os.path.join(small, "space"), "postgres")
        postgresql.ask(f"CREATE TABLESPACE {name} LOCATION '{small}/space'")
        place = postgresql.url(name) + f"%20-cdefault_tablespace%3D{name}"
    service = upstream()
    it = running("--upstream", service.url, "--journal", place, "--one-client", "--log", "none")
    ask = lambda id: it.ask("POST", "/odata/$batch", ONE, {**CONTINUE, **repeatable(id)})
    answered = {id: ask(id) for id in "xyz"}
    assert {found[0] for found in answered.values()} == {200}
    path, refused = fill(small), 0
    for k in range(2_000):
        before = len(service.seen)
        status, headers, text = ask(f"full {k}")
        if status != 200:
            code = json.loads(text)["error"]["code"]
            assert (status, code) in ((503, "NoJournal"), (500, "BadJournal"))
            assert status == 500 or (len(service.seen) == before and headers["retry-after"] == "1")
            refused += 1
            if refused == 5:
                break
    assert refused == 5
    os.unlink(path)
    assert until_answered(it, f"full {k}", ONE)[0] == 200
    assert all(ask(id)[2] == found[2] for id, found in answered.items())
    assert set(Counter(seen.path for seen in service.seen)) == {"/odata/A"}
    it.stop(signal.SIGTERM)
    if kind == "postgresql":
        postgresql.ask(f"DROP SCHEMA {name} CASCADE")
        postgresql.ask(f"DROP TABLESPACE {name}")


# All of it


@pytest.mark.slow
@pytest.mark.parametrize("kind, harms", [
    ("postgresql", {"kill": 50, "pause": 25, "cut": 20, "restart": 5}), ("sqlite", {"kill": 20, "pause": 10}),
], ids=["postgresql", "sqlite"])  # fmt: skip
def test_gateways_that_are_killed_paused_and_cut_off(aiohttp, tmp_path, kind, harms, request, capsys):
    """Nothing is sent twice or late, no answer changes, or never comes."""
    from support.chaos import Chaos

    database = request.getfixturevalue("postgresql") if kind == "postgresql" else None
    place = database.url(database.schema()) if database else str(tmp_path)
    chaos = Chaos(place, database, harms)
    asyncio.run(chaos.run())
    assert chaos.judged() == []
    count = sum(map(len, chaos.service.seen.values()))
    with capsys.disabled():
        print(f"\n{kind}: {len(chaos.answers)} batches, {count} requests sent, {chaos.lost} lost; {dict(chaos.codes)}")
    assert len(chaos.answers) >= 20 and chaos.lost > 0


@pytest.mark.slow
def test_pauses_and_cuts_with_a_short_lease(aiohttp, postgresql):
    from support.chaos import Chaos

    chaos = Chaos(postgresql.url(postgresql.schema()), postgresql, {"pause": 15, "cut": 15}, 2, 4, 1.0, 7)
    asyncio.run(chaos.run())
    assert chaos.judged() == []
