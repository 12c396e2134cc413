"""What the tests share: the service under gunicorn as processes of its own, its log, and a client."""

import http.client
import json
import os
import signal
import sqlite3
import time
from contextlib import ExitStack, suppress

import pytest

from support.program import ROOT
from support.servers import CONTINUE, JSON, SECONDS, Server, skip_without

SERVICE = os.path.join(ROOT, "examples", "service")
BATCH_URL = "/library/$batch"


class Process(Server):
    """The service on a free port of the loopback.

    Args:
        database: The file of its database.
        width: How many requests of a batch it performs at once.
        patience: For how many seconds it waits for a client.
        workers: How many processes answer.
        more: Further options of gunicorn.
    """

    # Where the module of the application is.
    folder = SERVICE

    def __init__(self, database, width=1, patience=20, workers=2, more=()):
        skip_without("gunicorn")
        words = ["gunicorn", "--config", os.path.join(SERVICE, "gunicorn.conf.py"), "--bind", "fd://{fd}"]
        words += [*more, "--workers", str(workers), "--pythonpath", self.folder, self.app(database, width)]
        log = database + ".log"
        self.begin = os.path.getsize(log) if os.path.exists(log) else 0
        super().__init__(words, SERVICE, log, PATIENCE=str(patience))
        self.url = f"http://127.0.0.1:{self.port}/library/"
        # A worker that gets a signal before it answers would not end by it.
        until(self.count_of_workers, lambda count: count == workers or self.process.poll() is not None)
        assert self.process.poll() is None, self.lines

    def app(self, database, width):
        """The application, as gunicorn is given it."""
        return f"app:make_app({database!r}, {width})"

    def count_of_workers(self):
        return sum(line.endswith(" answers") for line in self.lines)

    @property
    def lines(self):
        """The lines of its log, which those before it have begun."""
        with open(self.log, "rb") as file:
            file.seek(self.begin)
            return file.read().decode().splitlines()

    def kill(self):
        """Ends all its processes at once."""
        with suppress(ProcessLookupError):
            os.killpg(self.process.pid, signal.SIGKILL)
        self.process.wait()

    def stop(self, number=signal.SIGTERM):
        """Ends it as a user does; returns its exit status."""
        self.process.send_signal(number)
        try:
            return self.process.wait(SECONDS)
        finally:
            self.kill()

    def __enter__(self):
        return self

    def __exit__(self, *_):
        if self.process.returncode is None:
            self.stop()

    def client(self):
        return Client(self.port)


class Client:
    """A connection to the service."""

    def __init__(self, port):
        self.connection = http.client.HTTPConnection("127.0.0.1", port, timeout=SECONDS)

    def ask_for_bytes(self, method, path, body=None, headers=JSON):
        """Sends a request; returns the status and the body of the answer."""
        data = body if isinstance(body, (bytes, type(None))) else json.dumps(body).encode()
        self.connection.request(method, path, data, headers)
        answer = self.connection.getresponse()
        self.headers = answer.headers
        return answer.status, answer.read()

    def ask(self, method, path, body=None, headers=JSON):
        """Sends a request; returns the status and the value of the answer."""
        status, text = self.ask_for_bytes(method, path, body, headers)
        return status, json.loads(text) if text else None

    def batch(self, *requests, headers=CONTINUE):
        """Sends a batch; returns the responses by their ids."""
        status, value = self.ask("POST", BATCH_URL, {"requests": list(requests)}, headers)
        if status != 200:
            raise AssertionError(f"the batch was answered {status}: {value}")
        return {it["id"]: it for it in value["responses"]}

    def statuses(self, *requests, headers=CONTINUE):
        return {id: it["status"] for id, it in self.batch(*requests, headers=headers).items()}

    def __enter__(self):
        return self

    def __exit__(self, *_):
        self.connection.close()


def request(id, method, url, body=None, group=None, needs=(), headers=None):
    """A request of a batch."""
    found = {"id": id, "method": method, "url": url, **({"headers": headers} if headers else {})}
    found.update({"body": body} if body is not None else {}, **({"atomicityGroup": group} if group else {}))
    return {**found, "dependsOn": list(needs)} if needs else found


def new_book(id, book, group=None, needs=()):
    return request(id, "post", "Books", {"Id": book, "Title": book}, group, needs)


def rows(database, table="Books"):
    """The rows of a table, as another process sees them."""
    connection = sqlite3.connect(database)
    try:
        return connection.execute(f"SELECT * FROM {table} ORDER BY 1").fetchall()
    finally:
        connection.close()


def states_of(port):
    """The states of the connections to a port of the loopback, by the ports of their clients, as Linux numbers them."""
    with open("/proc/net/tcp", encoding="ascii") as file:
        lines = [line.split()[1:4] for line in file.readlines()[1:]]
    number = lambda address: int(address.rpartition(":")[2], 16)
    return {number(remote): int(state, 16) for local, remote, state in lines if number(local) == port and number(remote)}


def until(look, is_good):
    """Looks until what is seen is good, or for too long; returns what was seen last."""
    end = time.monotonic() + SECONDS
    while not is_good(found := look()) and time.monotonic() < end:
        time.sleep(0.02)
    return found


class ServiceTest:
    """Tests over one service for each class, with a client for each test."""

    options = {}

    @pytest.fixture(scope="class", autouse=True)
    def start(self, request, tmp_path_factory):
        kind = request.cls
        kind.database = str(tmp_path_factory.mktemp("service") / "library.sqlite")
        with Process(kind.database, **kind.options) as kind.service:
            yield

    @pytest.fixture(autouse=True)
    def connect_client(self):
        with ExitStack() as self.opened, self.service.client() as self.client:
            yield
