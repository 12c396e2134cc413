#!/usr/bin/env python3
"""Batches of 20 requests beside the same 20 requests alone, by the processor time of a service: `services.py [FOLDER]`.

FOLDER is what `bin/odb_library` has written, `dist/library` unless it is given. Each service of examples/frameworks is
started on the loopback. One client asks it over one kept connection, in turns: 20 GETs of one book, and a batch of
them. What counts is the processor time of all processes of the service, the best of each. A service whose framework is
not installed is left out. The gateway is asked for 20 batches of one request, and for one of 20, which it passes on to
the service in Flask; what counts is its own processor time.
"""

import http.client
import importlib.util
import json
import os
import shutil
import signal
import subprocess
import sys
import tempfile
import time
from types import SimpleNamespace

ROOT = os.path.dirname(os.path.dirname(os.path.abspath(__file__)))
LIBRARY = os.path.abspath(sys.argv[1] if len(sys.argv) > 1 else os.path.join(ROOT, "dist", "library"))
os.environ["ODB_BATCH_LIBRARY"] = os.path.join(LIBRARY, "libodb_batch.so.0")
sys.path.insert(0, os.path.join(ROOT, "tests"))

from support.commands import with_package  # noqa: E402
from support.servers import CONTINUE, JSON, SECONDS, Server, with_gunicorn, with_uvicorn  # noqa: E402

SERVICES = os.path.join(ROOT, "examples", "frameworks")
# Those in Python: the modules that each needs, and how it is served.
COMMANDS = {
    "Flask, sqlite3": (("flask", "gunicorn"), with_gunicorn("flask_sqlite:app")),
    "Flask, SQLAlchemy": (("flask", "sqlalchemy", "gunicorn"), with_gunicorn("flask_sqlalchemy:app")),
    "Django": (("django", "gunicorn"), with_gunicorn("django_app:application")),
    "FastAPI": (("fastapi", "uvicorn"), with_uvicorn("fastapi_app:app")),
}
REQUESTS, TURNS, TURN_SECONDS = 20, 5, 1.0
BOOK = "/odata/Books('emma')"
BATCH = {"requests": [{"id": str(k), "method": "get", "url": "Books('emma')"} for k in range(REQUESTS)]}
HEADS = ("service", "20 requests ms", "a batch of 20 ms", "batch / requests")


def processes_of(session):
    """The processor time of the processes of a session, in seconds."""
    ticks = 0
    for name in filter(str.isdigit, os.listdir("/proc")):
        try:
            with open(f"/proc/{name}/stat", encoding="utf-8", errors="replace") as file:
                fields = file.read().rpartition(")")[2].split()
        except OSError:
            continue
        if int(fields[3]) == session:
            ticks += int(fields[11]) + int(fields[12])
    return ticks / os.sysconf("SC_CLK_TCK")


def ask(connection, *words):
    connection.request(*words)
    answer = connection.getresponse()
    text = answer.read()
    if answer.status != 200:
        sys.exit(f"{words[0]} {words[1]}: {answer.status} {text[:200]!r}")
    return json.loads(text)


def alone(connection):
    for _ in range(REQUESTS):
        ask(connection, "GET", BOOK)


def together(connection):
    ask(connection, "POST", "/odata/$batch", json.dumps(BATCH), CONTINUE)


def one_by_one(connection):
    for request in BATCH["requests"]:
        ask(connection, "POST", "/odata/$batch", json.dumps({"requests": [request]}), CONTINUE)


def milliseconds(server, work):
    """The processor time of the service for one round of the work."""
    connection, rounds = http.client.HTTPConnection("127.0.0.1", server.port, timeout=SECONDS), 0
    work(connection)
    before, until = processes_of(server.process.pid), time.monotonic() + TURN_SECONDS
    while time.monotonic() < until:
        work(connection)
        rounds += 1
    spent = processes_of(server.process.pid) - before
    connection.close()
    return 1000 * spent / rounds


def of_python(name, folder):
    """A service in Python as a process, or None if its framework is not installed."""
    modules, command = COMMANDS[name]
    if not all(map(importlib.util.find_spec, modules)):
        return None
    log, books = os.path.join(folder, "log"), os.path.join(folder, f"{name}.sqlite")
    return Server(command, SERVICES, log, BOOKS=books)


def of_express(folder):
    """The service in Express as a process, or None if Node, its headers or Express are not installed."""
    module = os.path.join(folder, "odb-batch")
    environment = {**os.environ, "NODE_PATH": f"{folder}:/usr/share/nodejs"}
    quiet = {"env": environment, "stderr": subprocess.DEVNULL}
    if not shutil.which("node") or subprocess.run(["node", "-e", "require('express')"], **quiet).returncode:
        return None
    shutil.copytree(os.path.join(ROOT, "node"), module, ignore=shutil.ignore_patterns("*.node", "build"))
    shutil.copytree(os.path.join(ROOT, "include"), os.path.join(folder, "include"))
    if subprocess.run([os.path.join(module, "compile"), LIBRARY], **quiet).returncode:
        return None
    words = ["node", os.path.join(SERVICES, "express_app.js"), "0"]
    process = subprocess.Popen(words, env=environment, stdout=subprocess.PIPE, text=True, start_new_session=True)
    return SimpleNamespace(process=process, port=int(process.stdout.readline()))


def with_book(server):
    """Makes the book; returns the service."""
    connection = http.client.HTTPConnection("127.0.0.1", server.port, timeout=SECONDS)
    connection.request("POST", "/odata/Books", json.dumps({"Id": "emma", "Title": "Emma"}), JSON)
    if (answer := connection.getresponse()).status != 201:
        sys.exit(f"the book: {answer.status} {answer.read(200)!r}")
    return server


def measured(server, single=alone):
    """The best times of 20 requests alone and together."""
    turns = [(milliseconds(server, single), milliseconds(server, together)) for _ in range(TURNS)]
    return min(it for it, _ in turns), min(it for _, it in turns)


def gateway(service, *options):
    """A gateway before a service, as a process."""
    words = [sys.executable, "-m", "odb_batch", "gateway", "--upstream", f"http://127.0.0.1:{service.port}", *options]
    words += ["--listen", "127.0.0.1:0", "--log", "none"]
    process = subprocess.Popen(words, env=with_package(), stderr=subprocess.PIPE, text=True, start_new_session=True)
    return SimpleNamespace(process=process, port=int(process.stderr.readline().rpartition(":")[2]))


def show(name, server, single=alone):
    """Measures a service, prints its line and ends it."""
    try:
        one, batch = measured(server, single)
    finally:
        end(server)
    print(f"| {name} | {one:.1f} | {batch:.1f} | {batch / one:.2f} |", flush=True)


def end(server):
    os.killpg(server.process.pid, signal.SIGTERM)
    server.process.wait(SECONDS)


def main():
    """Prints the table."""
    print(f"| {' | '.join(HEADS)} |\n| --- | ---: | ---: | ---: |")
    with tempfile.TemporaryDirectory() as folder:
        for name in (*COMMANDS, "Express"):
            server = of_python(name, folder) if name in COMMANDS else of_express(folder)
            if server is not None:
                show(name, with_book(server))
        behind = tempfile.mkdtemp(dir=folder)
        server = importlib.util.find_spec("aiohttp") and of_python("Flask, sqlite3", behind)
        if server:
            try:
                show("the gateway", gateway(with_book(server)), one_by_one)
            finally:
                end(server)


if __name__ == "__main__":
    main()
