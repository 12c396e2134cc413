"""Applications that real servers serve: each is a process with a listening socket of its own, which is asked over
HTTP.
"""

import contextlib
import email.utils
import http.client
import importlib.util
import json
import os
import random
import signal
import socket
import subprocess
import sys
import tempfile
import time

import pytest

from .commands import with_package

SECONDS = 120  # until something that is waited for has come, also beside much other work
JSON = {"Content-Type": "application/json"}
CONTINUE = {**JSON, "Prefer": "continue-on-error"}
# When the batches of these tests were sent for the first time.
FIRST_SENT = email.utils.formatdate(usegmt=True)


def repeatable(id, sent=FIRST_SENT):
    """The headers of a batch that may be sent again."""
    return {"Repeatability-Request-ID": id, "Repeatability-First-Sent": sent}


def folder_for_databases():
    """A folder in memory, if there is one: a commit waits for no disk. What a process has written is there after
    SIGKILL.
    """
    return tempfile.mkdtemp(dir="/dev/shm" if os.access("/dev/shm", os.W_OK) else None)


def until(condition):
    """Waits until a condition holds."""
    end = time.monotonic() + SECONDS
    while not condition():
        assert time.monotonic() < end, f"nothing came within {SECONDS} seconds"
        time.sleep(0.01)


# Ports that the kernel gives to no client, so that none is taken before a test uses it.
PORTS = range(20000, 32768)


def free_ports(count):
    """Returns adjacent ports of the loopback that are free, for a process that binds them later."""
    draw = random.SystemRandom()
    for _ in range(1000):
        first = draw.randrange(PORTS.start, PORTS.stop - count + 1)
        found = range(first, first + count)
        with contextlib.ExitStack() as bound, contextlib.suppress(OSError):
            for port in found:
                bound.enter_context(socket.create_server(("127.0.0.1", port)))
            return list(found)
    raise AssertionError(f"no {count} adjacent ports are free")


def free_port():
    """Returns a port of the loopback that is free, for a process that binds it later."""
    return free_ports(1)[0]


def skip_without(*modules):
    for name in modules:
        if importlib.util.find_spec(name) is None:
            pytest.skip(f"{name} is not installed")


def with_gunicorn(app, workers=1, threads=8):
    return [
        "gunicorn",
        "--bind",
        "fd://{fd}",
        "--workers",
        str(workers),
        "--threads",
        str(threads),
        "--log-level",
        "warning",
        app,
    ]


def with_uvicorn(app):
    return ["uvicorn", "--fd", "{fd}", "--log-level", "warning", app]


class Asked:
    """What listens at a port of the loopback, and answers batches below /odata/."""

    port: int

    def ask(self, method, path, body=None, headers=JSON):
        """Sends a request over a connection of its own; returns the status, the headers by lower-case names and the
        body.
        """
        connection = http.client.HTTPConnection("127.0.0.1", self.port, timeout=SECONDS)
        try:
            connection.request(method, path, body, headers)
            answer = connection.getresponse()
            return answer.status, {name.lower(): it for name, it in answer.getheaders()}, answer.read()
        finally:
            connection.close()

    def batch(self, *given, headers=CONTINUE):
        """Sends a batch; returns its responses by their ids, r0, r1 and so on."""
        requests = [{"id": f"r{k}", "method": "get", **it} for k, it in enumerate(given)]
        status, _, text = self.ask("POST", "/odata/$batch", json.dumps({"requests": requests}), headers)
        assert status == 200, text
        return {it["id"]: it for it in json.loads(text)["responses"]}

    def statuses(self, *given, headers=CONTINUE):
        return [it["status"] for it in self.batch(*given, headers=headers).values()]


class Server(Asked):
    """An application as a process.

    Args:
        command: The module of Python that serves it, and its arguments; {fd} stands for the socket.
        folder: Where the module of the application is.
        log: The path of the file to which it writes.
        variables: Those of its environment.
    """

    def __init__(self, command, folder, log, **variables):
        with socket.create_server(("127.0.0.1", 0)) as listening, open(log, "ab") as out:
            self.port = listening.getsockname()[1]
            self.process = self.started(command, folder, {**with_package(), **variables}, out, listening)
        self.log, self.url = log, f"http://127.0.0.1:{self.port}/odata/"

    def started(self, command, folder, variables, out, listening):
        """Starts the process, which takes over the socket."""
        number = listening.fileno()
        words = [sys.executable, "-m", *(word.format(fd=number) for word in command)]
        more = {"cwd": folder, "stdout": out, "stderr": out, "env": variables, "pass_fds": [number]}
        return subprocess.Popen(words, start_new_session=True, **more)

    def stop(self, number=signal.SIGTERM):
        if self.process.poll() is None:
            os.killpg(self.process.pid, number)
            try:
                self.process.wait(SECONDS)
            except subprocess.TimeoutExpired:
                os.killpg(self.process.pid, signal.SIGKILL)
                self.process.wait()


def conformance(server, folder, *options):
    """Judges an application by the conformance tool; returns its exit status and what it printed."""
    body = ["--set", "Books", "--key", "Id", "--body", '{"Title": "Emma"}', "--breaks", os.path.join(folder, "breaks")]
    words = [sys.executable, "-m", "odb_batch", "conformance", server.url, *body, *options]
    done = subprocess.run(
        words, stdout=subprocess.PIPE, stderr=subprocess.STDOUT, text=True, env=with_package(), timeout=5 * SECONDS
    )
    return done.returncode, done.stdout
