"""Wrong arguments, and services that cannot be judged, end with one clear line and their exit status."""

import contextlib
import os
import re
import signal
import socket
import socketserver
import subprocess
import sys
import threading
import time

import pytest

from common import SECONDS, rows, until
from odb_batch.conformance._command import PROGRAM, parser
from odb_batch.conformance._keys import literals
from support.commands import with_package
from tool import ABOUT, TOOL, service, tool

# Each starts a service of its own, and all together take a minute of processor time.
pytestmark = pytest.mark.slow

PAGE = b"<html><body>Welcome</body></html>"
HTML = b"HTTP/1.1 200 OK\r\nContent-Type: text/html\r\nContent-Length: %d\r\n\r\n%s" % (len(PAGE), PAGE)
NOT_FOUND = b"HTTP/1.1 404 Not Found\r\nContent-Type: text/html\r\nContent-Length: 0\r\n\r\n"
CUT = b"HTTP/1.1 200 OK\r\nContent-Type: application/json\r\nContent-Length: 100\r\n\r\n{"

# What a service sends to each request, and what is said of it; None is nothing, until the client has gone.
ANSWERS = {
    "html": (HTML, "POST {}$batch is not answered with a batch in JSON, but with text/html"),
    "404": (NOT_FOUND, "{} has no $batch: POST {}$batch is answered 404 in text/html"),
    "nothing": (b"", "POST {}$batch: the service hung up without an answer"),
    "cut": (CUT, "POST {}$batch: the service hung up in its answer"),
    "other": (b"Hello!\r\n\r\n", "POST {}$batch: the answer is not HTTP"),
    "silence": (None, "POST {}$batch: no answer within 0.5 seconds"),
    "drops": ("drops", "POST {}$batch: no answer within 0.5 seconds"),
}
GOOD = "http://127.0.0.1:1/"


@contextlib.contextmanager
def answering(answer):
    """A service that sends an answer to each request; yields its root."""

    class Handler(socketserver.BaseRequestHandler):
        def handle(self):
            self.request.settimeout(10)
            received = part = b"."
            while part and b"$top=1" not in received:
                part = self.request.recv(65_536)
                received += part
            if isinstance(answer, bytes):
                self.request.sendall(answer)
                return
            for drop in iter(lambda: b"H" if answer else b"", None):
                time.sleep(0.05)
                try:
                    self.request.sendall(drop)
                    if not answer and not self.request.recv(1):
                        return
                except OSError:
                    return

    with socketserver.ThreadingTCPServer(("127.0.0.1", 0), Handler) as server:
        server.daemon_threads = True
        thread = threading.Thread(target=server.serve_forever)
        thread.start()
        try:
            yield f"http://127.0.0.1:{server.server_address[1]}/"
        finally:
            server.shutdown()
            thread.join()


def assert_unusable(done, line):
    assert (done.status, done.out, done.error) == (3, "", f"error: {line}\n")


@pytest.mark.parametrize("answer, line", ANSWERS.values(), ids=ANSWERS)
def test_services_that_cannot_be_judged(answer, line):
    timeout = "20" if isinstance(answer, bytes) else "0.5"
    with answering(answer) as url:
        assert_unusable(tool(url, *ABOUT, "--timeout", timeout), line.replace("{}", url))


def test_a_port_where_nobody_listens():
    with socket.socket() as bound:
        bound.bind(("127.0.0.1", 0))
        url = f"http://127.0.0.1:{bound.getsockname()[1]}/"
        assert_unusable(tool(url, *ABOUT), f"POST {url}$batch: Connection refused")


@pytest.mark.parametrize("name, key, body, line, removed", [
    ("Boats", "Id", "{}", "Boats takes no entity: POST {}Boats is answered 404 The service has no Boats", 0),
    ("Books", "Number", '{"Title": "T", "Id": "conformance-x"}',
     "an entity of Books was created, and its answer has no key Number", 1),
    ("Books", "Id", '{"Name": "T"}', "Books takes no entity: POST {}Books is answered 400 Books have no 'Name'", 0),
])  # fmt: skip
def test_sets_and_keys_that_are_not_there(name, key, body, line, removed):
    with service() as (running, _):
        words = ("--set", name, "--key", key, "--body", body)
        assert_unusable(tool(running.url, *words), line.replace("{}", running.url))
        assert len([it for it in running.lines if "DELETE" in it and 'HTTP/1.1" 204' in it]) == removed


def test_a_service_that_ends_leaves_something():
    with service("ends") as (running, folder):
        done = tool(running.url, *ABOUT, cwd=folder)
        *left, line = done.error.splitlines()
        assert (done.status, done.out) == (3, "")
        assert line == f"error: POST {running.url}$batch: the service hung up without an answer"
        assert left and all(it.startswith("not removed: Books('conformance-") for it in left)
        assert [it for it in os.listdir(folder) if "sqlite" not in it] == []


def test_a_service_that_answers_no_batch_in_time():
    with service("stalls") as (running, folder):
        done = tool(running.url, *ABOUT, "--timeout", "1", cwd=folder)
        assert (done.status, done.out) == (3, "")
        assert re.fullmatch(r"error: \w+ \S+: no answer within 1 seconds", done.error.splitlines()[-1])


@pytest.fixture
def interruptible():
    """What a shell runs in the background ignores SIGINT, and so does all that it starts; not so the tool here."""
    before = signal.signal(signal.SIGINT, signal.default_int_handler)
    yield
    signal.signal(signal.SIGINT, before)


@contextlib.contextmanager
def judging(url, *words):
    """The tool as a process, while it judges a service."""
    words = [*TOOL, url, *ABOUT, *words]
    pipes = {"stdout": subprocess.PIPE, "stderr": subprocess.PIPE, "text": True, "env": with_package()}
    with subprocess.Popen(words, **pipes) as process:
        try:
            yield process
        finally:
            process.kill()


# After batches, after requests, and after removals: whatever is under way.
@pytest.mark.parametrize("number, words, least", [
    (signal.SIGINT, "batch", 20),
    (signal.SIGTERM, "batch", 21),
    (signal.SIGINT, "POST", 60),
    (signal.SIGTERM, "DELETE", 30),
    (signal.SIGINT, "DELETE", 31),
])  # fmt: skip
def test_what_was_made_is_removed_after_a_signal(number, words, least, interruptible):
    with service() as (running, folder), judging(running.url) as process:
        until(lambda: sum(words in it for it in running.lines), lambda count: count > least)
        process.send_signal(number)
        assert process.communicate(timeout=SECONDS) == ("", "error: interrupted\n")
        assert process.returncode == 3
        assert [it[0] for it in rows(os.path.join(folder, "library.sqlite"))] == ["dune", "emma"]


def test_a_second_signal_ends_the_removal(interruptible):
    with service("slow_deletes") as (running, folder), judging(running.url, "--case", "group-many") as process:
        counted = lambda word: sum(word in it for it in running.lines)
        until(lambda: counted("POST"), lambda count: count > 40)
        before = counted("DELETE")
        process.send_signal(signal.SIGINT)
        until(lambda: counted("DELETE"), lambda count: count > before + 2)
        process.send_signal(signal.SIGINT)
        out, error = process.communicate(timeout=SECONDS)
        *left, last = error.splitlines()
        there = {it[0] for it in rows(os.path.join(folder, "library.sqlite"))} - {"dune", "emma"}
        assert (process.returncode, out, last) == (3, "", "error: interrupted")
        assert there
        assert {f"not removed: Books({next(literals(it))})" for it in there} <= set(left)


def test_a_signal_raises_nothing_where_it_comes():
    # in a lock, an exception would leave the lock to nobody
    program = (
        "import os, signal, threading\n"
        "from odb_batch.conformance._interruption import Interrupted, Interruption\n"
        "found, turn = Interruption(), threading.Condition()\n"
        "found.catch()\n"
        "with turn:\n"
        "    os.kill(os.getpid(), signal.SIGINT)\n"
        "    turn.wait(0.01)\n"
        "try:\n"
        "    found.check()\n"
        "except Interrupted as error:\n"
        "    print(found.count, error)\n"
    )
    words = [sys.executable, "-c", program]
    done = subprocess.run(words, env=with_package(), capture_output=True, text=True, timeout=SECONDS)
    assert (done.stdout, done.stderr) == ("1 interrupted\n", "")


@pytest.mark.parametrize("words, line", [
    ((), "needed are URL, --set, --key and --body, or --list"),
    ((GOOD, "--set", "Books"), "needed are URL, --set, --key and --body, or --list"),
    *(((url, *ABOUT), f"argument URL: {url!r} is not the root of a service, such as http://localhost:8080/")
      for url in ("Books", "ftp://here/", "http://", "http://a:b/", "http://here/ there", "http://here/?x=1")),
    ((GOOD, *ABOUT, "--body", "[]"), "argument --body: '[]' is not an object of JSON"),
    ((GOOD, *ABOUT, "--header", "here"),
     "argument --header: 'here' is not a header, such as Authorization: Bearer 123"),
    ((GOOD, *ABOUT, "--header", "@none"), "argument --header: 'none' is not a file of headers that can be read"),
    ((GOOD, *ABOUT, "--case", "none"), "no case has a name like 'none'"),
    ((GOOD, *ABOUT, "--timeout", "0"), "argument --timeout: '0' is not a number of seconds up to 3600"),
    ((GOOD, *ABOUT, "--requests", "none"), "argument --requests: 'none' is not a whole number from 1 to 10000"),
])  # fmt: skip
def test_wrong_arguments(words, line):
    done = tool(*words)
    assert (done.status, done.out) == (2, "")
    assert done.error.splitlines()[-1] == f"{PROGRAM}: error: {line}"


def test_the_headers_of_a_file(tmp_path):
    file = tmp_path / "headers"
    file.write_text("Authorization: Bearer 1\n\nX-A: b\n", encoding="utf-8")
    found = parser().parse_args([GOOD, "--header", "Age: 7", "--header", f"@{file}"]).header
    assert found == [["Age", "7"], ["Authorization", "Bearer 1"], ["X-A", "b"]]


def test_the_cases_are_listed():
    done = tool("--list", "--case", "many", "--requests", "7")
    assert (done.status, done.error) == (0, "")
    assert done.out.split(None, 1) == ["many", "as many requests as the service takes: 7 (JSON 19.5)\n"]
