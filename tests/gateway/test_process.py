"""The gateway as a process: signals, its log, the port of its metrics, and where it cannot start."""

import asyncio
import json
import re
import secrets
import signal
import socket
import subprocess
import sys
import threading
from collections import Counter
from concurrent.futures import ThreadPoolExecutor
from http.client import HTTPException

import pytest

from support.commands import with_package
from support.journals import count_at
from support.servers import CONTINUE, FIRST_SENT, JSON, SECONDS, Asked, free_port, repeatable, skip_without, until


def refused(words, before="pass"):
    """The status and the message of a gateway that does not start."""
    program = f"import sys; {before}; from odb_batch.__main__ import main; sys.exit(main(sys.argv[1:]))"
    words = [sys.executable, "-c", program, "gateway", "--upstream", "http://127.0.0.1:1/", *words]
    done = subprocess.run(words, env=with_package(), stderr=subprocess.PIPE, text=True, timeout=SECONDS)
    return done.returncode, done.stderr


def test_without_aiohttp():
    wanted = "error: python3 -m odb_batch gateway needs aiohttp: pip install aiohttp\n"
    assert refused([], "sys.modules['aiohttp'] = None") == (3, wanted)


def test_without_asyncpg():
    wanted = "error: python3 -m odb_batch gateway needs asyncpg: pip install asyncpg\n"
    words = ["--journal", "postgresql://127.0.0.1:1/x", "--one-client"]
    assert refused(words, "sys.modules['asyncpg'] = None") == (3, wanted)


def test_without_prometheus_client():
    wanted = "error: python3 -m odb_batch gateway needs prometheus_client: pip install prometheus-client\n"
    assert refused(["--metrics", "9100"], "sys.modules['prometheus_client'] = None") == (3, wanted)


@pytest.mark.slow
def test_where_it_cannot_start(running, tmp_path):
    port = running("--upstream", "http://127.0.0.1:1/").port
    status, message = refused(["--listen", f"127.0.0.1:{port}"])
    assert status == 3 and re.fullmatch("error: .*address already in use\n", message)
    assert refused(["--journal", "/no", "--one-client"]) == (3, "error: /no: No such file or directory\n")
    (tmp_path / ("7" * 64)).write_text('{"form": 2}\n')
    wanted = f"error: {tmp_path} has journals of an earlier version; name an empty folder\n"
    assert refused(["--journal", str(tmp_path), "--one-client"]) == (3, wanted)


def test_help_names_each_option_once():
    words = [sys.executable, "-m", "odb_batch", "gateway", "--help"]
    text = subprocess.run(words, env=with_package(), stdout=subprocess.PIPE, text=True, timeout=SECONDS).stdout
    options = re.findall(r"(?m)^  (--\w[\w-]*)", text)
    assert len(options) == len(set(options)) == 30


def test_sigterm(upstream, running):
    """What runs is answered, nothing more starts, and a new batch is refused."""
    from support.gateways import waiting

    event = threading.Event()
    service = upstream(waiting(event))
    it = running("--upstream", service.url, "--width", "1", "--log", "none")
    with ThreadPoolExecutor(1) as clients:
        asked = clients.submit(
            it.statuses, {"method": "post", "url": "slow"}, {"url": "$r0", "dependsOn": ["r0"]}, {"url": "x"}
        )
        until(lambda: service.seen)
        it.process.send_signal(signal.SIGTERM)
        until(lambda: it.ask("GET", "/health/ready")[0] == 503)
        assert it.ask("GET", "/health")[0] == 200
        status, _, text = it.ask("POST", "/odata/$batch", '{"requests": []}', JSON)
        assert (status, json.loads(text)["error"]["code"]) == (503, "Stopping")
        event.set()
        assert asked.result(SECONDS) == [201, 424, 424]
    assert (it.stop(0), service.paths) == ((0, ""), ["/odata/slow"])


def test_a_batch_that_is_read_at_sigterm_may_be_sent_again(upstream, running, tmp_path):
    service = upstream()
    words = ["--journal", str(tmp_path), "--one-client", "--metrics", "/metrics", "--log", "none"]
    skip_without("prometheus_client")
    it = running("--upstream", service.url, *words)
    head = f"POST /odata/$batch HTTP/1.1\r\nHost: a\r\nContent-Type: {JSON['Content-Type']}\r\n"
    with socket.create_connection(("127.0.0.1", it.port), SECONDS) as client:
        head += f"Repeatability-Request-ID: x\r\nRepeatability-First-Sent: {FIRST_SENT}\r\n"
        client.sendall(f"{head}Content-Length: 50\r\n\r\n".encode())
        until(lambda: b"batches_running 1" in it.ask("GET", "/metrics")[2])
        it.process.send_signal(signal.SIGTERM)
        until(lambda: it.ask("GET", "/health/ready")[0] == 503)
        client.sendall(b'{"requests":[{"id":"a","method":"get","url":"x"}]}')
        assert client.makefile("rb").readline().split()[1] == b"503"
    assert (it.stop(0), count_at(tmp_path)) == ((0, ""), 0)


@pytest.mark.parametrize("grace, signals", [("0.3", 1), ("60", 2)])
def test_sigterm_breaks_off_what_takes_too_long(upstream, running, grace, signals):
    service = upstream()
    it = running("--upstream", service.url, "--grace", grace, "--connections", "1", "--log", "none")
    with ThreadPoolExecutor(1) as clients:
        asked = clients.submit(it.batch, {"url": "hang"}, {"url": "waits"}, {"url": "after", "dependsOn": ["r0"]})
        until(lambda: service.seen)
        it.process.send_signal(signal.SIGTERM)
        if signals == 2:
            until(lambda: it.ask("GET", "/health/ready")[0] == 503)
            it.process.send_signal(signal.SIGTERM)
        found = asked.result(SECONDS)
    codes = [(it["status"], it.get("body", {}).get("error", {}).get("code")) for it in found.values()]
    assert codes == [(504, "Stopped"), (424, None), (424, None)]
    assert (it.stop(0), service.paths) == ((0, ""), ["/odata/hang"])


def test_a_line_of_log_for_each_batch_and_each_request(upstream, running):
    service = upstream()
    it = running("--upstream", service.url, "--log", "requests")
    it.statuses({"url": "x?secret=1"}, {"method": "post", "url": "missing"})
    it.ask("POST", "/odata/$batch?secret=1", "{", JSON)
    _, text = it.stop(signal.SIGTERM)
    lines = [re.sub(r"^[-\d]+T[:\d]+Z |ms=\S+|\b\d{5}\b", "", line).split() for line in text.splitlines()]
    url, batch = "url=http://127.0.0.1:", ["batch=/odata/$batch", "method=POST"]
    first, second = (["number=1", "from=127.0.0.1"], ["number=2", "from=127.0.0.1"])
    assert sorted(lines[:2]) == [
        ["request=r0", "method=GET", f"{url}/odata/x", "status=200", *first],
        ["request=r1", "method=POST", f"{url}/odata/missing", "status=404", *first],
    ]  # fmt: skip
    assert lines[2].pop(5).startswith("bytes=") and lines[2] == [*batch, "status=200", "sent=2", "failed=1", *first]
    assert lines[3] == [*batch, "status=400", "code=F02", "sent=0", "failed=0", *second]
    assert lines[4:] == [["gateway=stopping", *(idle := ["batches=0", "requests=0"])], ["gateway=stopped", *idle]]


def test_a_path_is_one_word_of_the_log(upstream, running):
    it = running("--upstream", upstream().url)
    with socket.create_connection(("127.0.0.1", it.port), SECONDS) as client:
        head = b"POST /a\tstatus=200\xc2\x85\xff%20/$batch HTTP/1.1\r\nHost: a\r\nContent-Length: 0\r\n\r\n"
        client.sendall(head)
        assert client.makefile("rb").readline().split()[1] == b"400"
    _, text = it.stop(signal.SIGTERM)
    assert text.split()[1:3] == ["batch=/a%09status=200%C2%85%FF%20/$batch", "method=POST"]


def test_what_is_not_http_is_not_in_the_log(upstream, running):
    it = running("--upstream", upstream().url)
    with socket.create_connection(("127.0.0.1", it.port), SECONDS) as client:
        client.sendall(b"POST /odata/$batch HTTP/1.1\r\nHost: a\r\nAuthorization: secret\1\r\n\r\n")
        assert client.makefile("rb").readline().split()[1] == b"400"
    _, text = it.stop(signal.SIGTERM)
    assert len(text.splitlines()) == 3 and text.count("gateway=sto") == 2 and "secret" not in text


def test_metrics_at_a_port_of_their_own(upstream, running):
    skip_without("prometheus_client")
    port = free_port()
    it = running("--upstream", upstream().url, "--metrics", str(port))
    it.statuses({"url": "x"})
    assert it.ask("GET", "/metrics")[0] == 404
    other = Asked()
    other.port = port
    status, _, text = other.ask("GET", "/metrics")
    assert status == 200 and b"odb_gateway_requests_running 0" in text
