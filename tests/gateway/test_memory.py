"""What batches and their answers hold in memory: reserved as it is read, from one budget, and given back."""

import contextlib
import json
import random
import socket
import threading
import time

import pytest

from odb_batch.gateway._options import options_of
from support.journals import text_at
from support.servers import CONTINUE, SECONDS, repeatable, until

ONE = json.dumps({"requests": [{"id": "a", "method": "get", "url": "x"}]})


@pytest.fixture
def peak(monkeypatch):
    """Returns how much was reserved at once, at most."""
    from odb_batch.http.budget import MemoryBudget

    take, most = MemoryBudget.take, [0]

    def noted(budget, count):
        found = take(budget, count)
        most[0] = max(most[0], budget.used)
        return found

    monkeypatch.setattr(MemoryBudget, "take", noted)
    return lambda: most[0]


def is_free(it):
    return "odb_gateway_memory_used 0\n" in it.metrics()


def test_answers_that_come_at_once_have_the_room_of_one_batch(upstream, front, peak):
    """Each could have it alone; together they hold no more, and those that find no room are not kept."""
    it = front("--upstream", upstream().url, "--max-size", "400000", "--width", "8")
    found = it.statuses(*[{"url": "big"}] * 8)
    assert set(found) <= {200, 507} and found.count(200) <= 1
    assert 0 < peak() <= 400_000 + 2_000
    until(lambda: is_free(it))


@pytest.mark.parametrize("paths", [
    ["x", "missing", "html"], ["big", "big"], ["hang-up", "half"], ["gzip"], ["elsewhere", "cookie"],
], ids=str)  # fmt: skip
@pytest.mark.parametrize("method", ["get", "post"])
def test_all_is_given_back(upstream, front, peak, paths, method):
    it = front("--upstream", upstream().url, "--max-size", "400000")
    it.statuses(*({"method": method, "url": path} for path in paths))
    assert peak() > 0
    until(lambda: is_free(it))


def test_an_answer_without_an_end_is_not_read_on(upstream, front, monkeypatch):
    """A request that was performed keeps its status; its service sees the end of the connection."""
    from aiohttp import web

    from support.gateways import ODD

    ended = threading.Event()

    async def flood(request):
        found = web.StreamResponse(status=201)
        await found.prepare(request)
        try:
            while request.transport is not None:
                await found.write(b"x" * 10_000)
        finally:
            ended.set()
        return found

    monkeypatch.setitem(ODD, "flood", flood)
    it = front("--upstream", upstream().url, "--max-size", "400000", "--timeout", "60")
    assert it.statuses({"url": "flood"}, {"method": "post", "url": "flood"}) == [507, 201]
    assert ended.wait(SECONDS)


@pytest.mark.parametrize("body, status", [("{", 400), (b" " * 2_000, 413), (ONE, 405)])
def test_all_is_given_back_by_what_is_refused(upstream, front, body, status):
    it = front("--upstream", upstream().url, "--max-size", "1000")
    assert it.ask("PUT" if status == 405 else "POST", "/odata/$batch", body, CONTINUE)[0] == status
    until(lambda: is_free(it))


def test_all_is_given_back_by_a_batch_that_is_cut(upstream, front):
    it = front("--upstream", upstream().url)
    with socket.create_connection(("127.0.0.1", it.port), SECONDS) as client:
        head = b"POST /odata/$batch HTTP/1.1\r\nHost: a\r\nContent-Type: application/json\r\nContent-Length: 100\r\n\r\n"
        client.sendall(head + b"{")
        until(lambda: not is_free(it))
    until(lambda: is_free(it))


def test_a_batch_for_which_others_have_left_no_memory(upstream, front):
    service = upstream()
    it = front("--upstream", service.url, "--memory", "500000", "--max-size", "400000")
    assert it.gateway._budget.take(500_000 - 10)
    status, headers, text = it.ask("POST", "/odata/$batch", ONE, CONTINUE)
    assert (status, headers["retry-after"], json.loads(text)["error"]["code"]) == (503, "1", "Busy")
    assert service.seen == []
    it.gateway._budget.give(500_000 - 10)
    assert it.ask("POST", "/odata/$batch", ONE, CONTINUE)[0] == 200


def test_all_is_given_back_whenever_a_client_leaves(upstream, front):
    """Also the one connection to the service, for which others wait."""
    it = front("--upstream", upstream().url, "--connections", "1", "--groups", "forward")
    requests = [{"url": "big"}, {"url": "x", "method": "post", "atomicityGroup": "g"}, {"url": "y"}, {"url": "half"}]
    batch = json.dumps({"requests": [{"id": f"r{k}", "method": "get", **given} for k, given in enumerate(requests)]})
    lines = ["POST /odata/$batch HTTP/1.1", "Host: a", "Content-Type: application/json", f"Content-Length: {len(batch)}"]
    text, draw = "\r\n".join([*lines, "", batch]).encode(), random.Random(1)
    for k in range(60):
        with socket.create_connection(("127.0.0.1", it.port), SECONDS) as client:
            client.sendall(text[: draw.randrange(len(text)) if k % 4 == 0 else None])
            time.sleep(draw.uniform(0, 0.03))
    until(lambda: is_free(it) and "odb_gateway_batches_running 0\n" in it.metrics())
    assert it.statuses({"url": "x"}) == [200]


@pytest.mark.parametrize("method, status, code", [("get", 503, "Busy"), ("post", 201, None)])
def test_an_answer_for_which_others_have_left_no_memory(upstream, front, method, status, code):
    """A GET may be sent again; what was performed keeps its status, and loses its body."""
    it = front("--upstream", upstream().url, "--memory", "500000", "--max-size", "400000")
    assert it.gateway._budget.take(400_000)
    found = it.batch({"method": method, "url": "big"})["r0"]
    assert (found["status"], found.get("body", {}).get("error", {}).get("code")) == (status, code)


def test_a_journal_is_read_only_if_there_is_memory_for_it(upstream, front, place):
    service = upstream()
    it = front("--upstream", service.url, "--journal", place, "--one-client", "--memory", "500000",
               "--max-size", "400000")  # fmt: skip
    headers = {**CONTINUE, **repeatable("x")}
    first = it.ask("POST", "/odata/$batch", ONE, headers)
    left = len(ONE) + len(text_at(place, b"0:x")) - 1
    assert it.gateway._budget.take(500_000 - left)
    assert it.ask("POST", "/odata/$batch", ONE, headers)[0] == 503
    it.gateway._budget.give(500_000 - left)
    assert it.ask("POST", "/odata/$batch", ONE, headers)[2] == first[2]
    assert len(service.seen) == 1


def test_the_memory_is_in_the_metrics(upstream, front):
    it = front("--upstream", upstream().url, "--memory", "20000000")
    assert {"odb_gateway_memory_used 0", "odb_gateway_memory_limit 2e+07"} <= set(it.metrics().splitlines())


def test_memory_for_less_than_one_batch(capsys):
    with pytest.raises(SystemExit):
        options_of(["--upstream", "http://a/", "--memory", "1000"])
    line = "python3 -m odb_batch gateway: error: --memory must be at least --max-size, 16777216"
    assert capsys.readouterr().err.splitlines()[-1] == line


@pytest.fixture
def long(upstream, front):
    """A gateway whose answers are longer than what a connection holds of which the client does not read."""
    from aiohttp import web

    return front("--upstream", upstream(lambda seen: web.Response(body=b"x" * 12_000_000)).url)


@contextlib.contextmanager
def unread(it):
    """A client that has sent a batch, and reads no answer by itself."""
    with socket.socket() as client:
        client.setsockopt(socket.SOL_SOCKET, socket.SO_RCVBUF, 4096)
        client.settimeout(SECONDS)
        client.connect(("127.0.0.1", it.port))
        head = f"POST /odata/$batch HTTP/1.1\r\nHost: a\r\nContent-Type: application/json\r\nContent-Length: {len(ONE)}\r\n\r\n"
        client.sendall((head + ONE).encode())
        yield client


def test_a_client_that_does_not_read_is_not_waited_for_for_ever(long, monkeypatch):
    from odb_batch.gateway import _application

    monkeypatch.setattr(_application, "_WRITE_SECONDS", 0.5)
    with unread(long):
        until(lambda: not is_free(long))
        until(lambda: is_free(long))
    assert "batches_running 0" in long.metrics()


def test_memory_is_held_until_the_answer_is_sent(long):
    with unread(long) as client:
        assert client.recv(1) == b"H"  # of HTTP/1.1
        assert not is_free(long)
    until(lambda: is_free(long))
