"""What waits: requests for a connection to their service, batches for their end, and for clients that have gone."""

import asyncio
import json
import re
import signal
import socket
import threading
import types
from concurrent.futures import ThreadPoolExecutor

import pytest

from support.servers import CONTINUE, SECONDS, repeatable, until

# A defect has some of them wait for ever.
pytestmark = pytest.mark.seconds(150)


def code_of(response):
    return response.get("body", {}).get("error", {}).get("code")


@pytest.fixture
def event():
    """What services wait for whose path has the word slow."""
    found = threading.Event()
    yield found
    found.set()


@pytest.fixture
def slow(upstream, event):
    """Makes services that answer some paths only after an event."""
    from support.gateways import waiting

    return lambda: upstream(waiting(event))


def waiting_at(it, service):
    found = re.search(rf'requests_waiting{{service="{re.escape(service.url)}"}} (\d+)', it.metrics())
    return int(found[1])


def test_a_service_that_hangs_keeps_no_other_waiting(slow, upstream, front, event):
    hanging, other = slow(), upstream()
    it = front("--route", f"/odata/A={hanging.url}/slow", "--upstream", other.url, "--connections", "1")
    with ThreadPoolExecutor(1) as clients:
        asked = clients.submit(it.statuses, *[{"url": "A"}] * 3)
        until(lambda: hanging.seen)
        assert it.statuses({"url": "B"}, {"url": "B"}) == [200, 200]
        assert (waiting_at(it, hanging), waiting_at(it, other), asked.done()) == (2, 0, False)
        event.set()
        assert asked.result(SECONDS) == [200] * 3
    assert waiting_at(it, hanging) == 0


def test_a_group_waits_for_a_connection_to_its_service(slow, front, event):
    service = slow()
    it = front("--upstream", service.url, "--connections", "1", "--groups", "forward")
    with ThreadPoolExecutor(1) as clients:
        clients.submit(it.statuses, {"url": "slow"}, {"method": "post", "url": "x", "atomicityGroup": "g"})
        until(lambda: service.seen and (waiting_at(it, service) or len(service.seen) > 1))
        seen = list(service.paths)
        event.set()
    assert (seen, service.paths) == (["/odata/slow"], ["/odata/slow", "/$batch"])


def test_a_connection_is_not_waited_for_for_ever(slow, running):
    it = running("--upstream", slow().url, "--connections", "1", "--timeout", "1")
    first, second, third = it.batch(*[{"url": "slow"}] * 3).values()
    assert (first["status"], code_of(first)) == (504, "Timeout")
    assert (third["status"], code_of(third)) == (503, "Busy")
    assert code_of(second) in ("Timeout", "Busy")
    assert " code=Timeout reason=timeout" in it.stop(signal.SIGTERM)[1]


def test_the_log_says_that_no_connection_was_free(logged):
    from odb_batch import Refusal
    from odb_batch.gateway._metrics import Counts
    from odb_batch.gateway._options import options_of
    from odb_batch.gateway._upstream import UpstreamClient

    options = options_of(["--upstream", "http://a/", "--connections", "1", "--timeout", "0.01"])
    counts, faults = Counts(), []
    counts.fault = faults.append

    async def enter():
        upstreams = UpstreamClient(options, counts)
        await upstreams.open()
        async with upstreams.places["/"]:
            with pytest.raises(Refusal):
                await upstreams.places["/"].__aenter__()
        await upstreams.close()

    asyncio.run(enter())
    assert (logged(), faults) == (["service=http://a code=Busy reason=connections"], ["Busy"])


def test_nothing_is_sent_once_a_gateway_stops(aiohttp):
    """Also what had begun, and has waited for its journal."""
    from odb_batch import PreparedRequest, Refusal
    from odb_batch.gateway._metrics import Counts
    from odb_batch.gateway._options import options_of
    from odb_batch.gateway._upstream import UpstreamClient
    from odb_batch.http import BodyBudget

    options = options_of(["--upstream", "http://127.0.0.1:1/"])
    upstreams = UpstreamClient(options, Counts())
    upstreams.stopping.set()
    request = PreparedRequest("a", "GET", "http://127.0.0.1:1/", {}, b"")
    with pytest.raises(Refusal) as refused:
        asyncio.run(upstreams.send(options.routes[0], request, BodyBudget(10)))
    assert refused.value.answer.body["error"]["code"] == "Stopping"


def test_what_waits_is_not_lost_in_a_crash(slow, running, event, tmp_path):
    """Only what had a connection may have been sent."""
    service = slow()
    words = ["--upstream", service.url, "--connections", "1", "--journal", str(tmp_path), "--one-client"]
    requests = [{"id": f"r{k}", "method": "post", "url": f"slow{k}"} for k in range(8)]
    ask = lambda it: it.ask("POST", "/odata/$batch", json.dumps({"requests": requests}), {**CONTINUE, **repeatable("x")})
    it = running(*words)
    threading.Thread(target=lambda: pytest.raises(Exception, ask, it), daemon=True).start()
    until(lambda: service.seen)
    it.stop(signal.SIGKILL)
    event.set()
    again = running(*words)
    status, _, text = ask(again)
    found = json.loads(text)["responses"]
    assert (status, [response["status"] for response in found]) == (200, [500] + [201] * 7)
    assert code_of(found[0]) == "Lost" and len(service.seen) == 8
    line = r"(?m)^[-\d]+T[:\d]+Z level=error number=1 from=127.0.0.1 r0 was out when a process ended, and is lost$"
    assert re.search(line, again.stop(signal.SIGTERM)[1])


# Clients that have gone


def leave(it, requests, headers, service):
    """Sends a batch, and goes once a service has seen a request of it."""
    batch = json.dumps({"requests": [{"id": f"r{k}", "method": "post", **given} for k, given in enumerate(requests)]})
    head = "".join(f"{name}: {value}\r\n" for name, value in headers.items())
    with socket.create_connection(("127.0.0.1", it.port), SECONDS) as client:
        head = f"POST /odata/$batch HTTP/1.1\r\nHost: a\r\n{head}Content-Length: {len(batch)}\r\n\r\n"
        client.sendall((head + batch).encode())
        until(lambda: service.seen)


def is_idle(it):
    return "odb_gateway_batches_running 0" in it.metrics()


def test_nothing_starts_after_a_client_has_gone(slow, front, event):
    service = slow()
    it = front("--upstream", service.url, "--width", "1")
    leave(it, [{"url": "slow"}, {"url": "a"}, {"url": "b"}], CONTINUE, service)
    until(lambda: it.gone())
    event.set()
    until(lambda: is_idle(it))
    assert service.paths == ["/odata/slow"]


def test_a_batch_that_may_be_repeated_is_finished_without_its_client(slow, front, event, tmp_path):
    service = slow()
    it = front("--upstream", service.url, "--width", "1", "--journal", str(tmp_path), "--one-client")
    requests = [{"url": "slow"}, {"url": "a"}, {"url": "b"}]
    leave(it, requests, {**CONTINUE, **repeatable("x")}, service)
    until(lambda: it.gone())
    event.set()
    until(lambda: is_idle(it))
    assert service.paths == ["/odata/slow", "/odata/a", "/odata/b"]


def test_a_batch_that_does_not_come_is_not_waited_for_for_ever(upstream, front, monkeypatch):
    from odb_batch.gateway import _application

    monkeypatch.setattr(_application, "_READ_SECONDS", 0.2)
    it = front("--upstream", upstream().url)
    with socket.create_connection(("127.0.0.1", it.port), SECONDS) as client:
        head = b"POST /odata/$batch HTTP/1.1\r\nHost: a\r\nContent-Type: application/json\r\nContent-Length: 9\r\n\r\n"
        client.sendall(head + b"{")
        assert client.makefile("rb").readline().split()[1] == b"408"


# The end


def test_a_deadline_for_a_whole_batch(slow, front):
    it = front("--upstream", slow().url, "--width", "1", "--deadline", "0.5")
    found = it.batch({"url": "x"}, {"url": "slow"}, {"url": "y"})
    assert [(response["status"], code_of(response)) for response in found.values()] == [
        (200, None), (504, "Timeout"), (424, None),
    ]  # fmt: skip
    assert 'requests_total{method="GET",route="/",status="504"} 1' in it.metrics()


def test_the_end_of_the_last_batch_is_not_asked_for_again_and_again(slow, front, loop, event, monkeypatch):
    from odb_batch.gateway import _application

    service = slow()
    it = front("--upstream", service.url)
    with ThreadPoolExecutor(1) as clients:
        asked = clients.submit(it.statuses, {"url": "slow"})
        until(lambda: service.seen)
        slept, sleep = [], asyncio.sleep
        noted = {**vars(asyncio), "sleep": lambda *given: slept.append(given) or sleep(*given)}
        monkeypatch.setattr(_application, "asyncio", types.SimpleNamespace(**noted))

        async def stop():
            stopped = asyncio.ensure_future(it.gateway.stop(asyncio.Event()))
            done, _ = await asyncio.wait([stopped], timeout=0.2)
            event.set()
            await stopped
            return done

        assert loop.run(stop()) == set()
        assert (asked.result(SECONDS), slept) == ([200], [])


def test_a_line_at_sigterm_and_at_the_end(slow, running, event):
    service = slow()
    it = running("--upstream", service.url)
    with ThreadPoolExecutor(1) as clients:
        asked = clients.submit(it.statuses, {"url": "slow"})
        until(lambda: service.seen)
        it.process.send_signal(signal.SIGTERM)
        until(lambda: it.ask("GET", "/health/ready")[0] == 503)
        event.set()
        assert asked.result(SECONDS) == [200]
    lines = [line.split(" ", 1)[1] for line in it.stop(0)[1].splitlines()]
    assert lines[0] == "gateway=stopping batches=1 requests=1"
    assert lines[-1] == "gateway=stopped batches=0 requests=0"


def test_a_line_says_whether_a_batch_goes_on_from_a_journal(upstream, running, tmp_path):
    it = running("--upstream", upstream().url, "--journal", str(tmp_path), "--one-client")
    batch = json.dumps({"requests": [{"id": "a", "method": "get", "url": "x"}]})
    for _ in range(2):
        assert it.ask("POST", "/odata/$batch", batch, {**CONTINUE, **repeatable("x")})[0] == 200
    first, second, *_ = it.stop(signal.SIGTERM)[1].splitlines()
    assert (" journal=" in first, " journal=repeated " in second) == (False, True)
    assert " sent=1 " in first and " sent=0 " in second


def test_what_was_not_sent_is_not_counted_as_sent(upstream, running):
    with socket.socket() as closed:
        closed.bind(("127.0.0.1", 0))
        gone = f"/odata/gone=http://127.0.0.1:{closed.getsockname()[1]}/gone"
        it = running("--upstream", upstream().url, "--route", gone, "--log", "requests")
        assert it.statuses({"url": "gone"}, {"url": "x"}) == [503, 200]
    lines = it.stop(signal.SIGTERM)[1].splitlines()
    assert any(" status=503 code=Unreachable " in line and "request=r0" in line for line in lines)
    assert any(" sent=1 failed=1 " in line for line in lines)


@pytest.mark.parametrize("words, seconds", [([], 1), (["--keep-alive", "30"], 30)])
def test_how_long_a_connection_is_kept(aiohttp, monkeypatch, words, seconds):
    from odb_batch.gateway import _upstream
    from odb_batch.gateway._metrics import Counts
    from odb_batch.gateway._options import options_of

    made, connector = [], _upstream.aiohttp.TCPConnector
    monkeypatch.setattr(_upstream.aiohttp, "TCPConnector", lambda **given: made.append(given) or connector(**given))

    async def make():
        upstreams = _upstream.UpstreamClient(options_of(["--upstream", "http://a/", *words]), Counts())
        await upstreams.open()
        await upstreams.close()

    asyncio.run(make())
    assert [given["keepalive_timeout"] for given in made] == [seconds]
