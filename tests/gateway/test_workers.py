"""Several processes that share a port: one command starts them, and starts them again."""

import json
import os
import re
import signal
import socket
import subprocess
import sys
import threading
from concurrent.futures import ThreadPoolExecutor

import pytest

from support.commands import with_package
from support.servers import CONTINUE, SECONDS, Asked, free_ports, repeatable, skip_without, until

ONE = json.dumps({"requests": [{"id": "a", "method": "post", "url": "A", "body": 1}]})


def workers_of(it):
    """The processes of a gateway."""
    with open(f"/proc/{it.process.pid}/task/{it.process.pid}/children", encoding="ascii") as file:
        return [int(word) for word in file.read().split()]


def is_ready(it, count=2):
    """Whether all processes listen."""
    with open("/proc/net/tcp", encoding="ascii") as file:
        return len(re.findall(rf"(?m)^ *\d+: 0100007F:{it.port:04X} \w+:0000 0A ", file.read())) == count


@pytest.fixture
def several(running):
    """Starts a gateway with two workers, and waits until both listen; fails if it has ended."""
    if not os.path.exists("/proc/net/tcp"):
        pytest.skip("/proc is not installed")

    def start(*words):
        it = running(*words, "--workers", "2")
        until(lambda: is_ready(it) or it.process.poll() is not None)
        if it.process.returncode is not None:
            status, text = it.stop(0)
            pytest.fail(f"the gateway has ended with status {status}: {text}")
        return it

    return start


def test_a_gateway_that_has_ended_is_not_waited_for(several):
    with socket.create_server(("127.0.0.1", 0)) as used:
        metrics = str(used.getsockname()[1])
        with pytest.raises((AssertionError, pytest.fail.Exception), match="already in use"):
            several("--upstream", "http://127.0.0.1:1/", "--metrics", metrics)


def test_workers_share_a_port_and_end_together(upstream, several):
    service = upstream()
    it = several("--upstream", service.url)
    pids = workers_of(it)
    assert len(pids) == 2
    for _ in range(24):
        assert it.ask("POST", "/odata/$batch", ONE, CONTINUE)[0] == 200
    status, text = it.stop(signal.SIGTERM)
    assert status == 0 and not any(os.path.exists(f"/proc/{pid}") for pid in pids)
    lines = [line.split()[1:] for line in text.splitlines()]
    batches = [line for line in lines if "batch=/odata/$batch" in line]
    assert {line[-1] for line in batches} == {"worker=1", "worker=2"} and len(batches) == 24
    assert {line[-1] for line in lines if "gateway=stopped" in line} == {"worker=1", "worker=2"}
    assert ["workers=stopping", "count=2"] in lines


def test_a_signal_to_all_processes_counts_once(upstream, several):
    """As service managers send it: what runs is answered."""
    from support.gateways import waiting

    event = threading.Event()
    service = upstream(waiting(event))
    it = several("--upstream", service.url, "--grace", "60")
    with ThreadPoolExecutor(1) as clients:
        asked = clients.submit(it.statuses, {"url": "slow"})
        until(lambda: service.seen)
        for pid in [*workers_of(it), it.process.pid]:
            os.kill(pid, signal.SIGTERM)
        with pytest.raises(TimeoutError):
            asked.result(0.5)
        event.set()
        assert asked.result(SECONDS) == [200]
    assert it.stop(0)[0] == 0


def test_a_second_signal_breaks_off_what_runs(upstream, several):
    service = upstream()
    it = several("--upstream", service.url, "--grace", "60")
    with ThreadPoolExecutor(1) as clients:
        asked = clients.submit(it.statuses, {"url": "hang"})
        until(lambda: service.seen)
        it.process.send_signal(signal.SIGTERM)
        until(lambda: len(workers_of(it)) == 1)
        it.process.send_signal(signal.SIGINT)
        assert asked.result(SECONDS) == [504]
    assert it.stop(0)[0] == 0


@pytest.mark.slow
def test_a_worker_that_was_killed_is_started_again(upstream, several, tmp_path):
    """Another one answers meanwhile, also what the first one has performed: they share the journal."""
    service = upstream()
    it = several("--upstream", service.url, "--journal", str(tmp_path), "--one-client")
    ask = lambda: it.ask("POST", "/odata/$batch", ONE, {**CONTINUE, **repeatable("x")})
    first = ask()
    before = workers_of(it)
    os.kill(before[0], signal.SIGKILL)
    until(lambda: is_ready(it, 1))
    assert ask()[2] == first[2]
    until(lambda: len(workers_of(it)) == 2 and is_ready(it))
    assert before[0] not in workers_of(it) and before[1] in workers_of(it)
    os.kill(before[1], signal.SIGKILL)
    until(lambda: before[1] not in workers_of(it) and is_ready(it))
    assert ask()[2] == first[2] and len(service.seen) == 1
    status, text = it.stop(signal.SIGTERM)
    assert status == 0 and "worker 1 has ended with the status -9, and is started again" in text


def test_workers_end_with_the_first_process(upstream, several):
    it = several("--upstream", upstream().url)
    pids = workers_of(it)
    os.kill(it.process.pid, signal.SIGKILL)
    until(lambda: not any(os.path.exists(f"/proc/{pid}") and is_ready(it, 1) for pid in pids))
    until(lambda: is_ready(it, 0))


def test_each_worker_has_a_port_for_its_metrics(upstream, several):
    skip_without("prometheus_client")
    ports = free_ports(2)
    it = several("--upstream", upstream().url, "--metrics", str(ports[0]))
    for _ in range(8):
        it.statuses({"url": "x"})
    counts = []
    for port in ports:
        other = Asked()
        other.port = port
        text = other.ask("GET", "/metrics")[2].decode()
        counts.append(sum(map(float, re.findall(r'(?m)^odb_gateway_batches_total{status="200"} (\S+)$', text))))
    assert sum(counts) == 8


# A child that is no worker has ended before the only worker does.
INHERITED = """
import os, sys, time
from odb_batch.gateway._workers import Workers

other = os.fork()
if not other:
    os._exit(0)

def work(worker):
    while os.path.exists(f"/proc/{other}"):
        time.sleep(0.01)
    return 3

sys.exit(Workers(1, work).run())
"""


def test_a_process_that_is_inherited_is_no_worker(aiohttp):
    """The first process of a container is the parent of those whose own parent has ended."""
    if not os.path.exists("/proc/net/tcp"):
        pytest.skip("/proc is not installed")
    done = subprocess.run([sys.executable, "-c", INHERITED], env=with_package(), stderr=subprocess.PIPE, timeout=SECONDS)
    assert (done.returncode, done.stderr) == (3, b"")


@pytest.mark.parametrize("words, status, line", [
    (["--journal", "/no", "--one-client"], 3, "error: /no: No such file or directory"),
    (["--metrics", "/metrics"], 2, "python3 -m odb_batch gateway: error: --workers needs --metrics PORT: each worker has a port of its "
     "own, from that one on"),
    (["--listen", "127.0.0.1:{port}"], 3, None),
], ids=["journal", "metrics", "port"])  # fmt: skip
def test_where_workers_cannot_start(upstream, words, status, line):
    with socket.create_server(("127.0.0.1", 0)) as used:
        words = [it.format(port=used.getsockname()[1]) for it in words]
        command = [sys.executable, "-m", "odb_batch", "gateway", "--upstream", "http://127.0.0.1:1/", "--workers", "2"]
        listen = [] if "--listen" in words else ["--listen", "127.0.0.1:0"]
        done = subprocess.run(
            [*command, *listen, *words], env=with_package(), stderr=subprocess.PIPE, text=True, timeout=SECONDS
        )
    assert done.returncode == status
    assert line in done.stderr.splitlines() if line else "already in use" in done.stderr
