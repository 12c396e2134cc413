#!/usr/bin/env python3
"""How many batches a second a gateway answers without a journal, with SQLite and with PostgreSQL: `journals.py [FOLDER] [--two] [--short]`.

FOLDER is what `bin/odb_library` has written, `dist/library` unless it is given. A gateway for each kind stands before one
service that answers at once. 1, 8 and 64 clients send batches of five POSTs, side by side (flat: two syncs) or each after
the one before (chain: six); for each number of clients the kinds take turns, in an order drawn anew. Counted are the answers
of a while that begins once all clients are under way. Each turn has gateways of its own, as two processes of one kind differ.
Shown are medians over the turns, and as a share of those of the first kind in the same turn, beside the share that a quiet
machine has to have. SQLite is on the disk of the temporary folder, PostgreSQL too, with its usual `fsync`. With `--two` the
clients ask two gateways by turns, over one PostgreSQL. It takes five minutes; no turn begins later. With `--short` it is one
short turn, which shows that it runs.
"""

import asyncio
import itertools
import json
import os
import re
import secrets
import signal
import statistics
import subprocess
import sys
import tempfile
import time

ROOT = os.path.dirname(os.path.dirname(os.path.abspath(__file__)))
NAMES = [word for word in sys.argv[1:] if word not in ("--two", "--short")]
LIBRARY = os.path.abspath(NAMES[0] if NAMES else os.path.join(ROOT, "dist", "library"))
os.environ["ODB_BATCH_LIBRARY"] = os.path.join(LIBRARY, "libodb_batch.so.0")
sys.path.insert(0, os.path.join(ROOT, "tests"))

from support import databases  # noqa: E402
from support.commands import with_package  # noqa: E402
from support.servers import FIRST_SENT  # noqa: E402

# How long clients are under way before their answers count, and how long these do.
CLIENTS, TURNS, WARM, SECONDS, MOST_SECONDS = (1, 8, 64), 7, 0.4, 1.5, 290.0
if "--short" in sys.argv:
    TURNS, WARM, SECONDS = 1, 0.1, 0.2
# The shares of a prototype on a quiet machine, by 1, 8 and 64 clients; a tenth less is enough.
PROTOTYPE = {
    ("flat", "SQLite"): (0.61, 0.66, 0.68), ("flat", "PostgreSQL"): (0.49, 0.73, 0.71),
    ("chain", "SQLite"): (0.44, 0.47, 0.66), ("chain", "PostgreSQL"): (0.26, 0.57, 0.66),
}  # fmt: skip
BODY = b'{"@context":"/odata/$metadata#Orders/$entity","Id":1,"Customer":"a customer","Price":9.990}'
ANSWER = (
    b"HTTP/1.1 201 Created\r\nContent-Type: application/json\r\nLocation: /odata/Orders(1)\r\n"
    b"Content-Length: %d\r\n\r\n%s" % (len(BODY), BODY)
)


class Fast(asyncio.Protocol):
    """A service that answers each request at once."""

    def connection_made(self, transport):
        self.transport, self.data = transport, b""

    def data_received(self, data):
        self.data += data
        while True:
            head, found, rest = self.data.partition(b"\r\n\r\n")
            size = re.search(rb"(?i)content-length: (\d+)", head)
            length = int(size[1]) if size else 0
            if not found or len(rest) < length:
                return
            self.data = rest[length:]
            self.transport.write(ANSWER)


def batch(shape):
    requests = []
    for k in range(5):
        found = {"id": f"r{k}", "method": "post", "url": "Orders", "body": {"Customer": "x" * 40, "Price": 9.99}}
        requests.append({**found, **({"dependsOn": [f"r{k - 1}"]} if shape == "chain" and k else {})})
    return json.dumps({"requests": requests}).encode()


async def ask(streams, body):
    """Sends a batch over a kept connection; returns its status."""
    reader, writer = streams
    writer.write(
        b"POST /odata/$batch HTTP/1.1\r\nHost: a\r\nContent-Type: application/json\r\nPrefer: continue-on-error\r\n%s"
        b"Content-Length: %d\r\n\r\n%s" % (body[0], len(body[1]), body[1])
    )
    head = await reader.readuntil(b"\r\n\r\n")
    await reader.readexactly(int(re.search(rb"(?i)content-length: (\d+)", head)[1]))
    return int(head[9:12])


def processor(process):
    """The processor time of a process in ms."""
    with open(f"/proc/{process.pid}/stat", encoding="utf-8") as file:
        fields = file.read().rpartition(")")[2].split()
    return 1000 * (int(fields[11]) + int(fields[12])) / os.sysconf("SC_CLK_TCK")


async def rate(gateways, clients, shape, is_kept):
    """How many batches a second some clients get answers to, the processor time of the gateways for one, the median and the
    99th of a hundred waits, in ms."""
    text, waits, port = batch(shape), [], itertools.cycle(port for _, port in gateways)
    opened = [await asyncio.open_connection("127.0.0.1", next(port), limit=2**24) for _ in range(clients)]
    start = time.perf_counter() + WARM
    end = start + SECONDS

    async def client(streams):
        while (began := time.perf_counter()) < end or not waits:
            key = f"Repeatability-Request-ID: {secrets.token_hex(16)}\r\nRepeatability-First-Sent: {FIRST_SENT}\r\n"
            status = await ask(streams, (key.encode() if is_kept else b"", text))
            assert status == 200, status
            ended = time.perf_counter()
            if start <= ended < end or (ended >= end and not waits):
                waits.append(ended - began)
        streams[1].close()

    running = asyncio.gather(*map(client, opened))
    used = []
    for moment in (start, end):
        await asyncio.sleep(moment - time.perf_counter())
        used.append(sum(processor(process) for process, _ in gateways))
    await running
    waits.sort()
    count = len(waits)
    return count / SECONDS, (used[1] - used[0]) / count, 1000 * waits[count // 2], 1000 * waits[int(count * 0.99)]


def gateway(upstream, *options):
    words = [sys.executable, "-m", "odb_batch", "gateway", "--listen", "127.0.0.1:0", "--upstream", upstream]
    words += ["--log", "none", "--batches", "500", "--connections", "400", *options]
    process = subprocess.Popen(words, env=with_package(), stderr=subprocess.PIPE, text=True)
    return process, int(process.stderr.readline().rpartition(":")[2])


async def measure(places):
    server = await asyncio.get_running_loop().create_server(Fast, "127.0.0.1", 0, backlog=1000)
    url = f"http://127.0.0.1:{server.sockets[0].getsockname()[1]}/odata/"
    found, end = {}, time.monotonic() + MOST_SECONDS
    for turn in range(TURNS):
        if turn and time.monotonic() > end:
            break
        made = {
            kind: [gateway(url, *(("--journal", place, "--one-client") if place else ())) for _ in range(count)]
            for kind, (place, count) in places.items()
        }
        try:
            for shape, clients in itertools.product(("flat", "chain"), CLIENTS):
                for kind in sorted(made, key=lambda _: secrets.randbits(16)):
                    row = await rate(made[kind], clients, shape, bool(places[kind][0]))
                    found.setdefault((shape, clients, kind), []).append(row)
        finally:
            for process, _ in itertools.chain(*made.values()):
                process.send_signal(signal.SIGTERM)
                process.wait()
    return found


def show(found, kinds):
    turns = len(found["flat", CLIENTS[0], kinds[0]])
    print(f"medians of {turns} turn{'s' if turns > 1 else ''}, load {os.getloadavg()[0]:.1f}; ms: how long half of the batches took, and 99 of 100")
    print(f"{'':28}batches/s  share  at least  processor ms  share  half  99 %")
    for shape, clients in itertools.product(("flat", "chain"), CLIENTS):
        for kind in kinds:
            rows, bases = found[shape, clients, kind], found[shape, clients, kinds[0]]
            rates, used, half, most = (statistics.median(row[k] for row in rows) for k in range(4))
            share, more = (statistics.median(row[k] / base[k] for row, base in zip(rows, bases)) for k in range(2))
            name = f"{shape:5}{clients:4} client{'s' if clients > 1 else ' '}  {kind}"
            studied = PROTOTYPE.get((shape, kind))
            least = f"{0.9 * studied[CLIENTS.index(clients)]:.2f}" if studied else ""
            print(f"{name:28}{rates:9.1f}{share:7.2f}{least:>10}{used:14.1f}{more:7.2f}{half:6.0f}{most:6.0f}", flush=True)


def main():
    server = databases.Postgresql(folder=tempfile.mkdtemp()) if databases.programs() else None
    with tempfile.TemporaryDirectory() as folder:
        try:
            url = server.url("public") if server else ""
            if "--two" in sys.argv:
                places = {"one gateway": (url, 1), "two gateways": (url, 2)}
            else:
                places = {"no journal": ("", 1), "SQLite": (folder, 1), **({"PostgreSQL": (url, 1)} if url else {})}
            show(asyncio.run(measure(places)), list(places))
        finally:
            if server:
                server.end()


if __name__ == "__main__":
    main()
