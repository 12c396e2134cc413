"""Gateways and services behind them: in this process, in a loop that runs in a thread; and gateways as processes."""

import asyncio
import importlib.util
import json
import os
import re
import subprocess
import sys
import threading
from contextlib import suppress
from typing import NamedTuple

import aiohttp
from aiohttp import web
from yarl import URL

from .commands import with_package
from .servers import SECONDS, Asked, skip_without

BIG = 300_000
OF_CONNECTION = ("connection", "content-length", "date", "keep-alive", "server", "transfer-encoding")


class Loop:
    """A loop that runs in a thread."""

    def __init__(self):
        self.loop = asyncio.new_event_loop()
        self.runners, self.servers = [], []
        self.thread = threading.Thread(target=self.loop.run_forever, daemon=True)
        self.thread.start()

    def run(self, coroutine):
        return asyncio.run_coroutine_threadsafe(coroutine, self.loop).result(SECONDS)

    def serve(self, app):
        """Serves an application; returns its port."""
        return self.run(self._served(app))

    async def _served(self, app):
        runner = web.AppRunner(app, access_log=None)
        self.runners.append(runner)
        await runner.setup()
        await web.TCPSite(runner, "127.0.0.1", 0, shutdown_timeout=0.1).start()
        return runner.addresses[0][1]

    def listen(self, serve, **options):
        """Serves connections by a function of a reader and a writer until the end; returns its port."""
        server = self.run(asyncio.start_server(serve, "127.0.0.1", 0, **options))
        self.servers.append(server)
        return server.sockets[0].getsockname()[1]

    def stop(self):
        for runner in self.runners:
            self.run(runner.cleanup())
        self.run(self._end_rest())
        self.loop.call_soon_threadsafe(self.loop.stop)
        self.thread.join(SECONDS)
        self.loop.close()

    async def _end_rest(self):
        """Closes the servers in the thread that they run in (in another, `close` may fail), and cancels all tasks."""
        for server in self.servers:
            server.close()
        rest = asyncio.all_tasks() - {asyncio.current_task()}
        for task in rest:
            task.cancel()
        await asyncio.gather(*rest, return_exceptions=True)


class Seen(NamedTuple):
    """A request that a service has seen."""

    method: str
    path: str
    headers: dict
    body: bytes


class Upstream(Asked):
    """A service, which keeps what it has seen, and answers by a function or as the path says."""

    def __init__(self, loop, answer=None):
        self.seen, self.answer = [], answer or usual
        app = web.Application(client_max_size=2**25)
        app.router.add_route("*", "/{path:.*}", self._answer)
        self.port = loop.serve(app)
        self.url = f"http://127.0.0.1:{self.port}"

    @property
    def paths(self):
        return [it.path for it in self.seen]

    async def _answer(self, request):
        headers = {name.lower(): value for name, value in request.headers.items()}
        seen = Seen(request.method, request.raw_path, headers, await request.read())
        self.seen.append(seen)
        kind = request.path.rpartition("/")[2]
        if kind in ODD:
            return await ODD[kind](request)
        found = self.answer(seen)
        return await found if asyncio.iscoroutine(found) else found


def usual(seen):
    """A POST creates what has the number of its turn; other requests show how they were seen."""
    body = json.dumps({"path": seen.path, "price": "9.99"}).replace('"9.99"', "9.990").encode()
    if seen.method != "POST":
        return web.Response(body=body, content_type="application/json", headers={"ETag": '"1"'})
    return web.Response(status=201, body=body, content_type="application/json", headers={"Location": seen.path + "(1)"})


def waiting(event):
    """Answers in the usual way, but what is slow only after an event."""

    async def answer(seen):
        while "slow" in seen.path and not event.is_set():
            await asyncio.sleep(0.01)
        return usual(seen)

    return answer


async def hang_up(request):
    request.transport.close()
    return web.Response()


async def hang(request):
    await asyncio.sleep(SECONDS)


async def half(request):
    found = web.StreamResponse(headers={"Content-Length": "100"})
    await found.prepare(request)
    await found.write(b"half")
    request.transport.close()
    return found


async def big(request):
    found = web.StreamResponse(status=201 if request.method == "POST" else 200)
    await found.prepare(request)
    with suppress(ConnectionError):
        for _ in range(BIG // 10_000):
            await found.write(b"x" * 10_000)
    return found


def always(**options):
    async def answer(request):
        return web.Response(**options)

    return answer


# How a service answers a path whose last segment is one of these.
ODD = {
    "hang-up": hang_up,
    "hang": hang,
    "half": half,
    "big": big,
    "html": always(text="<p>no", content_type="text/html"),
    "no-json": always(body=b"<p>no", content_type="application/json"),
    "gzip": always(body=b"no", headers={"Content-Encoding": "gzip"}),
    "elsewhere": always(status=302, headers={"Location": "http://elsewhere/odata/Books(1)"}),
    "missing": always(status=404),
    "cookie": always(headers={"Set-Cookie": "a=b", "X-Own": "ü"}),
}


class Raw:
    """A service that answers each request by bytes, as they are, and keeps the bytes of what it has seen."""

    def __init__(self, loop, answer):
        self.seen, self.answer = [], answer
        self.port = loop.listen(self._served)
        self.url = f"http://127.0.0.1:{self.port}"

    async def _served(self, reader, writer):
        with suppress(ConnectionError, asyncio.IncompleteReadError):
            head = await reader.readuntil(b"\r\n\r\n")
            size = [line.split(b":")[1] for line in head.lower().splitlines() if line.startswith(b"content-length:")]
            self.seen.append(head + await reader.readexactly(int(size[0]) if size else 0))
            writer.write(self.answer)
            await writer.drain()
        writer.close()


def has_metrics():
    return importlib.util.find_spec("prometheus_client") is not None


class Front(Asked):
    """A gateway in this process, by the words of its command line."""

    def __init__(self, loop, *words):
        from odb_batch.gateway._application import Gateway
        from odb_batch.gateway._options import options_of

        self.gateway = Gateway(options_of([*(["--metrics", "/metrics"] if has_metrics() else []), *words]))
        self.port = loop.serve(self.gateway.application())
        self.runner = loop.runners[-1]
        self.url = f"http://127.0.0.1:{self.port}/odata/"

    def metrics(self):
        """What Prometheus reads, with whole numbers as such."""
        skip_without("prometheus_client")
        return re.sub(r"(?m)\.0$", "", self.gateway._metrics.page()[1].decode())

    def gone(self):
        """Whether no client is there any more."""
        return not self.runner.server.connections


class Proxy(Asked):
    """What stands before a gateway and its service: batches go to the first, all else to the second."""

    def __init__(self, loop, gateway, service):
        self.gateway, self.service = gateway, service
        app = web.Application(client_max_size=2**25)
        app.router.add_route("*", "/{path:.*}", self._answer)
        app.cleanup_ctx.append(self._opened)
        self.port = loop.serve(app)
        self.url = f"http://127.0.0.1:{self.port}/odata/"

    async def _opened(self, app):
        async with aiohttp.ClientSession(auto_decompress=False, cookie_jar=aiohttp.DummyCookieJar()) as self.session:
            yield

    async def _answer(self, request):
        port = self.gateway.port if request.path.endswith("/$batch") else self.service.port
        url = URL(f"http://127.0.0.1:{port}{request.raw_path}", encoded=True)
        options = {"headers": request.headers, "data": await request.read(), "allow_redirects": False}
        async with self.session.request(request.method, url, **options) as answer:
            kept = [(name, value) for name, value in answer.headers.items() if name.lower() not in OF_CONNECTION]
            return web.Response(status=answer.status, headers=kept, body=await answer.read())


class Running(Asked):
    """A gateway as a process."""

    def __init__(self, *words):
        command = [sys.executable, "-m", "odb_batch", "gateway", "--listen", "127.0.0.1:0", *words]
        # Without a buffer, in which lines would be that come with the first one.
        self.process = subprocess.Popen(command, env=with_package(), stderr=subprocess.PIPE, bufsize=0)
        line = self.process.stderr.readline().decode()
        assert "listening" in line, line
        self.port = int(re.search(r".*:(\d+)", line)[1])
        self.url = f"http://127.0.0.1:{self.port}/odata/"

    def stop(self, number):
        """Sends a signal; returns the exit status and what else was written."""
        if self.process.poll() is None:
            os.kill(self.process.pid, number)
        try:
            _, text = self.process.communicate(timeout=SECONDS)
        finally:
            self.process.kill()
        return self.process.returncode, text.decode()
