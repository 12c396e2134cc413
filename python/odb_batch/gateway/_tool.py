"""``python3 -m odb_batch gateway``: listens until SIGTERM."""

import asyncio
import functools
import importlib.util
import logging
import os
import signal
import socket
import sys
from dataclasses import replace
from typing import Optional, Sequence

from ..journals import is_database
from ._log import LINES, log_line, log_to_stderr
from ._options import PROGRAM, Options, options_of
from ._values import Address
from ._workers import UNUSABLE, Worker, Workers

# After so many seconds the loop lets another thread of Python go on. With Python's 5 ms a journal in SQLite waits longer for the
# loop than for the disk.
_SWITCH_SECONDS = 0.0005


def main(words: Sequence[str]) -> int:
    """Does what the words of a command line ask; returns the exit status."""
    options = options_of(words)
    needed = {"aiohttp": True, "asyncpg": is_database(options.journal), "prometheus_client": options.metrics is not None}
    for name, is_needed in needed.items():
        if is_needed and importlib.util.find_spec(name) is None:
            print(f"error: {PROGRAM} needs {name}: pip install {name.replace('_', '-')}", file=sys.stderr)
            return UNUSABLE
    log_to_stderr(options.log, options.log_format == "json")
    if options.workers == 1:
        return _run(options)
    try:
        options = _with_free_port(options)
    except OSError as error:
        return _report(error)
    return Workers(options.workers, functools.partial(_run, options)).run()


def _run(options: Options, worker: Optional[Worker] = None) -> int:
    """Is a gateway until it is stopped, alone or as one of several; returns the exit status."""
    if worker is not None:
        log_to_stderr(options.log, options.log_format == "json", worker.number)
    sys.setswitchinterval(_SWITCH_SECONDS)
    try:
        asyncio.run(_serve(options, worker))
    except OSError as error:
        return _report(error)
    return 0


def _report(error: OSError) -> int:
    """Writes why the gateway cannot run; returns the exit status."""
    place = f"{error.filename}: " if error.filename else ""
    sys.stderr.write(f"error: {place}{error.strerror or error}\n")  # at once: workers may write at the same time
    return UNUSABLE


def _with_free_port(options: Options) -> Options:
    """Returns options with a port at which nobody listens yet: several workers would share it with others."""
    host, port = options.listen
    with socket.create_server((host, port), family=socket.AF_INET6 if ":" in host else socket.AF_INET) as listening:
        return replace(options, listen=Address(host, listening.getsockname()[1]))


async def _serve(options: Options, worker: Optional[Worker] = None) -> None:
    from aiohttp import web

    from ._application import Gateway, wait_for_first

    gateway = Gateway(options)
    apps = [(gateway.application(), options.listen)]
    if isinstance(options.metrics, Address):
        apps.append((gateway.metrics_application(), options.metrics.for_worker(worker.number if worker else 1)))
    logging.getLogger("aiohttp.server").addFilter(_drop_bytes)
    stop, runners = _Stop(worker), []
    try:
        for app, address in apps:
            # What is compressed is refused by its header: nothing is to be unpacked before.
            runner = web.AppRunner(app, access_log=None, auto_decompress=False)
            runners.append(runner)
            await runner.setup()
            shared = worker is not None and app is apps[0][0]
            await web.TCPSite(
                runner, address.host or None, address.port, shutdown_timeout=5, reuse_port=shared or None
            ).start()
        _announce(options, runners[0].addresses[0], worker)
        if gateway.notice and (worker is None or worker.number == 1):
            LINES.info(gateway.notice)
        await wait_for_first(stop.first.wait(), gateway.wait_until_broken())
        await gateway.stop(stop.further)
    finally:
        for runner in runners:
            await runner.cleanup()


def _announce(options: Options, bound: Sequence[object], worker: Optional[Worker]) -> None:
    """Writes where the gateway listens, whatever else the log has."""
    host = options.listen.host or "localhost"
    url = f"http://{f'[{host}]' if ':' in host else host}:{bound[1]}"
    if options.log_format == "json":
        log_line({"gateway": "listening", "url": url}, logging.WARNING)
    elif worker is None or worker.number == 1:
        print(f"listening on {url}", file=sys.stderr, flush=True)


def _drop_bytes(record: logging.LogRecord) -> bool:
    """Drops from the log what a request has that is not HTTP: it may be the header with a password."""
    from aiohttp.http import HttpProcessingError

    if record.exc_info and isinstance(record.exc_info[1], HttpProcessingError):
        record.exc_info = None
    return True


class _Stop:
    """What stops a gateway: SIGTERM and SIGINT, or each byte that a worker reads, and the end of these.

    Attributes:
        first, further: Set by the first of them, and by a further one, which hurries the gateway.
    """

    def __init__(self, worker: Optional[Worker]) -> None:
        self.first, self.further = asyncio.Event(), asyncio.Event()
        loop = asyncio.get_running_loop()
        if worker is not None:
            loop.add_reader(worker.orders, self._read, loop, worker.orders)
        else:
            for number in (signal.SIGTERM, signal.SIGINT):
                loop.add_signal_handler(number, self._note)

    def _note(self) -> None:
        (self.further if self.first.is_set() else self.first).set()

    def _read(self, loop: asyncio.AbstractEventLoop, orders: int) -> None:
        if os.read(orders, 1):
            self._note()
        else:
            loop.remove_reader(orders)
            self.first.set()
