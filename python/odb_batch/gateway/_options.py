"""The options of the gateway, as a command line has them."""

import argparse
import sys
from dataclasses import dataclass, field, fields
from typing import Any, Callable, Optional, Sequence, Union

from ..http.budget import DEFAULT_MEMORY
from ..http.observation import OnRequest
from . import _values as values
from ._credentials import USUAL
from ._routes import Route
from ._values import Address

PROGRAM = "python3 -m odb_batch gateway"
_DESCRIPTION = "Answers $batch for services that have none. It needs aiohttp. See docs/gateway.md."


def _option(default: Any, metavar: str, read: Callable[[str], Any], explanation: str, **more: Any) -> Any:
    """Returns an option with a value: its default, the name of its value, and how that is read."""
    return field(default=default, metadata={"metavar": metavar, "type": read, "help": explanation, **more})


def _each(metavar: str, read: Callable[[str], Any], explanation: str) -> Any:
    """Returns an option that may be repeated."""
    return _option((), metavar, read, explanation, action="append")


def _choice(default: str, choices: Sequence[str], explanation: str) -> Any:
    """Returns an option that is one of some words."""
    return field(default=default, metadata={"choices": choices, "help": explanation})


@dataclass(frozen=True)
class Options:
    """What a gateway is told: each option by its name, as the help explains it, and what follows from them."""

    upstream: tuple[Route, ...] = _each("URL", values.upstream, "the root of a service; its path is the same here")
    route: tuple[Route, ...] = _each("PREFIX=URL", values.route, "where paths with a prefix go; the longest counts")
    groups: str = _choice("refuse", ("refuse", "forward"), "answers atomicity groups 501, or sends each as a batch")
    allow: tuple[str, ...] = _each("NAME", values.inner_header, "a further header that requests of a batch may have")
    credential: tuple[str, ...] = _each("NAME", values.header, "a further header by which services know a client")
    send: tuple[tuple[str, str], ...] = _each(
        "HEADER=PREFIX", values.credential_route, "the route that gets a credential; by default the one service, or none"
    )
    width: int = _option(8, "N", values.width, "requests or groups of a batch at once")
    timeout: float = _option(30, "S", values.seconds, "seconds for an answer, else 504; for a connection, else 503")
    deadline: Optional[float] = _option(None, "S", values.seconds, "seconds for a batch; then nothing more starts")
    batches: int = _option(128, "N", values.number, "batches at once, else 503")
    connections: int = _option(100, "N", values.number, "requests of all batches at once to one service; others wait")
    keep_alive: float = _option(1, "S", values.seconds, "seconds to keep a connection, fewer than services do")
    limit: int = _option(1_000, "N", values.number, "requests in a batch, else 413")
    max_size: int = _option(16_777_216, "BYTES", values.size, "of a batch, else 413, and of its answers together")
    memory: int = _option(DEFAULT_MEMORY, "BYTES", values.number, "of all batches and their answers, else 503")
    journal: str = _option("", "PLACE", str, "a folder or postgresql://.. for batches with a Repeatability-Request-ID")
    journal_size: int = _option(16_384, "MB", values.number, "megabytes of the journals in a folder, else 503")
    lease: float = _option(15, "S", values.seconds, "seconds after which another gateway goes on, in PostgreSQL")
    client_header: Optional[str] = _option(None, "NAME", values.client, "the header that says who a client is")
    one_client: bool = field(default=False, metadata={"action": "store_true", "help": "all batches are of one client"})
    keep: float = _option(86_400, "S", values.seconds, "seconds for which a batch is kept")
    listen: Address = _option(Address("127.0.0.1", 8090), "HOST:PORT", values.address, "port 0 is any free one")
    grace: float = _option(25, "S", values.seconds, "seconds for what runs at SIGTERM")
    health: str = _option("/health", "PATH", values.path, "for probes; PATH/ready, too")
    metrics: Union[str, Address, None] = _option(
        None, "PATH|PORT", values.metrics, "for Prometheus: here, or at a port of its own"
    )
    log: str = _choice("batches", ("none", "batches", "requests"), "lines on standard error, also for each request")
    log_format: str = _choice("text", ("text", "json"), "whether lines are words or JSON")
    on_request: Optional[OnRequest] = _option(
        None, "MODULE:NAME", values.hook, "a Python function that is called with each request before it is sent"
    )
    workers: int = _option(1, "N", values.workers, "processes that share the port; each has limits of its own")
    config: str = _option("", "FILE", str, "a file in TOML that has options by their names, and tables of routes")

    @property
    def routes(self) -> tuple[Route, ...]:
        """Where requests go."""
        return (*self.route, *self.upstream)

    @property
    def credentials(self) -> tuple[str, ...]:
        """The headers by which services know a client."""
        return (*USUAL, *self.credential)


def parser(program: str = PROGRAM) -> argparse.ArgumentParser:
    """Returns the parser of the command line."""
    arguments = argparse.ArgumentParser(prog=program, description=_DESCRIPTION)
    for option in fields(Options):
        default = [] if option.default == () else option.default
        settings = {**option.metadata, "help": option.metadata["help"] + ("; %(default)s" if default else "")}
        arguments.add_argument(f"--{option.name.replace('_', '-')}", default=default, **settings)
    return arguments


def _contradiction(given: Options) -> str:
    """Returns why options do not go together, in a line; empty if they do."""
    prefixes = [route.prefix for route in given.routes]
    if not prefixes:
        return "needed is --upstream or --route"
    if len(set(prefixes)) < len(prefixes):
        return "two routes have the same prefix"
    for name, prefix in given.send:
        if prefix not in prefixes:
            return f"--send {name}={prefix}: no route has this prefix"
    if given.memory < given.max_size:
        return f"--memory must be at least --max-size, {given.max_size}"
    if given.client_header and given.one_client:
        return "--client-header and --one-client cannot be combined"
    if given.journal and not (given.client_header or given.one_client):
        return "--journal needs --client-header NAME, which says who a client is, or --one-client"
    if given.client_header in given.allow:
        return f"--allow {given.client_header}: a request may not say who the client is"
    if given.metrics in (given.health, f"{given.health}/ready"):
        return "--metrics and --health need different paths"
    if given.workers > 1 and isinstance(given.metrics, str):
        return "--workers needs --metrics PORT: each worker has a port of its own, from that one on"
    return ""


def _file_options(path: str) -> argparse.Namespace:
    """Returns the options of a file; ends the process with status 2 if they are wrong."""
    arguments = parser(f"{PROGRAM} --config {path}")
    if sys.version_info < (3, 11):
        arguments.error("it needs Python 3.11 or later, which has tomllib")
    import tomllib

    try:
        with open(path, "rb") as file:
            settings = tomllib.load(file)
    except (OSError, ValueError) as error:
        arguments.error(getattr(error, "strerror", None) or str(error))
    words, tables = [], []
    repeated = {option.name.replace("_", "-"): option.default == () for option in fields(Options)}
    del repeated["config"]
    for name, given in settings.items():
        if name not in repeated:
            arguments.error(f"{name} is not an option")
        if isinstance(given, list) and not repeated[name]:
            arguments.error(f"{name} has one value, not a list")
        for value in given if isinstance(given, list) else [given]:
            if name == "route" and isinstance(value, dict):
                tables.append(value)
            elif value is not False:
                words.append(f"--{name}" if value is True else f"--{name}={value}")
    options = arguments.parse_args(words)
    for table in tables:
        try:
            route, sent = values.route_table(table)
        except argparse.ArgumentTypeError as error:
            arguments.error(f"route: {error}")
        options.route.append(route)
        options.send.extend(sent)
    return options


def options_of(words: Sequence[str]) -> Options:
    """Returns the options of a command line; ends the process with status 2 if they are wrong."""
    arguments = parser()
    given = arguments.parse_args(words)
    if given.config:
        given = arguments.parse_args(words, _file_options(given.config))
    lists = {name: tuple(value) for name, value in vars(given).items() if isinstance(value, list)}
    options = Options(**{**vars(given), **lists})
    fault = _contradiction(options)
    if fault:
        arguments.error(fault)
    return options
