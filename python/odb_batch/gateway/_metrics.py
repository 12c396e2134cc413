"""What is counted of batches and requests, for Prometheus."""

import os
from typing import Any, Callable, Iterator

from ..driver.unit_tasks import Places
from ..http.budget import MemoryBudget
from ..journals import Journals
from ._options import Options

_BOUNDS = (0.001, 0.0025, 0.005, 0.01, 0.025, 0.05, 0.1, 0.25, 0.5, 1.0, 2.5, 5.0, 10.0, 30.0)


class Counts:
    """What is on its way now. Without --metrics nothing else is counted.

    Attributes:
        batches_running, requests_running: How many are on their way.
        has_metrics: Whether the other methods count anything.
    """

    has_metrics = False

    def __init__(self) -> None:
        self.batches_running = self.requests_running = 0

    def batch(self, status: int, seconds: float) -> None:
        """Counts a batch that is answered."""

    def request(self, route: str, method: str, status: int, seconds: float) -> None:
        """Counts a request to the service of a route, which has its prefix for a name."""

    def fault(self, code: str) -> None:
        """Counts a batch that is refused, or a request that the gateway has answered itself."""

    def watch_queue(self, service: str, places: Places) -> None:
        """Shows from now on how many requests wait for a place at a service."""

    def watch_journals(self, journals: Journals) -> None:
        """Shows from now on what is counted of journals."""


class Metrics(Counts):
    """What is counted since the start of the process. It needs prometheus_client."""

    has_metrics = True

    def __init__(self, options: Options, budget: MemoryBudget) -> None:
        os.environ.setdefault("PROMETHEUS_DISABLE_CREATED_SERIES", "True")  # else each counter has a second sample
        from prometheus_client import CollectorRegistry, Counter, Gauge, Histogram, PlatformCollector, ProcessCollector

        super().__init__()
        self._registry: Any = CollectorRegistry()
        of_all: Any = {"namespace": "odb_gateway", "registry": self._registry}
        timed: Any = {**of_all, "buckets": _BOUNDS}
        self._batches = Counter("batches", "Batches answered, by HTTP status.", ["status"], **of_all)
        self._requests = Counter(
            "requests", "Requests to services, by route, method and status.", ["route", "method", "status"], **of_all
        )
        self._faults = Counter(
            "faults", "Batches refused, and requests answered by the gateway, by code.", ["code"], **of_all
        )
        self._batch_seconds = Histogram("batch_seconds", "How long batches took.", **timed)
        self._request_seconds = Histogram("request_seconds", "How long services took, by route.", ["route"], **timed)
        self._waiting = Gauge("requests_waiting", "Requests that wait for a connection.", ["service"], **of_all)
        for name, explanation, value in self._gauges(options, budget):
            Gauge(name, explanation, **of_all).set_function(value)
        ProcessCollector(registry=self._registry)
        PlatformCollector(registry=self._registry)

    def _gauges(self, options: Options, budget: MemoryBudget) -> Iterator[tuple[str, str, Callable[[], float]]]:
        yield "batches_running", "Batches on their way.", lambda: self.batches_running
        yield "requests_running", "Requests on their way to services.", lambda: self.requests_running
        yield "memory_used", "Bytes that batches and their answers hold.", lambda: budget.used
        yield "memory_limit", "The option --memory.", lambda: options.memory
        yield "batches_limit", "The option --batches.", lambda: options.batches
        yield "connections_limit", "The option --connections.", lambda: options.connections
        yield "width_limit", "The option --width.", lambda: options.width

    def batch(self, status: int, seconds: float) -> None:
        self._batches.labels(status).inc()
        self._batch_seconds.observe(seconds)

    def request(self, route: str, method: str, status: int, seconds: float) -> None:
        self._requests.labels(route, method, status).inc()
        self._request_seconds.labels(route).observe(seconds)

    def fault(self, code: str) -> None:
        self._faults.labels(code).inc()

    def watch_queue(self, service: str, places: Places) -> None:
        self._waiting.labels(service).set_function(lambda: places.waiting)

    def watch_journals(self, journals: Journals) -> None:
        self._registry.register(_JournalCollector(journals))

    def page(self) -> tuple[str, bytes]:
        """Returns all of it as Prometheus reads it: the media type, and the text."""
        from prometheus_client import CONTENT_TYPE_LATEST, generate_latest

        return CONTENT_TYPE_LATEST, generate_latest(self._registry)


class _JournalCollector:
    """What is counted of journals."""

    def __init__(self, journals: Journals) -> None:
        self._journals = journals

    def collect(self) -> Iterator[Any]:
        from prometheus_client.core import CounterMetricFamily, GaugeMetricFamily

        for name, explanation, value in self._journals.metrics():
            family: Any = CounterMetricFamily if name.endswith("_total") else GaugeMetricFamily
            yield family(f"odb_gateway_{name}", explanation, value)
