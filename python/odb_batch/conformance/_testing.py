"""The cases as tests of a service, by pytest or unittest."""

import unittest
import warnings
from typing import Any, Mapping

from .._native.calls import MAX_REQUESTS, require_number
from ._cases import REQUESTS, all_cases
from ._entities import Entities
from ._interruption import Interruption
from ._report import failure_text
from ._runner import Runner
from ._service import MAX_SECONDS, ROOT, SECONDS, Service, is_root


def judge(
    url: str,
    case: str,
    *,
    set: str,
    key: str,
    body: Mapping[str, Any],
    headers: Mapping[str, str] = {},
    requests: int = REQUESTS,
    timeout: float = SECONDS,
) -> None:
    """Judges a service by one case, and removes the entities that it has made for it.

    A service is judged by one case at a time: nothing else may change the entity set meanwhile. The first case sends
    some 100 requests besides, by which it learns what the service has. Later ones rely on that for the same URL;
    what :func:`serving` serves is learned anew.

    Args:
        url: The root of the service, above its $batch: http or https, without a query.
        case: The name of the case, one of :func:`conformance_cases`.
        set: An entity set in which entities may be made.
        key: The key property of its entities.
        body: A body that creates an entity; the key is added.
        headers: What every request has besides, such as Authorization.
        requests: How many requests a batch may have, from 1 to 10,000.
        timeout: For how many seconds an answer is waited for, more than 0 and up to 3600.

    Raises:
        AssertionError: The service breaks a promise. The message has each broken promise with its section of the
            standard, the batch and the response.
        unittest.SkipTest: The case asks for what the service need not have, and has not; the message says what. By it
            unittest and pytest skip the test.
        Unusable: The service cannot be reached or judged, as one without $batch.
        ValueError: No case has this name, or another argument has a value that it may not have.
    """
    __tracebackhide__ = True  # for pytest  pylint: disable=unused-variable
    if not is_root(url):
        raise ValueError(f"{url!r} is not {ROOT}")
    require_number("requests", requests, MAX_REQUESTS)
    if not 0 < timeout <= MAX_SECONDS:
        raise ValueError(f"timeout must be a number of seconds up to {MAX_SECONDS}, not {timeout!r}")
    cases = [found for found in all_cases(requests) if found.name == case]
    if not cases:
        raise ValueError(f"no case has the name {case!r}")
    runner = _runner(Service(url, headers, timeout, Interruption()), set, key, dict(body), requests)
    try:
        (result,) = runner.run(cases)
    finally:
        for left in runner.entities.forget():
            warnings.warn(f"not removed: {left}", stacklevel=2)
    if result.reason is not None:
        raise unittest.SkipTest(result.reason)
    if result.breaks:
        raise AssertionError(failure_text(result))


# The runners of the services that were judged, by all that was said of each: a later case learns nothing anew.
_RUNNERS: dict[str, Runner] = {}


def _runner(service: Service, set: str, key: str, body: dict[str, Any], requests: int) -> Runner:
    """The runner of a service."""
    about = repr((service.root, sorted(service.headers.items()), service.timeout, set, key, body, requests))
    if about not in _RUNNERS:
        _RUNNERS[about] = Runner(service, Entities(service, set, key, body), requests)
    return _RUNNERS[about]


def forget() -> None:
    """Forgets what is known of services: their URLs may be those of others from now on."""
    _RUNNERS.clear()
