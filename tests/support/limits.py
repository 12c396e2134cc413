"""A limit of time for a test, whatever it waits for: a fixture, which a conftest.py imports for the tests beside it and below."""

import signal

import pytest

SECONDS = 900


@pytest.fixture(autouse=True)
def limit(request):
    """Fails a test that takes too long, or longer than its mark `seconds` says; what it has started is ended as it is after any
    failure."""
    mark = request.node.get_closest_marker("seconds")
    seconds = mark.args[0] if mark else SECONDS

    def end(*_):
        pytest.fail(f"not finished after {seconds} seconds")

    before = signal.signal(signal.SIGALRM, end)
    signal.alarm(seconds)
    yield
    signal.alarm(0)
    signal.signal(signal.SIGALRM, before)
