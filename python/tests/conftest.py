"""The drivers and the applications that several modules of tests take. They import the package, which loads the library."""

import pytest

from support.limits import limit  # noqa: F401


@pytest.fixture(params=["in_threads", "in_tasks"], ids=["threads", "tasks"])
def driver(request):
    """Performs a batch by a function."""
    from support import performing

    return getattr(performing, request.param)


@pytest.fixture(params=["OverWsgi", "OverWideWsgi", "OverAsgi", "OverNewAsgi"])
def over(request):
    """A small application with `$batch` in front of it."""
    from support import applications

    return getattr(applications, request.param)


@pytest.fixture
def service(over):
    """The same, at its usual path."""
    return over("/odata/$batch")
