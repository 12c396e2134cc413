"""What all tests share: the built program, the built library, and what a machine may lack.

The fixtures build nothing. If selected tests need what is missing or older than its sources, the run ends with a line
before the first test. A test that needs a tool is marked `needs("zsh")`, or takes the fixture `need` and calls it.
"""

import os
import shutil
import sys

import pytest

sys.dont_write_bytecode = True

from support import profiles
from support.program import BUILT, COMPILED, ROOT, SHARED, library_fault, place_of

# The tests themselves are compiled once, not by each worker of each run.
sys.dont_write_bytecode, sys.pycache_prefix = False, COMPILED
profiles.register()

UNBUILT = "unbuilt"

# The tests that import the package for Python, which loads the library then.
OVER_PACKAGE = tuple(
    os.path.join(ROOT, it)
    for it in ("python/tests/", "examples/service/tests/", "tests/frameworks/", "tests/gateway/")
)


def pytest_addoption(parser):
    group = parser.getgroup("odb_batch")
    group.addoption("--program", metavar="PATH", help="the program to test; else what bin/odb_batch has built")
    group.addoption("--library", metavar="FOLDER", help="the library to test; else what bin/odb_library wrote to dist/library")
    group.addoption("--wasm", metavar="FOLDER", help="the WebAssembly modules to test; else what bin/odb_wasm wrote to dist/wasm")


def pytest_configure(config):
    """Has the package for Python load the library that is tested, here and in other processes."""
    os.environ["ODB_BATCH_LIBRARY"] = os.path.join(place_of(config, "library"), SHARED)


def pytest_pycollect_makemodule(module_path, parent):
    is_loaded = not str(module_path).startswith(OVER_PACKAGE) or not library_fault(place_of(parent.config, "library"))
    return None if is_loaded else Unloaded.from_parent(parent, path=module_path)


class Unloaded(pytest.Module):
    """A module of tests over the package for Python, which cannot be imported without the library: one test stands for it."""

    def collect(self):
        return [Unbuilt.from_parent(self, name="library")]


class Unbuilt(pytest.Item):
    """Stands for the tests of a module; if it is selected, the run ends."""


def needs(item, name):
    """Whether a test needs the program or the library."""
    is_over = name == "library" and str(item.path).startswith(OVER_PACKAGE)
    return is_over or name in getattr(item, "fixturenames", ())


@pytest.hookimpl(trylast=True)
def pytest_collection_modifyitems(config, items):
    """Ends the run if tests need what is not built. A worker of xdist then has no tests; the first process ends the run."""
    needed = [name for name in BUILT if any(needs(item, name) for item in items)]
    faults = list(filter(None, (BUILT[name][1](place_of(config, name)) for name in needed)))
    if not faults or config.option.collectonly:
        return
    line = "; ".join(faults)
    if not hasattr(config, "workeroutput"):
        raise pytest.UsageError(line)
    config.workeroutput[UNBUILT] = line
    items.clear()


@pytest.hookimpl(optionalhook=True)
def pytest_testnodedown(node):
    """Keeps what a worker of xdist found to be missing."""
    node.config.unbuilt = getattr(node, "workeroutput", {}).get(UNBUILT)


@pytest.hookimpl(optionalhook=True)
def pytest_xdist_make_scheduler(config, log):
    """Shares the tests among the workers of `-n` so that few services are started."""
    from support.sharing import BySharing

    return BySharing(config, log) if config.getvalue("dist") == "load" else None


def pytest_sessionfinish(session):
    if getattr(session.config, UNBUILT, None):
        session.exitstatus = pytest.ExitCode.USAGE_ERROR


def pytest_unconfigure(config):
    if "support.starts" in sys.modules:
        sys.modules["support.starts"].end()
    if getattr(config, UNBUILT, None):
        print(f"ERROR: {config.unbuilt}", file=sys.stderr)


def pytest_runtest_setup(item):
    for mark in item.iter_markers("needs"):
        for name in mark.args:
            skip_without(name)


def skip_without(name):
    """Skips the test where a program is not installed."""
    if shutil.which(name) is None:
        pytest.skip(f"{name} is not installed")


@pytest.fixture(scope="session")
def need():
    """Skips a test, called with the name of a program, where that is not installed."""
    return skip_without


@pytest.fixture(scope="session")
def program(request):
    """The path of the program."""
    return place_of(request.config, "program")


@pytest.fixture(scope="session")
def library(request):
    """The folder of the static and the shared library."""
    return place_of(request.config, "library")


@pytest.fixture(scope="session")
def wasm(request):
    """The folder of the WebAssembly modules."""
    return place_of(request.config, "wasm")
