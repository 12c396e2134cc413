"""The commands of the package: python3 -m odb_batch COMMAND."""

import subprocess
import sys

import pytest

from odb_batch.__main__ import COMMANDS
from support.commands import with_package


def called(*words, **variables):
    """Runs python3 -m with some words; returns its status, and what it prints."""
    words = [sys.executable, "-m", *words]
    done = subprocess.run(words, env={**with_package(), **variables}, capture_output=True, text=True, timeout=120)
    return done.returncode, done.stdout, done.stderr


@pytest.mark.parametrize("words", [(), ("canonical",), ("--other",)])
def test_wrong_commands_end_with_one_line(words):
    status, out, error = called("odb_batch", *words)
    usage, line = error.splitlines()
    assert (status, out, usage) == (2, "", "usage: python3 -m odb_batch COMMAND ..")
    assert line.startswith("python3 -m odb_batch: error: ")


def test_the_commands_are_listed():
    status, out, error = called("odb_batch", "--help")
    assert (status, error) == (0, "")
    for name, (_, shows) in COMMANDS.items():
        assert f"\n  {name:14}{shows}\n" in out + "\n"


@pytest.mark.parametrize("name", COMMANDS)
def test_each_command_says_how_it_is_called(name):
    status, out, error = called("odb_batch", name, "--help")
    assert (status, error) == (0, "")
    assert out.startswith(f"usage: python3 -m odb_batch {name} ")


NOWHERE = {"ODB_BATCH_LIBRARY": "/nowhere/libodb_batch.so.0"}
# The option -m says which module is to be run.
named = pytest.mark.skipif(sys.version_info < (3, 10), reason="Python 3.9 does not say which module it runs")


@named
@pytest.mark.parametrize("words", [(), *((name,) for name in COMMANDS)])
def test_help_needs_no_library(words):
    assert called("odb_batch", *words, "--help", **NOWHERE) == called("odb_batch", *words, "--help")


@named
@pytest.mark.parametrize("words", [
    ["gateway", "--upstream", "http://127.0.0.1:1/"], ["conformance", "http://127.0.0.1:1/"], ["conformance", "--list"],
])  # fmt: skip
def test_what_needs_the_library_says_so(words):
    status, out, error = called("odb_batch", *words, **NOWHERE)
    assert (status, out, len(error.splitlines())) == (3, "", 1)
    assert error.startswith("error: libodb_batch.so.0 cannot be loaded (/nowhere/libodb_batch.so.0: ")


@named
def test_the_page_needs_no_library(tmp_path):
    wanted = called("odb_batch", "page", str(tmp_path / "page.html"))
    assert called("odb_batch", "page", str(tmp_path / "page.html"), **NOWHERE) == wanted
