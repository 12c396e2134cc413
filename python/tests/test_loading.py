"""Where the library is looked for, and what is raised if it is not there."""

import subprocess
import sys

import pytest

from support.commands import with_package


def imported(before="", **variables):
    """Imports the package in a process of its own, after some code; returns its status and its messages."""
    words = [sys.executable, "-c", f"{before}\nimport odb_batch; print(odb_batch.__version__)"]
    done = subprocess.run(words, env={**with_package(), **variables}, capture_output=True, text=True)
    return done.returncode, done.stdout + done.stderr


def test_a_missing_library_is_named():
    status, messages = imported(ODB_BATCH_LIBRARY="/nowhere/libodb_batch.so.0")
    assert status == 1
    assert "ImportError: libodb_batch.so.0 cannot be loaded" in messages
    assert "/nowhere/libodb_batch.so.0" in messages


@pytest.mark.parametrize("system, name", [("win32", "odb_batch.dll"), ("darwin", "libodb_batch.dylib")])
def test_another_system_has_a_library_of_another_name(system, name):
    said = imported(f"import ctypes, os, sys; sys.platform = {system!r}", ODB_BATCH_LIBRARY="")[1]
    assert f"ImportError: {name} cannot be loaded" in said


def test_another_library_is_refused():
    status, messages = imported(ODB_BATCH_LIBRARY="libc.so.6")
    assert status == 1
    assert "is not the library of odb_batch" in messages
