"""The must-fail edits: `tools/edits.py` misses each wrong body that has to be refused for good."""

import os
import re
import shutil
import subprocess
import sys

import edits
import pytest

ROOT = edits.ROOT
# How many wrong bodies there are; a new one is a new row.
BODIES = 27


@pytest.fixture
def copy(tmp_path, monkeypatch):
    """A copy of what the tool reads."""
    os.mkdir(tmp_path / "tools")
    shutil.copy(f"{ROOT}/tools/edits.py", tmp_path / "tools")
    shutil.copy(f"{ROOT}/crates.txt", tmp_path)
    for crate in edits.crates():
        for folder in ("src", "must-fail"):
            if os.path.isdir(f"{ROOT}/crates/{crate}/{folder}"):
                shutil.copytree(f"{ROOT}/crates/{crate}/{folder}", tmp_path / "crates" / crate / folder)
    monkeypatch.setattr(edits, "ROOT", str(tmp_path))
    return tmp_path


def edit_in(copy, name):
    (found,) = copy.glob(f"crates/*/must-fail/{name}.edit")
    return found


def rename_test(copy, name):
    """Gives a proved test another name, in each crate of tests."""
    for path in copy.glob("crates/odb_tests*/src/**/*.rt"):
        text = path.read_text(encoding="utf-8")
        if f"fn {name}(" in text:
            path.write_text(text.replace(f"fn {name}(", f"fn no_{name}("), encoding="utf-8")


def test_every_wrong_body_has_an_edit_or_a_test():
    assert len(edits.WRONG_BODIES) == BODIES
    assert set(edits.TESTS) <= set(edits.WRONG_BODIES)
    assert all(named or edits.TESTS.get(body) for body, named in edits.WRONG_BODIES.items())
    listed = [name for named in edits.WRONG_BODIES.values() for name in named]
    assert len(listed) == len(set(listed))


def test_wrong_bodies_are_named_in_words():
    words = [*edits.WRONG_BODIES, *sum(edits.WRONG_BODIES.values(), []), *sum(edits.TESTS.values(), [])]
    assert not [text for text in words if re.search(r"\b[A-Z]\d|^[a-z]\d+$", text)]


def test_nothing_is_gone(copy):
    assert list(edits.gone()) == []


def test_each_edit_is_missed_once_it_is_gone(copy):
    for body, named in edits.WRONG_BODIES.items():
        for name in named:
            path = edit_in(copy, name)
            text = path.read_bytes()
            path.unlink()
            assert list(edits.gone()) == [f"{body}: the edit {name} is gone"]
            path.write_bytes(text)


def test_each_proved_test_is_missed_once_it_is_gone(copy):
    names = {name for tests in edits.TESTS.values() for name in tests}
    for name in names:
        rename_test(copy, name)
    missed = {f"{body}: the test {name} is gone" for body, tests in edits.TESTS.items() for name in tests}
    assert set(edits.gone()) == missed


def test_the_tool_fails_if_an_edit_is_gone(copy):
    edit_in(copy, "a_run_is_finished_while_a_request_runs").unlink()
    call = [sys.executable, str(copy / "tools" / "edits.py")]
    done = subprocess.run(call, capture_output=True, text=True)
    assert done.returncode == 1
    assert "\na run is finished while a request runs: the edit" in done.stdout
