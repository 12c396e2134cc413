"""The package for Python: its examples, its types, and a copy that pip installs; its own tests are in python/tests."""

import ast
import doctest
import importlib
import os
import re
import shutil
import subprocess
import sys
import zipfile

import pytest

from support.commands import run
from support.embedding import IN_PYTHON, check_in
from support.program import ROOT, SHARED


MODULES = (
    "", ".client", ".commands", ".documents.requests", ".driver.groups", ".driver.tasks", ".driver.threads", ".errors.faults",
    ".http.messages", ".runs", ".testing", ".wsgi",
)  # fmt: skip


@pytest.mark.parametrize("name", MODULES)
def test_its_examples(name, package):
    found = doctest.testmod(importlib.import_module(f"odb_batch{name}"))
    assert found.failed == 0 < found.attempted


def test_its_extras_are_all_that_it_needs(tmp_path, monkeypatch):
    monkeypatch.syspath_prepend(f"{ROOT}/python")
    (wheel,) = [tmp_path / importlib.import_module("backend").build_wheel(str(tmp_path))]
    with zipfile.ZipFile(wheel) as package:
        (metadata,) = [package.read(it).decode() for it in package.namelist() if it.endswith("/METADATA")]
    head = metadata.partition("\n\n")[0]
    needed = re.findall("(?m)^Requires-Dist: (.*)$", head)
    extras = {
        "django": "Django>=3.2", "fastapi": "fastapi", "flask": "Flask", "gateway": "aiohttp>=3.13.3 prometheus-client>=0.16",
        "httpx": "httpx", "postgresql": "asyncpg>=0.27", "requests": "requests", "testing": "hypothesis",
    }  # fmt: skip
    assert needed == [f'{name}; extra == "{extra}"' for extra, names in extras.items() for name in names.split()]
    assert re.findall("(?m)^Provides-Extra: (.*)$", head) == list(extras)


@pytest.mark.slow
@pytest.mark.needs("mypy")
def test_its_types():
    print(run("mypy", f"--cache-dir={os.devnull}", cwd=ROOT))


@pytest.mark.slow
@pytest.mark.needs("flake8")
def test_its_style():
    if "flake8-builtins" not in run("flake8", "--version"):
        pytest.skip("python3-flake8-builtins is not installed")
    run("flake8", "python/odb_batch", cwd=ROOT)


@pytest.mark.slow
@pytest.mark.needs("pylint")
def test_its_names_and_that_all_is_used():
    run("pylint", "--score=n", "python/odb_batch", cwd=ROOT, env={**os.environ, "PYLINTHOME": os.devnull})


def without_imports(path):
    """A module as a tree: it is all one from where it imports the names of types."""
    tree = ast.parse(path.read_text(encoding="utf-8"))
    tree.body = [it for it in tree.body if not isinstance(it, ast.ImportFrom)]
    return ast.dump(tree)


@pytest.mark.slow
@pytest.mark.needs("pyupgrade")
def test_it_is_written_for_python_39(tmp_path):
    """pyupgrade changes nothing but imports."""
    copy, left_out = tmp_path / "odb_batch", ("libodb_batch*", "__pycache__", "journals")
    shutil.copytree(f"{ROOT}/python/odb_batch", copy, ignore=shutil.ignore_patterns(*left_out))
    modules = sorted(copy.rglob("*.py"))
    before = [without_imports(it) for it in modules]
    subprocess.run(["pyupgrade", "--py39-plus", *modules], capture_output=True)
    assert [it.name for it, text in zip(modules, before) if without_imports(it) != text] == []


@pytest.mark.slow
def test_it_is_installed_without_a_network(library, environment, tmp_path):
    copy, place = tmp_path / "python", tmp_path / "installed"
    shutil.copytree(f"{ROOT}/python", copy, ignore=shutil.ignore_patterns("libodb_batch*", "__pycache__"))
    shutil.copy(f"{library}/{SHARED}", copy / "odb_batch")
    pip = ["-m", "pip", "install", "-q", "--no-index", "--no-cache-dir", "--disable-pip-version-check"]
    run(sys.executable, *pip, "--root-user-action=ignore", "--target", place, copy, env=environment)
    (tmp_path / "page.py").write_text(check_in("check.py"), encoding="utf-8")
    plain = {key: it for key, it in environment.items() if key not in ("ODB_BATCH_LIBRARY", "LD_LIBRARY_PATH")}
    plain["PYTHONPATH"] = str(place)
    run(sys.executable, tmp_path / "page.py", wanted=IN_PYTHON, env=plain)
    words = ["conformance", "--list", "--case", "chain"]
    assert run(sys.executable, "-m", "odb_batch", *words, env=plain, cwd=tmp_path).startswith("chain ")
