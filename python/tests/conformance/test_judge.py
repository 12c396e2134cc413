"""The cases as tests of a service: what judge raises, and what pytest and unittest make of it."""

import contextlib
import io
import json
import os
import re
import subprocess
import sys
import textwrap
import unittest

import pytest

import library
import odb_batch.conformance
from common import SECONDS, rows
from odb_batch.conformance import Unusable, conformance_cases, judge, serving
from odb_batch.conformance._testing import forget
from support.commands import with_package
from support.program import ROOT
from tool import HERE, service, tool

BOOKS = {"set": "Books", "key": "Id", "body": {"Title": "Conformance"}}

BROKEN = """\
group-fails-missing-3: a group fails at its third member, by a delete of an entity that is missing
sent with Prefer: continue-on-error

group: a group is applied as a whole or not at all (OData JSON 19.4)
  g0 is answered 424, and was performed all the same
  g1 is answered 424, and was performed all the same

batch:
{"requests": [
"""

# One that the service keeps, one that it breaks, and one that does not apply.
CASES = ["group-fails-missing-1", "group-fails-missing-2", "reference-option"]

BY_UNITTEST = """\
import unittest
from library import app
from odb_batch.conformance import judge, serving

class Batches(unittest.TestCase):
    def test_batches(self):
        with serving(app) as root:
            for case in CASES:
                with self.subTest(case):
                    judge(root + "/library/", case, set="Books", key="Id", body={"Title": "Emma"})
"""


@pytest.fixture(autouse=True)
def unknown():
    """A port may have been that of another service before."""
    forget()


def by_pytest(folder):
    """Writes the tests of the page; returns the words that run some of them."""
    with open(os.path.join(ROOT, "docs", "conformance.md"), encoding="utf-8") as page:
        (text,) = re.findall("```python\n(.*?)```", page.read(), re.DOTALL)
    assert textwrap.indent(text, "    ") in odb_batch.conformance.__doc__
    (folder / "test_page.py").write_text(text)
    return ["pytest", "-q", "-p", "no:cacheprovider", "-k", " or ".join(CASES), "test_page.py"]


def by_unittest(folder):
    (folder / "test_page.py").write_text(f"CASES = {CASES}\n{BY_UNITTEST}")
    return ["unittest", "test_page.py"]


def test_cases_have_names_in_the_order_of_the_tool():
    names = conformance_cases()
    assert names == [line.split()[0] for line in tool("--list").out.splitlines()]
    assert len(names) == len(set(names)) == 274
    assert conformance_cases("group-fails-*-[14]")[:2] == ["group-fails-missing-1", "group-fails-missing-4"]


@pytest.mark.parametrize("given, line", [
    ({"case": "chains"}, "no case has the name 'chains'"),
    ({"url": "localhost:8080"}, "'localhost:8080' is not the root of a service, such as http://localhost:8080/"),
    ({"requests": 0}, "requests must be a whole number from 1 to 10000, not 0"),
    ({"timeout": 0}, "timeout must be a number of seconds up to 3600, not 0"),
    ({"timeout": float("nan")}, "timeout must be a number of seconds up to 3600, not nan"),
])  # fmt: skip
def test_wrong_arguments(given, line):
    with pytest.raises(ValueError) as found:
        judge(**{"url": "http://127.0.0.1:1/", "case": "chain", **BOOKS, **given})
    assert str(found.value) == line


def test_patterns_that_no_name_fits():
    with pytest.raises(ValueError, match="no case has a name like 'none-\\*'"):
        conformance_cases("none-*")


def test_a_case_that_is_kept_leaves_nothing():
    with service() as (running, folder):
        database = os.path.join(folder, "library.sqlite")
        before = rows(database)
        for case in ("chain", "group", "alone-patch-stale", "many"):
            judge(running.url, case, **BOOKS, requests=30)
        assert rows(database) == before


def test_a_case_that_is_broken():
    with service("half_group") as (running, folder):
        with pytest.raises(AssertionError) as found:
            judge(running.url, "group-fails-missing-3", **BOOKS)
        text, _, response = str(found.value).partition("\nresponse:\n")
        assert text.startswith(BROKEN)
        assert len(json.loads(text.partition("\nbatch:\n")[2])["requests"]) == 6
        assert len(json.loads(response)["responses"]) == 6


@pytest.mark.slow
def test_long_batches_are_shown_in_part():
    with service("half_of_long_groups") as (running, _), pytest.raises(AssertionError) as found:
        judge(running.url, "group-many-last", **BOOKS)
    assert 20_000 < len(str(found.value)) < 25_000


# What a service refuses is known also where no other case came before.
@pytest.mark.slow
@pytest.mark.parametrize("variant, feature, glob", [
    ("refuses_groups", "groups", "group-wai*"),
    ("refuses_references", "references", "reference-[rd]*"),
])  # fmt: skip
def test_what_a_service_refuses(variant, feature, glob):
    with service(variant) as (running, _):
        for case in conformance_cases(glob):
            with pytest.raises(unittest.SkipTest) as found:
                judge(running.url, case, **BOOKS)
            assert str(found.value) == f"the service refuses {feature} with 501 {feature.title()} are not supported"


@pytest.mark.slow
def test_a_refusal_of_some_groups_is_a_break(monkeypatch):
    """A service that takes groups may not refuse those that depend on something."""

    def app(environ, start_response):
        text = environ["wsgi.input"].read(int(environ.get("CONTENT_LENGTH") or 0))
        requests = json.loads(text)["requests"] if environ["PATH_INFO"].endswith("$batch") else []
        if any("atomicityGroup" in it and "dependsOn" in it for it in requests):
            start_response("400 Bad Request", [("Content-Type", "application/json")])
            return [b'{"error": {"code": "Waits", "message": "A group may not wait"}}']
        return library.app({**environ, "wsgi.input": io.BytesIO(text)}, start_response)

    with service() as (running, _), serving(app) as root:
        monkeypatch.setenv("LIBRARY_PORT", str(running.port))
        judge(root + "/library/", "group", **BOOKS)
        with pytest.raises(AssertionError, match="the batch is answered 400 A group may not wait"):
            judge(root + "/library/", "group-after", **BOOKS)


@pytest.mark.slow
def test_a_service_without_query_options(monkeypatch):
    def app(environ, start_response):
        return library.app({**environ, "QUERY_STRING": ""}, start_response)

    with service() as (running, _), serving(app) as root:
        monkeypatch.setenv("LIBRARY_PORT", str(running.port))
        with pytest.raises(unittest.SkipTest, match="alone, \\$filter is not applied"):
            judge(root + "/library/", "alone-get-filtered", **BOOKS)


@pytest.mark.slow
@pytest.mark.parametrize("late, is_kept", [(2, True), (3, False)])
def test_an_error_may_come_late(late, is_kept, monkeypatch):
    """A service that goes on after some errors, as if they came last, and stops after the next."""

    def app(environ, start_response):
        if environ["PATH_INFO"].endswith("$batch") and "HTTP_PREFER" not in environ:
            batches.append(environ["PATH_INFO"])
            if len(batches) <= late:
                environ = {**environ, "HTTP_PREFER": "continue-on-error"}
        return library.app(environ, start_response)

    batches = []
    with service() as (running, _), serving(app) as root:
        monkeypatch.setenv("LIBRARY_PORT", str(running.port))
        broken = "each of 25 requests that fail is performed: no error ends the batch"
        with contextlib.nullcontext() if is_kept else pytest.raises(AssertionError, match=broken):
            judge(root + "/library/", "stop-after-failure", **BOOKS)
    assert len(batches) == 3


@pytest.mark.slow
def test_what_a_server_says_of_a_failure_is_not_compared(monkeypatch):
    """A request that fails with 500 has the page of the server alone, and an error object in the batch."""

    def app(environ, start_response):
        text = environ["wsgi.input"].read(int(environ.get("CONTENT_LENGTH") or 0))
        if environ["REQUEST_METHOD"] == "PATCH" and text == b"[]":
            start_response("500 Internal Server Error", [("Content-Type", "text/plain")])
            return [b"Internal Server Error"]
        (answer,) = library.app({**environ, "wsgi.input": io.BytesIO(text)}, lambda *of: heads.append(of))
        status, headers = heads.pop()
        if b'"asked"' in answer:
            answer = answer.replace(b'"status":400', b'"status":500')
        start_response(status, headers)
        return [answer]

    heads = []
    with service() as (running, _), serving(app) as root:
        monkeypatch.setenv("LIBRARY_PORT", str(running.port))
        judge(root + "/library/", "alone-patch-list", **BOOKS)


@pytest.mark.slow
@pytest.mark.parametrize("late", [1, 4])
def test_a_service_that_commits_after_its_answer_is_named(late, monkeypatch):
    """What is created cannot be read at once: the first entity, or one of the next ones."""

    def app(environ, start_response):
        if environ["REQUEST_METHOD"] == "POST" and environ["PATH_INFO"].endswith("/Books"):
            created.append(None)
        elif environ["REQUEST_METHOD"] == "GET" and len(created) == late:
            created.append(None)
            start_response("404 Not Found", [("Content-Length", "0")])
            return [b""]
        return library.app(environ, start_response)

    created = []
    with service() as (running, _), serving(app) as root:
        monkeypatch.setenv("LIBRARY_PORT", str(running.port))
        with pytest.raises(Unusable, match="was created, and cannot be read at once: does the service commit after"):
            judge(root + "/library/", "chain", **BOOKS)


def test_services_that_cannot_be_judged():
    with pytest.raises(Unusable, match="Connection refused"):
        judge("http://127.0.0.1:1/", "chain", **BOOKS)
    with service() as (running, _), pytest.raises(Unusable, match="Boats takes no entity"):
        judge(running.url, "chain", **{**BOOKS, "set": "Boats"})


def test_what_cannot_be_removed_is_named():
    with service("ends") as (running, _):
        with pytest.raises(Unusable), pytest.warns(UserWarning, match="not removed: Books"):
            judge(running.url, "chain", **BOOKS)


@pytest.mark.parametrize("write, wanted", [
    (by_pytest, "1 failed, 1 passed, 1 skipped"),
    (by_unittest, "FAILED (failures=1, skipped=1)"),
])  # fmt: skip
def test_the_tests_of_a_service(write, wanted, tmp_path):
    words = [sys.executable, "-m", *write(tmp_path)]
    package = with_package()
    with service("half_group") as (running, _):
        variables = {**package, "PYTHONPATH": f"{package['PYTHONPATH']}:{HERE}", "LIBRARY_PORT": str(running.port)}
        done = subprocess.run(words, cwd=tmp_path, env=variables, capture_output=True, text=True, timeout=SECONDS)
    said = done.stdout + done.stderr
    assert wanted in said
    assert "group: a group is applied as a whole or not at all (OData JSON 19.4)" in said


def test_its_modules_shadow_nobodys(tmp_path):
    """A folder may have modules of any name, and those of the tool are its own."""
    package = odb_batch.conformance.__path__[0]
    for name in os.listdir(package):
        if name.endswith(".py") and not name.startswith("__"):
            (tmp_path / name).write_text("raise SystemExit('shadowed')")
            (tmp_path / name.lstrip("_")).write_text("raise SystemExit('shadowed')")
    done = tool("--list", cwd=tmp_path)
    assert (done.status, done.error, len(done.out.splitlines())) == (0, "", 274)
