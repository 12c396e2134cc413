"""The package for Go: its own tests, its answers to the worked cases and in random live runs, its service by the conformance tool, and
how it is built elsewhere. In go/ is a module that uses it."""

import os
import re
import shutil
import subprocess
from pathlib import Path

import pytest

from support import urls
from support.commands import run
from support.language_pages import GO_PRINTS, serving, write_go
from support.markdown import text_of
from support.program import ROOT
from support.servers import conformance

pytestmark = pytest.mark.slow

SOURCES = [Path(ROOT, "go"), Path(ROOT, "tests", "languages", "go")]
BUILT = shutil.ignore_patterns("*.syso", "odb_batch.h", "allocator_darwin.c", "vendor")
# The names that are public: functions, methods of public types, and types.
PUBLIC = re.compile(r"(?m)^(?:func (?:\(\w+ \*?[A-Z]\w*\) )?|type )([A-Z]\w*)")
UNDOCUMENTED = {"Error", "String"}  # methods of interfaces of Go


@pytest.fixture(scope="module")
def go(native, need, tmp_path_factory):
    """Runs the go tool in a copy of the module in go/, or in the folder of the package beside it."""
    need("go")
    top = tmp_path_factory.mktemp("go")
    for it in SOURCES:
        shutil.copytree(it, top / it.relative_to(ROOT), ignore=BUILT)
    native("go", top / "go")
    environment = {**os.environ, "GOPROXY": "off", "GOFLAGS": "", "CGO_ENABLED": "1"}

    def call(*words, folder="tests/languages/go", **more):
        return run("go", *words, cwd=top / folder, **{"env": environment, **more})

    call.top, call.environment = top, environment
    return call


@pytest.fixture(scope="module")
def programs(go):
    """The folder of the programs of the module in go/."""
    go("build", "-o", f"{go.top}/", "./...")
    return go.top


@pytest.mark.needs("gofmt")
def test_its_form(go):
    assert run("gofmt", "-l", *SOURCES) == ""
    go("vet", "./...")
    go("vet", "./...", folder="go")


@pytest.mark.parametrize("path", [it for it in sorted(SOURCES[0].glob("*.go")) if not it.name.endswith("_test.go")], ids=lambda it: it.name)
def test_its_documentation(path):
    """The comment of what is public begins with its name."""
    text = path.read_text(encoding="utf-8")
    for name in set(PUBLIC.findall(text)) - UNDOCUMENTED:
        assert re.search(rf"(?m)^// (An? )?{name}\b", text), name


def test_its_own_tests(go):
    """Also for races: calls of many goroutines, runs that are forgotten or closed under calls, services that hang or never end."""
    print(go("test", "-race", "./...", folder="go"))


@pytest.mark.parametrize("name", ["pages", "runs"])
def test_it_answers_the_same(name, programs, reference):
    from support.languages import require_same

    require_same(reference, name, run(programs / "tries", name, reference, "400"))


@pytest.mark.parametrize("width", ["1", "8"])
def test_its_service(width, programs, library, tmp_path):
    with serving(tmp_path / "log", programs / "books", width) as service:
        status, printed = conformance(service, tmp_path)
    assert status == 0 and " 0 of them broken" in printed, printed + (tmp_path / "log").read_text()


def test_where_requests_lead(programs, tmp_path):
    wanted = urls.write(tmp_path / "table", has_any_base=False)
    assert run(programs / "urls", tmp_path / "table").splitlines() == wanted


def test_its_page(go, tmp_path):
    """The client of docs/go.md sends a batch to the service of that page."""
    write_go(text_of("docs", "go.md"), go.top / "tests/languages/go/page")
    go("build", "-o", f"{tmp_path}/", "./page/...")
    with serving(tmp_path / "log", tmp_path / "service") as process:
        run(tmp_path / "client", process.url, wanted=GO_PRINTS)


def test_vendored(go, reference):
    """A program that has the package in its folder vendor/, which go makes, has the library, too."""
    top = go.top / "vendored"
    shutil.copytree(go.top / "tests", top / "tests")
    os.symlink(go.top / "go", top / "go")
    folder = top / "tests/languages/go"
    go("mod", "vendor", folder=folder)
    os.remove(top / "go")
    go("build", "-mod=vendor", "-o", f"{top}/", "./tries", folder=folder)
    assert run(top / "tries", "runs", reference, "3").splitlines() == (reference / "runs").read_text().splitlines()[:3]


def test_without_c(go):
    """Where the library cannot be linked, a line of the compiler says what is needed."""
    words = ["go", "build", "."]  # vet would compile all that the tests import, too
    environment = {**go.environment, "CGO_ENABLED": "0"}
    done = subprocess.run(words, cwd=go.top / "go", env=environment, capture_output=True, text=True, check=False)
    assert done.returncode != 0 and "odb_batch_needs_CGO_ENABLED_1" in done.stderr, done.stderr
    for system, processor in (("linux", "riscv64"), ("freebsd", "amd64"), ("windows", "arm64")):
        environment = {**go.environment, "GOOS": system, "GOARCH": processor}
        assert "without_library.go" in go("list", "-f", "{{.GoFiles}}", folder="go", env=environment)
