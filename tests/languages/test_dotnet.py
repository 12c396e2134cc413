"""The package for C#, which mcs compiles and Mono runs: through its public API it answers the worked cases and drives 400 live runs as
the library does; its own tests are dotnet/tests."""

import os
import shutil
import socket
import subprocess
import sys
import threading
import time

import pytest

from support import urls
from support.answers import RUNS
from support.commands import run
from support.language_pages import LENT
from support.languages import require_same
from support.markdown import blocks, text_of
from support.program import EXAMPLES, ROOT
from support.servers import skip_without

DOTNET = os.path.join(ROOT, "dotnet")
TESTS = os.path.join(DOTNET, "tests")
NUNIT = "/usr/lib/cli/nunit.framework-2.6.3/nunit.framework.dll"

pytestmark = [pytest.mark.slow, pytest.mark.needs("mcs", "mono")]


class Built:
    """A folder with the assembly, the library as a package has it, and what is compiled over them."""

    def __init__(self, folder, native):
        self.folder = folder
        native("dotnet", folder)
        done = subprocess.run([os.path.join(DOTNET, "compile"), folder], stderr=subprocess.PIPE, text=True, check=False)
        if done.returncode == 70:
            pytest.skip("mono-devel is not installed")
        assert done.returncode == 0, done.stderr
        self.environment = {**os.environ, "LD_LIBRARY_PATH": str(folder / "runtimes/linux-x64/native")}

    def compile(self, name, *sources, more=()):
        """Compiles a program, or by its name a library."""
        kind = ["-target:library"] if name.endswith(".dll") else []
        run("mcs", "-langversion:7.2", *kind, "-r:OdbBatch.dll", "-r:System.Net.Http.dll", *more, f"-out:{name}", *sources, cwd=self.folder)

    def run(self, name, *words, **more):
        return run("mono", name, *words, cwd=self.folder, env=self.environment, **more)


@pytest.fixture(scope="module")
def built(native, tmp_path_factory):
    return Built(tmp_path_factory.mktemp("dotnet"), native)


def test_the_worked_cases_and_live_runs(built, reference):
    built.compile("Tries.exe", os.path.join(TESTS, "Tries.cs"))
    for name in ("pages", "runs"):
        require_same(reference, name, built.run("Tries.exe", name, str(reference), str(RUNS)))


def test_where_requests_lead(built, tmp_path):
    wanted = urls.write(tmp_path / "table")
    built.compile("Urls.exe", os.path.join(TESTS, "Urls.cs"))
    assert built.run("Urls.exe", tmp_path / "table").splitlines() == wanted


@pytest.mark.needs("nunit-console")
def test_its_own_tests(built):
    if not os.path.exists(NUNIT):
        pytest.skip("libnunit-cil-dev is not installed")
    shutil.copy(NUNIT, built.folder)
    sources = [os.path.join(TESTS, it) for it in sorted(os.listdir(TESTS)) if it.endswith("Tests.cs")]
    built.compile("OdbTests.dll", *sources, more=["-r:nunit.framework.dll"])
    words = ["nunit-console", "-nologo", "-noshadow", "-nodots", "OdbTests.dll"]
    printed = run(*words, cwd=built.folder, env=built.environment, timeout=300)
    assert "Errors: 0, Failures: 0" in printed and "Tests run: 0" not in printed, printed


@pytest.mark.needs("monodis")
def test_it_uses_types_of_netstandard_alone(built):
    run(os.path.join(DOTNET, "surface"), built.folder / "OdbBatch.dll", wanted="")


def test_without_the_library_it_says_so(built, tmp_path):
    built.compile("Tries.exe", os.path.join(TESTS, "Tries.cs"))
    (tmp_path / "calls").write_bytes(bytes(32))
    variables = {name: it for name, it in built.environment.items() if name != "LD_LIBRARY_PATH"}
    line = run("sh", "-c", 'mono Tries.exe pages "$0" 2>&1 || true', tmp_path, cwd=built.folder, env=variables)
    assert "Unhandled Exception:\nSystem.DllNotFoundException: odb_batch" in line


# Over HTTP


@pytest.fixture
def lending(library, tmp_path):
    """The lending library under gunicorn."""
    skip_without("gunicorn")
    sys.path.append(os.path.join(EXAMPLES, "service", "tests"))
    from common import Process

    with Process(str(tmp_path / "library")) as service:
        yield service


def test_it_lends_books(built, lending):
    """The client in parts, and the driver, each over HTTP."""
    built.compile("Lends.exe", os.path.join(TESTS, "Lends.cs"))
    lines = built.run("Lends.exe", lending.url).splitlines()
    assert [line.rstrip() for line in lines[::2]] == [
        "book201 mark204 loan201 lent200", "book409 mark424 loan424 lent424", "book201 mark204 loan201 lent200",
        "book404 mark404 loan404 lent404",
    ]  # fmt: skip
    assert lines[1].endswith(LENT.format("solaris", 42) + " 0") and lines[3] == " 0"
    assert lines[5].endswith(LENT.format("pirx", 7))
    assert lines[7] == "book502 mark502 loan502 lent502 HttpRequestException"


def test_the_example_of_its_page(built, lending):
    example, *others = blocks(text_of("docs", "dotnet.md"), "csharp")
    (built.folder / "Lend.cs").write_text(example, encoding="utf-8")
    built.compile("Lend.exe", "Lend.cs")
    assert built.run("Lend.exe", lending.url).endswith(LENT.format("solaris", 42) + "\n")
    for at, other in enumerate(others):
        (built.folder / f"Other{at}.cs").write_text(other, encoding="utf-8")
        built.compile(f"Other{at}.dll", f"Other{at}.cs")


class BadService:
    """A service that answers each path otherwise wrongly, until it is closed."""

    def __init__(self):
        self._socket = socket.create_server(("127.0.0.1", 0))
        self.url = f"http://127.0.0.1:{self._socket.getsockname()[1]}/"
        self._is_over = threading.Event()
        self._run(self._accept)

    def _run(self, call, *given):
        threading.Thread(target=call, args=given, daemon=True).start()

    def _accept(self):
        while not self._is_over.is_set():
            try:
                self._run(self._answer, self._socket.accept()[0])
            except OSError:
                return

    def _answer(self, connection):
        try:
            with connection:
                path = connection.recv(65536).split(b" ")[1].decode().strip("/")
                getattr(self, path)(connection)
        except (IndexError, OSError):
            pass  # the client has gone, maybe before it has sent anything

    def hangs(self, connection):
        self._is_over.wait()

    def hangs_in_the_body(self, connection):
        connection.sendall(b"HTTP/1.1 200 OK\r\nContent-Length: 100\r\n\r\nabc")
        self._is_over.wait()

    def hangs_up(self, connection):
        pass

    def hangs_up_in_the_body(self, connection):
        connection.sendall(b"HTTP/1.1 200 OK\r\nContent-Length: 100\r\n\r\nabc")

    def has_no_end(self, connection):
        connection.sendall(b"HTTP/1.1 200 OK\r\nTransfer-Encoding: chunked\r\n\r\n")
        while not self._is_over.is_set():
            connection.sendall(b"10000\r\n%s\r\n" % bytes(65536))

    def drips(self, connection):
        connection.sendall(b"HTTP/1.1 200 OK\r\nTransfer-Encoding: chunked\r\n\r\n")
        while not self._is_over.is_set():
            connection.sendall(b"1\r\nx\r\n")
            time.sleep(0.05)

    def redirects(self, connection):
        connection.sendall(b"HTTP/1.1 302 Found\r\nLocation: http://127.0.0.1:1/\r\nContent-Length: 0\r\n\r\n")

    def close(self):
        self._is_over.set()
        self._socket.close()


@pytest.fixture
def bad():
    found = BadService()
    yield found
    found.close()


def test_bad_services(built, bad):
    """Whatever a service does, the client and the driver end in time, and say what became of the request."""
    built.compile("Hardy.exe", os.path.join(TESTS, "Hardy.cs"))
    lines = built.run("Hardy.exe", bad.url, timeout=60).splitlines()
    assert lines == [
        "hangs 504 504 cancelled", "hangs_in_the_body 504 504 cancelled", "drips 504 504 cancelled", "hangs_up 502 502",
        "hangs_up_in_the_body 502 502", "has_no_end 502 502", "redirects 302 302",
    ]  # fmt: skip
