"""The package for Java: its tests, the worked cases and live runs against the library, the conformance cases over its filter in Jetty 9,
Tomcat 9 and Tomcat 10, and the programs of README and docs/java.md."""

import glob
import os
import re
import subprocess
import sys

import pytest

from support import urls
from support.commands import run, with_package
from support.language_pages import JAVA_PRINTS
from support.markdown import blocks, text_of
from support.program import ROOT
from support.servers import SECONDS

pytestmark = pytest.mark.slow

JARS = "/usr/share/java"
COMPILE = os.path.join(ROOT, "java", "compile")
TESTS = os.path.join(ROOT, "java", "src", "test", "java", "odbbatch")
JUNIT = ("junit-jupiter-api", "junit-jupiter-params", "junit-platform-commons", "apiguardian-api", "opentest4j")
JETTY = tuple(f"jetty9-{it}" for it in ("server", "servlet", "util", "http", "io", "security"))
TOMCAT = tuple(
    f"tomcat9-{it}" for it in ("catalina", "coyote", "util", "util-scan", "juli", "api", "annotations-api", "jni", "jaspic-api")
)
# By the package of the filter: what serves it, and the classes that start that.
SERVERS = {
    "servlet": (("servlet-api", *JETTY, *TOMCAT), ("JettyContainer", "TomcatContainer")),
    "jakarta": (("tomcat10-embed-core", "jakarta-annotation-api"), ("TomcatContainer",)),
}
# What the line for a service of docs/java.md is part of.
SERVICE = """
import javax.servlet.ServletContext;
import odbbatch.BatchPerformer;
import odbbatch.servlet.BatchFilter;

class Service {{
    void start(ServletContext context, BatchPerformer.Transaction transaction) {{
        {line}
    }}
}}
"""


def path_of(*parts):
    return ":".join(map(str, parts))


def jars(*names):
    """The paths of jars; skips the test where one is not installed."""
    paths = [os.path.join(JARS, f"{name}.jar") for name in names]
    for name, path in zip(names, paths):
        if not os.path.exists(path):
            pytest.skip(f"{name}.jar is not installed")
    return path_of(*paths)


@pytest.fixture(scope="session")
def built(need, native, tmp_path_factory):
    """The folder with the classes and the sources of the package, and the library where it looks for it."""
    need("javac")
    folder = tmp_path_factory.mktemp("java")
    done = subprocess.run([COMPILE, folder], capture_output=True, text=True, check=False)
    if done.returncode == 70:
        pytest.skip(done.stderr.strip().partition(": ")[2])
    assert done.returncode == 0, done.stdout + done.stderr
    native("java", folder / "classes")
    return folder


def compiled(built, name, sources, with_jars):
    """The class path of tests that are compiled over the package."""
    target, over = built / name, path_of(built / "classes", jars("jna", *JUNIT, *with_jars))
    run("javac", "-Xlint:all", "-Werror", "--release", "11", "-encoding", "UTF-8", "-d", target, "-cp", over, *sources)
    return path_of(target, over)


@pytest.fixture(scope="session")
def commands(built):
    """The class path of the tests that need no server."""
    return compiled(built, "commands", glob.glob(f"{TESTS}/*.java"), ())


@pytest.fixture(scope="session")
def filters(built):
    """The class path of the tests over servers, by the package of the filter."""
    found = {}

    def get(package):
        if package not in found:
            found[package] = compiled(built, f"tests-{package}", sources_of(built, package), SERVERS[package][0])
        return found[package]

    return get


def sources_of(built, package):
    """The sources of the tests over the servers of a package: those for jakarta are made as java/compile makes the filter."""
    folder = built / "sources-of-tests" / package
    folder.mkdir(parents=True)
    for path in glob.glob(f"{TESTS}/servlet/*.java"):
        if package == "jakarta" and "Jetty" in path:
            continue  # version 9 knows javax alone
        with open(path, encoding="utf-8") as file:
            text = file.read()
        if package == "jakarta":
            text = text.replace("javax.servlet", "jakarta.servlet").replace("package odbbatch.servlet", "package odbbatch.jakarta")
        (folder / os.path.basename(path)).write_text(text, encoding="utf-8")
    return list(folder.iterdir())


def junit(path, folder, *options):
    """Runs all tests of a folder of classes."""
    console = jars("junit-platform-console-standalone")
    words = ["-jar", console, "-cp", path, "--scan-classpath", folder, "--details=tree", "--disable-banner", "--disable-ansi-colors"]
    done = subprocess.run(["java", *options, *words], capture_output=True, text=True, timeout=5 * SECONDS, check=False)
    assert done.returncode == 0, done.stdout + done.stderr[-20_000:]
    return int(re.search(r"\[ *(\d+) tests successful", done.stdout)[1])


def test_units(commands, built):
    assert junit(commands, built / "commands") > 45


@pytest.mark.parametrize("package", SERVERS)
def test_the_filter(package, filters, built):
    names = SERVERS[package][1]
    assert junit(filters(package), built / f"tests-{package}", f"-Dcontainers={','.join(names)}") >= 15 * len(names)


@pytest.mark.parametrize("name", ["pages", "runs"])
def test_it_answers_as_the_library(name, commands, reference):
    from support.languages import RUNS, require_same

    require_same(reference, name, run("java", "-cp", commands, "odbbatch.Tries", name, reference, str(RUNS)))


def test_where_requests_lead(commands, tmp_path):
    wanted = urls.write(tmp_path / "table", has_any_base=False)
    assert run("java", "-cp", commands, "odbbatch.Urls", tmp_path / "table").splitlines() == wanted


def test_names_are_those_of_the_library(commands, package_constants):
    names = [*package_constants]
    printed = run("java", "-cp", commands, "odbbatch.Tries", "names", *names).splitlines()
    assert printed == [" ".join([name, *package_constants[name]]) for name in names]


@pytest.fixture
def package_constants(library):
    """The lists of names that the library treats apart, as the package for Python reads them."""
    from odb_batch._native.constants import listed_names

    of_headers = ("not_inherited", "not_inherited_prefixes", "allowed", "allowed_prefixes", "of_connection", "usually_dropped", "not_shown")
    found = {name: listed_names("headers", name) for name in of_headers}
    return {**found, **{name: listed_names(name) for name in ("preferences", "reserved_ids", "modes")}}


SERVED = [(package, container) for package, (_, containers) in SERVERS.items() for container in containers]


@pytest.mark.parametrize("package, container", SERVED, ids=[f"{package}-{container}" for package, container in SERVED])
def test_conformance(package, container, filters, tmp_path):
    words = ["java", "-cp", filters(package), f"odbbatch.{package}.Books", container]
    with open(tmp_path / "log", "wb") as log:
        server = subprocess.Popen(words, stdin=subprocess.PIPE, stdout=subprocess.PIPE, stderr=log, text=True)
    try:
        url = f"http://127.0.0.1:{int(server.stdout.readline())}/odata/"
        options = ["--set", "Books", "--key", "Id", "--body", '{"Title": "Emma"}', "--breaks", tmp_path / "breaks"]
        tool = [sys.executable, "-m", "odb_batch", "conformance", url, *options]
        done = subprocess.run(tool, capture_output=True, text=True, env=with_package(), timeout=5 * SECONDS, check=False)
        assert done.returncode == 0, done.stdout + done.stderr
    finally:
        server.stdin.close()
        server.wait(SECONDS)


def test_javadoc_has_no_warning(built, tmp_path):
    path = jars("jna", "servlet-api", "tomcat10-embed-core")
    packages = ["odbbatch", "odbbatch.servlet", "odbbatch.jakarta"]
    words = ["-quiet", "-Xdoclint:all", "-Werror", "-encoding", "UTF-8", "--release", "11", "-d", tmp_path / "javadoc"]
    run("javadoc", *words, "-cp", path, "-sourcepath", built / "sources", *packages)


def test_without_the_library_it_says_where_it_looks(built, tmp_path):
    (tmp_path / "A.java").write_text("class A { public static void main(String[] words) { odbbatch.Odb.version(); } }")
    run("cp", "-r", built / "classes" / "odbbatch", tmp_path)
    done = subprocess.run(
        ["java", "-cp", path_of(tmp_path, jars("jna")), str(tmp_path / "A.java")], capture_output=True, text=True, check=False
    )
    assert "the library of odb_batch is not in linux-x86-64/ of the class path" in done.stderr


def test_the_page(built, tmp_path):
    """The program of docs/java.md runs, and its line for a service compiles."""
    program, line = blocks(text_of("docs", "java.md"), "java")
    service = SERVICE.format(line=line)
    path = path_of(tmp_path, built / "classes", jars("jna", "servlet-api"))
    for name, text in {"Example": program, "Service": service}.items():
        (tmp_path / f"{name}.java").write_text(text, encoding="utf-8")
        run("javac", "-Xlint:all", "-Werror", "--release", "11", "-d", tmp_path, "-cp", path, tmp_path / f"{name}.java")
    run("java", "-cp", path, "Example", wanted=JAVA_PRINTS, cwd=ROOT)
