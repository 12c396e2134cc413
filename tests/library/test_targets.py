"""The library and the program for other systems, as `bin/odb_library --target` and `bin/odb_program --target` write them:
aarch64 Linux under qemu, and Windows under wine. What they print is what they print here, byte for byte."""

import os
import re
import shutil

import pytest

from support import cases, forked, targets
from support.answers import RUNS
from support.commands import run
from support.embedding import ONE, STRICT, block
from support.program import ROOT

HERE = os.path.dirname(os.path.abspath(__file__))
WRAPPED = "-Wl,--wrap=malloc,--wrap=realloc,--wrap=free"
PROGRAMS = ("calls", "live", "places", "positions", "requests", "units")

# The libraries of the system that may be needed.
NEEDED = {
    "aarch64-linux": (["aarch64-linux-gnu-objdump", "-p"], r"NEEDED +(\S+)", {"libc.so.6"}, {"libc.so.6"}),
    "x86_64-windows": (
        ["x86_64-w64-mingw32-objdump", "-p"],
        r"DLL Name: (\S+)",
        {"KERNEL32.dll", "msvcrt.dll"},
        {"ADVAPI32.dll", "KERNEL32.dll", "msvcrt.dll", "SHELL32.dll"},
    ),
}

pytestmark = pytest.mark.slow


@pytest.fixture(
    scope="module",
    params=[pytest.param(it, marks=pytest.mark.needs(*it.tools)) for it in targets.TARGETS.values()],
    ids=lambda it: it.name,
)
def target(request):
    """A system; skips the tests where the library is not built for it."""
    expect_built(request.param, "odb_library")
    return request.param


def expect_built(target, tool):
    """Skips the test where a tool has not built for a system, and fails it where that is older than its sources."""
    unbuilt = target.unbuilt(tool)
    if unbuilt and "has no" in unbuilt:
        pytest.skip(unbuilt)
    assert unbuilt is None, unbuilt


@pytest.fixture(scope="module")
def variables(target, tmp_path_factory):
    """The environment of its programs."""
    with targets.running(target, tmp_path_factory.mktemp("running")) as found:
        yield found


def compile_c(target, program, standard, sources, *more):
    """Compiles sources of this folder for a system."""
    paths = [os.path.join(HERE, it) for it in sources]
    words = [*target.compiler, f"-std={standard}", *STRICT, "-O2", f"-I{ROOT}/include", "-o", program]
    run(*words, *paths, *more)


@pytest.mark.parametrize("tests", [*PROGRAMS, "stack"])
def test_calls(tests, target, variables, tmp_path):
    static = os.path.join(target.folder, "libodb_batch.a")
    if tests == "stack":
        compile_c(target, tmp_path / "calls.exe", "gnu99", ["stack.c"], static, "-pthread")
    else:
        compile_c(target, tmp_path / "calls.exe", "c99", [f"{tests}.c", "allocations.c"], static, WRAPPED)
    print(run(*target.runner, tmp_path / "calls.exe", env=variables))


def test_it_answers_the_same(target, variables, wanted, calls, tmp_path):
    """By the shared library; test_calls links the static one, which is of the same code."""
    shutil.copy(os.path.join(target.folder, target.shared), tmp_path)
    flags = [tmp_path / target.shared, WRAPPED, "-Wl,-rpath,$ORIGIN"]
    if target.runner[0] == "wine":
        flags.pop()
    compile_c(target, tmp_path / "answers.exe", "c99", ["answers.c", "allocations.c"], *flags)
    assert run(*target.runner, tmp_path / "answers.exe", calls, str(RUNS), env=variables).splitlines() == wanted


def test_the_page_by_the_import_library(target, variables, tmp_path):
    """The program of docs/embedding.md, linked as its callers link."""
    (tmp_path / "check.c").write_text(block("c"))
    shutil.copy(os.path.join(target.folder, target.shared), tmp_path)
    rpath = [] if target.runner[0] == "wine" else [f"-Wl,-rpath,{tmp_path}"]
    words = [*target.compiler, tmp_path / "check.c", f"-I{ROOT}/include", "-o", tmp_path / "check.exe", *rpath]
    run(*words, f"-L{target.folder}", "-lodb_batch")
    run(*target.runner, tmp_path / "check.exe", env=variables, wanted=ONE)


def test_what_it_needs_of_the_system(target):
    expect_built(target, "odb_program")
    tool, pattern, by_library, by_program = NEEDED[target.name]
    for name, most in ((target.shared, by_library), (target.program, by_program)):
        found = set(re.findall(pattern, run(*tool, os.path.join(target.folder, name))))
        assert found <= most, name


PAGES = os.path.join(ROOT, "tests", "cases")


def tried(run, words):
    """What the program does otherwise than a case shows. On a busy machine wine at times starts no program and ends without a
    word, so a case may be tried five times."""
    for _ in range(5):
        found = cases.tried(run, words)
        if not found:
            break
    return [f"{run.name}: {line}" for line in found]


def test_worked_cases_by_the_program(target, variables, monkeypatch, tmp_path):
    """The cases that need no device: all that the program does is what they show."""
    expect_built(target, "odb_program")
    program, runs = os.path.join(target.folder, target.program), targets.portable_cases(PAGES)
    for name, it in variables.items():
        monkeypatch.setenv(name, it)
    if target.runner[0] == "wine":
        wrong = [line for it in runs for line in tried(it, [*target.runner, program])]
    else:
        compile_c(target, tmp_path / "forks.so", "gnu11", ["forks.c"], "-shared", "-fPIC")
        (tmp_path / "cases").mkdir()
        wrong = forked.tried(runs, target.runner, tmp_path / "forks.so", program, tmp_path / "cases")
    print(f"{len(runs)} cases")
    assert wrong == []
