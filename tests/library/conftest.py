"""The environment of programs that load the library, and the packages over it."""

import os
import shutil
import subprocess

import pytest

from support.answers import RUNS, write_calls
from support.commands import run, with_package
from support.embedding import STRICT
from support.program import ROOT

HERE = os.path.dirname(os.path.abspath(__file__))


@pytest.fixture(scope="session")
def environment(library):
    """The variables of a program that loads the library, by the loader or by the package for Python."""
    return {**with_package(), "LD_LIBRARY_PATH": library}


@pytest.fixture(scope="session")
def package(library):
    """The package for Python, which loads the library."""
    import odb_batch

    return odb_batch


@pytest.fixture(scope="session")
def calls(tmp_path_factory):
    """A file of the worked cases as calls."""
    path = tmp_path_factory.mktemp("calls") / "calls"
    write_calls(path)
    return path


@pytest.fixture(scope="session")
def wanted(library, calls, tmp_path_factory):
    """The lines of answers.c by the library itself."""
    program = tmp_path_factory.mktemp("answers") / "answers"
    sources = [os.path.join(HERE, it) for it in ("answers.c", "allocations.c")]
    words = ["cc", "-std=c99", *STRICT, "-O2", f"-I{ROOT}/include", "-Wl,--wrap=malloc,--wrap=realloc,--wrap=free"]
    run(*words, "-o", program, *sources, os.path.join(library, "libodb_batch.a"))
    return run(program, calls, str(RUNS)).splitlines()


def copy_of_node(top):
    """A copy of the package for JavaScript, without what was built of it."""
    built = shutil.ignore_patterns("*.node", "*.mjs", "*.wasm", "build")
    shutil.copytree(os.path.join(ROOT, "node"), top / "node", ignore=built)
    return top / "node"


@pytest.fixture(scope="session")
def portable(wasm, need, tmp_path_factory):
    """The folder of a copy of the package for JavaScript, with the WebAssembly module alone."""
    need("node")
    folder = copy_of_node(tmp_path_factory.mktemp("portable"))
    subprocess.run([folder / "bundle", wasm], check=True)
    return folder


@pytest.fixture(scope="session")
def module(library, need, tmp_path_factory):
    """The folder of a copy of the module for Node, with its addon, which the C compiler alone has made."""
    need("node")
    top = tmp_path_factory.mktemp("module")
    copy_of_node(top)
    shutil.copytree(os.path.join(ROOT, "include"), top / "include")
    done = subprocess.run([top / "node" / "compile", library], stderr=subprocess.PIPE, text=True)
    if done.returncode == 70:
        pytest.skip("node_api.h is not installed")
    assert done.returncode == 0, done.stderr
    return top / "node"
