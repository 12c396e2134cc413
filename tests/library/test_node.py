"""The package for JavaScript: its own tests in node/test, over the addon and over the module, its types, and the addon as
node-gyp makes it."""

import json
import os
import shutil

import pytest

from support.commands import run
from support.program import ROOT


def node_folder():
    """The folder into which node is installed."""
    return os.path.dirname(os.path.dirname(os.path.realpath(shutil.which("node"))))


def found_gyp():
    """The command node-gyp, or that of npm; skips the test where neither is installed."""
    if shutil.which("node-gyp"):
        return ["node-gyp"]
    inside = os.path.join(node_folder(), "lib/node_modules/npm/node_modules/node-gyp/bin/node-gyp.js")
    if not os.path.exists(inside):
        pytest.skip("node-gyp is not installed")
    return ["node", inside]


def run_own_tests(folder):
    packages = {"NODE_PATH": "/usr/share/nodejs"}  # where Debian has Express
    cases = {"URL_CASES": os.path.join(ROOT, "tests", "support", "urls.json")}
    tests = sorted((folder / "test").glob("*.test.js"))
    print(run("node", "--test", *tests, env={**os.environ, **packages, **cases}))


@pytest.mark.slow
def test_its_own_tests(module):
    run_own_tests(module)


@pytest.mark.slow
def test_its_own_tests_over_the_wasm_module(portable):
    run_own_tests(portable)


def test_its_names_as_an_es_module(portable, tmp_path):
    (tmp_path / "node_modules").mkdir()
    (tmp_path / "node_modules" / "odb-batch").symlink_to(portable)
    code = "import { check, Run } from 'odb-batch'; console.log(check({ requests: [] }), typeof Run)"
    run("node", "--input-type=module", "-e", code, cwd=tmp_path, wanted="{ requests: 0, groups: 0 } function\n")


def test_the_addon_of_gyp(library, environment, module, tmp_path):
    gyp, copy = found_gyp(), tmp_path / "node"
    shutil.copytree(module, copy, ignore=shutil.ignore_patterns("*.node"))
    shutil.copytree(module.parent / "include", tmp_path / "include")
    headers = os.environ.get("NODE_HEADERS") or os.path.join(node_folder(), "include", "node")
    folder = os.path.dirname(os.path.dirname(headers))
    words = [*gyp, "rebuild", "--silent", f"--nodedir={folder}", "--", f"-Dodb_library={library}"]
    run(*words, cwd=copy, env={**environment, "HOME": str(tmp_path)})
    check = f"console.log(require({json.dumps(str(copy))}).check('{{\"requests\":[]}}'))"
    run("node", "-e", check, wanted="{ requests: 0, groups: 0 }\n")


@pytest.mark.slow
@pytest.mark.needs("tsc")
@pytest.mark.parametrize("program", ["typed.ts", "performing.ts", "posting.ts", "newer.ts"])
def test_its_types(program, tmp_path):
    """Compiles calls against index.d.ts, alone and beside what newer types declare."""
    alone = ["--typeRoots", tmp_path]  # no types of other packages
    source = os.path.join(ROOT, "node", "test", program)
    run("tsc", "--noEmit", "--strict", "--target", "es2020", "--module", "commonjs", *alone, source)


@pytest.mark.slow
def test_its_code_has_what_its_types_declare():
    """Checks all code of node/ and page/ by tsc, too."""
    if shutil.which("tsc") is None:
        pytest.skip("node-typescript is not installed")
    run("tsc", "--project", os.path.join(ROOT, "node", "test", "tsconfig.json"))
