"""The programs of docs/embedding.md, and those of examples/ that it names, in the languages that are installed.

In pages/ is what calls them: each prints what a check and a live run of one request return. The packages for Python
and Node, whose pages have tests of their own, check a batch by check.py and check.js.
"""

import shutil
import sys

import pytest

from support.commands import run
from support.embedding import ANSWERED, IN_NODE, IN_PYTHON, ONE, STRICT, block
from support.markdown import text_of
from support.program import ROOT

PAGES = f"{ROOT}/tests/library/pages"
PROGRAMS = ("check", "live run")


def lay_out(folder, *copied, **written):
    """Copies files to a folder, and writes some; a name's last underscore stands for the point in it."""
    folder.mkdir(exist_ok=True)
    for path in copied:
        shutil.copy(path, folder)
    for name, text in written.items():
        (folder / ".".join(name.rsplit("_", 1))).write_text(text, encoding="utf-8")


IN_C = {
    "page.c": ONE, "live.c": '{"responses":[{"body":{},"id":"a","status":200}]}\n', "requests.c": "9.990",
    "faults.c": "1:14: F10\n2:1: F10\n2:3: F10\n",
}  # fmt: skip


@pytest.mark.parametrize("source, wanted", IN_C.items())
def test_c(source, wanted, library, environment, tmp_path):
    lay_out(tmp_path, f"{PAGES}/live.c", f"{PAGES}/requests.c")
    lay_out(tmp_path, f"{PAGES}/faults.c", faults_inc=block("c", 3))
    lay_out(tmp_path, page_c=block("c"), run_inc=block("c", 1), requests_inc=block("c", 2))
    flags = ["-std=c99", *STRICT, f"-I{ROOT}/include", f"-L{library}"]
    run("cc", *flags, "-o", "page", source, "-lodb_batch", cwd=tmp_path)
    run("./page", wanted=wanted, env=environment, cwd=tmp_path)


@pytest.mark.needs("rustc")
@pytest.mark.parametrize("is_live", [False, True], ids=PROGRAMS)
def test_rust(is_live, library, environment, tmp_path):
    program = text_of("examples", "live_run.rs" if is_live else "check.rs")
    lay_out(tmp_path, page_rs=program + text_of("tests", "library", "pages", "live.rs" if is_live else "check.rs"))
    run("rustc", "--edition=2021", "-Dwarnings", "-L", library, "page.rs", cwd=tmp_path)
    run("./page", wanted=ANSWERED if is_live else ONE, env=environment, cwd=tmp_path)


def test_python(environment, tmp_path):
    lay_out(tmp_path, f"{PAGES}/check.py")
    found = {key: value for key, value in environment.items() if key != "ODB_BATCH_LIBRARY"}  # by the loader
    run(sys.executable, "check.py", wanted=IN_PYTHON, cwd=tmp_path, env=found)


def test_node(module, tmp_path):
    lay_out(tmp_path, f"{PAGES}/check.js")
    (tmp_path / "node_modules").mkdir()
    (tmp_path / "node_modules" / "odb-batch").symlink_to(module)
    run("node", "check.js", wanted=IN_NODE, cwd=tmp_path)
