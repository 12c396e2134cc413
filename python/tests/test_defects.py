"""The tests of what performs batches find each planted defect."""

import os
import shutil
import sys

import pytest

import odb_batch
from support.commands import SECONDS
from support.program import COMPILED, ROOT
from support.starts import ended

sys.path.append(os.path.dirname(os.path.abspath(__file__)))
from defects import DEFECTS

TESTS_FAILED = 1


@pytest.mark.slow
@pytest.mark.parametrize("name", DEFECTS)
def test_is_found(name, library, tmp_path):
    module, text, planted, tests, word = DEFECTS[name]
    package = tmp_path / "python" / "odb_batch"
    shutil.copytree(os.path.dirname(odb_batch.__file__), package, ignore=shutil.ignore_patterns("__pycache__"))
    place = package / f"{module}.py"
    before = place.read_text(encoding="utf-8")
    assert before.count(text) == 1
    place.write_text(before.replace(text, planted), encoding="utf-8")
    words = ["-q", "-x", "-p", "no:xdist", "-o", f"pythonpath=tests tools {tmp_path}/python", f"--library={library}"]
    tested = [f"{ROOT}/python/tests/{tests}.py", "-k", word]
    status, said, _ = ended(["pytest", *words, *tested], ROOT, dict(os.environ), SECONDS, anew="odb_batch")
    shutil.rmtree(f"{COMPILED}{tmp_path}", ignore_errors=True)
    assert status == TESTS_FAILED, said
