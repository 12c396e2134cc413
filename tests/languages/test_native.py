"""`bin/odb_library --for`: the library under the names that C#, Java and Go look for."""

import os
import subprocess

import pytest

from support.commands import run
from support.languages import NATIVE
from support.program import CRATES, ROOT, older_than

OBJECT = os.path.join(CRATES, "odb_ffi", "out", "odb_batch.o")
TOOL = os.path.join(ROOT, "bin", "odb_library")


def written(folder):
    """The files of a folder and those below it."""
    return {str(it.relative_to(folder)) for it in folder.rglob("*") if it.is_file()}


@pytest.mark.parametrize("language", NATIVE)
def test_it_writes_what_a_language_looks_for(language, native, tmp_path):
    """What it writes for this system is what the tests of the languages link; for others it says what is left out."""
    if not os.path.exists(OBJECT) or older_than(OBJECT, "odb_ffi"):
        pytest.skip("the object of the library is not built: bin/odb_library dist/library")
    ours, theirs = tmp_path / "ours", tmp_path / "theirs"
    native(language, ours)
    said = run(TOOL, "--for", language, theirs, stderr=subprocess.STDOUT)
    for name in written(ours):
        assert (theirs / name).read_bytes() == (ours / name).read_bytes(), name
    left = {line.split(" ")[2].rstrip(":") for line in said.splitlines()}
    assert {NATIVE[language], *(["odb_batch.h"] if language == "go" else [])} == written(ours)
    assert not left & written(theirs) and len(left | written(theirs)) >= 3


@pytest.mark.parametrize("words", [["--for", "rust", "x"], ["--for", "go"], ["--target", "beos", "x"], []], ids=" ".join)
def test_a_wrong_call_gets_one_line(words):
    done = subprocess.run([TOOL, *words], capture_output=True, text=True, check=False)
    assert done.returncode == 2 and done.stderr.count("\n") == 1 and done.stderr.startswith("usage: bin/odb_library ")
