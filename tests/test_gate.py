"""The second command of README: `.ci/run`, in a repository whose tools, tests and toolchain are scripts that do nothing."""

import os
import re
import shutil
import subprocess
import sys

import pytest

from support.markdown import blocks, text_of
from support.program import ROOT

COMMAND = blocks(text_of("README.md"), "sh")[1].strip()
MODULES = ("hypothesis", "jsonschema", "pytest", "xdist")


def write(path, text):
    path.parent.mkdir(exist_ok=True)
    path.write_text(text)
    path.chmod(0o755)


@pytest.fixture
def gate(tmp_path):
    """Runs the command of the page, with the status of `rt ci`; returns its own, and its last line."""
    top, kit = tmp_path / "repository", tmp_path / "kit"
    shutil.copytree(os.path.join(ROOT, ".ci"), top / ".ci")
    for folder in ("bin", "tools", "bench"):
        for name in os.listdir(os.path.join(ROOT, folder)):
            write(top / folder / name, "#!/bin/sh\n" if folder == "bin" else "")
    for name in MODULES:
        write(top / f"{name}.py", "")
    write(kit / "cc", "#!/bin/sh\n")
    write(kit / "dpkg-query", "#!/bin/sh\necho install ok installed\n")

    def run(status):
        write(kit / "rt", f"#!/bin/sh\nexit {status}\n")
        path = os.pathsep.join([str(kit), os.path.dirname(sys.executable), os.environ["PATH"]])
        done = subprocess.run(["bash", "-c", COMMAND], cwd=top, env={**os.environ, "PATH": path}, capture_output=True, text=True)
        return done.returncode, done.stdout.splitlines()[-1]

    return run


def test_the_second_command_of_readme(gate):
    below = text_of("README.md").partition(f"\n{COMMAND}\n```\n\n")[2].partition("\n\n")[0]
    assert gate(0) == (0, re.search(r"last\s+line\s+is\s+`([^`]+)`", below)[1])


def test_the_gate_names_what_has_failed(gate):
    assert gate(1) == (1, "failed: rt ci")
