"""The ways of docs/scale.md over a log on which a careless one fails, and with a program that ends early.

The log has carriage returns inside of lines, bytes that are not UTF-8, refused lines, and empty ones. Commands are those of the
page, programs those of examples/; only the parts that Dask makes are smaller, so that a short log has many. Each way has to write the
bytes that one process writes, and to fail if the program does.
"""

import os
import re
import subprocess
import sys

import pytest

from support.markdown import blocks, text_of
from support.program import ROOT

SECONDS = 120
PART, SMALL_PART = '"64MiB"', '"2KiB"'
BATCH = '{"requests":[{"id":"1","method":"get","url":"A"}]}'
PAIR = f'[{BATCH},{{"responses":[{{"id":"1","status":200}}]}}]'.encode()
LINES = (
    PAIR,
    PAIR.replace(b"},{", b"},\r{"),
    PAIR.replace(b'"A"', b'"A\xff"'),
    PAIR.replace(b'"A"', '"A\u2028"'.encode()),
    b"[1]",
    PAIR + b"\r",
    b"",
    PAIR.replace(b"200", b"600"),
    PAIR + b" " * 5000,
)
# What the program has to do of its work before it ends: all, some, or nothing.
EARLY = ('"REAL" "$@"; exit 4', 'head -n 2 | "REAL" "$@"; exit 3', "kill -9 $$")


def block(kind, word):
    """The one block of the page that is of a kind and has a word in it."""
    (found,) = [it for it in blocks(text_of("docs", "scale.md"), kind) if word in it]
    return found


def python_of(module):
    """A Python that has a module, or None."""
    for python in (sys.executable, "/usr/bin/python3"):
        if os.path.exists(python) and not subprocess.run([python, "-c", f"import {module}"], capture_output=True).returncode:
            return python
    return None


def run(folder, *words):
    """The status of a command in a folder, with the odb_batch in it."""
    variables = {**os.environ, "PATH": f"{folder}/bin:{os.environ['PATH']}", "PARALLEL_SHELL": "/bin/sh"}
    more = {"stdin": subprocess.DEVNULL, "stdout": subprocess.DEVNULL, "stderr": subprocess.PIPE, "timeout": SECONDS}
    return subprocess.run(words, cwd=folder, env=variables, **more).returncode


def written(folder):
    """What is in results.jsonl, or in the files of results/ in the order of their names."""
    done = subprocess.run(["sh", "-c", "cat results.jsonl 2>/dev/null || cat results/*"], cwd=folder, capture_output=True)
    return done.stdout


def by_one(folder):
    return run(folder, "sh", "-c", block("console", "$ odb_batch match --strict --lines").removeprefix("$ "))


def by_parallel(folder):
    return run(folder, "sh", "-c", block("sh", "parallel --pipe-part"))


def by_dask(folder):
    python = python_of("dask.bag")
    if not python:
        pytest.skip("python3-dask is not installed")
    with open(os.path.join(ROOT, "examples", "audit_dask.py"), encoding="utf-8") as file:
        program = file.read()
    assert program.count(PART) == 1, f"examples/audit_dask.py has to have {PART} once"
    path = os.path.join(folder, "by_dask.py")
    with open(path, "w", encoding="utf-8") as file:
        file.write(program.replace(PART, SMALL_PART))
    return run(folder, python, path)


# The ways, each with the status of a log in which lines are refused.
WAYS = [
    pytest.param(by_one, 1, id="one-process"),
    pytest.param(by_parallel, 0, id="parallel", marks=pytest.mark.needs("parallel")),
    pytest.param(by_dask, 0, id="dask", marks=pytest.mark.slow),
]


def fresh(path, script):
    """A new folder with a log, and an odb_batch that is this script."""
    (path / "bin").mkdir(parents=True)
    program = path / "bin" / "odb_batch"
    program.write_text(f"#!/bin/sh\n{script}\n", encoding="utf-8")
    program.chmod(0o755)
    (path / "log.jsonl").write_bytes(b"\n".join(LINES * 40))
    return path


@pytest.mark.parametrize("way, status", WAYS)
def test_way(program, tmp_path, way, status):
    place = fresh(tmp_path / "whole", f'exec "{program}" "$@"')
    done = subprocess.run([program, "match", "--strict", "--lines", place / "log.jsonl"], stdout=subprocess.PIPE)
    lines = done.stdout.splitlines()
    assert len(lines) == len(LINES) * 40 and done.returncode == 1
    assert 0 < sum(b"fault" in it for it in lines) < len(lines), "some lines have to be refused, and some not"
    assert (way(place), written(place)) == (status, done.stdout)
    for at, script in enumerate(EARLY):
        assert way(fresh(tmp_path / f"early-{at}", script.replace("REAL", program))) not in (0, status), script


def test_audit(program, tmp_path):
    """What the page shows of an audit is what it prints."""
    shown = block("console", "$ python3 examples/audit.py")
    place = fresh(tmp_path / "audit", f'exec "{program}" "$@"')
    os.symlink(os.path.join(ROOT, "examples"), place / "examples")
    refused = PAIR.replace(b'{"id":"1","status":200}', b"")
    (place / "log.jsonl").write_bytes((b"\n".join([PAIR] * 99 + [refused]) + b"\n") * 200 + b"[1]\n")
    variables = {**os.environ, "PATH": f"{place}/bin:{os.environ['PATH']}"}
    printed = ""
    for command in re.findall(r"(?m)^\$ (.*)$", shown):
        done = subprocess.run(["sh", "-c", command], cwd=place, env=variables, capture_output=True, text=True, timeout=SECONDS)
        printed += f"$ {command}\n{done.stdout}"
    assert printed == shown
