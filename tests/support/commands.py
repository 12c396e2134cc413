"""Commands that tests run, each of which has to succeed."""

import os
import subprocess

from .program import COMPILED, ROOT

SECONDS = 900


def with_package():
    """The environment of a process that imports the package for Python of the repository. What it compiles is kept for the
    next one, which starts in half the time."""
    variables = {name: it for name, it in os.environ.items() if name != "PYTHONDONTWRITEBYTECODE"}
    return {**variables, "PYTHONPATH": os.path.join(ROOT, "python"), "PYTHONPYCACHEPREFIX": COMPILED}


def run(*words, wanted=None, **more):
    """Runs a command, which has to end with status 0, and to print what is wanted; returns what it printed."""
    __tracebackhide__ = True
    usual = {"stdin": subprocess.DEVNULL, "stdout": subprocess.PIPE, "stderr": subprocess.PIPE, "timeout": SECONDS}
    done = subprocess.run(words, **{**usual, **more}, text=True)
    line = " ".join(map(str, words))
    assert done.returncode == 0, f"{line} ended with {done.returncode}: {done.stdout}{done.stderr or ''}"
    assert wanted is None or done.stdout == wanted, line
    return done.stdout
