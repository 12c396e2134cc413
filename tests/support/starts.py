"""Processes that run a module of Python as `python3 -m` does, and begin at once: each is forked from one process that has
imported what they need."""

import multiprocessing
import os
import runpy
import signal
import subprocess
import sys
import tempfile
from multiprocessing import forkserver

from .commands import with_package

# What the example service, the conformance tool and tests import.
IMPORTED = [
    "gunicorn.app.wsgiapp", "gunicorn.workers.gthread", "odb_batch.wsgi", "odb_batch.conformance._command",
    "hypothesis.strategies", "pytest",
]  # fmt: skip
CONTEXT = multiprocessing.get_context("forkserver")


def _import():
    """Starts the process that imports, which has the environment of the others."""
    CONTEXT.set_forkserver_preload(IMPORTED)
    before = dict(os.environ)
    os.environ.update(with_package())
    try:
        forkserver.ensure_running()
    finally:
        os.environ.clear()
        os.environ.update(before)


def end():
    """Ends the process that imports, and waits for it, so that what it and the others took is counted as that of the tests."""
    forkserver._forkserver._stop()


def _run(words, folder, variables, files, listening, anew):
    """Runs the module in a process of its own, and of a session of its own."""
    for name in [it for it in sys.modules if it.partition(".")[0] == anew]:
        del sys.modules[name]
    os.setsid()
    os.chdir(folder)
    os.environ.clear()
    os.environ.update(variables)
    for number, path in enumerate(files, 1):
        file = os.open(path, os.O_WRONLY | os.O_CREAT | os.O_APPEND, 0o666)
        os.dup2(file, number)
        os.close(file)
    number = listening.detach() if listening else None
    sys.argv = [word.format(fd=number) if listening else word for word in words]
    runpy.run_module(words[0], run_name="__main__", alter_sys=True)


class Started:
    """A process, with what tests need of those of `subprocess`.

    Args:
        words: The module and its arguments; {fd} stands for the socket, if there is one.
        folder: Where it works.
        variables: Those of its environment.
        files: The paths of what it writes to, on standard output and on standard error.
        listening: A socket that it inherits.
        anew: The package that it imports itself.
    """

    def __init__(self, words, folder, variables, files, listening=None, anew=None):
        _import()
        self._words = words
        self._process = CONTEXT.Process(target=_run, args=(words, folder, variables, files, listening, anew))
        self._process.start()
        self.pid = self._process.pid

    @property
    def returncode(self):
        return self._process.exitcode

    def poll(self):
        return self.returncode

    def wait(self, timeout=None):
        self._process.join(timeout)
        if self.returncode is None:
            raise subprocess.TimeoutExpired(self._words, timeout)
        return self.returncode

    def send_signal(self, number):
        if self.returncode is None:
            os.kill(self.pid, number)

    def kill(self):
        self.send_signal(signal.SIGKILL)


def ended(words, folder, variables, seconds, anew=None):
    """Runs a module in a folder to its end; returns the exit status, and what it printed on standard output and standard error."""
    with tempfile.TemporaryDirectory() as kept:
        files = [os.path.join(kept, name) for name in ("out", "error")]
        process = Started(words, folder, variables, files, anew=anew)
        try:
            status = process.wait(seconds)
        finally:
            process.kill()
        texts = []
        for path in files:
            with open(path, encoding="utf-8") as file:
                texts.append(file.read())
        return status, *texts
