"""What the tests share: the tool as a process, and the example service with a defect."""

import os
import signal
import subprocess
import sys
import tempfile
from contextlib import contextmanager
from typing import NamedTuple

from common import SECONDS, Process
from support.commands import with_package
from support.program import ROOT
from support.starts import Started, ended

HERE = os.path.join(ROOT, "python", "tests", "conformance")
TOOL = (sys.executable, "-m", "odb_batch", "conformance")
ABOUT = ("--set", "Books", "--key", "Id", "--body", '{"Title": "Conformance"}')


class Defective(Process):
    """The service with a defect or as a variant; without a name as it is.

    One with a defect has one process that answers, since some defects are in what batches share, and performs several
    requests at once, so that those in the order show.
    """

    folder = os.path.join(HERE, "defects")

    def __init__(self, name, database):
        self.name = name
        super().__init__(database, **({} if name is None else {"workers": 1, "width": 8}))

    def started(self, command, folder, variables, out, listening):
        return Started(command, folder, variables, [out.name, out.name], listening)

    def __exit__(self, *_):
        self.stop(signal.SIGQUIT)  # by SIGTERM a worker of gunicorn takes a second to see that it is to end

    def app(self, database, width):
        if self.name is None:
            return super().app(database, width)
        return f"planted:make_app({self.name!r}, {database!r}, {width})"


class Done(NamedTuple):
    """What the tool has printed, and its exit status."""

    status: int
    out: str
    error: str


def tool(*words, **options):
    """Runs the tool."""
    done = subprocess.run(
        [*TOOL, *words],
        stdin=subprocess.DEVNULL, stdout=subprocess.PIPE, stderr=subprocess.PIPE, text=True, timeout=5 * SECONDS,
        env=with_package(), **options,
    )  # fmt: skip
    return Done(done.returncode, done.stdout, done.stderr)


def judgement(folder, *words):
    """Runs the tool in a folder as `tool` does, in a process that begins at once."""
    return Done(*ended(["odb_batch", "conformance", *words], folder, with_package(), 5 * SECONDS))


@contextmanager
def service(name=None):
    """The service, with a folder for its database and for what the tool writes."""
    with tempfile.TemporaryDirectory(prefix="conformance-") as folder:
        with Defective(name, os.path.join(folder, "library.sqlite")) as running:
            yield running, folder
