"""Documents of examples/ that are cut after each of their bytes: after a few here, and after all the others in the slow tests.

No part of a JSON object is JSON, so each has to be refused by F02 at the place of its document. A batch is given to
each command in turn, and a second document to the command that reads it.
"""

import os
import subprocess

import pytest

from support.pages import OF_BATCHES
from support.program import EXAMPLES

BATCH = "batch_usual.json"
BATCHES = (BATCH, "batch_references.json")
SECONDS = {
    "replay": ("outcomes", "outcomes_lent.json"),
    "match": ("responses", "responses_served.json"),
    "run": ("events", "events_recorded.json"),
    "rest": ("responses", "responses_served.json"),
}
LIMIT = 60

# One cut of so many is tried at once, and the others are slow.
SOME = 16
each_share = pytest.mark.parametrize("are_some", [True, pytest.param(False, marks=pytest.mark.slow)], ids=["some", "others"])


def share_of(parts, are_some):
    """Some of the parts, or all the others."""
    return [part for at, part in enumerate(parts) if (at % SOME == 0) == are_some]


def parts_of(name):
    """Each proper part of an example, the empty one too; the newline at its end belongs to none."""
    with open(os.path.join(EXAMPLES, name), "rb") as file:
        data = file.read().rstrip()
    return [data[:n] for n in range(len(data))]


def wrong_parts(program, path, parts, place, words):
    """The parts that the program does not refuse by F02 at their place: how long each is, and what it printed."""
    wanted = (f"fault F02 NotJson {place}\n".encode(), b"", 1)
    for part in parts:
        path.write_bytes(part)
        done = subprocess.run([program, *words], cwd=EXAMPLES, input=part, capture_output=True, timeout=LIMIT)
        if (done.stdout, done.stderr, done.returncode) != wanted:
            yield len(part), done.stdout, done.stderr, done.returncode


@each_share
@pytest.mark.parametrize("command", OF_BATCHES)
@pytest.mark.parametrize("name", BATCHES)
def test_batch(program, tmp_path, name, command, are_some):
    """A command has one part of seven; `check` reads standard input."""
    path, parts = tmp_path / "batch", parts_of(name)[OF_BATCHES.index(command) :: len(OF_BATCHES)]
    words = [command, path, *SECONDS.get(command, ())[1:]] if command != "check" else []
    assert list(wrong_parts(program, path, share_of(parts, are_some), "batch", words)) == []


@each_share
@pytest.mark.parametrize("command", SECONDS)
def test_second_document(program, tmp_path, command, are_some):
    place, name = SECONDS[command]
    path = tmp_path / "second"
    parts = share_of(parts_of(name), are_some)
    assert list(wrong_parts(program, path, parts, place, [command, BATCH, path])) == []
