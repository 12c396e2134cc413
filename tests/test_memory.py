"""Lets allocations of the program fail, one run for each, and looks at how it ends.

For each command on small documents the first allocation fails, then the second, and so on until a run
has none that fails. That is done twice: the one allocation fails, or all from that one on. On a batch
of 250 requests one of ten allocations is tried, chosen by a seed. A run has to end with status 4,
`error: memory`, and the beginning of what it prints otherwise, of a log in whole lines; or exactly as
if none had failed. It needs glibc.
"""

import os
import subprocess
from dataclasses import dataclass
from random import Random

import pytest

from support import trials
from support.program import EXAMPLES, TESTS

pytestmark = [pytest.mark.slow, pytest.mark.needs("cc")]

MEMORY = (4, b"error: memory\n")
SHARE = 10
SEED = 1
SHOWN_RUNS, SHOWN_BYTES = 3, 400

# Each trial, and whether all allocations from the chosen one on fail.
CALLS = [
    pytest.param(trial, rest, id=f"{trial.title}, {'all from one on' if rest else 'one alone'}")
    for trial in trials.trials()
    for rest in ((False,) if trial.large else (False, True))
]


@dataclass
class Ending:
    """How a run ended; whether an allocation failed, and how many it made."""

    status: int
    out: bytes
    err: bytes
    failed: bool
    allocations: int

    def text(self):
        return self.status, self.out, self.err


class Program:
    """The program with the library that lets allocations fail."""

    def __init__(self, binary, folder):
        self.binary, self.folder = binary, folder
        self.library = os.path.join(folder, "refuse.so")
        source = os.path.join(TESTS, "memory", "refuse.c")
        subprocess.run(["cc", "-shared", "-fPIC", "-O2", "-o", self.library, source], check=True)

    def run(self, trial, places=(), rest=False):
        """Runs a trial without a failed allocation, and then once for each of these places, where the allocation fails, and the
        later ones too if `rest`; returns the endings."""
        paths = {f"REFUSE_{name.upper()}": os.path.join(self.folder, name) for name in ("places", "input", "told")}
        given = (" ".join(map(str, [0, *places])).encode(), trial.input)
        for name, data in zip(("places", "input"), given):
            with open(os.path.join(self.folder, name), "wb") as file:
                file.write(data)
        variables = {"LD_PRELOAD": self.library, **paths, **({"REFUSE_REST": "1"} if rest else {})}
        words = ["odb_batch", *trial.arguments]
        subprocess.run(words, executable=self.binary, cwd=self.folder, env=variables, check=True)
        with open(paths["REFUSE_TOLD"], "rb") as file:
            return list(endings(file))


def endings(file):
    """The endings of the runs of which the library tells; the first one has the whole output."""
    whole = b""
    for line in iter(file.readline, b""):
        status, failed, allocations, begins, length, of_errors = map(int, line.split())
        out = whole[:length] if begins else file.read(length)
        whole = whole or out
        yield Ending(status, out, file.read(of_errors), bool(failed), allocations)


def is_right(trial, got, whole):
    """Whether a run with a failed allocation ended as it may, beside the same run without one."""
    if got.text() == whole.text():
        return True
    begun = whole.out.startswith(got.out) and trial.may_print(got.out)
    return (got.status, got.err) == MEMORY and begun


def places(trial, whole):
    """Which allocations are to fail: all, or of a large trial one of ten."""
    every = range(1, whole.allocations + 1)
    if not trial.large:
        return list(every)
    random = Random(f"{SEED} {trial.title}")
    return [at for at in every if random.randrange(SHARE) == 0]


def further_places(program, trial, rest, after):
    """Goes on from the last place until no allocation fails; returns the endings of the places before that."""
    passed = []
    while (found := program.run(trial, [after + len(passed) + 1], rest)[1]).failed:
        passed.append((after + len(passed) + 1, found))
    return passed


def shown(at, got):
    return f"allocation {at}: status {got.status}, {got.out[:SHOWN_BYTES]!r}, {got.err[:SHOWN_BYTES]!r}"


@pytest.fixture(scope="module")
def refusing(program, tmp_path_factory):
    """The program with the library that lets allocations fail, in a folder with all documents."""
    folder = tmp_path_factory.mktemp("memory")
    trials.write(folder, EXAMPLES)
    return Program(program, folder)


@pytest.mark.parametrize("trial, rest", CALLS)
def test_allocations(refusing, trial, rest):
    (whole,) = refusing.run(trial)
    assert whole.status == trial.status and whole.allocations
    chosen = places(trial, whole)
    found = list(zip(chosen, refusing.run(trial, chosen, rest)[1:]))
    assert len(found) == len(chosen)
    if not trial.large:
        found += further_places(refusing, trial, rest, whole.allocations)
    wrong = [shown(at, got) for at, got in found if not (got.failed and is_right(trial, got, whole))]
    assert not wrong, "\n".join([f"{len(wrong)} of {len(found)} runs", *wrong[:SHOWN_RUNS]])
