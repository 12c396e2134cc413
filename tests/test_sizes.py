"""Documents as long as the program takes: each answer is the one that the rules give. No time is judged; bench/ measures."""

import subprocess

import pytest

from support.cases import shown
from support.sizes import KINDS

LIMIT = 120

pytestmark = [pytest.mark.slow, pytest.mark.needs("cc")]


def call(program, trial, folder):
    """What the program prints on its streams, and its exit status."""
    paths = [folder / f"{trial.command.split()[0]}-{at}" for at, _ in enumerate(trial.documents)]
    for path, document in zip(paths, trial.documents):
        path.write_text(document, encoding="utf-8")
    done = subprocess.run([program, *trial.command.split(), *paths], capture_output=True, timeout=LIMIT)
    for path in paths:
        path.unlink()
    return done.stdout, done.stderr, done.returncode


@pytest.mark.parametrize("kind", KINDS, ids=lambda kind: kind.__name__)
def test_kind(program, tmp_path, kind):
    wrong = []
    for trial in kind():
        out, err, status = call(program, trial, tmp_path)
        if (out, err, status) != (trial.wanted.encode(), b"", trial.status):
            wrong.append(
                f"{trial.command} of {trial.title}: status wanted: {trial.status}, got: {status}\n"
                f"wanted:\n{shown(trial.wanted.encode())}\ngot:\n{shown(out)}\n{shown(err)}"
            )
    assert not wrong, "\n".join(wrong)
