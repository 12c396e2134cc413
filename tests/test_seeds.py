"""Names that crowd a table of one seed, which the program's tables have only if it has drawn that seed.

Each command, also over a log of one line, is run

- on names for no seed, for the seeds 0, 1 and 7, and for one drawn here, while the system gives it
  random bytes, and while the system gives none: it must not be slow;
- on names for the drawn seed while the system gives it the bytes of that seed: it must be slow, or
  it does not hash from what it has drawn.

Slow is what takes twice the instructions of random names, which valgrind counts. What is printed is compared too.
"""

import os
import secrets
import subprocess

import pytest

from support import contents, crowds
from support.contents import KINDS
from support.instructions import instructions
from support.program import TESTS
from support.seeds import GROUPS, IDS, LOW_BITS, SLOW, TAG_BITS, content_of

pytestmark = [pytest.mark.slow, pytest.mark.needs("cc", "valgrind")]

DRAWN = secrets.randbits(64)
SEEDS = {"no seed": (), "seed 0": (0,), "seed 1": (1,), "seed 7": (7,), "a drawn seed": (DRAWN,)}
COMMANDS = (*KINDS, "plan --dot", *(f"{command} --lines" for command in KINDS))


def sources(folder):
    """What the environment has where the program is given random bytes, none, or those of the drawn seed."""
    library = folder / "entropy.so"
    subprocess.run(["cc", "-shared", "-fPIC", "-O2", "-o", library, os.path.join(TESTS, "seeds", "entropy.c")], check=True)
    none = {"LD_PRELOAD": str(library)}
    return {}, none, {**none, "ENTROPY": str(DRAWN)}


def documents_of(command, texts):
    """What a command reads: a document or two; of two documents in a log a line with both."""
    documents = [texts[kind] for kind in KINDS[command.split()[0]]]
    return [f"[{','.join(documents)}]"] if len(documents) > 1 and "--lines" in command else documents


class Crowd:
    """The commands on a batch with these names."""

    def __init__(self, program, folder, names):
        self.program, self.folder, self.content = program, folder, content_of(names)
        self.texts = contents.documents_of(self.content)

    def words(self, command):
        """The arguments of a command, whose documents it writes."""
        paths = []
        for number, document in enumerate(documents_of(command, self.texts)):
            paths.append(self.folder / f"{command} {number}")
            paths[-1].write_text(document, encoding="utf-8")
        return [*command.split(), *paths]

    def counted(self, command, source):
        """The instructions of a command whose random bytes come from the source, and which answers right."""
        count, printed = instructions(self.folder, self.program, *self.words(command), env=source)
        is_right = printed == self.content.wanted(command)
        assert is_right, f"{command}: a wrong answer"
        return count

    def slow(self, plain, source):
        """The commands that are slow, beside those on random names."""
        return [it for it in COMMANDS if self.counted(it, source) > SLOW * plain[it]]


@pytest.fixture(scope="module")
def given(tmp_path_factory):
    return sources(tmp_path_factory.mktemp("entropy"))


@pytest.fixture(scope="module")
def plain(program, given, tmp_path_factory):
    """The instructions of each command on random names."""
    crowd = Crowd(program, tmp_path_factory.mktemp("random"), crowds.random_names(IDS + GROUPS))
    return {it: crowd.counted(it, given[0]) for it in COMMANDS}


@pytest.mark.parametrize("name", SEEDS)
def test_names(program, given, plain, tmp_path, name):
    names = crowds.colliding_names(tmp_path, IDS + GROUPS, LOW_BITS, TAG_BITS, *SEEDS[name])
    crowd, (usual, none, same) = Crowd(program, tmp_path, names), given
    assert crowd.slow(plain, usual) == []
    assert crowd.slow(plain, none) == []
    if name == "a drawn seed":
        assert crowd.slow(plain, same) == list(COMMANDS)
