"""Each call of the library takes the seed that it is given, by names that crowd the tables of one seed.

The names, and what is slow, are those of the test of the program. A batch of names for a seed drawn here has to be
slow with this seed, in each call that takes one; and not with another seed, nor without one. What is written is
compared too, and also the response of a run that was opened so.
"""

import json
import os
import secrets
import sys
from itertools import accumulate

import pytest

from support import contents, crowds, seeds
from support.instructions import instructions_of_foreign_calls

POLICY = (0, 10_000)
LINES, STOP, STRICT = 0, 1, 1
NOTHING_LEFT = '{"requests":[]}\n'  # of a batch whose requests have all succeeded

# The commands, each with the options of its calls; a replay comes in each order.
COMMANDS = [("check", ()), ("plan", ()), ("canon", ()), ("run", POLICY)]
COMMANDS += [("replay", (*POLICY, order, 0)) for order in range(3)]

# Each function with a seed: the kinds of its documents, its numbers, and the command that prints what it writes.
CALLS = [
    (f"odb_{command}_as", contents.KINDS[command], (*options, LINES), command) for command, options in COMMANDS
]
CALLS += [
    ("odb_check_all_as", ("batch",), (LINES,), "check"),
    ("odb_match_with", contents.KINDS["match"], (STOP, STRICT, LINES), "match"),
    ("odb_rest", contents.KINDS["match"], (STOP, LINES), None),
    ("odb_faults", ("batch",), (), None),
    ("odb_requests", ("batch",), (), None),
    ("odb_run_open", ("batch", "events"), POLICY, "run"),
    ("odb_run_open_requests", ("batch", "events"), POLICY, "run"),
]
WRITTEN = {"odb_rest": NOTHING_LEFT, "odb_faults": "", "odb_requests": ""}
# The calls from Python to C for each of them, the first of which is it: then its text is copied; of a run the response is
# asked, copied, and the run closed. Before all of them the version is asked, and the constants are, whose text is copied.
FOREIGN, BEFORE = {"odb_run_open": 5, "odb_run_open_requests": 5}, 3

pytestmark = [pytest.mark.slow, pytest.mark.needs("cc", "valgrind")]


def counted(folder, environment, names, seed):
    """The instructions of each call on a batch with these names and what a run of it gave, which answers right."""
    content = seeds.content_of(names)
    texts = contents.documents_of(content)
    calls = [(name, [texts[it] for it in kinds], numbers, len(content.requests)) for name, kinds, numbers, _ in CALLS]
    (folder / "calls").write_text(json.dumps(calls), encoding="utf-8")
    script = os.path.join(os.path.dirname(os.path.abspath(__file__)), "seeded.py")
    words = [sys.executable, script, folder / "calls", seed]
    counts, printed = instructions_of_foreign_calls(folder, *words, env=environment)
    wanted = [WRITTEN[name] if name in WRITTEN else content.wanted(command) for name, _, _, command in CALLS]
    assert json.loads(printed) == wanted
    first = [*accumulate((FOREIGN.get(name, 2) for name, *_ in CALLS), initial=BEFORE)]
    assert len(counts) == first.pop()
    return [counts[at] for at in first]


def slow(found, plain):
    return [name for (name, *_), count, usual in zip(CALLS, found, plain) if count > seeds.SLOW * usual]


def test_each_call_takes_its_seed(environment, tmp_path):
    drawn = secrets.randbits(64)
    names = crowds.colliding_names(tmp_path, seeds.IDS + seeds.GROUPS, seeds.LOW_BITS, seeds.TAG_BITS, drawn)
    of_seed = lambda names, seed: counted(tmp_path, environment, names, str(seed))
    plain = of_seed(crowds.random_names(seeds.IDS + seeds.GROUPS), drawn)
    assert slow(of_seed(names, drawn), plain) == [name for name, *_ in CALLS]
    assert [slow(of_seed(names, seed), plain) for seed in (drawn ^ 1, 0)] == [[], []]
