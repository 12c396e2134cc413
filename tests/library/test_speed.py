"""What calls in process take, and that they answer right: a check in C, in Python and by a process, and a live run beside a
replay by the program. bench/calls.py measures their times. Instructions are judged, which callgrind counts:

- of all faults of a batch with where they are beside those of the check that writes their lines alone; both are run by a
  program that reads the batch, so what it takes to start is in both.
- of a check of 1 KB beside those of `Value::from_slice`, `Batch::read` and the drop of the value in it. The check of the names and
  all that the call adds is the rest.
- of a live run with all its calls beside those of the same replay by the program: what a thousand requests add to a
  thousand, so that what it takes to start is in neither. The work of the system for memory is not counted, nearly half
  of the time of a replay and a quarter of that of a run: so twice the instructions are some 1.5 times the time.
"""

import json
import os
import re

import pytest

from support import rules
from support.commands import run
from support.in_process import MOST_REQUESTS, SIZES, compile_c, document_of, live_documents
from support.instructions import counts_of, instructions
from support.program import ROOT

FEW_REQUESTS = 1_000
MOST_OF_CHECK, MOST_OF_RUN, MOST_OF_FAULTS = 1.3, 2, 1.5
DROP = r"odb_(?:command|engine)::serde_json\S*Value\+Destruct::drop"
# What the library is made of, with the names of its functions.
NAMED = os.path.join(ROOT, "crates", "odb_ffi", "out", "odb_batch.o")
READING = ("serde_json::value::Value::from_slice", "odb_doc::batch::Batch::read", DROP)


@pytest.fixture
def compiled(library, tmp_path):
    """Compiles a program of this folder with the static library, or another object, and returns its path."""
    return lambda name, over=f"{library}/libodb_batch.a": compile_c(tmp_path, name, over)


@pytest.mark.parametrize("size", SIZES)
def test_checks_give_one_answer(size, compiled, package, program, tmp_path):
    document, path = document_of(size), tmp_path / "document"
    path.write_bytes(document)
    in_c, by_process = run(compiled("speed"), path, "0"), run(program, "check", path)
    counts = package.check(document)
    in_python = f"ok {counts.requests} requests {counts.groups} groups\n"
    assert [in_c, in_python, by_process] == [rules.checked_line(rules.check(document))] * 3


def test_a_live_run_gives_the_response_of_its_replay(compiled, program, tmp_path):
    paths = live_documents(tmp_path, MOST_REQUESTS)
    assert run(compiled("live_speed"), paths[0]) == run(program, "replay", *paths)


def counted(listing, name):
    """The instructions of a function, with those that it calls."""
    found = re.findall(rf"(?m)^ *([\d,]+) \([ \d.]+%\)\s+\S*?:{name} \[", listing)
    assert len(found) == 1, f"callgrind lists {name} {len(found)} times, not once"
    return int(found[0].replace(",", ""))


def assert_within(found, beside, most):
    print(f"{found} instructions beside {beside}, {found / beside:.2f} times as many, and {most} at most")
    assert found <= most * beside


@pytest.mark.slow
@pytest.mark.needs("valgrind", "callgrind_annotate")
def test_a_check_costs_little_more_than_reading_the_batch(compiled, tmp_path):
    if not os.path.exists(NAMED):
        pytest.skip(f"{NAMED} is not built")
    (tmp_path / "batch").write_bytes(document_of(1_000))
    counts, _ = counts_of(tmp_path, compiled("speed", NAMED), tmp_path / "batch", "0")
    listing = run("callgrind_annotate", "--inclusive=yes", "--threshold=100", counts)
    assert_within(counted(listing, "odb_check_as"), sum(counted(listing, name) for name in READING), MOST_OF_CHECK)


@pytest.mark.slow
@pytest.mark.needs("valgrind", "callgrind_annotate")
def test_where_all_faults_are_costs_half_of_finding_them(compiled, tmp_path):
    path, binary = tmp_path / "batch", compiled("faults_speed")
    path.write_text(json.dumps({"requests": [{"id": f"r{i}", "method": "get", "url": "$b"} for i in range(MOST_REQUESTS)]}))
    (of_faults, found), (of_check, listed) = (instructions(tmp_path, binary, path, it) for it in ("faults", "check"))
    assert [found, listed] == [f"{MOST_REQUESTS}\n"] * 2
    assert_within(of_faults, of_check, MOST_OF_FAULTS)


@pytest.mark.slow
@pytest.mark.needs("valgrind", "callgrind_annotate")
def test_a_live_run_costs_at_most_two_replays(compiled, program, tmp_path):
    binary = compiled("live_speed")
    few, many = (live_documents(tmp_path, count) for count in (FEW_REQUESTS, 2 * FEW_REQUESTS))
    added = lambda of_many, of_few: instructions(tmp_path, *of_many)[0] - instructions(tmp_path, *of_few)[0]
    of_run = added([binary, many[0]], [binary, few[0]])
    assert_within(of_run, added([program, "replay", *many], [program, "replay", *few]), MOST_OF_RUN)
