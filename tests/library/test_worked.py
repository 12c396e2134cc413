"""The worked cases that need documents alone, through each binding: each has to answer as the program does.

Those of `run` are also live runs, opened after the recorded events.
"""

import base64
import json
import os

import pytest

from support.commands import run
from support.worked import CALLS

HERE = os.path.dirname(os.path.abspath(__file__))
# Node gets every third case.
SHARE = 3


LIVE = [it for it in CALLS if it.command == "run" and "form" not in it.options]
name_of = lambda it: f"{it.case.page}:{it.case.line} {it.case.title}"


def text_of(command, result):
    """What the program prints of a result."""
    if command == "check":
        return f"ok {result.requests} requests {result.groups} groups\n".encode()
    if command == "plan":
        lines = [
            f"{it.position} {it.id} level {it.level} group {it.group or '*'} needs {','.join(it.needs) or '*'}\n"
            for it in result
        ]
        return "".join(lines).encode()
    if command == "match":
        lines = [f"{id} {status}\n" for id, status in result.items()]
        return "".join([f"ok {len(result)} responses\n", *lines]).encode()
    if command != "replay":
        return result + b"\n"
    steps = [f"report {it.id} {it.status}\n" if hasattr(it, "status") else f"start {it.id}\n" for it in result.steps]
    return "".join([*steps, *(f"undo {id}\n" for id in result.undone)]).encode() + result.response + b"\n"


@pytest.mark.parametrize("call", CALLS, ids=name_of)
def test_python(call, package):
    if "form" in call.options:
        answer = package.output(call.command, *call.documents, **call.options).text
    else:
        try:
            answer = text_of(call.command, getattr(package, call.command)(*call.documents, **call.options))
        except package.Fault as fault:
            answer = f"fault {fault}\n".encode()
    assert answer == call.wanted


@pytest.mark.parametrize("call", LIVE, ids=name_of)
def test_live_runs(call, package):
    batch, events = call.documents
    try:
        with package.Run(batch, events=events, **call.options) as live:
            answer = live.response() + b"\n"
    except package.Fault as fault:
        answer = f"fault {fault}\n".encode()
    assert answer == call.wanted


@pytest.fixture(scope="module")
def answers_of_node(module, tmp_path_factory):
    """The answers of the module for Node to its calls, by their names."""
    calls, given = CALLS[::SHARE], tmp_path_factory.mktemp("worked") / "calls"
    with open(given, "w", encoding="ascii") as file:
        for it in calls:
            documents = [base64.b64encode(document).decode() for document in it.documents]
            file.write(json.dumps([it.command, documents, it.options]) + "\n")
    with open(given, encoding="ascii") as file:
        answers = run("node", os.path.join(HERE, "worked.js"), module, stdin=file).splitlines()
    return dict(zip(map(name_of, calls), map(base64.b64decode, answers)))


@pytest.mark.parametrize("call", CALLS[::SHARE], ids=name_of)
def test_node(call, answers_of_node):
    assert answers_of_node[name_of(call)] == call.wanted
