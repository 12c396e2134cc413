"""Checks what the program prints, and the documents that it reads, against the schemas of docs/schemas/.

Each has to be valid by its schema, and a copy with a mistake in it has to be invalid.
"""

import json
import os

import pytest
from hypothesis import given
from jsonschema import Draft202012Validator

from support.calls import call, events_of, succeed
from support.profiles import share
from support.program import ROOT
from support.strategies import batches, recorded_batches

SCHEMAS = os.path.join(ROOT, "docs", "schemas")
EXAMPLES = os.path.join(ROOT, "examples")
SECONDS = {"match": "match", "replay": "responses", "run": "responses"}


def validator_of(name):
    with open(os.path.join(SCHEMAS, name), encoding="utf-8") as file:
        schema = json.load(file)
    Draft202012Validator.check_schema(schema)
    return Draft202012Validator(schema)


VALIDATORS = {name[:-5]: validator_of(name) for name in sorted(os.listdir(SCHEMAS))}


def damaged(value):
    """Copies of a value that no schema allows, with what is wrong in them."""
    yield "a member more", {**value, "more": 0}
    for name, member in value.items():
        yield f"no {name}", {other: it for other, it in value.items() if other != name}
        yield f"{name} in capitals", {name.upper(): member}
        yield f"{name} of another type", {**value, name: True}
        if isinstance(member, list) and member:
            yield f"{name} with a number in it", {**value, name: [*member, 7]}
            yield f"{name} with an empty object in it", {**value, name: [*member, {}]}


def look(name, value):
    """Checks a value, and that each of its damaged copies is refused."""
    VALIDATORS[name].validate(value)
    assert [title for title, copy in damaged(value) if VALIDATORS[name].is_valid(copy)] == []


def look_at_result(program, name, command, *documents):
    """Checks what a command prints as JSON: a result, or the fault of a document."""
    text, status = call(program, [*command.split(), "--json"], documents)
    assert status in (0, 1), text
    refused = "faults" if "--all" in command else "fault"
    look(refused if status else name, json.loads(text))


@share(40)
@given(recorded=recorded_batches())
def test_results_and_second_documents(program, recorded):
    batch, outcomes = recorded
    look("outcomes", {"outcomes": outcomes})
    look("counts", json.loads(succeed(program, ["check", "--json"], batch)))
    look("plan", json.loads(succeed(program, ["plan", "--json"], batch)))
    look("full_plan", json.loads(succeed(program, ["plan", "--full"], batch)))
    *trace, response, _end = succeed(program, ["replay", "--trace"], batch, {"outcomes": outcomes}).split("\n")
    events = {"events": events_of(trace, outcomes)}
    look("responses", json.loads(response))
    look("events", events)
    look("responses", json.loads(succeed(program, ["run", "--json"], batch, events)))
    look("match", json.loads(succeed(program, ["match", "--json"], batch, response)))


@share(40)
@given(batch=batches(75))
def test_results_of_damaged_batches(program, batch):
    look_at_result(program, "counts", "check", batch)
    look_at_result(program, "counts", "check --all", batch)
    look_at_result(program, "counts", "check --where", batch)
    look_at_result(program, "counts", "check --all --where", batch)
    look_at_result(program, "plan", "plan", batch)
    look_at_result(program, "full_plan", "plan --full", batch)


def bytes_of(name):
    with open(os.path.join(EXAMPLES, name), "rb") as file:
        return file.read()


@pytest.mark.parametrize("name", sorted(it for it in os.listdir(EXAMPLES) if it.endswith(".json")))
def test_examples(program, name):
    look_at_result(program, "counts", "check", bytes_of(name))
    look_at_result(program, "counts", "check --all", bytes_of(name))
    look_at_result(program, "full_plan", "plan --full", bytes_of(name))
    for command, form in SECONDS.items():
        look_at_result(program, form, command, bytes_of("batch_usual.json"), bytes_of(name))
