"""Parts of the tool that need no service: JSON with all its digits, what is compared, and what is left over."""

import json
from decimal import Decimal

import pytest

from odb_batch.conformance._entities import BEHIND, Entities, Entity
from odb_batch.conformance._interruption import Interruption
from odb_batch.conformance._exact_json import Number, text_of, value_of
from odb_batch.conformance._judge import left_over
from odb_batch.conformance._promises import Case
from odb_batch.conformance._service import Reply, Service
from odb_batch.conformance._stage import Stage
from odb_batch.conformance._command import body_of
from odb_batch.conformance._twin import Taking, differences, host_of, parts_alone, parts_in_batch

JSON = {"content-type": "application/json"}
# An entity whose key is known, and at which nobody looks.
BOOK = Entity("", {}, "x")


@pytest.fixture
def entities():
    """The entities of a service that nobody asks."""
    return Entities(Service("http://127.0.0.1:1/", {}, 1, Interruption()), "Books", "Id", {"Title": "Emma"})


NUMBERS = ("9.990", "1.50E+2", "12345678901234567890.1234567890", "9007199254740993", "-0.0", "1e999")


@pytest.mark.parametrize("text", NUMBERS)
def test_numbers_keep_their_digits(text):
    assert text_of(value_of(f'{{"a": [{text}]}}')) == f'{{"a": [{text}]}}'
    assert text_of(body_of(f'{{"Price": {text}}}')) == f'{{"Price": {text}}}'


def test_numbers_equal_those_of_their_value():
    assert Number("9.990") == 9.99
    assert text_of({"a": Decimal("9.990"), "b": 1.5, "c": (None, True)}) == '{"a": 9.990, "b": 1.5, "c": [null, true]}'


def test_characters_are_written_as_escapes_or_as_they_are():
    value = {"ä": "\U0001f600"}
    assert text_of(value).isascii()
    assert text_of(value, False) == '{"ä": "\U0001f600"}'
    assert json.loads(text_of(value)) == value


def compared(entities, alone, batch, headers=JSON):
    """The differences between what a read is answered alone and in a batch, by the texts of its bodies and headers."""
    first = parts_alone(Taking(entities, BOOK, [], True), Reply(200, {**JSON, **headers}, alone.encode()))
    response = {"status": 200, "headers": {**JSON, **headers}, "body": value_of(batch)}
    return differences([first, first], parts_in_batch(Taking(entities, BOOK, [], True), response))


@pytest.mark.parametrize("alone, batch", [
    ("9.990", "9.99"),
    ("5", "5.0"),
    ("5", '"5"'),
    ("1", "true"),
    ("0", "false"),
    ("1E2", "100.0"),
    ("9007199254740993", "9007199254740992"),
    ("null", '""'),
    ('" a "', '"a"'),
])  # fmt: skip
def test_values_are_compared_as_they_are_written(alone, batch, entities):
    texts = [f'{{"Price": {value}}}' for value in (alone, batch)]
    assert compared(entities, texts[0], texts[0]) == compared(entities, texts[1], texts[1]) == []
    (line,) = compared(entities, *texts)
    assert line.startswith("the body.Price is ")


@pytest.mark.parametrize("alone, batch, is_same", [
    ("/Books(1)", "http://127.0.0.1:1/Books(1)", True),
    ("/Books(1)", "Books(1)", True),
    ("http://127.0.0.1:1/Books(1)", "/Books(1)", True),
    ("http://127.0.0.1:1/Books(1)", "http://127.0.0.1:1/Books(1)", True),
    ("https://outside/Books(1)", "https://outside:443/Books(1)", True),
    ("https://outside/Books(1)", "/Books(1)", True),
    ("/Books(1)", "http://127.0.0.1:2/Books(1)", False),
    ("/Books(1)", "http://inside:8000/Books(1)", False),
    ("http://127.0.0.1:1/Books(1)", "http://inside/Books(1)", False),
    ("/Books(1)", "/Books(2)", False),
])  # fmt: skip
def test_locations_lead_to_the_same_host(alone, batch, is_same, entities):
    first = parts_alone(Taking(entities, BOOK, [], True), Reply(200, {"location": alone}, b""))
    response = {"status": 200, "headers": {"Location": batch}}
    found = differences([first, first], parts_in_batch(Taking(entities, BOOK, [], True), response))
    assert (found == []) is is_same


def test_hosts():
    assert [host_of(url) for url in ("/a", "http://A:80/", "https://a:443/", "http://a:443/", "http://[::1/")] == [
        "", "a", "a", "a:443", "none",
    ]  # fmt: skip


def test_what_was_removed_and_is_there_again_is_named(entities):
    entities.removed.add(entities.service.address("Books(1)"))
    case, stages = Case("one", "once", "", lambda stage: None), [Stage(entities)]
    listing = {f"Books({key})": {} for key in (1, 2, 3)}
    rules = [found.rule for found in left_over(case, stages, listing, {entities.service.address("Books(3)")})]
    assert rules == [
        f"Books(1) was removed by a plain request, and is there all the same: {BEHIND}",
        "Books(2) is there afterwards, and no response names it",
    ]
