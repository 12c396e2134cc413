"""The rest of a batch: the rules, by examples and by plain rules over random batches."""

import json

import pytest
from hypothesis import given
from hypothesis import strategies as st

from odb_batch import Fault, Output, output, rest
from odb_batch.testing import batches
from support import rules, rules_of_runs
from support.profiles import share
from support.strategies import responses_with_rest

BATCH = (
    b'{"requests":[{"id":"a","method":"post","url":"A"},'
    b'{"id":"b","dependsOn":["a"],"method":"put","url":"$a/B","headers":{"If-Match":"$a"},"body":1.50}]}'
)
LEFT = b'{"requests":[{"body":1.50,"headers":{"if-match":"7"},"id":"b","method":"put","url":"%s/B"}]}'


def responses(*elements):
    return b'{"responses":[%s]}' % b",".join(elements)


def requests_of(document):
    return json.loads(document)["requests"]


@pytest.mark.parametrize("headers, place", [
    (b'{"Location":"A(1)","ETag":"7"}', b"A(1)"), (b'{"Age":7,"etag":"8","ETAG":"7","location":"A(2)","LOCATION":"A(1)"}', b"A(1)"),
    (b'{"ETag":"7","location":"https://host/A?x"}', b"https://host/A?x"),
])  # fmt: skip
def test_a_location_and_an_etag_take_the_place_of_references(headers, place):
    made = b'{"id":"a","status":201,"headers":%s}' % headers
    assert rest(BATCH, responses(b'{"id":"b","status":504}', made)) == LEFT % place


@pytest.mark.parametrize("headers", ["", ',"headers":{}', ',"headers":{"Location":7}', ',"headers":{"Location":"$b"}'])
def test_a_location_that_cannot_take_it(headers):
    made = b'{"id":"a","status":201%s}' % headers.encode()
    with pytest.raises(Fault, match="^F90 NoLocation /requests/1$"):
        rest(BATCH, responses(made, b'{"id":"b","status":503}'))


@pytest.mark.parametrize("headers", ["", ',"ETag":7', ',"ETags":"7"'])
def test_no_etag_is_recorded(headers):
    made = b'{"id":"a","status":201,"headers":{"Location":"A(1)"%s}}' % headers.encode()
    with pytest.raises(Fault, match="^F91 NoETag /requests/1$"):
        rest(BATCH, responses(made, b'{"id":"b","status":503}'))


def test_nothing_is_left():
    assert rest(BATCH, responses(b'{"id":"a","status":201}', b'{"id":"b","status":200}')) == b'{"requests":[]}'


@pytest.mark.parametrize("status, is_left", [(503, True), (409, False)])
def test_what_succeeded_in_a_group_that_failed_was_undone(status, is_left):
    group = [{"id": id, "atomicityGroup": "g", "method": "post", "url": "A"} for id in "ab"]
    answers = [{"id": "a", "atomicityGroup": "g", "status": 201}, {"id": "b", "atomicityGroup": "g", "status": status}]
    assert requests_of(rest({"requests": group}, {"responses": answers})) == (group if is_left else [])


def test_responses_that_do_not_fit():
    with pytest.raises(Fault, match="F73 ResponseMissing /requests/1"):
        rest(BATCH, responses(b'{"id":"a","status":201}'))
    with pytest.raises(Fault, match="F02 NotJson responses"):
        rest(BATCH, b"")


def test_a_service_that_stops():
    assert rest(BATCH, responses(b'{"id":"a","status":503}'), mode="stop").count(b'"id"') == 2
    with pytest.raises(ValueError, match="mode must be"):
        rest(BATCH, responses(), mode="half")


@st.composite
def answered(draw):
    """A batch and responses to it, and the mode of the service."""
    batch = json.dumps(draw(batches()))
    found = draw(responses_with_rest(rules.check(batch.encode())))
    return batch.encode(), found, draw(st.sampled_from(["continue", "stop"]))


@share(2)
@given(answered(), st.sampled_from(["json", "lines"]))
def test_the_rest_by_plain_rules(drawn, form):
    batch, found, mode = drawn
    wanted, status = rules_of_runs.printed("rest", batch, found, json=form == "json", stop=mode == "stop")
    assert output("rest", batch, found, form=form, mode=mode) == Output(status == 0, wanted)
