"""Responses in the document of a service: the bytes of their headers and bodies stay as they are."""

import json

import pytest

from odb_batch import Fault, Run, requests
from odb_batch.documents.responses import Response, responses
from odb_batch.errors.faults import explain
from odb_batch.runs import ListedRun

BATCH = b'{"requests":[{"id":"a","method":"post","url":"A","body": 9.990 },{"id":"b","method":"get","url":"$a/x","dependsOn":["a"]}]}'


def test_headers_are_values_and_bodies_bytes():
    document = """{"@context": "x", "responses": [7], "responses": [
        {"id": "\\u00e9", "status": 201, "atomicityGroup": "g", "headers": {"ETag": "1"}, "body" : {"price": 9.990} },
        {"id": "", "status": 599, "atomicityGroup": null, "headers": null, "body": null},
        {"body": 1, "id": "c", "headers": [2], "status": 100, "body": "]}"}]}"""
    assert responses(document.encode()) == (
        Response("é", "g", 201, {"ETag": "1"}, b'{"price": 9.990}'),
        Response("", None, 599, None, None),
        Response("c", None, 100, [2], b'"]}"'),
    )
    assert responses(b'{"responses":[]}') == ()


@pytest.mark.parametrize("document, wanted", [
    ("[", "F02 NotJson responses"), ("{}", "F70 BadResponses responses"), ('{"responses":7}', "F70 BadResponses responses"),
    ('{"responses":[{"id":"a","status":200},{"id":"a","status":99}]}', "F70 BadResponses /responses/1"),
])  # fmt: skip
def test_another_document_is_refused(document, wanted):
    with pytest.raises(Fault) as raised:
        responses(document.encode())
    assert str(raised.value) == wanted
    assert raised.value.line == 1


def test_many_responses_are_listed_in_order():
    """More than a first guess has room for."""
    listed = [{"id": str(at), "status": 200} for at in range(3_000)]
    document = json.dumps({"responses": listed}, separators=(",", ":")).encode()
    assert [response.id for response in responses(document)] == [str(at) for at in range(3_000)]
    small = b'{"responses":[%s]}' % b",".join([b'{"id":"","status":200}'] * 3_000)
    assert responses(small) == (Response("", None, 200, None, None),) * 3_000


def test_a_run_that_lists_its_requests_is_that_of_the_batch():
    with ListedRun(BATCH) as listed, Run(BATCH) as run:
        assert listed.requests == requests(BATCH)
        assert listed.request("b") is listed.requests[1] and run.request("b") == listed.requests[1]
        for each in (listed, run):
            each.start("a")
            each.report("a", 404)
        assert listed.response() == run.response()


def test_a_run_that_lists_its_requests_is_refused_as_a_run_is():
    for batch, events in ((b"[", ()), (BATCH, b'{"events":[{"start":"b"}]}')):
        found = []
        for kind in (Run, ListedRun):
            with pytest.raises(Fault) as raised:
                kind(batch, events=events)
            found.append((str(raised.value), raised.value.line))
        assert found[0] == found[1]


def test_a_code_is_explained_by_the_library():
    assert explain("F41").name == "ForwardName" and explain("S4").name == "Waiting"
    assert explain("F41").meaning.startswith("The request depends on itself") and "refused:" not in explain("F41").meaning
    assert explain("F99") == explain("") == explain("\ud800") == ("", "")
