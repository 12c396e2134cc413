"""How messages about refused batches begin: with the id of the request, and the name that is wrong."""

import json

import pytest
from hypothesis import given

from odb_batch import Fault, check, faults
from odb_batch.errors.findings import Findings
from support.profiles import share
from support.strategies import batches


def get(id, url="A", **more):
    return {"id": id, "method": "get", "url": url, **more}


A, G, H = get("a"), get("m", atomicityGroup="g"), get("n", atomicityGroup="h")


@pytest.mark.parametrize("requests, begins", [
    ([A, get("b", dependsOn=["a", "nope"])], 'b: "nope" in dependsOn is unknown. UnknownName: '),
    ([get("b", dependsOn=["a"]), A], 'b: "a" in dependsOn does not come before it. ForwardName: '),
    ([get("b", dependsOn=["b"])], 'b: "b" in dependsOn does not come before it. ForwardName: '),
    ([get("b", dependsOn=["g"]), G], 'b: "g" in dependsOn does not come before it. ForwardName: '),
    ([get("b", dependsOn=["g"], atomicityGroup="g")], 'b: "g" in dependsOn is its own group. '),
    ([G, get("b", dependsOn=["m"])], 'b: "g", the group of "m", is not listed in dependsOn. GroupNotListed: '),
    ([get("b", "$nope/x")], 'b: "nope" in the URL is unknown. UnknownReference: '),
    ([get("b", "%24a?x=1"), A], 'b: "a" in the URL does not come before it. ForwardReference: '),
    ([A, get("b", "$a#x")], 'b: "a" is not listed in dependsOn. ReferenceNotListed: '),
    ([get("b", dependson=[])], 'b: the member "dependson" is unknown. '),
    ([get("b", headers={"X-A": "1", "x-a": "2"})], 'b: the header "x-a" comes twice. '),
    ([A, A], "a: an earlier request has this id. "),
    ([get("g"), G], "g: a group has this name, too. "),
    ([G, H, get("o", atomicityGroup="g")], 'o: the group "g" has been left before. '),
    ([get("b", "x/$batch")], "b: NestedBatch: "),
    ([{"method": "get", "url": "A"}], "BadId: "),
    ([7], "NotRequestObject: "),
    ([get("b" * 200, dependsOn=["é" * 200])], f'{"b" * 100}..: "{"é" * 100}.." in dependsOn is unknown. '),
])  # fmt: skip
def test_a_message_begins_with_what_is_wrong(requests, begins):
    with pytest.raises(Fault) as raised:
        check(json.dumps({"requests": requests}))
    assert raised.value.message.startswith(begins)


@pytest.mark.parametrize("document", ["[", "[]", "{}", '{"requests":7}'])
def test_a_document_that_is_no_batch_has_the_message_of_its_fault(document):
    with pytest.raises(Fault) as raised:
        check(document)
    assert raised.value.message.startswith(f"{raised.value.name}: ")


def test_the_line_of_a_fault_stays():
    with pytest.raises(Fault) as raised:
        check({"requests": [get("b", dependsOn=["nope"])]})
    assert str(raised.value) == "F40 UnknownName /requests/0"


@share(4)
@given(batches(60))
def test_of_each_fault_of_a_random_batch(batch):
    """It begins with the id, and names only what is in the request."""
    for fault in faults(batch):
        begins = Findings(batch).describe(fault.code, fault.place)
        assert fault.message == f"{begins}{fault.name}: {' '.join(fault.explanation.split())}"
        if fault.code in ("F30", "F31", "F32", "F40", "F41", "F42", "F43", "F44", "F45", "F46"):
            request = json.loads(batch)["requests"][int(fault.place.rpartition("/")[2])]
            assert begins.startswith(request["id"][:100]) and begins.endswith(". ")


def test_the_document_is_read_once_for_all_its_faults(monkeypatch):
    reads = []
    loads = json.loads

    def counted(document, *given, **options):
        reads.append(len(document))
        return loads(document, *given, **options)

    batch = json.dumps({"requests": [get(f"b{at}", dependsOn=["nope"]) for at in range(50)]}).encode()
    monkeypatch.setattr(json, "loads", counted)
    messages = [fault.message for fault in faults(batch)]
    assert reads.count(len(batch)) == 1
    assert [message.partition(":")[0] for message in messages] == [f"b{at}" for at in range(50)]


def test_a_request_without_an_id_does_not_take_the_others_theirs():
    found = faults({"requests": [7, get("b", dependson=[])]})
    assert [fault.message.partition(": ")[0] for fault in found] == ["NotRequestObject", "b"]
