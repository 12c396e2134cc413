"""The rest of a batch: what may be sent again, and what takes the place of references."""

import json

import pytest

from odb_batch import Answer, Counts, Fault
from odb_batch.client import Batch
from odb_batch.client._rest import rest_document as rest
from odb_batch.testing import Scripted


def rest_of(batch, script, **options):
    return batch.send(Scripted(script).post, **options).rest()


def ids_of(batch):
    return [it["id"] for it in json.loads(batch.document())["requests"]]


@pytest.mark.parametrize("method, again", [
    ("get", {424, 429, 503, 408, 502, 504}), ("put", {424, 429, 503, 408, 502, 504}),
    ("delete", {424, 429, 503, 408, 502, 504}), ("post", {424, 429, 503}), ("patch", {424, 429, 503}),
])  # fmt: skip
def test_which_statuses_may_be_sent_again(method, again):
    found = set()
    for status in (200, 204, 304, 400, 404, 408, 409, 412, 413, 424, 425, 429, 500, 502, 503, 504, 507):
        batch = Batch()
        batch.request(method, "A")
        found |= {status} if rest_of(batch, {"1": status}) else set()
    assert found == again


def library():
    """A batch with a throttled request, one that fails for good, a group of each kind, and what depends on them."""
    batch = Batch()
    a = batch.post("A", {"Price": 9}, id="a")
    batch.post("B", {}, id="throttled", after=a)
    batch.get(f"{a}/C", after="throttled", id="behind")
    batch.get("D", id="gone")
    batch.get("E", after=["gone", a], id="never")
    with batch.group("busy"):
        batch.post(f"{a}/F", id="f1")
        batch.post("F", id="f2", after=["behind", "f1"])
    with batch.group("lost"):
        batch.post("G", id="g1")
        batch.post("G", id="g2")
    with batch.group("done"):
        batch.post("H", id="h1")
    batch.patch("$h1/I", {}, id="i", after=["busy"], headers={"If-Match": "$h1"})
    batch.get("J", id="j", after=["lost"])
    return batch


SCRIPT = {"throttled": [429, 201], "gone": 404, "f2": [503, 201], "g2": 409}


@pytest.mark.parametrize("limit", [2, 3, 20])
def test_what_is_in_the_rest(limit):
    batch, service = library(), Scripted(SCRIPT)
    results = batch.send(service.post, limit=limit)
    assert {it.id: it.status for it in results.values()} == {
        "a": 201, "throttled": 429, "behind": 424, "gone": 404, "never": 424, "f1": 424, "f2": 424, "g1": 424,
        "g2": 409, "h1": 201, "i": 424, "j": 424,
    }  # fmt: skip
    left = results.rest()
    assert ids_of(left) == ["throttled", "behind", "f1", "f2", "i"] and left.check() == Counts(5, 1)
    requests = {it["id"]: it for it in json.loads(left.document())["requests"]}
    assert "dependsOn" not in requests["throttled"]
    assert (requests["behind"]["url"], requests["behind"]["dependsOn"]) == ("/Made('a')/C", ["throttled"])
    assert (requests["f1"]["url"], requests["f2"]["dependsOn"]) == ("/Made('a')/F", ["behind", "f1"])
    assert (requests["i"]["url"], requests["i"]["headers"]["if-match"]) == ("/Made('h1')/I", '"1"')
    assert requests["i"]["dependsOn"] == ["busy"]
    second = left.send(service.post)
    assert [it.status for it in second.values()] == [201, 200, 424, 503, 424] and second.retry_after == 1.0
    third = second.rest()
    assert ids_of(third) == ["f1", "f2", "i"]
    assert all(it.is_success for it in third.send(service.post).values()) and not third.send(service.post).rest()


def test_references_hold_for_the_rest():
    batch = Batch()
    first, second = batch.post("A", {}), batch.post("B", {})
    left = rest_of(batch, {"2": 429})
    left.get(f"{second}/C", after=second)
    assert left.check() == Counts(2, 0)
    assert left.send(Scripted({"2": 201}).post)[second].status == 201
    with pytest.raises(KeyError):
        left.send(Scripted().post)[first]


def test_new_names_in_the_rest():
    """What has succeeded is not in the rest, but a reference to it does not mean another request there."""
    batch = Batch()
    batch.post("A", {})
    with batch.group():
        done = batch.post("B", {})
    left = rest_of(batch, {"1": 429})
    with left.group() as group:
        assert left.post("C", {}).id == "3"
    assert group.id == "g2" and left.check() == Counts(2, 1)
    left.get(done)
    with pytest.raises(Fault, match="F44"):
        left.check()
    again = rest_of(batch, {"1": 429}).send(Scripted({"1": 503}).post).rest()
    assert again.get("D").id == "3"


def test_bodies_keep_their_digits():
    batch = Batch()
    batch.put("A", b'{"Price": 9.990, "Sum": 1e2}')
    assert b'"body":{"Price": 9.990, "Sum": 1e2}' in rest_of(batch, {"1": 503}).document()


@pytest.mark.parametrize("answer, url, message", [
    (Answer(201), "$a/B", "b refers to a, which was answered without a Location"),
    (Answer(201, {"Location": "/A(1)"}), "B", "b refers to a, which was answered without an ETag"),
])  # fmt: skip
def test_a_reference_that_stands_for_nothing(answer, url, message):
    batch = Batch()
    a = batch.post("A", {}, id="a")
    batch.get(url, id="b", headers={"If-Match": a})
    with pytest.raises(ValueError, match=message):
        rest_of(batch, {"a": answer, "b": 503})


def test_what_a_condition_refers_to_in_the_rest():
    batch = Batch()
    batch.patch("B", {}, headers={"If-Match": batch.put("A", {}), "If-None-Match": "$other"})
    left = json.loads(rest_of(batch, {"1": 503}).document())["requests"]
    assert left[1]["headers"] == {"content-type": "application/json", "if-match": "$1", "if-none-match": "$other"}


def test_what_was_read_has_its_own_url():
    batch = Batch()
    batch.patch(batch.get("A(1)"), {})
    assert json.loads(rest_of(batch, {"2": 503}).document())["requests"][0]["url"] == "A(1)"


def test_the_documents_of_a_client():
    """What takes the place of references is what the responses record."""
    batch = (
        b'{"requests":[{"id":"a","method":"post","url":"A"},'
        b'{"id":"b","dependsOn":["a"],"method":"put","url":"$a/B","headers":{"If-Match":"$a"},"body":1.50}]}'
    )
    made = b'{"id":"a","status":201,"headers":{"location":"A(1)","etag":"7"}}'
    assert rest(batch, b'{"responses":[{"id":"b","status":504},%s]}' % made) == (
        b'{"requests":[{"body":1.50,"headers":{"if-match":"7"},"id":"b","method":"put","url":"A(1)/B"}]}'
    )
    with pytest.raises(Fault, match="F73 ResponseMissing /requests/1"):
        rest(batch, b'{"responses":[%s]}' % made)
