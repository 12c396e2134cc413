"""Batches that are made by calls: ids, dependencies, headers and bodies, and what is refused."""

import copy
import json
import pickle
from decimal import Decimal

import pytest

from odb_batch import Counts, Fault, check
from odb_batch.client import Batch, batch_headers
from odb_batch.testing import Scripted
from support.counting import lines_of


def requests_of(batch):
    return json.loads(batch.document())["requests"]


def last_of(batch):
    return requests_of(batch)[-1]


def test_a_document():
    batch = Batch()
    order = batch.post("Orders", {"Customer": "ada"})
    with batch.group() as paid:
        batch.patch(order, {"Paid": True}, headers={"If-Match": order})
        batch.delete("Baskets(7)", id="basket")
    batch.get(f"{order}/Lines?$top=1", after=paid)
    assert batch.document() == (
        b'{"requests":['
        b'{"id":"1","method":"post","url":"Orders","headers":{"content-type":"application/json"},'
        b'"body":{"Customer":"ada"}},'
        b'{"id":"2","atomicityGroup":"g1","dependsOn":["1"],"method":"patch","url":"$1",'
        b'"headers":{"if-match":"$1","content-type":"application/json"},"body":{"Paid":true}},'
        b'{"id":"basket","atomicityGroup":"g1","method":"delete","url":"Baskets(7)"},'
        b'{"id":"4","dependsOn":["g1","1"],"method":"get","url":"$1/Lines?$top=1"}]}'
    )
    assert batch.check() == Counts(4, 1)
    assert list(map(repr, (batch, order, paid))) == ["<Batch of 4 requests>", "<Reference $1>", "<Group g1>"]


def small():
    """A batch with a request a, and a group g of b and c."""
    batch = Batch()
    batch.post("A", id="a")
    with batch.group("g"):
        batch.post("B", id="b")
        batch.post("C", id="c")
    return batch


@pytest.mark.parametrize("url, options, needs", [
    ("X", {}, None),
    ("X", {"after": "a"}, ["a"]),
    ("X", {"after": ["g", "a", "g"]}, ["g", "a"]),
    ("X", {"after": ["b"]}, ["b", "g"]),
    ("$a", {}, ["a"]),
    ("$a/X", {"after": ["a"]}, ["a"]),
    ("%24a?x=1", {}, ["a"]),
    ("$a#x", {}, ["a"]),
    ("$c/X", {}, ["c", "g"]),
    ("/$a/X", {}, None),
    ("$metadata", {}, None),
    ("$top/X", {}, None),
    ("X", {"headers": {"if-match": "$a"}}, ["a"]),
    ("X", {"headers": {"If-None-Match": "$b"}}, ["b", "g"]),
    ("X", {"headers": {"If-Match": '"$a"', "Prefer": "$a"}}, None),
])  # fmt: skip
def test_dependencies(url, options, needs):
    batch = small()
    batch.get(url, id="x", **options)
    assert last_of(batch).get("dependsOn") == needs
    if url != "$top/X":
        batch.check()


def test_dependencies_in_a_group():
    batch = Batch()
    with batch.group("g"):
        first = batch.post("A")
        batch.post(f"{first}/B")
    assert last_of(batch)["dependsOn"] == ["1"] and batch.check() == Counts(2, 1)


@pytest.mark.parametrize("body, given, text", [
    (Decimal("9.990"), {}, b"9.990"),
    ({"a": [Decimal("1E+2"), 2**70, {1: Decimal("-0.0")}]}, {}, b'{"a":[1E+2,1180591620717411303424,{"1":-0.0}]}'),
    (b'{"Price": 9.990}', {}, b'{"Price": 9.990}'),
    (bytearray(b"7"), {"Content-Type": "application/x+json"}, b"7"),
    ("dune", {}, b'"dune"'),
    ("d\xfcn", {"Content-Type": "text/plain"}, '"d\xfcn"'.encode()),
    (b"d\xfcn", {"Content-Type": "text/plain; charset=latin-1"}, '"d\xfcn"'.encode()),
    (b"\xff\xfe", {"Content-Type": "image/png"}, b'"__4"'),
    (False, {}, b"false"),
])  # fmt: skip
def test_bodies(body, given, text):
    batch = Batch()
    batch.put("A", body, headers=given)
    assert batch.document().endswith(b'"body":' + text + b"}]}")
    batch.check()


def test_without_a_body():
    batch = Batch()
    batch.post("A")
    batch.put("B", b"")
    assert [set(it) for it in requests_of(batch)] == [{"id", "method", "url"}] * 2


@pytest.mark.parametrize("body, error", [
    (b"{", ValueError), (b"NaN", ValueError), (b'1},{"id":"2"', ValueError), (b"[" * 100_000, ValueError),
    ({1, 2}, TypeError), (float("nan"), ValueError), (Decimal("Infinity"), ValueError), ([Decimal("nan")], ValueError),
])  # fmt: skip
def test_refused_bodies(body, error):
    batch = Batch()
    with pytest.raises(error):
        batch.post("A", body)
    assert not batch


@pytest.mark.parametrize("id", ["all", "id", "metadata", "root"])
def test_an_id_that_no_url_refers_to(id):
    with pytest.raises(ValueError, match=f"no URL can refer to a request with the id '{id}'"):
        Batch().get("A", id=id)


def test_what_is_of_another_batch():
    other, batch = small(), small()
    with other.group("h") as group:
        request = other.get("X", id="a")
    results = batch.send(Scripted().post)
    for id, call in (
        ("a", lambda: batch.get("Y", after=request)),
        ("h", lambda: batch.get("Y", after=group)),
        ("a", lambda: batch.get(request)),
        ("a", lambda: batch.get("Y", headers={"If-Match": request})),
        ("a", lambda: results[request]),
    ):
        with pytest.raises(ValueError, match=f"{id} is of another batch"):
            call()
    assert len(batch) == 3


def test_references_hold_for_a_copy():
    batch = Batch()
    first = batch.get("A")
    for copied in (copy.deepcopy(batch), pickle.loads(pickle.dumps(batch))):
        copied.get("B", after=first)
        assert copied.check() == Counts(2, 0) and len(batch) == 1


@pytest.mark.parametrize("call", [
    lambda batch: batch.get("A", id=7),
    lambda batch: batch.get(None),
    lambda batch: batch.get(b"A"),
    lambda batch: batch.patch("A", {}, headers={"If-Match": None}),
    lambda batch: batch.get("A", after=None),
    lambda batch: batch.get("A", after=[7]),
    lambda batch: batch.group(7).__enter__(),
])  # fmt: skip
def test_what_has_another_type(call):
    batch = small()
    with pytest.raises(TypeError):
        call(batch)
    assert len(batch) == 3 and batch.get("A").id == "4"


def test_ids_that_are_free():
    batch = Batch()
    batch.get("A", id="2")
    assert [batch.get("A").id for _ in range(3)] == ["3", "4", "5"]
    with batch.group("g2"):
        batch.post("A", id="g1")
    with batch.group() as group:
        batch.post("A")
    assert group.id == "g3" and batch.check() == Counts(6, 2)


class TestGroups:
    def test_the_name_of_an_empty_one_is_not_given_again(self):
        batch = Batch()
        with batch.group() as first:
            pass
        with batch.group() as second:
            batch.post("A")
        assert [first.id, second.id] == ["g1", "g2"] and batch.check() == Counts(1, 1)

    def test_as_many_as_a_batch_may_have(self):
        """Each name that is free is found at once, not by a look at all that are taken."""

        def filled(batch, count):
            for k in range(count):
                with batch.group():
                    batch.get("A", id=str(count + 1 + k))
            for _ in range(count):
                batch.get("A")

        batch = Batch()
        filled(batch, 5000)
        assert batch.check() == Counts(10_000, 5000)
        few, many = (lines_of(lambda: filled(Batch(), count)) for count in (100, 400))
        assert many < 5 * few

    def test_no_group_in_another(self):
        batch = Batch()
        with pytest.raises(ValueError, match="a group cannot be in another one"), batch.group():
            with batch.group():
                pass
        assert not batch

    def test_a_block_that_fails_adds_nothing(self):
        batch = Batch()
        batch.get("A")
        with pytest.raises(KeyError), batch.group("g"):
            batch.post("B", id="b")
            raise KeyError
        assert len(batch) == 1
        with batch.group("g"):
            batch.post("B", id="b")
        with pytest.raises(KeyError), batch.group():
            batch.post("C", id="b")
            raise KeyError
        with batch.group() as group:
            batch.post("C", after="b")
        assert group.id == "g1" and last_of(batch)["dependsOn"] == ["b", "g"] and batch.check() == Counts(3, 2)


def test_check_says_where():
    batch = small()
    batch.get("X", after="nobody")
    with pytest.raises(Fault, match='^F40 4: "nobody" in dependsOn is unknown'):
        batch.check()
    with pytest.raises(Fault, match="F40"):
        batch.send(pytest.fail)


def test_read():
    document = b'{"requests": [{"id": "a", "method": "POST", "url": "A", "body": {"Price": 9.990}}]}'
    batch = Batch.read(document)
    batch.get("$a/B")
    assert batch.document() == (
        b'{"requests":[{"id":"a","method":"post","url":"A","body":{"Price": 9.990}},'
        b'{"id":"2","dependsOn":["a"],"method":"get","url":"$a/B"}]}'
    )
    assert check(batch.document()) == Counts(2, 0)
    with pytest.raises(Fault, match="F02"):
        Batch.read(b"{")


def test_headers_of_a_post():
    common = {"Content-Type": "application/json", "Accept": "application/json"}
    assert batch_headers("stop") == common
    assert batch_headers() == batch_headers("continue") == {**common, "Prefer": "continue-on-error"}
