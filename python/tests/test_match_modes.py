"""The options of a match: a service that stops at its first error may leave out responses, and a strict match asks for a run."""

import json

import pytest

from odb_batch import Fault, match, output

BATCH = {
    "requests": [
        {"id": "book", "method": "get", "url": "Books"},
        {"id": "loan", "atomicityGroup": "lend", "dependsOn": ["book"], "method": "delete", "url": "Loans"},
        {"id": "list", "dependsOn": ["lend"], "method": "get", "url": "Loans"},
    ]
}


def responses(**statuses):
    """A response document with these statuses."""
    return {"responses": [{"id": id, "status": status} for id, status in statuses.items()]}


def test_reads_what_is_left_out_as_424():
    assert match(BATCH, responses(book=404), mode="stop") == {"book": 404, "loan": 424, "list": 424}
    assert match(BATCH, responses(book=200, list=500), mode="stop") == {"book": 200, "loan": 424, "list": 500}


@pytest.mark.parametrize("options", [{}, {"mode": "continue"}])
def test_refuses_what_is_left_out(options):
    with pytest.raises(Fault) as raised:
        match(BATCH, responses(book=404), **options)
    assert str(raised.value) == "F73 ResponseMissing /requests/1"


@pytest.mark.parametrize(
    "document, fault",
    [
        (responses(book=200), "F73 ResponseMissing /requests/1"),
        (responses(book=404, page=424), "F71 UnknownResponse /responses/1"),
        (responses(book=404, list=200), "F75 UnsoundSuccess /requests/2"),
    ],
)
def test_refuses_other_faults_of_a_service_that_stops(document, fault):
    with pytest.raises(Fault) as raised:
        match(BATCH, document, mode="stop")
    assert str(raised.value) == fault


def test_refuses_another_mode():
    with pytest.raises(ValueError):
        match(BATCH, responses(book=404), mode="half")
    with pytest.raises(ValueError):
        output("match", BATCH, responses(book=404), mode="half")


@pytest.mark.parametrize("form", ["json", "lines"])
def test_prints_the_match_of_a_service_that_stops(form):
    printed = output("match", BATCH, responses(book=404), form=form, mode="stop")
    assert printed.accepted
    if form == "lines":
        assert printed.text == b"ok 3 responses\nbook 404\nloan 424\nlist 424\n"
    else:
        assert [it["status"] for it in json.loads(printed.text)["responses"]] == [404, 424, 424]
    assert not output("match", BATCH, responses(book=404), form=form).accepted


@pytest.mark.parametrize(
    "document, fault",
    [
        (responses(book=102, loan=424, list=424), "F76 NotFinal /requests/0"),
        (responses(book=404, loan=424, list=404), "F78 NotStarted /requests/2"),
        (responses(book=404, loan=409, list=424), "F78 NotStarted /requests/1"),
    ],
)
def test_asks_for_a_run_if_it_is_strict(document, fault):
    grouped = {"responses": [dict(it, atomicityGroup="lend") if it["id"] == "loan" else it for it in document["responses"]]}
    assert match(BATCH, grouped) == match(BATCH, grouped, strict=False)
    with pytest.raises(Fault) as raised:
        match(BATCH, grouped, strict=True)
    assert str(raised.value) == fault
    assert [output("match", BATCH, grouped, strict=strict).accepted for strict in (False, True)] == [True, False]


def test_asks_for_all_or_none_of_a_group_if_it_is_strict():
    batch = {"requests": [{"id": id, "atomicityGroup": "g", "method": "post", "url": "Loans"} for id in "ab"]}
    parted = {"responses": [{"id": id, "atomicityGroup": "g", "status": status} for id, status in (("a", 409), ("b", 201))]}
    assert match(batch, parted) == {"a": 409, "b": 201}
    with pytest.raises(Fault) as raised:
        match(batch, parted, strict=True)
    assert raised.value.code == "F77"


def test_asks_for_a_run_by_units():
    pair = [{"id": "a", "atomicityGroup": "g", "method": "post", "url": "Loans"}]
    pair += [{"id": "b", "atomicityGroup": "g", "method": "patch", "url": "$a", "dependsOn": ["a"]}]
    failed = {"responses": [{"id": id, "atomicityGroup": "g", "status": status} for id, status in (("a", 409), ("b", 500))]}
    with pytest.raises(Fault) as raised:
        match({"requests": pair}, failed, strict=True)
    assert str(raised.value) == "F78 NotStarted /requests/1"
    assert match({"requests": pair}, failed, strict="units") == {"a": 409, "b": 500}
    assert output("match", {"requests": pair}, failed, strict="units").accepted
    for call in (match, lambda *given, **options: output("match", *given, **options)):
        with pytest.raises(ValueError, match="strict must be one of 'units', not 'unit'"):
            call({"requests": pair}, failed, strict="unit")


def test_accepts_what_a_run_answers_if_it_is_strict():
    left = responses(book=404)
    assert match(BATCH, left, mode="stop", strict=True) == {"book": 404, "loan": 424, "list": 424}
