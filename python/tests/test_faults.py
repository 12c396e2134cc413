"""All faults of a batch, and where a fault stands in its document: by examples, and by documents made at random."""

import json
import pickle

import pytest
from hypothesis import given
from hypothesis import strategies as st

from odb_batch import Fault, Report, Run, Start, check, faults, match, plan, replay, requests, rest, run
from odb_batch._native import library
from support.profiles import share
from support.strategies import batches

# So many faults that the call is repeated with more room.
MORE_THAN_GUESSED = 9_000
ONE = b'{"requests": [{"id":"a", "method":"get", "url":"A"}]}'
# Faults on a line of their own, after characters of two, three and four bytes.
MANY = """{"@note": "\u00e4\u20ac\U0001f4da", "requests": [
 {"id": "a", "method": "get", "url": "A", "dependsOn": ["a"]}, {"id": "b", "method": "get", "url": "B"},
 "\u00e4" , {"id": "a"}]}""".encode()


def stand(found):
    """What stands where."""
    return [(it.code, it.place, it.line, it.column, it.offset) for it in found]


def the_fault(call, *documents, **options):
    """The fault that a call raises."""
    with pytest.raises(Fault) as raised:
        call(*documents, **options)
    return raised.value


def element_at(value, place):
    """The element of a value that a place names, or the value if there is none."""
    _, name, position = (place.split("/") + ["", ""])[:3]
    return value[name][int(position)] if name else value


class TestFaults:
    def test_a_batch_that_is_accepted_has_none(self):
        assert faults(ONE) == ()

    def test_they_are_in_order(self):
        batch = {"requests": [{"id": "a", "method": "get"}, {"id": "a", "method": "post", "url": "A"}, 7]}
        assert [str(it) for it in faults(batch)] == ["F15 BadUrl /requests/0", "F10 NotRequestObject /requests/2"]

    def test_a_document_that_is_no_json_has_one(self):
        assert stand(faults(b"[7,]")) == [("F02", "batch", 1, 4, 3)]

    def test_where_they_are_is_found_with_them(self, monkeypatch):
        monkeypatch.setattr(library, "call_where", None)
        found = faults(b'{"requests": [7%s]}' % (b"\n,7" * (MORE_THAN_GUESSED - 1)))
        assert [(it.place, it.line) for it in found] == [(f"/requests/{i}", i + 1) for i in range(MORE_THAN_GUESSED)]

    def test_they_are_no_exceptions_of_a_call(self):
        assert all(it.__traceback__ is None for it in faults(b"{}"))

    @share(4)
    @given(batches(60))
    def test_the_first_is_that_of_a_check(self, batch):
        found = faults(batch)
        if found:
            assert str(the_fault(check, batch)) == str(found[0])
        else:
            assert check(batch)


class TestPositions:
    def test_of_each_fault_of_a_batch(self):
        second = MANY.index(b'"\xc3\xa4" ,')
        assert stand(faults(MANY)) == [
            ("F10", "/requests/2", 3, 2, second),
            ("F14", "/requests/3", 3, 8, second + 7),
            ("F15", "/requests/3", 3, 8, second + 7),
        ]

    def test_of_a_mapping_they_are_in_its_json(self):
        (fault,) = faults({"requests": [{"id": "a", "method": "get", "url": "$b"}]})
        assert (fault.line, fault.column, fault.offset) == (1, 14, 13)

    @pytest.mark.parametrize("document, line, column, offset", [
        (b"", 1, 1, 0), (b" \n\n ", 3, 2, 4), (b"{\n}x", 2, 2, 3), (b'{"requests":\n [', 2, 3, 15),
        ('{"\u00e4":"\u20ac\U0001f4da" 7'.encode(), 1, 11, 16), (b'["\xff"]', 1, 3, 2),
    ])  # fmt: skip
    def test_of_what_is_no_json(self, document, line, column, offset):
        assert stand(faults(document)) == [("F02", "batch", line, column, offset)]

    def test_of_a_document_that_is_too_long(self):
        assert stand(faults(b"\n" + b" " * 16_777_216)) == [("F01", "batch", 2, 16_777_217, 16_777_217)]

    @pytest.mark.parametrize("call, name, place", [
        (match, b"responses", "/responses/1"), (rest, b"responses", "/responses/1"), (replay, b"outcomes", "/outcomes/1"),
        (run, b"events", "/events/1"), (lambda batch, events: Run(batch, events=events), b"events", "/events/1"),
    ])  # fmt: skip
    def test_of_a_second_document(self, call, name, place):
        good = b'{"start":"a"}' if name == b"events" else b'{"id":"a","status":200}'
        fault = the_fault(call, ONE, b'{"%s":[\n%s,\n  7]}' % (name, good))
        assert (fault.place, fault.line, fault.column) == (place, 3, 3)
        whole = the_fault(call, ONE, b"{}\n}")
        assert (whole.code, whole.place, whole.line, whole.column, whole.offset) == ("F02", name.decode(), 2, 1, 3)

    def test_of_a_request_of_the_batch_beside_a_second_document(self):
        fault = the_fault(match, ONE, b'\n\n{"responses":[]}')
        assert (str(fault), fault.line, fault.column) == ("F73 ResponseMissing /requests/0", 1, 15)
        assert the_fault(run, b"{", b"{}").column == 2

    @pytest.mark.parametrize("call", [check, plan, requests, Run])
    def test_of_a_batch(self, call):
        assert the_fault(call, b'{"requests":[\n7]}').line == 2

    def test_a_fault_without_a_document_has_none(self):
        with Run(ONE) as live:
            live.start("a")
            unfinished = the_fault(live.response)
            reported = the_fault(live.report, "a", 200, body=b"[")
        for fault in (unfinished, reported, Fault("F02", "NotJson", "batch")):
            assert (fault.line, fault.column, fault.offset) == (None, None, None)

    def test_a_pickled_fault_has_them(self):
        fault = pickle.loads(pickle.dumps(the_fault(check, b"[")))
        assert (fault.line, fault.column, fault.offset) == (1, 2, 1)

    def test_they_cannot_be_set(self):
        with pytest.raises(AttributeError):
            the_fault(check, b"[").line = 7

    @share(4)
    @given(batches(60))
    def test_they_are_in_the_document(self, batch):
        for fault in faults(batch):
            before = batch[: fault.offset]
            assert 0 <= fault.offset <= len(batch)
            assert fault.line == 1 + before.count(b"\n")
            assert fault.column == 1 + sum(byte & 0xC0 != 0x80 for byte in before.rpartition(b"\n")[2])
            if fault.code != "F02":
                value = element_at(json.loads(batch), fault.place)
                assert json.JSONDecoder().raw_decode(batch[fault.offset :].decode())[0] == value

    @share(4)
    @given(st.lists(st.sampled_from(["7", "{}", '"\u00e4"', "[1,\n2]", '{"start":"b"}']), min_size=1))
    def test_those_of_events_are_in_them(self, elements):
        events = ('{"events":[%s]}' % ",\n ".join(elements)).encode()
        fault = the_fault(run, ONE, events)
        value = element_at(json.loads(events), fault.place)
        assert json.JSONDecoder().raw_decode(events[fault.offset :].decode())[0] == value
        assert the_fault(run, ONE, [Start("b"), Report("b", 200)]).column == 12
