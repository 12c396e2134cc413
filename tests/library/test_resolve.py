"""The call that says where a request is sent, by the table of URLs that Python and Node share."""

import ctypes
import os

import pytest

from support import urls

STATUSES = {"unreadable": 31, "outside": 32}
ROOM = 1000


@pytest.fixture(scope="module")
def resolve(library):
    """The call with texts: its status, and the URL."""
    function = ctypes.CDLL(os.path.join(library, "libodb_batch.so.0")).odb_resolve

    def call(post, *texts):
        room, length = ctypes.create_string_buffer(ROOM), ctypes.c_size_t()
        sized = [part for text in map(str.encode, texts) for part in (text, ctypes.c_size_t(len(text)))]
        status = function(*sized, ctypes.c_uint32(post), room, ctypes.c_size_t(ROOM), ctypes.byref(length))
        return status, room.raw[: length.value].decode()

    return call


@pytest.mark.parametrize("case", urls.CASES, ids=urls.name)
def test_the_table(resolve, case):
    base, roots = urls.places(case)
    answer = (base + urls.ENTITIES, case["location"]) if "rest" in case else ("", "")
    found = resolve(int("method" not in case), base, "\n".join(roots), case.get("rest", case.get("url")), *answer)
    assert found == ((0, case["target"]) if "target" in case else (STATUSES[case["refusal"]], ""))


def test_the_table_has_a_case_of_each_kind():
    assert len(urls.CASES) >= 300
    for kind in ("base", "roots", "rest", "method"):
        assert {"target" in case for case in urls.CASES if kind in case} >= {True}, kind
    assert {case.get("refusal") for case in urls.CASES} == {None, *STATUSES}
