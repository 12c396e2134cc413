"""What headers and bodies a live run takes, and what it refuses."""

import collections
import json
import types

import pytest

from odb_batch import Fault, Run, Start, match

BATCH = {"requests": [{"id": "a", "method": "get", "url": "X"}]}
DEEP = "[" * 124 + "]" * 124

# What a level of a body is.
WRAPS = {"array": lambda value: [value], "object": lambda value: {"k": value}}
each_wrap = pytest.mark.parametrize("wrap", WRAPS.values(), ids=WRAPS)


def nested(levels, wrap):
    """A value that nests so deep."""
    value = 1
    for _ in range(levels):
        value = wrap(value)
    return value


@pytest.fixture
def live():
    """A run whose one request has started."""
    with Run(BATCH, events=[Start("a")]) as run:
        yield run


def assert_refuses(live, line, *answer):
    """An answer is refused by a fault, and another one is taken then."""
    with pytest.raises(Fault) as raised:
        live.report("a", 200, *answer)
    assert str(raised.value) == line
    assert raised.value.explanation
    assert live.running == ("a",)
    live.report("a", 200)
    assert live.finished


@pytest.mark.parametrize("headers, body, wanted", [
    (None, None, {}),
    ({}, b"null", {}),
    (None, b"", {}),
    ({"ETag": "7", "Allow": ""}, None, {"headers": {"allow": "", "etag": "7"}}),
    (types.MappingProxyType({"É": "é"}), None, {"headers": {"É": "é"}}),
    (None, "Größe", {"body": "Größe"}),
    (None, [2**64 - 1, -(2**63)], {"body": [2**64 - 1, -(2**63)]}),
    (None, False, {"body": False}),
    (None, b' {"b" : 1, "a":[true]} ', {"body": {"a": [True], "b": 1}}),
    (None, memoryview(b'"x"'), {"body": "x"}),
    (None, bytearray(DEEP.encode()), {"body": json.loads(DEEP)}),
])  # fmt: skip
def test_shows_headers_and_bodies(live, headers, body, wanted):
    live.report("a", 200, headers, body)
    assert json.loads(live.response()) == {"responses": [{"id": "a", "status": 200, **wanted}]}


@pytest.mark.parametrize("headers, body, line", [
    ({"A": "1", "a": "2"}, None, "F64 BadEvents report"),
    ({"A": 1}, None, "F64 BadEvents report"),
    (None, "\ud800", "F02 NotJson report"),
    (None, b" ", "F02 NotJson report"),
    (None, b"{", "F02 NotJson report"),
    (None, b'1},{"start":"a"', "F02 NotJson report"),
    (None, ("[" * 128 + "]" * 128).encode(), "F02 NotJson report"),
])  # fmt: skip
def test_refuses_what_a_response_cannot_show(live, headers, body, line):
    assert_refuses(live, line, headers, body)


@pytest.mark.parametrize(
    "arguments", [("200",), (200.0,), (None,), (True,), (200, 7), (200, None, object()), (200, None, {1, 2})]
)
def test_refuses_what_is_no_answer(live, arguments):
    with pytest.raises(TypeError):
        live.report("a", *arguments)
    assert live.running == ("a",)


@each_wrap
def test_takes_a_body_that_nests_124_deep(live, wrap):
    live.report("a", 200, None, nested(124, wrap))
    assert match(BATCH, live.response()) == {"a": 200}


@each_wrap
@pytest.mark.parametrize("levels", [125, 126, 127, 128, 100_000])
def test_refuses_a_body_that_nests_deeper(live, levels, wrap):
    assert_refuses(live, "F02 NotJson report", None, nested(levels, wrap))


def test_shows_mappings_of_any_kind(live):
    body = types.MappingProxyType({"a": [collections.ChainMap({"b": 1}, {"c": 2})], "d": collections.UserDict(e=3)})
    live.report("a", 200, None, body)
    (response,) = json.loads(live.response())["responses"]
    assert response["body"] == {"a": [{"b": 1, "c": 2}], "d": {"e": 3}}
