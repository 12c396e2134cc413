"""What the functions take as a document."""

import array
import collections
import json
import mmap
import subprocess
import sys
import types
from unittest import mock

import pytest

from odb_batch import Counts, Fault, Report, Run, Start, canon, check, match
from support.commands import with_package

BATCH = {
    "requests": [
        {"id": "a", "method": "post", "url": "Books('dune')", "body": {"Größe": 1},
         "headers": {"Content-Type": "application/json"}},
        {"id": "b", "dependsOn": ["a"], "method": "get", "url": "Loans"},
    ]
}
TEXT = json.dumps(BATCH)
BYTES = TEXT.encode()
COUNTS = Counts(requests=2, groups=0)

# Classes whose methods do not say what their bytes are, in a process that may crash.
LIARS = """
from odb_batch import Fault, Run, Start, check

SIZE = 16_000_000

class Bytes(bytes):
    def __len__(self):
        return SIZE
    def __bytes__(self):
        return self
    def __getitem__(self, at):
        return 0

class Array(bytearray):
    def __len__(self):
        return SIZE
    def __bytes__(self):
        return Bytes(b"{}")

class Text(str):
    def __len__(self):
        return SIZE
    def encode(self, *_):
        return Bytes(b"{}")

ONE = b'{"requests":[{"id":"a","method":"get","url":"X"}]}'
for document in (Bytes(ONE), Array(ONE), Text(ONE.decode()), memoryview(Bytes(ONE))):
    print(check(document).requests)
    with Run(document, events=[Start("a")]) as run:
        run.report("a", 200, None, Bytes(b'{"b":1}'))
        print(run.response().decode())
"""


def fault_of(document):
    """The text of the fault of a batch."""
    with pytest.raises(Fault) as raised:
        check(document)
    return str(raised.value)


@pytest.mark.parametrize("document", [BATCH, TEXT, BYTES, bytearray(BYTES), memoryview(BYTES)], ids=type)
def test_takes_each_kind_of_document(document):
    assert check(document) == COUNTS


def test_takes_a_view_of_any_buffer():
    with mmap.mmap(-1, len(BYTES)) as file:
        file[:] = BYTES
        with memoryview(file) as view:
            assert check(view) == COUNTS
    twice = bytes(byte for byte in BYTES for _ in range(2))
    for view in (memoryview(array.array("B", BYTES)), memoryview(twice)[::2]):
        assert check(view) == COUNTS


@pytest.mark.parametrize("document", [None, 7, [], {1}, array.array("B", BYTES), mmap.mmap(-1, 1)], ids=type)
def test_refuses_another_kind(document):
    with pytest.raises(TypeError):
        check(document)


def test_reads_the_bytes_of_a_subclass_that_lies():
    words = [sys.executable, "-c", LIARS]
    done = subprocess.run(words, env=with_package(), capture_output=True, text=True)
    response = '{"responses":[{"body":{"b":1},"id":"a","status":200}]}'
    assert (done.returncode, done.stderr) == (0, "")
    assert done.stdout.split() == ["1", response] * 4


@pytest.mark.parametrize(
    "kind", [types.MappingProxyType, collections.ChainMap, collections.UserDict, collections.OrderedDict]
)
def test_takes_each_kind_of_mapping(kind):
    requests = [kind({**it, "headers": kind(it.get("headers", {}))}) for it in BATCH["requests"]]
    assert canon(kind({"requests": requests})) == canon(BATCH)


def test_reads_a_document_with_a_null_byte_to_its_end():
    assert fault_of(BYTES + b"\0") == "F02 NotJson batch"


def test_refuses_a_text_that_is_not_unicode_as_a_document():
    assert fault_of(TEXT.replace("dune", "\ud800")) == "F02 NotJson batch"


def deep():
    value = {}
    for _ in range(100_000):
        value = {"a": [value]}
    return value


def cyclic():
    value = {}
    value["a"] = [types.MappingProxyType(value)]
    return value


@pytest.mark.parametrize("made", [deep, cyclic])
def test_refuses_what_nests_too_deep_as_its_text(made):
    value = made()
    assert fault_of(value) == "F02 NotJson batch"
    with pytest.raises(Fault) as raised:
        match(BATCH, value)
    assert str(raised.value) == "F02 NotJson responses"
    with pytest.raises(Fault) as raised:
        Run(BATCH, events=[Start("a"), Report("a", 200, None, value)])
    assert str(raised.value) == "F02 NotJson events"


def test_finds_no_fault_where_the_stack_of_the_caller_is_used_up():
    with mock.patch("json.JSONEncoder.encode", side_effect=RecursionError), pytest.raises(RecursionError):
        check(BATCH)


@pytest.mark.parametrize("value", [object(), {1}, b"x"])
def test_refuses_what_has_no_json(value):
    with pytest.raises(TypeError):
        check({"requests": value})
