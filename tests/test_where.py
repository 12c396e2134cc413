"""Asks of `--where` that each fault is where a plain reader finds it, on documents made at random."""

import json
import os
import re
import subprocess

import pytest
from hypothesis import assume, given
from hypothesis import strategies as st

from support import strategies
from support.calls import call
from support.pages import OF_BATCHES
from support.positions import counted, position, position_in_pair
from support.profiles import share
from support.program import ROOT
from support.strategies import chance, of, text_of

LINE = re.compile(r"(.*?):(\d+):(\d+): fault ([FSP]\d+) (\w+) (\S+)")
KEYS = ("line", "column", "offset")


def faults_of(program, words, documents):
    """The name, the code, the place and the position of each fault, which the lines and the JSON agree on."""
    lines, status = call(program, [*words, "--where"], documents)
    text, again = call(program, [*words, "--where", "--json"], documents)
    assert status == again
    if status == 0:
        return []
    value = json.loads(text)
    listed = value["faults"] if "faults" in value else [value["fault"]]
    found = [LINE.fullmatch(line).groups() for line in lines.decode().splitlines()]
    assert [it[1:] for it in found] == [
        (str(fault["line"]), str(fault["column"]), fault["code"], fault["name"], fault["place"]) for fault in listed
    ]
    return [
        (os.path.basename(it[0]), fault["code"], fault["place"], tuple(fault[key] for key in KEYS))
        for it, fault in zip(found, listed)
    ]


@share(4)
@given(document=strategies.batches(90))
def test_each_fault_of_a_batch(program, document):
    found = faults_of(program, ["check", "--all"], [document])
    assume(found)
    for name, code, place, at in found:
        assert name == "document0"
        assert at == (position(document, place) if code != "F02" else counted(document, at[2]))


def test_many_faults_are_found_in_one_scan(program):
    front, element, count = b'{"requests":[', '{"id":"é#","method":"x","url":7,"if":1,"more":2}'.encode(), 10000
    document = front + b",\n".join([element] * count) + b"]}"
    text, status = call(program, ["check", "--all", "--where", "--json"], [document])
    faults = json.loads(text)["faults"]
    places = [(fault["place"], *(fault[key] for key in KEYS)) for fault in faults]
    length = len(element) + len(b",\n")
    begins = [(f"/requests/{i}", i + 1, 1 if i else len(front) + 1, len(front) + i * length) for i in range(count)]
    assert status == 1
    assert places == [place for place in begins for _ in range(5)]


@st.composite
def pairs(draw):
    """A command over two documents, with both, of which the second is damaged more often."""
    command = draw(of("match", "replay", "run", "rest"))
    first = draw(strategies.batches(10))
    return command, [first, *draw(strategies.seconds(command, first, {}))]


@share(4)
@given(pair=pairs())
def test_the_fault_of_a_second_document(program, pair):
    command, documents = pair
    for name, code, place, at in faults_of(program, [command], documents):
        number = 0 if place == "batch" or place.startswith("/requests/") else 1
        assert name == f"document{number}"
        if code != "F02":
            assert at == position(documents[number], place)


@share(4)
@given(pair=pairs(), blanks=of(b"", b" ", b"\t  "))
def test_the_fault_of_a_line(program, pair, blanks):
    command, documents = pair
    assume(not any(b"\n" in document for document in documents))
    line = blanks + b"[" + blanks + documents[0] + b"," + blanks + documents[1] + b"]"
    log = b"{}\n" + line + b"\n"
    text, _ = call(program, [command, "--lines", "--where", "--json"], [log])
    value = json.loads(text.decode().split("\n")[1])
    if "fault" in value and value["fault"]["code"] != "F02":
        at = position_in_pair(line, value["fault"]["place"])
        assert tuple(value["fault"][key] for key in KEYS) == (2, *at[1:])


# F02: the first byte that cannot be there, where that is plain


GOOD = {"requests": [{"id": "é", "method": "put", "url": "A", "body": [1, {"a": None}, "ü"]}], "@a": [True, -2]}


@st.composite
def broken(draw):
    """A document that is not JSON, and the offset of the first byte that cannot be there."""
    data = text_of(GOOD, ensure_ascii=draw(st.booleans()), indent=draw(of(None, 1, "\t"))).encode()
    if draw(chance(40)):
        at = draw(st.integers(0, len(data) - 1))
        return data[:at], at
    if draw(chance(50)):
        return data + draw(of(b"}", b"x", b"]", b"\xff")), len(data)
    at = draw(of(*(it.end() for it in re.finditer(rb"[\[{,:]", data))))
    closing = b"]" if data[at - 1 : at] == b"{" else b"}"
    return data[:at] + draw(of(closing, b"x", b",", b":", b"\xff", b"'")) + data[at:], at


# A value that is wrong, and how many of its bytes could be there.
WRONG_VALUES = [
    (b"tru]", 3), (b"truth", 3), (b"nulL", 3), (b"falsey", 5), (b"True", 0), (b"NaN", 0), (b"-]", 1), (b"-a", 1), (b"01", 1),
    (b"-012", 2), (b"1.]", 2), (b"1.e5", 2), (b"1e]", 2), (b"1e+]", 3), (b"1.5.2", 3), (b"0x1", 1), (b"+1", 0), (b".5", 0),
    (b"1e309]", 4), (b'12"a"', 2), (b'"\\x"', 2), (b'"a\\', 3), (b'"a\nb"', 2), (b'"\x1f"', 1), (b'"\xc3\xa9\xff"', 3), (b"'a'", 0),
    (b'"\\ud800"', 0), (b'"\\udc00"', 0), (b'"\\ud800\\u0041" ', 0), (b'"\\u00g0"', 6), (b'"\\u123"', 6),
    (b'"abc\\u12"', 0), (b'"\\ud800", tru]', 0), (b'"\\ud800", "\xff"', 11), (b"1" * 400, 309), (b'"\xe2\x82("', 1),
]


@pytest.mark.parametrize("value, good", WRONG_VALUES)
def test_the_first_byte_of_a_wrong_value(program, value, good):
    front = b'{"@a": ["\xc3\xa9", 1.5e3,\n '
    document = front + value + (b', "end"]}' if value[-1:] not in b"\\" else b"")
    [(_, code, place, found)] = faults_of(program, ["check"], [document])
    assert (code, place) == ("F02", "batch")
    assert found == counted(document, len(front) + good)


def recipe():
    """The commands of docs/faults.md for a workflow of GitHub, over the file that is the first argument."""
    with open(os.path.join(ROOT, "docs", "faults.md"), encoding="utf-8") as page:
        blocks = page.read().split("```")
    return next(it for it in blocks if "::error" in it).removeprefix("sh\n").replace("batch.json", '"$1"')


@pytest.mark.parametrize("name, wanted", [
    ("late.json", ["::error file=late.json,line=1,col=14::F41 ForwardName /requests/0"]),
    ("x\n::error file=a::b\ny", ["::error file=y,line=1,col=14::F41 ForwardName /requests/0"]),
    ("x\n::error file=a:1:1: fault F02 NotJson batch\ny,line=7", []),
])  # fmt: skip
def test_the_recipe_for_annotations_passes_on_faults_alone(program, tmp_path, name, wanted):
    (tmp_path / name).write_text('{"requests":[{"id":"a","method":"get","url":"A","dependsOn":["b"]},{"id":"b","method":"get","url":"B"}]}')
    path = f"{os.path.dirname(program)}:{os.environ['PATH']}"
    done = subprocess.run(["bash", "-c", recipe(), "bash", name], cwd=tmp_path, env={**os.environ, "PATH": path}, capture_output=True, text=True)
    assert (done.returncode, done.stdout.splitlines()) == (1, wanted)


@share(2)
@given(case=broken())
def test_the_first_byte_that_is_not_json(program, case):
    document, at = case
    [(_, code, place, found)] = faults_of(program, ["check"], [document])
    assert (code, place) == ("F02", "batch")
    assert found == counted(document, at)


@pytest.mark.parametrize("command", OF_BATCHES)
def test_good_documents_print_the_same(program, command):
    seconds = {
        "replay": b'{"outcomes":[{"id":"a","status":200}]}',
        "match": b'{"responses":[{"id":"a","status":200}]}',
        "rest": b'{"responses":[{"id":"a","status":500}]}',
        "run": b'{"events":[{"start":"a"},{"report":"a","status":200}]}',
    }
    documents = [b'{"requests":[{"id":"a","method":"get","url":"X"}]}']
    documents += [seconds[command]] if command in seconds else []
    assert call(program, [command, "--where"], documents) == call(program, [command], documents)
