"""Where the fault of a place is in a document, by a plain reader: its line, its column and its offset.

Written from docs/formats.md alone. `located` adds it to what is printed of faults.
"""

import json
import re

BLANKS = " \t\n\r"
# Numbers may be of any size.
DECODER = json.JSONDecoder(parse_int=str, parse_float=str)


def past_blanks(text, at):
    while at < len(text) and text[at] in BLANKS:
        at += 1
    return at


def after_comma(text, at):
    """Where the next element or member begins, or the bracket that ends them."""
    at = past_blanks(text, at)
    return past_blanks(text, at + 1) if text[at] == "," else at


def elements(text, at):
    """Where each element of the array at `at` begins, and where it ends."""
    at = past_blanks(text, at + 1)
    while text[at] != "]":
        _, end = DECODER.raw_decode(text, at)
        yield at, end
        at = after_comma(text, end)


def members(text, at):
    """The name of each member of the object at `at`, and where its value begins."""
    at = past_blanks(text, at + 1)
    while text[at] != "}":
        name, end = DECODER.raw_decode(text, at)
        value = past_blanks(text, past_blanks(text, end) + 1)
        yield name, value
        at = after_comma(text, DECODER.raw_decode(text, value)[1])


def element(text, start, name, number):
    """Where an element of the array at the last member of this name begins; the value at `start` if there is none."""
    values = [value for found, value in members(text, start) if found == name] if text[start] == "{" else []
    starts = [first for first, _ in elements(text, values[-1])] if values and text[values[-1]] == "[" else []
    return starts[number] if number < len(starts) else start


def begins(text, place, start=0):
    """Where the value of a place begins in the document that begins at `start`."""
    start = past_blanks(text, start)
    if not place.startswith("/"):
        return start
    _, name, number = place.split("/")
    return element(text, start, name, int(number))


def counted(document, offset):
    """The line and the column of an offset, counted from 1, the column in characters; and the offset."""
    before = document[:offset].rpartition(b"\n")
    return before[0].count(b"\n") + len(before[1]) + 1, sum(byte & 0xC0 != 0x80 for byte in before[2]) + 1, offset


def position(document, place):
    """The line, the column and the offset of the value of a place in a document that is JSON, as bytes."""
    text = document.decode()
    return counted(document, len(text[: begins(text, place)].encode()))


def is_in_batch(place):
    return place == "batch" or place.startswith("/requests/")


def position_in_pair(line, place):
    """The same in a line `[batch, second]`, or where the line begins if it is no such array."""
    text = line.decode()
    start = past_blanks(text, 0)
    starts = [first for first, _ in elements(text, start)] if text[start] == "[" else []
    if len(starts) == 2:
        start = begins(text, place, starts[0 if is_in_batch(place) else 1])
    return counted(line, len(text[:start].encode()))


# What is printed


def where(code, place, documents):
    """The line, the column and the offset of a fault; `?` for F02, of which test_where.py asks."""
    document = documents[0 if is_in_batch(place) else 1]
    return ("?",) * 3 if code == "F02" else (1, 1, 0) if code == "F01" else position(document, place)


def located_line(line, documents, names):
    _, code, _, place = line.split(" ")
    row, column, _ = where(code, place, documents)
    return f"{names[0 if is_in_batch(place) else 1]}:{row}:{column}: {line}"


def located_value(value, documents):
    if "faults" in value:
        return {"faults": [located_value({"fault": fault}, documents)["fault"] for fault in value["faults"]]}
    fault = value["fault"]
    found = where(fault["code"], fault["place"], documents)
    return {"fault": {**fault, **dict(zip(("line", "column", "offset"), found))}}


def located(text, documents, names):
    """What is printed of faults, as lines or as JSON, with where each is in these documents."""
    if text.startswith("{"):
        return json.dumps(located_value(json.loads(text), documents), separators=(",", ":")) + "\n"
    return "".join(located_line(line, documents, names) + "\n" for line in text.splitlines())


def without_first_bytes(text):
    """The same text with `?` for the line, the column and the offset of each F02."""
    text = re.sub(rb"^(.*?):\d+:\d+: (fault F02 )", rb"\1:?:?: \2", text, flags=re.M)
    found = rb'("code":"F02","name":"NotJson","place":"[a-z]+"),"line":\d+,"column":\d+,"offset":\d+'
    return re.sub(found, rb'\1,"line":"?","column":"?","offset":"?"', text)
