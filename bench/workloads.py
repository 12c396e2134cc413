"""The workloads: which shapes at which sizes, and their documents in the scratch folder."""

import json
import os
from dataclasses import dataclass
from typing import Callable

import shapes
from measure import BenchFault
from support.contents import Content, compact, documents_of

MAX_DOCUMENT_BYTES = 16_777_216
SHORT_DIVISOR = 20
PARTS = (8, 4, 2, 1)

# A batch document whose member `requests` has this name instead, of as many bytes, is read into a
# value like the batch, and then refused since it has no requests.
UNREAD_MEMBER = "messages"


@dataclass(frozen=True)
class Shape:
    """A shape: what makes its lists, its whole size, whether smaller sizes show how time grows, what
    it is in words, and the options of its replay at a size."""

    make: Callable
    size: int
    grows: bool
    words: str
    options: Callable = lambda size: ()


def backwards(size):
    """The options of a replay that goes from the last request to the first."""
    return ("--order", "last")


def wide_third(size):
    """The options of a replay that runs up to a third of the requests at once."""
    return ("--order", "wide", "--width", str(size // 3))


SHAPES = {
    "plain": Shape(shapes.plain, 10_000, True, "requests that need nothing"),
    "chain": Shape(shapes.chain, 10_000, True, "each needs the one before it"),
    "fan": Shape(shapes.fan, 10_000, True, "all need the first"),
    "dense": Shape(shapes.dense, 2_000, True, "each needs the 50 before it"),
    "halves": Shape(
        shapes.halves,
        10_000,
        True,
        "each of the second half needs one of the first, and `replay` goes from the last to the first",
        backwards,
    ),
    "pairs": Shape(
        shapes.pairs,
        10_000,
        True,
        "pairs, then requests alone, and `replay` runs a third of them at once",
        wide_third,
    ),
    "group": Shape(shapes.group, 10_000, True, "one atomicity group"),
    "groups": Shape(shapes.groups, 10_000, True, "groups of 10, each request needs the group before"),
    "posts": Shape(shapes.posts, 1_000, False, "a body of 15 KB of JSON each"),
    "text": Shape(shapes.text, 15_000_000, False, "one body, a long text"),
    "echo": Shape(shapes.echo, 15_000_000, False, "one body, a long text, which its outcome has too"),
}

USUAL = "usual"
USUAL_WORDS = "the small batch of `examples/batch_usual.json`, and `outcomes_lent.json`"
NAMES = (*SHAPES, USUAL)


@dataclass(frozen=True)
class Case:
    """The documents of a workload at one size: paths of the batch, of the same batch under another
    member than `requests`, and of the outcomes, the responses and the events; and the options of
    its replay."""

    name: str
    part: int
    words: str
    options: tuple
    requests: int
    batch: str
    unread: str
    outcomes: str
    responses: str
    events: str

    def is_whole(self):
        """Whether this is the workload at its whole size."""
        return self.part == 1


def write_document(path, text):
    """Writes a document, which has to be one that the program takes."""
    data = text.encode("utf-8")
    if len(data) > MAX_DOCUMENT_BYTES:
        raise BenchFault(f"{os.path.basename(path)} has more bytes than a document may have")
    with open(path, "wb") as file:
        file.write(data)


def write_case(folder, name, part, words, options, texts, content):
    """Writes the documents of a case, and the batch under another member."""
    batch, outcomes = texts
    unread = batch.replace('"requests"', f'"{UNREAD_MEMBER}"', 1)
    documents = {**documents_of(content), "batch": batch, "unread": unread, "outcomes": outcomes}
    paths = {kind: os.path.join(folder, f"{name}_{part}_{kind}.json") for kind in documents}
    for kind, text in documents.items():
        write_document(paths[kind], text)
    return Case(name, part, words, options, len(content.requests), **paths)


def shape_cases(folder, name, short):
    """Gives each size of a shape, the smaller ones first: a case and its content."""
    shape = SHAPES[name]
    size = shape.size // SHORT_DIVISOR if short else shape.size
    for part in PARTS if shape.grows else PARTS[-1:]:
        requests, outcomes = shape.make(size // part)
        options = shape.options(size // part)
        texts, content = (compact("requests", requests), compact("outcomes", outcomes)), Content(requests, outcomes)
        yield write_case(folder, name, part, shape.words, options, texts, content), content


def usual_case(folder, root):
    """The small batch of the examples: a case and its content."""
    texts = []
    for name in ("batch_usual.json", "outcomes_lent.json"):
        with open(os.path.join(root, "examples", name), encoding="utf-8") as file:
            texts.append(file.read())
    content = Content(json.loads(texts[0])["requests"], json.loads(texts[1])["outcomes"])
    return write_case(folder, USUAL, 1, USUAL_WORDS, (), texts, content), content


def cases(folder, root, names, short):
    """Gives the cases of the workloads with these names, each with its content."""
    for name in names:
        if name == USUAL:
            yield usual_case(folder, root)
        else:
            yield from shape_cases(folder, name, short)


def write_tiny(folder):
    """Writes a batch without requests, on which the program does little but start."""
    path = os.path.join(folder, "tiny.json")
    write_document(path, compact("requests", []))
    return path
