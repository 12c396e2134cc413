"""Reads the pages of worked cases: what tests/cases/README.md describes, made into runs.

A page is a text file of lines, each a keyword and what follows its first space. A run is one call of
the program, with what it has to print and the status that it has to end with.
"""

import os
import re
import shlex
from dataclasses import dataclass, field

# The commands that read a batch, or a log of batches, and all commands.
OF_BATCHES = ("check", "plan", "replay", "canon", "match", "run", "rest")
COMMANDS = (*OF_BATCHES, "explain", "completions", "man", "help")
SOMETHING = "..."
STREAMS = ("input", "output", "errors")


class BadPage(Exception):
    """A line of a page that cannot be read."""


@dataclass
class Run:
    """One call of the program. A document is a list of pieces, each a function that gives bytes."""

    page: str
    line: int
    title: str
    arguments: list
    documents: dict
    folders: list
    input: list
    source: str = None
    to: str = None
    closed: str = None
    memory: int = None
    terminal: bool = False
    out: list = field(default_factory=list)
    errors: list = field(default_factory=list)
    status: int = None

    @property
    def command(self):
        """The command that is called; a call without one belongs to `check`."""
        first = self.arguments[0] if self.arguments else b""
        named = [it for it in COMMANDS if it.encode() == first]
        return named[0] if named else "check"

    @property
    def words(self):
        """What the case shows, and in brackets how the program is called."""
        streams = {"<": self.source, ">": self.to, "memory": self.memory}
        listed = [b" ".join(self.arguments).decode(errors="backslashreplace")]
        listed += [f"{name} {value}" for name, value in streams.items() if value is not None]
        return f"{self.title} [{' '.join(listed)}]"

    @property
    def name(self):
        return f"{self.page}:{self.line}: {self.words}"


def joined(pieces):
    """The bytes of these pieces, one after another."""
    return b"".join(piece() for piece in pieces)


def plain(text):
    return lambda: text.encode()


def numbered(text, number):
    """The text with `{n}` and `{n-1}` replaced by this number and the one before it."""
    return text.replace("{n}", str(number)).replace("{n-1}", str(number - 1))


def repeated(numbers, between, text):
    """A piece: the text for each of the numbers, with another text between."""
    if "{n" not in text and not between:
        return lambda: text.encode() * len(numbers)
    return lambda: between.join(numbered(text, number) for number in numbers).encode()


def range_of(word):
    """The numbers of `FROM..TO`, both included, from the last down where FROM is greater."""
    found = re.fullmatch(r"([0-9]+)\.\.([0-9]+)", word)
    if not found:
        raise BadPage(f"{word!r} is not a range such as 0..9")
    first, last = int(found[1]), int(found[2])
    return range(first, last + 1) if first <= last else range(first, last - 1, -1)


def words_of(value, count):
    """The first words of a value, and the rest of it unchanged."""
    words = value.split(" ", count)
    if len(words) <= count:
        raise BadPage(f"{count} words and a text are wanted: {value!r}")
    return words


def argument_of(word):
    """The bytes of an argument, in which `\\xff` is written for a byte."""
    parts = re.split(r"\\x([0-9a-f]{2})", word)
    return b"".join(bytes.fromhex(it) if at % 2 else it.encode() for at, it in enumerate(parts))


def stream(value):
    """The name of a stream."""
    if value not in STREAMS:
        raise BadPage(f"{value!r} is none of {', '.join(STREAMS)}")
    return value


class Reader:
    """Goes through the lines of a page. Documents above the first case belong to every case."""

    def __init__(self, page):
        self.page, self.runs, self.title = page, [], None
        self.common, self.documents, self.folders, self.input = {}, {}, [], []
        self.document, self.line = None, 0

    def read(self, lines):
        for self.line, line in enumerate(lines, 1):
            keyword, _, value = line.partition(" ")
            if not line or keyword.startswith("#"):
                continue
            try:
                if keyword in SET:
                    self.set(keyword, value)
                elif keyword in HANDLERS:
                    HANDLERS[keyword](self, value)
                else:
                    raise BadPage(f"{keyword!r} is not a keyword")
            except BadPage as error:
                raise BadPage(f"{self.page}:{self.line}: {error}") from None
        self.end_run()
        return self.runs

    def end_run(self):
        """What comes next belongs to another run: the one before it has to be whole."""
        if self.runs and self.runs[-1].status is None:
            raise BadPage(f"the run of line {self.runs[-1].line} has no exit")

    def case(self, value):
        self.end_run()
        if self.title is None:
            self.common = self.documents
        self.title = value
        self.documents, self.folders, self.input, self.document = dict(self.common), [], [], None

    def file(self, value):
        name, _, text = value.partition(" ")
        self.document = self.documents[name] = [plain(text)]

    def start_input(self, value):
        self.document = self.input = [plain(value)]

    def add(self, piece):
        if self.document is None:
            raise BadPage("no document was begun")
        self.document.append(piece)

    def text(self, value):
        self.add(plain(value))

    def times(self, value):
        numbers, between, text = words_of(value, 2)
        self.add(repeated(range_of(numbers), "" if between == "nothing" else between, text))

    def bytes(self, value):
        data = bytes.fromhex(value)
        self.add(lambda: data)

    def folder(self, value):
        self.folders.append(value)

    def call(self, value):
        self.end_run()
        if self.title is None:
            raise BadPage("a run needs a case")
        self.document = None
        arguments = [argument_of(word) for word in shlex.split(value)]
        documents = dict(self.documents)
        self.runs.append(Run(self.page, self.line, self.title, arguments, documents, list(self.folders), self.input))

    def last(self):
        if not self.runs or self.runs[-1].status is not None:
            raise BadPage("no run was begun")
        return self.runs[-1]

    def out(self, value):
        self.last().out.append(plain(value + "\n"))

    def output(self, value):
        self.document = self.last().out
        self.document.append(plain(value))

    def outs(self, value):
        numbers, line = words_of(value, 1)
        self.last().out.append(repeated(range_of(numbers), "", line + "\n"))

    def err(self, value):
        self.last().errors.append(value)

    def set(self, keyword, value):
        name, read = SET[keyword]
        setattr(self.last(), name, read(value))


# What reads the lines with a keyword; the others set something of the run begun last: its name there, and what reads it.
HANDLERS = {
    "case": Reader.case, "file": Reader.file, "input": Reader.start_input, "text": Reader.text, "times": Reader.times,
    "bytes": Reader.bytes, "folder": Reader.folder, "$": Reader.call, "out": Reader.out, "output": Reader.output,
    "outs": Reader.outs, "err": Reader.err,
}  # fmt: skip
SET = {
    "from": ("source", str), "to": ("to", str), "closed": ("closed", stream), "memory": ("memory", int),
    "terminal": ("terminal", lambda value: True), "exit": ("status", int),
}  # fmt: skip


def read_page(path):
    """The runs of one page."""
    with open(path, encoding="utf-8") as file:
        return Reader(os.path.basename(path)).read(file.read().split("\n"))


def read_folder(folder):
    """The runs of all pages of a folder, by the names of the pages."""
    names = sorted(name for name in os.listdir(folder) if name.endswith(".txt"))
    return [run for name in names for run in read_page(os.path.join(folder, name))]
