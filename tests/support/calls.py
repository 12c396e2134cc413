"""Calls of the program on documents made at random, and what it has to print for them by the rules."""

import json
import os
import subprocess
import tempfile
from dataclasses import dataclass

from hypothesis import strategies as st

from . import positions, rules_of_runs, strategies
from .pages import OF_BATCHES
from .strategies import chance, of

SECONDS = 60
NAMES = ("document0", "document1")
ALONE = ("check", "plan", "canon")

# The options of each command, and how often each is given. Those of logs are left to test_lines.py.
ORDERS = ("first", "last", "wide")
VALUES = {
    "all": chance(60), "json": chance(30), "quiet": chance(10), "full": chance(40), "dot": chance(40),
    "trace": chance(60), "stop": chance(30), "strict": chance(60), "units": chance(50), "width": of(*5 * [None], 1, 1, 2, 3, 10_000),
    "order": of(None, *ORDERS), "where": chance(30),
}  # fmt: skip
OPTIONS = {
    **dict.fromkeys(OF_BATCHES, ("json", "where", "quiet")),
    "check": ("all", "json", "where", "quiet"),
    "plan": ("json", "where", "quiet", "full", "dot"),
    "match": ("json", "where", "quiet", "stop", "strict", "units"),
    "replay": ("json", "where", "quiet", "stop", "width", "trace", "order"),
    "run": ("json", "where", "quiet", "stop", "width"),
    "rest": ("json", "where", "quiet", "stop"),
}
OF_LOGS = {"lines", "flush", "number"}


def call(program, words, documents=(), given=b""):
    """What the program prints, on standard error too, and its exit status; the documents come last, as NAMES."""
    names = NAMES[: len(documents)]
    with tempfile.TemporaryDirectory(prefix="documents-") as folder:
        for name, data in zip(names, documents):
            with open(os.path.join(folder, name), "wb") as file:
                file.write(data)
        arguments = [os.path.abspath(program), *words, *names]
        done = subprocess.run(arguments, input=given, capture_output=True, timeout=SECONDS, cwd=folder)
    return done.stdout + done.stderr, done.returncode


def succeed(program, words, *values):
    """The text that the program prints on these documents, each a text or the value of one; its status must be 0."""
    documents = [(value if isinstance(value, str) else json.dumps(value)).encode() for value in values]
    text, status = call(program, words, documents)
    assert status == 0, f"{' '.join(words)}: status {status}, {text.decode()}"
    return text.decode()


def events_of(trace, outcomes):
    """The events of a trace: its starts, and its reports with the recorded outcomes."""
    by_id, found = {it["id"]: it for it in outcomes}, []
    for step, name in (line.split()[:2] for line in trace):
        if step == "start":
            found.append({"start": name})
        elif step == "report":
            found.append({"report": name, **{key: value for key, value in by_id[name].items() if key != "id"}})
    return found


def words_of(options):
    """The words of the command line for these options."""
    words = []
    for name, value in options.items():
        words += [f"--{name}"] if value is True else [f"--{name}", str(value)]
    return words


@dataclass
class Trial:
    """A command, the options that it is given, and its documents."""

    command: str
    options: dict
    documents: list
    by_input: bool = False

    def by_rules(self):
        """What the rules print, and the exit status."""
        options = {name: value for name, value in self.options.items() if name not in ("quiet", "where")}
        text, status = rules_of_runs.printed(self.command, *self.documents, **options)
        if "where" in self.options and status == 1:
            names = ("<stdin>",) if self.by_input else NAMES
            text = positions.located(text.decode(), self.documents, names).encode()
        return b"" if "quiet" in self.options else text, status

    def by_program(self, program):
        words = [self.command, *words_of(self.options)]
        given, documents = (self.documents[0], ()) if self.by_input else (b"", self.documents)
        text, status = call(program, words, documents, given)
        return positions.without_first_bytes(text) if "where" in self.options else text, status


@st.composite
def options_of(draw, *names):
    """Some of these options."""
    drawn = {name: draw(VALUES[name]) for name in names}
    if drawn.get("dot"):
        del drawn["json"], drawn["full"], drawn["where"]
    if not drawn.get("strict"):
        drawn.pop("units", None)
    return {name: value for name, value in drawn.items() if value}


@st.composite
def trials(draw, command):
    """A call of a command on a batch, which is damaged more often if it is the only document."""
    alone = command in ALONE
    options, first = draw(options_of(*OPTIONS[command])), draw(strategies.batches(75 if alone else 20))
    documents = [first, *draw(strategies.seconds(command, first, options))]
    return Trial(command, options, documents, alone and draw(st.booleans()))
