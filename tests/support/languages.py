"""What the packages for Go, Java and C# are compared with: what the library answers, through the package for Python, to the worked
cases and to random live runs, as lines. A program of each language prints the same lines.

The folder of `write_reference` has

- `calls`: the worked cases, as `write_calls` of answers.py writes them
- `pages`: of each call its number, `command`, `faults` or `requests`, a status, and the SHA-256 of a text
- `runs`: of each run its number, and the SHA-256 of its notes

The import of this module loads the library.
"""

import hashlib
import json
import os
import shutil
import struct
import subprocess

from odb_batch import Fault, Refused, Run, requests
from odb_batch._native import library

from .answers import COMMANDS, RUNS, write_calls
from .program import ROOT, SHARED

# Where each language looks for the library for x86-64 Linux, below the folder of `bin/odb_library --for LANGUAGE FOLDER`.
NATIVE = {
    "dotnet": "runtimes/linux-x64/native/libodb_batch.so",
    "java": "linux-x86-64/libodb_batch.so",
    "go": "odb_batch_linux_amd64.syso",
}
# Of each command the function, and which of mode, width, order, trace and strict it takes.
FUNCTIONS = {
    "check": ("odb_check_as", ()),
    "plan": ("odb_plan_as", ()),
    "canon": ("odb_canon_as", ()),
    "match": ("odb_match_with", (0, 4)),
    "run": ("odb_run_as", (0, 1)),
    "replay": ("odb_replay_as", (0, 1, 2, 3)),
    "rest": ("odb_rest", (0,)),
}
WITH_SECOND = ("match", "run", "replay", "rest")
LINES, ROOM, MOST = 0, 4096, 10_000

# What is reported to a live run, and the numbers of its states.
STATUSES = [200, 201, 204, 299, 300, 404, 409, 500, 599, 199, 600, 0]
HEADERS = [None, {"etag": "7"}, {"A": "1", "a": "2"}]
BODIES = [None, b"null", b'{"a":[1,2]}', b'"x"', b"{", b"1.5", b"[0.10, 1e999]"]
STATES = ["waiting", "ready", "running", "reported", "skipped", "undone"]
MOST_STEPS = 60


def write_native(language, built, folder):
    """Writes the library for a language to a folder, of those that `bin/odb_library` has written to the folder `built`."""
    path = os.path.join(folder, NATIVE[language])
    os.makedirs(os.path.dirname(path), exist_ok=True)
    if language == "go":
        with open(path, "wb") as file:
            subprocess.run(["ar", "p", os.path.join(built, "libodb_batch.a"), "odb_batch.o"], stdout=file, check=True)
        shutil.copy(os.path.join(ROOT, "include", "odb_batch.h"), folder)
    else:
        shutil.copyfile(os.path.join(built, SHARED), path)


def digest(text):
    return hashlib.sha256(text).hexdigest()


def read_calls(path):
    """Yields the calls of a file: the command and its options, and two documents."""
    with open(path, "rb") as file:
        while head := file.read(32):
            *numbers, first, second = struct.unpack("<8I", head)
            yield numbers, file.read(first), file.read(second)


def located(text, batch, second):
    """The lines of faults, each with the line, the column and the offset of its place."""
    found = []
    for line in text.decode().splitlines():
        place = line.split(" ", 3)[3]
        is_first = second is None or place == "batch" or place.startswith("/requests/")
        numbers = library.call_where(batch if is_first else second, place.encode())[1]
        found.append(f"{line} {' '.join(map(str, numbers[:3]))}\n")
    return "".join(found).encode()


def answered(numbers, batch, second):
    """The status of a command, and its text or the line of its fault with the position."""
    command, *options = numbers
    name = COMMANDS[command]
    function, taken = FUNCTIONS[name]
    documents = (batch, second) if name in WITH_SECOND else (batch,)
    status, text = library.call(function, documents, (*(options[at] for at in taken), LINES), ROOM)
    return status, text if status == library.DONE else located(text, batch, second if len(documents) > 1 else None)


def all_faults(batch):
    """The status of a check, and the lines of all faults with their positions."""
    status, text = library.call("odb_check_all_as", (batch,), (LINES,), ROOM)
    return status, located(text, batch, None) if status == library.REFUSED else b""


def requested(batch):
    """The status of `odb_requests`, and a line for each request."""
    status, text, found = library.call_requests(batch, ROOM, MOST)
    if status != library.DONE:
        return status, located(text, batch, None)
    lines = []
    for it in found:
        parts = [request_part(batch if at == 7 else text, *it[2 * at : 2 * at + 2]) for at in (0, 1, 2, 3, 4, 5, 7)]
        headers = json.loads(parts[4])
        names = sorted(headers, key=str.encode)
        parts[4] = "".join(f"{name}:{headers[name]};" for name in names).encode("utf-8", "surrogatepass")
        reference = -1 if it[16] == library.NONE else it[16]
        lines.append(b"|".join(part or b"-" for part in parts) + b"|%d\n" % reference)
    return status, b"".join(lines)


def request_part(text, start, length):
    return b"" if start == library.NONE else text[start : start + length]


class Source:
    """Numbers that seem random: those of a linear congruential generator."""

    def __init__(self, number):
        self._state = number

    def next(self, limit):
        self._state = (self._state * 1664525 + 1013904223) % 2**32
        return (self._state >> 8) % limit


class DrivenRun:
    """A live run whose steps a source chooses, and notes of what each call returns."""

    def __init__(self, number, accepted):
        self._next = Source(number).next
        batch = accepted[self._next(len(accepted))]
        mode, width = ("continue", "stop")[self._next(2)], 1 + self._next(5)
        self._ids = [request.id for request in requests(batch)]
        self._run = Run(batch, mode=mode, width=width)
        self.notes = [",".join(self._ids)]

    def drive(self):
        """Takes steps until the run is finished, or there were enough."""
        with self._run:
            for _ in range(MOST_STEPS):
                if self._run.finished:
                    break
                self._step()
            self._try(self._run.response)
            self._try(lambda: self._run.undone)

    def _step(self):
        is_alone = self._next(3) > 0
        request_id = self._choose(self._run.ready if is_alone else self._run.next_unit() or ())
        self._try(lambda: (self._run.start if is_alone else self._run.start_unit)(request_id))
        request_id = self._choose(self._run.running)
        if self._next(3) > 0:
            status, headers, body = STATUSES[self._next(12)], HEADERS[self._next(3)], BODIES[self._next(7)]
            self._try(lambda: self._run.report(request_id, status, headers, body))
        state = self._run.state(request_id)
        self.notes.append(f"{STATES.index(state.state)} {state.status or 0}")
        if self._next(50) == 0:
            self._run.stop()
        if self._next(16) == 0:
            self._try(self._run.response)

    def _choose(self, listed):
        """Notes what is listed, and returns one of it, or any id."""
        self.notes.append(",".join(listed))
        if not listed or self._next(8) == 0:
            return self._ids[self._next(len(self._ids))]
        return listed[self._next(len(listed))]

    def _try(self, call):
        """Notes what a call returns, or why it is refused."""
        try:
            found = call()
        except (Fault, Refused) as error:
            self.notes.append(f"{error.code} {error.name}")
        else:
            is_text = isinstance(found, bytes)
            self.notes.append("ok" if found is None else found.decode() if is_text else ",".join(found))


def write_reference(folder, runs=RUNS):
    """Writes `calls`, `pages` and `runs` to a folder."""
    calls = os.path.join(folder, "calls")
    write_calls(calls)
    accepted = []
    with open(os.path.join(folder, "pages"), "w", encoding="ascii") as pages:
        for at, (numbers, batch, second) in enumerate(read_calls(calls)):
            found = {"command": answered(numbers, batch, second), "faults": all_faults(batch), "requests": requested(batch)}
            for asked, (status, text) in found.items():
                print(at, asked, status, digest(text), file=pages)
            if found["faults"][0] == library.DONE and len(batch) < 100_000:
                accepted.append(batch)
    with open(os.path.join(folder, "runs"), "w", encoding="ascii") as file:
        for number in range(runs):
            it = DrivenRun(number, accepted)
            it.drive()
            print(number, digest("".join(f"{note}\n" for note in it.notes).encode()), file=file)


def require_same(folder, name, printed):
    """Fails if a program has not printed the lines of a file of the reference."""
    with open(os.path.join(folder, name), encoding="ascii") as file:
        wanted = file.read().splitlines()
    found = printed.splitlines()
    wrong = [f"{line} is not {right}" for line, right in zip(found, wanted) if line != right]
    assert not wrong, f"{len(wrong)} of {len(wanted)} {name} differ, as {wrong[0]}"
    assert len(found) == len(wanted) > 0, f"{len(found)} lines of {name}, not {len(wanted)}"
