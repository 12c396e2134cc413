"""Calls the program as a worked case of tests/cases/ says, and compares all that it does.

Each run has a fresh folder with the case's files. Its standard output, its standard error and its
exit status have to be the ones that the case shows.
"""

import os
import pty
import subprocess
import tempfile
from contextlib import contextmanager

from . import pages
from .program import TESTS

CASES = os.path.join(TESTS, "cases")
SECONDS = 60
SHOWN = 600
NOBODY = "|"
CLOSING = {"input": "<&-", "output": ">&-", "errors": "2>&-"}


def write_files(run, folder):
    """Makes the files and folders of a case."""
    for name, pieces in run.documents.items():
        with open(os.path.join(folder, name), "wb") as file:
            file.write(pages.joined(pieces))
    for name in run.folders:
        os.mkdir(os.path.join(folder, name))


def command_line(run, binary):
    """The program to start and its arguments; a shell limits the memory and closes a stream first. A program may be a list, of
    what runs it and its path."""
    if isinstance(binary, list):
        return binary[0], [*binary, *run.arguments]
    if run.closed is None and run.memory is None:
        return binary, ["odb_batch", *run.arguments]
    limit = f"ulimit -v {run.memory}; " if run.memory else ""
    return "/bin/sh", ["sh", "-c", f'{limit}exec "$0" "$@" {CLOSING.get(run.closed, "")}', binary, *run.arguments]


@contextmanager
def output_of(run):
    """Where standard output goes: a file, a pipe that nobody reads, or back to the caller."""
    if run.to is None:
        yield subprocess.PIPE
    elif run.to == NOBODY:
        read, write = os.pipe()
        os.close(read)
        yield write
        os.close(write)
    else:
        with open(run.to, "wb") as file:
            yield file


def input_of(run, folder):
    """The standard input: a path that the case names, or the bytes of its document."""
    if run.source is None:
        return {"input": pages.joined(run.input)}
    return {"stdin": os.open(os.path.join(folder, run.source), os.O_RDONLY)}


def read_terminal(reader, writer):
    """The bytes that a terminal has received, which nobody else has open."""
    os.close(writer)
    found = b""
    try:
        while piece := os.read(reader, SHOWN):
            found += piece
    except OSError:
        pass  # how Linux says that a terminal has come to its end
    os.close(reader)
    return found.replace(b"\r\n", b"\n")


def errors_of(run):
    """Where standard error goes, a pipe or a terminal, and what gives its bytes after the call."""
    if not run.terminal:
        return subprocess.PIPE, lambda done: done.stderr
    reader, writer = pty.openpty()
    return writer, lambda done: read_terminal(reader, writer)


def call(run, binary, folder):
    """Calls the program in this folder; returns its output, its messages and its status."""
    program, words = command_line(run, binary)
    given, (errors, messages) = input_of(run, folder), errors_of(run)
    try:
        with output_of(run) as output:
            done = subprocess.run(
                words, executable=program, cwd=folder, stdout=output, stderr=errors, timeout=SECONDS, **given
            )
    finally:
        if "stdin" in given:
            os.close(given["stdin"])
    return done.stdout or b"", messages(done), done.returncode


def shown(data):
    """The bytes as a text for the reader, cut in its middle where it is long."""
    text = data.decode(errors="backslashreplace")
    return text if len(text) <= SHOWN else f"{text[:SHOWN // 2]} .. {text[-SHOWN // 2:]}"


def differences(run, out, err, status):
    """What the program did otherwise than the case shows, a line each."""
    wanted = pages.joined(run.out)
    messages = "".join(line + "\n" for line in run.errors).encode()
    found = []
    if status != run.status:
        found.append(f"exit status wanted: {run.status}, got: {status}")
    if out != wanted:
        found.append(f"standard output wanted:\n{shown(wanted)}\ngot:\n{shown(out)}")
    if err != messages and (run.errors != [pages.SOMETHING] or not err):
        found.append(f"standard error wanted:\n{shown(messages)}\ngot:\n{shown(err)}")
    return found


def tried(run, binary):
    """Runs a case once; returns what went otherwise."""
    with tempfile.TemporaryDirectory(prefix="cases-") as folder:
        write_files(run, folder)
        try:
            return differences(run, *call(run, binary, folder))
        except subprocess.TimeoutExpired:
            return [f"not finished after {SECONDS} seconds"]
