"""Compares the answers to the lines of logs with what single runs print of the documents in them."""

import os
import pty
import re
import subprocess
import time

import pytest
from hypothesis import given
from hypothesis import strategies as st

from support import rules, rules_of_runs, strategies
from support.calls import ALONE, SECONDS, call, options_of, words_of
from support.pages import OF_BATCHES
from support.profiles import share

LONG_BYTES = 16_777_216
MANY = 100_000
BATCH = b'{"requests":[{"id":"1","method":"get","url":"A"}]}'
ACCEPTED = b"ok 1 requests 0 groups\n"
TOO_LONG = b"fault F01 TooLong batch\n"
OPTIONS = {
    "check": ("json", "all"), "plan": ("json", "full"), "replay": ("json", "stop", "width", "order"),
    "run": ("json", "stop", "width"), "rest": ("json", "stop"),
}  # fmt: skip


@st.composite
def lines(draw, command, options):
    """A line with the documents of a command, without a newline in them."""
    first = draw(strategies.batches(75 if command in ALONE else 20))
    documents = [first, *draw(strategies.seconds(command, first, options))]
    line = first if command in ALONE else b"[" + b",".join(documents) + b"]"
    return line.replace(b"\n", draw(strategies.of(b" ", b"\r")))


@st.composite
def logs(draw, command):
    """The words of the options, and the lines of a log."""
    options = draw(options_of(*OPTIONS.get(command, ["json"])))
    if command in ("plan", "match") or options.get("all"):
        options["json"] = True  # as their lines are
    return words_of(options), draw(st.lists(lines(command, options), min_size=1, max_size=25))


def wanted(program, command, words, line):
    """The answer to a line, and its exit status: what a run on its documents prints, or the fault of the line."""
    try:
        return call(program, [command, *words], rules_of_runs.documents_of(command, line))
    except rules.Fault as fault:
        text = rules.faults_text([fault], True) if "--all" in words else fault.text("--json" in words)
        return text.encode(), 1


def numbered(part, status, number, words):
    """An answer with the number of its line, which a fault has."""
    if status == 0:
        return part
    return part[:-2] + b',"line":%d}\n' % number if "--json" in words else b"%d %s" % (number, part)


def answered(program, command, words, log):
    return call(program, [command, "--lines", *words], given=log)


@pytest.mark.parametrize("command", OF_BATCHES)
@share(40)
@given(data=st.data())
def test_log_is_answered_as_its_lines_are(program, command, data):
    words, found = data.draw(logs(command))
    parts, log = [wanted(program, command, words, line) for line in found], b"\n".join(found) + b"\n"
    status = max(status for _, status in parts)
    assert answered(program, command, words, log) == (b"".join(part for part, _ in parts), status)
    text = b"".join(numbered(*part, at + 1, words) for at, part in enumerate(parts))
    assert answered(program, command, [*words, "--number"], log) == (text, status)


@pytest.mark.parametrize("more", [0, 1, 3_000_000])
def test_line_as_long_as_a_document_may_be_and_longer(program, more):
    line, answer = BATCH.ljust(LONG_BYTES + more), TOO_LONG if more else ACCEPTED
    assert answered(program, "check", [], line + b"\n" + BATCH + b"\n")[0] == answer + ACCEPTED
    assert answered(program, "check", [], BATCH + b"\n" + line)[0] == ACCEPTED + answer


def test_log_of_many_short_lines(program):
    assert answered(program, "check", [], b'{"requests":[]}\n' * MANY) == (b"ok 0 requests 0 groups\n" * MANY, 0)


def test_log_that_ends_in_each_of_its_bytes(program):
    log = BATCH + b"\n" + BATCH
    for end in range(len(log) + 1):
        text = b"".join(wanted(program, "check", [], line)[0] for line in log[:end].splitlines())
        assert answered(program, "check", [], log[:end])[0] == text, log[:end]


@pytest.mark.parametrize("words", [[], ["--flush"]])
def test_each_line_is_answered_before_the_next_is_written(program, words):
    words = [program, "check", "--lines", *words]
    with subprocess.Popen(words, stdin=subprocess.PIPE, stdout=subprocess.PIPE) as process:
        for line, text in ((BATCH, ACCEPTED), (b"", b"fault F02 NotJson batch\n"), (BATCH, ACCEPTED)):
            process.stdin.write(line + b"\n")
            process.stdin.flush()
            assert process.stdout.readline() == text
        process.stdin.close()
        assert process.wait(SECONDS) == 1


def progress(program, pauses):
    """What a terminal shows of a log whose lines come after such pauses, in seconds."""
    screen, terminal = pty.openpty()
    words = [program, "check", "--lines"]
    with subprocess.Popen(words, stdin=subprocess.PIPE, stdout=subprocess.PIPE, stderr=terminal) as process:
        os.close(terminal)
        for pause in pauses:
            time.sleep(pause)
            process.stdin.write(BATCH + b"\n")
            process.stdin.flush()
        process.stdin.close()
        process.stdout.read()
    shown = []
    with open(screen, "rb", buffering=0) as file:
        try:
            while piece := file.read(4096):
                shown.append(piece)
        except OSError:
            pass  # how Linux says that a terminal has come to its end
    return b"".join(shown)


def test_terminal_shows_how_far_a_log_is(program):
    count = rb"\r\d lines, 0 refused, 0\.0 MB/s +"
    assert re.fullmatch(rb"(?:%s){2,4}\r\n" % count, progress(program, (0, 1.1, 1.1)))


def test_terminal_shows_nothing_of_a_log_that_takes_less_than_a_second(program):
    """On a busy machine it may take longer, and is tried again."""
    end = time.monotonic() + SECONDS
    while time.monotonic() < end:
        begun = time.monotonic()
        shown = progress(program, (0, 0))
        if time.monotonic() - begun < 1:
            break
    assert shown == b""


def test_full_device(program):
    words = [program, "check", "--lines"]
    with open("/dev/full", "wb") as full:
        done = subprocess.run(words, input=BATCH + b"\n", stdout=full, stderr=subprocess.PIPE, timeout=SECONDS)
    assert (done.stderr, done.returncode) == (b"error: write\n", 3)
