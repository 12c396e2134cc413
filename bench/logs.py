"""Logs of batches, a line each, beside the reading of the same lines; and how several processes share a log.

A log has lines of one size. It is written again for each table, since the log that processes share has 1 GB.
"""

import json
import os
import subprocess
import sys
import time

import shapes
from measure import BenchFault
from support.program import ROOT
from turns import Job, measured

SIZES = (300, 1_000, 100_000)
LOG_BYTES = 8_000_000
SHORT_BYTES = 400_000
SHARED_BYTES = 1_000_000_000
SHARED_LINE = 1_000
SHARES = (1, 2, 4)
AUDIT = os.path.join(ROOT, "examples", "audit.py")


def compact(value):
    return json.dumps(value, separators=(",", ":"))


def pair_of(size):
    """A batch of about this many bytes, and the responses to it."""
    count = max(size // 90, 1)
    requests = [shapes.get(i, [str(i - 1)] if i % 3 else []) for i in range(count)]
    return {"requests": requests}, {"responses": [{"id": it["id"], "status": 200} for it in requests]}


def write_log(folder, name, line, size):
    """Writes a log of equal lines, of about this many bytes; gives its path and how many lines it has."""
    path, count = os.path.join(folder, name), max(size // (len(line) + 1), 1)
    with open(path, "w", encoding="utf-8") as file:
        for _ in range(count):
            file.write(line + "\n")
    return path, count


def jobs_of(program, folder, size, log_bytes):
    """For `check` and `match` the call on a log, the reading of it, and the call on one line alone."""
    batch, responses = pair_of(size)
    alone = [write_log(folder, f"alone{at}", compact(it), 1)[0] for at, it in enumerate((batch, responses))]
    lines = {"check": compact(batch), "match": compact([batch, responses])}
    unread = {"check": lines["check"].replace('"requests"', '"messages"', 1), "match": lines["match"]}
    for command, line in lines.items():
        path, count = write_log(folder, command, line, log_bytes)
        floor, _ = write_log(folder, f"unread{command}", unread[command], log_bytes)
        one = (program, command, alone[0]) if command == "check" else (program, command, *alone)
        yield command, count, [
            Job(f"{size}", 1, command, (program, command, "--lines", path), 0),
            Job(f"{size}", 1, "read", (program, "check", "--lines", floor), 1),
            Job(f"{size}", 1, "one", one, 0),
        ]


def rows(program, folder, turns, short):
    """The rows of the table of lines."""
    for size in SIZES:
        for command, count, jobs in jobs_of(program, folder, size, SHORT_BYTES if short else LOG_BYTES):
            whole, reading, one = measured(jobs, turns)
            yield [
                f"{size:,}",
                command,
                f"{count:,}",
                f"{whole.processor * 1000:.0f}",
                f"{whole.processor / reading.processor:.2f}",
                f"{count * one.processor / whole.processor:.0f}",
            ]


HEADS = ["bytes of a batch", "command", "lines", "processor ms", "processor / reading", "a process a line / processor"]
LEGEND = """\
A log of equal lines, by `--lines`: the median of the processor time over the turns. *reading* is `check --lines` of the same
lines, each of which it refuses once it has read it whole into a value (F04, of pairs F03). The last column says how many times
as long a process for each line takes."""


def shared(program, log, jobs):
    """The seconds that so many processes take for a log."""
    words = [sys.executable, AUDIT, log, "--program", program, "--jobs", str(jobs), "--own"]
    begun = time.monotonic()
    done = subprocess.run(words, stdout=subprocess.PIPE, text=True)
    if done.returncode:
        raise BenchFault(f"{' '.join(words)}: status {done.returncode}")
    return time.monotonic() - begun, done.stdout


def share_rows(program, folder):
    """The rows of the table of processes that share a log."""
    batch, responses = pair_of(SHARED_LINE)
    log, count = write_log(folder, "shared", compact([batch, responses]), SHARED_BYTES)
    first, wanted = None, f"ok {count}\n"
    for jobs in SHARES:
        taken, text = shared(program, log, jobs)
        if text != wanted:
            raise BenchFault(f"the audit of {count} lines printed {text!r}")
        first = first or taken
        yield [f"{jobs}", f"{count:,}", f"{first / taken:.2f}"]


SHARE_HEADS = ["processes", "lines", "times as fast as one"]
SHARE_LEGEND = """\
A log of 1 GB of batches with their responses, by `examples/audit.py` and processes of its own: by the clock, on a machine with
as many processors as its heading says."""
