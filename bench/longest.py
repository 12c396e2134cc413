"""The longest documents that the program takes, of `pytest -k sizes`, beside the reading of the same bytes.

The documents of one kind are made, measured in turns and removed before those of the next, since they
have 16 MB each. What the program prints of them is compared there.
"""

import os

from support import sizes
from turns import Job, measured, start_job
from workloads import write_tiny

KINDS = (sizes.names, sizes.dense, sizes.members, sizes.headers, sizes.seconds, sizes.urls, sizes.escapes, sizes.runs)


def write(folder, name, text):
    path = os.path.join(folder, name)
    with open(path, "w", encoding="utf-8") as file:
        file.write(text)
    return path


def jobs_of(program, folder, trial):
    """The call of a trial, and the readings of its documents."""
    batch, *second = trial.documents
    paths = [write(folder, "batch", batch), *(write(folder, "second", it) for it in second)]
    unread = write(folder, "unread", batch.replace('"requests"', '"messages"', 1))
    words = (program, *trial.command.split(), *paths)
    readings = [(program, "check", path) for path in (unread, *paths[1:])]
    call = Job(trial.title, 1, trial.command, words, trial.status)
    return [call, *(Job(trial.title, 1, "read", it, 1) for it in readings)]


def joined(readings, start):
    """The reading of all documents: that of each, and one start."""
    whole, *others = readings
    for other in others:
        whole = whole + other - start
    return whole


def rows(program, folder, count, report):
    """The rows of the table, one for each document."""
    for kind in KINDS:
        report(f"the longest documents: {kind.__name__}")
        for trial in kind():
            jobs = [*jobs_of(program, folder, trial), start_job(program, write_tiny(folder))]
            whole, *readings, start = measured(jobs, count)
            yield row(trial, whole, readings, start)


def row(trial, whole, readings, start):
    processor = joined([it.processor for it in readings], start.processor)
    memory = joined([it.memory for it in readings], start.memory)
    return [
        trial.title,
        trial.command,
        f"{whole.processor * 1000:.0f}",
        f"{processor * 1000:.0f}",
        f"{whole.processor / processor:.2f}",
        f"{whole.memory / memory:.2f}",
    ]


HEADS = ["document", "command", "time ms", "reading ms", "time / reading", "memory / reading"]
LEGEND = """\
Processor times, medians over the turns. *reading* is the floor of the tables above: what it takes to read the same
documents into values."""
