#!/usr/bin/env python3
"""Measures the program on workloads that this script makes, and prints tables in Markdown.

The workloads are in shapes.py, how a run is measured is in measure.py, and what the columns mean is
in tables.py. The documents lie in a scratch folder that is removed at the end.
"""

import argparse
import os
import signal
import subprocess
import sys
import tempfile

ROOT = os.path.dirname(os.path.dirname(os.path.realpath(__file__)))
sys.dont_write_bytecode = True
sys.path.append(os.path.join(ROOT, "tests"))

import floods
import logs
import longest
import tables
import turns
import workloads
from measure import BenchFault, adopt_orphans
from support.program import add_program, ready

TURNS = 12
FLOODED = "flooded"
LONGEST = "longest"
LINES = "lines"
SHARED = "shared"
NAMES = (*workloads.NAMES, FLOODED, LONGEST, LINES, SHARED)


class Parser(argparse.ArgumentParser):
    """A parser that reports wrong arguments in one line."""

    def error(self, message):
        self.exit(2, f"{self.prog}: {message}\n")


def turn_count(word):
    """The number of turns that a word says."""
    if not (word.isascii() and word.isdigit() and int(word) > 0):
        raise argparse.ArgumentTypeError(f"{word!r} is no number of turns from 1")
    return int(word)


def workload_names(word):
    """The workloads that a word names, each once, in the order of the tables."""
    wanted = word.split(",")
    for name in wanted:
        if name not in NAMES:
            raise argparse.ArgumentTypeError(f"{name!r} is not a workload; these are: {', '.join(NAMES)}")
    return [name for name in NAMES if name in wanted]


def read_words(words):
    """The words of the command line."""
    parser = Parser(description="Measures odb_batch on workloads made here, and prints tables in Markdown.")
    option = parser.add_argument
    option("--short", action="store_true", help="small sizes and one turn: some twenty seconds")
    option("--turns", type=turn_count, metavar="N", help=f"how often each run is made; {TURNS}, in short 1")
    add_program(option)
    option(
        "--only",
        type=workload_names,
        default=list(NAMES),
        metavar="WORD,..",
        help="the workloads to measure, of " + ", ".join(NAMES),
    )
    return parser.parse_args(words)


def report(line):
    """Prints on standard error how far the measuring is."""
    print(f"bench: {line}", file=sys.stderr, flush=True)


def prepare(program, folder, names, short):
    """Makes the workloads, and tries each job on them once. Gives the cases and the jobs."""
    cases, jobs = [], []
    for case, content in workloads.cases(folder, ROOT, names, short):
        cases.append(case)
        for job in turns.case_jobs(program, case):
            turns.try_job(job, content, folder)
            jobs.append(job)
    start = turns.start_job(program, workloads.write_tiny(folder))
    return cases, [start, *turns.sizes_together(jobs)]


def load():
    """How many processes the machine ran or had waiting in the last minute."""
    return f"{os.getloadavg()[0]:.1f}"


def flood_text(words, program, folder, count):
    """The table of the documents with flooded names."""
    report("making the documents with flooded names, and trying each command on them")
    found = floods.floods(folder, words.short)
    floods.try_floods(program, folder, found)
    measures = floods.measure_floods(program, found, count, report)
    return "\n\n".join([tables.table(floods.HEADS, floods.rows(found, measures), 2), floods.LEGEND])


def longest_text(program, folder, count):
    """The table of the longest documents."""
    rows = longest.rows(program, folder, count, report)
    return "\n\n".join([tables.table(longest.HEADS, rows, 2), longest.LEGEND])


def lines_text(words, program, folder, count):
    """The table of logs with lines of several sizes."""
    report("logs of batches, a line each")
    return "\n\n".join([tables.table(logs.HEADS, logs.rows(program, folder, count, words.short), 2), logs.LEGEND])


def shared_text(program, folder):
    """The table of processes that share a log."""
    report("a log of 1 GB that processes share")
    return "\n\n".join([tables.table(logs.SHARE_HEADS, logs.share_rows(program, folder), 0), logs.SHARE_LEGEND])


def measured_text(words, program, folder):
    """The tables of a whole run."""
    report("making the workloads, and trying each command on them")
    names = [name for name in words.only if name in workloads.NAMES]
    cases, jobs = prepare(program, folder, names, words.short)
    count = words.turns or (1 if words.short else TURNS)
    before = load()
    measures = turns.measure_in_turns(jobs, count, report)
    start = measures["start", 1, "check"]
    facts = (
        f"{tables.machine()}; load {before} before and {load()} after; turns: {count}; "
        f"one start: {tables.milliseconds(start.processor)} ms processor, {tables.megabytes(start.memory)} MB"
    )
    parts = [facts]
    if cases:
        parts += [tables.case_table(cases), tables.command_table(cases, measures), tables.LEGEND]
    growth = tables.growth_table(cases, measures)
    parts += [growth, tables.GROWTH_LEGEND] if growth else []
    parts += [flood_text(words, program, folder, count)] if FLOODED in words.only else []
    # a short run leaves them out: `pytest -k sizes` compares what is printed of them
    parts += [longest_text(program, folder, count)] if LONGEST in words.only and not words.short else []
    parts += [lines_text(words, program, folder, count)] if LINES in words.only else []
    parts += [shared_text(program, folder)] if SHARED in words.only and not words.short else []
    return "\n\n".join(parts)


def main():
    words = read_words(sys.argv[1:])
    signal.signal(signal.SIGTERM, lambda *_: sys.exit(143))
    try:
        adopt_orphans()
        program = os.path.realpath(ready(words.program))
        with tempfile.TemporaryDirectory(prefix="odb_batch_bench_") as folder:
            print(measured_text(words, program, folder))
    except (BenchFault, OSError, subprocess.CalledProcessError) as fault:
        report(fault)
        return 1
    except KeyboardInterrupt:
        return 130
    return 0


if __name__ == "__main__":
    sys.exit(main())
