#!/usr/bin/env python3
"""Memory a request, faults of pages and times of the commands, beside those of a plain Rust program.

That program is the peer, `bench/peer`, which prints the same: `cargo build --release` there, by Rust 1.65 or later, with Debian's packages
librust-percent-encoding-dev, librust-serde-derive-dev and librust-serde-json-dev. Without it the program is measured
alone. Instructions are counted if valgrind is installed.
"""

import argparse
import os
import shutil
import statistics
import subprocess
import sys
import tempfile
from dataclasses import dataclass

ROOT = os.path.dirname(os.path.dirname(os.path.realpath(__file__)))
sys.dont_write_bytecode = True
sys.path.append(os.path.join(ROOT, "tests"))

import shapes
import tables
import workloads
from measure import BenchFault, adopt_orphans, run, staying_on, stir_memory
from support.contents import KINDS, Content, compact
from support.instructions import PLAIN, TOTALS
from support.program import add_program, ready

PEER = os.path.join(ROOT, "bench", "peer", "target", "release", "peer")
SIZE, TURNS = 10_000, 15
READING = "reading"

HEADS = ["workload", "command"]
MEMORY_HEADS = ["MB", "peer's", "KB a request beside the tree", "peer's", "faults", "peer's", "reading's", "peer's"]
TIME_HEADS = ["ms", "peer's", "ms / peer's", "reading / peer's"]
COUNT_HEADS = ["million instructions", "peer's", "/ peer's", "reading / peer's", "share of reading"]

MEMORY_LEGEND = """\
*reading* is `check` of a document that holds the same documents and is refused (F04), since it has no requests. *beside
the tree* is the greatest memory of the command less that of the reading, for each request. *faults* are those of pages
that the system had to hand out, which include some hundred of the start. Medians over the turns."""
TIME_LEGEND = """\
Processor times, medians over the turns; a ratio is the median of what it was in each turn, in which program and peer
follow each other on one processor."""
COUNT_LEGEND = """\
Instructions as callgrind counts them, of one run each. *share of reading* is that of the program's own reading."""


@dataclass(frozen=True)
class Job:
    """What is measured: a program on documents that it accepts, or the reading of these."""

    shape: str
    command: str
    of: str
    words: tuple
    status: int


def bare(size):
    """A chain, and outcomes that are statuses alone."""
    return shapes.chain(size)[0], [shapes.changed(i) for i in range(size)]


# What makes the lists of a workload, and what it is in words.
SHAPES = {
    "bare": (bare, "a chain; outcomes are statuses alone"),
    "chain": (shapes.chain, "outcomes with a header and a body"),
    "fan": (shapes.fan, "the same"),
    "groups": (shapes.groups, "groups of 10; outcomes are statuses alone"),
}


def names_in(word):
    """The workloads that a word names."""
    wanted = word.split(",")
    if not set(wanted) <= set(SHAPES):
        raise argparse.ArgumentTypeError(f"the workloads are {', '.join(SHAPES)}")
    return wanted


def read_words(words):
    """The words of the command line."""
    parser = argparse.ArgumentParser(description="Measures memory and times of odb_batch beside a plain Rust program.")
    option = parser.add_argument
    option("--turns", type=int, default=TURNS, metavar="N", help=f"how often each run is made; {TURNS} if left out")
    add_program(option)
    option("--only", type=names_in, default=list(SHAPES), metavar="WORD,..", help=f"of {', '.join(SHAPES)}")
    option("--time", action="store_true", help="count no instructions, which takes minutes")
    option("--peer", default=PEER, metavar="PATH", help="the peer; else the one built in bench/peer, if it is")
    return parser.parse_args(words)


def reading_of(command):
    """What the reading of the documents of a command is filed under."""
    return f"{READING} {' '.join(KINDS[command])}"


def write_both(folder, name, texts):
    """Writes a document without requests that holds these documents. Returns its path."""
    path = os.path.join(folder, f"{name}.json")
    workloads.write_document(path, f'{{"messages":[{",".join(texts)}]}}')
    return path


def text_in(path):
    with open(path, encoding="utf-8") as file:
        return file.read()


def jobs_of(folder, case, of, program):
    """The readings of the documents of a case, each once, and the commands on them."""
    paths = {command: [getattr(case, kind) for kind in kinds] for command, kinds in KINDS.items()}
    for reading, texts in {reading_of(command): map(text_in, paths[command]) for command in KINDS}.items():
        unread = write_both(folder, f"{case.name} {reading}", texts)
        yield Job(case.name, reading, of, (program, "check", unread), 1)
    for command in KINDS:
        yield Job(case.name, command, of, (program, command, *paths[command]), 0)


def try_job(job, content, folder):
    """Runs a job once; fails if it does not print what it has to."""
    output = os.path.join(folder, "printed")
    status = run(job.words, output).status
    wanted = "fault F04 NoRequests batch\n" if job.status else content.wanted(job.command)
    if status != job.status or text_in(output) != wanted:
        raise BenchFault(f"{job.of}: {job.command} of {job.shape} gave a wrong answer")


def prepare(programs, folder, names):
    """Makes the workloads, and tries each job on them once. Returns the jobs: those of the programs follow each other."""
    jobs = []
    for name in names:
        make, words = SHAPES[name]
        requests, outcomes = make(SIZE)
        texts, content = (compact("requests", requests), compact("outcomes", outcomes)), Content(requests, outcomes)
        case = workloads.write_case(folder, name, 1, words, (), texts, content)
        found = zip(*(jobs_of(folder, case, *it) for it in programs.items()))
        together = [job for alike in found for job in alike]
        for job in together:
            try_job(job, content, folder)
        jobs += together
    return jobs


def measured(jobs, turns):
    """The runs of each job, one a turn, each turn on one processor."""
    runs, processors = {job: [] for job in jobs}, sorted(os.sched_getaffinity(0))
    for turn in range(turns):
        print(f"memory: turn {turn + 1} of {turns}", file=sys.stderr, flush=True)
        with staying_on(processors[turn % len(processors)]):
            for job in jobs:
                stir_memory()
                runs[job].append(run(job.words))
    return runs


def counted(jobs, folder):
    """The instructions of each job."""
    counts, environment = os.path.join(folder, "counts"), {**os.environ, **PLAIN}
    words, found = ("valgrind", "--tool=callgrind", f"--callgrind-out-file={counts}"), {}
    for job in jobs:
        subprocess.run([*words, *job.words], env=environment, capture_output=True, check=False)
        found[job] = [int(TOTALS.search(text_in(counts))[1])]
    return found


@dataclass(frozen=True)
class Figures:
    """What was measured of each job: numbers, one a turn, by shape, command and program."""

    by_key: dict

    @staticmethod
    def of(found, value):
        return Figures({(job.shape, job.command, job.of): [value(it) for it in runs] for job, runs in found.items()})

    def median(self, shape, command, of):
        return statistics.median(self.by_key[shape, command, of])

    def beside(self, shape, command, of):
        """What a command takes more than the reading of its documents."""
        return self.median(shape, command, of) - self.median(shape, reading_of(command), of)

    def ratio(self, shape, command, programs):
        """How many times the peer's this is; nothing without a peer."""
        if len(programs) < 2:
            return "-"
        pairs = zip(*(self.by_key[shape, command, of] for of in programs))
        return f"{statistics.median(own / other for own, other in pairs):.2f}"


def for_each(programs, cell):
    """A cell for each program, and none for a peer that is not there."""
    return [cell(of) for of in programs] + ["-"] * (2 - len(programs))


def rows(found, cells):
    """The rows of a table, one for each shape and command."""
    shapes_found = dict.fromkeys(job.shape for job in found)
    return [[shape, command, *cells(shape, command)] for shape in shapes_found for command in KINDS]


def memory_text(found, programs):
    memory, faults = Figures.of(found, lambda it: it.memory), Figures.of(found, lambda it: it.faults)

    def cells(shape, command):
        return [
            *for_each(programs, lambda of: tables.megabytes(memory.median(shape, command, of))),
            *for_each(programs, lambda of: f"{memory.beside(shape, command, of) / SIZE / 1000:.2f}"),
            *for_each(programs, lambda of: f"{faults.median(shape, command, of):,.0f}"),
            *for_each(programs, lambda of: f"{faults.median(shape, reading_of(command), of):,.0f}"),
        ]

    return f"{tables.table([*HEADS, *MEMORY_HEADS], rows(found, cells), 2)}\n\n{MEMORY_LEGEND}"


def time_text(found, programs):
    times = Figures.of(found, lambda it: it.processor)

    def cells(shape, command):
        own = for_each(programs, lambda of: tables.milliseconds(times.median(shape, command, of)))
        return [*own, times.ratio(shape, command, programs), times.ratio(shape, reading_of(command), programs)]

    return f"{tables.table([*HEADS, *TIME_HEADS], rows(found, cells), 2)}\n\n{TIME_LEGEND}"


def count_text(found, programs):
    counts = Figures.of(found, lambda it: it)
    first = next(iter(programs))

    def cells(shape, command):
        share = counts.median(shape, reading_of(command), first) / counts.median(shape, command, first)
        own = for_each(programs, lambda of: f"{counts.median(shape, command, of) / 1e6:.1f}")
        ratios = [counts.ratio(shape, it, programs) for it in (command, reading_of(command))]
        return [*own, *ratios, f"{share:.2f}"]

    return f"{tables.table([*HEADS, *COUNT_HEADS], rows(found, cells), 2)}\n\n{COUNT_LEGEND}"


def measured_text(words, folder):
    """The tables of a whole run."""
    programs = {"program": os.path.realpath(ready(words.program))}
    if os.access(words.peer, os.X_OK):
        programs["peer"] = os.path.realpath(words.peer)
    jobs = prepare(programs, folder, words.only)
    before = os.getloadavg()[0]
    found = measured(jobs, words.turns)
    facts = f"{tables.machine()}; load {before:.1f} before and {os.getloadavg()[0]:.1f} after; turns: {words.turns}"
    parts = [facts, memory_text(found, programs), time_text(found, programs)]
    if shutil.which("valgrind") and not words.time:
        parts.append(count_text(counted(jobs, folder), programs))
    return "\n\n".join(parts)


def main():
    words = read_words(sys.argv[1:])
    try:
        adopt_orphans()
        with tempfile.TemporaryDirectory(prefix="odb_batch_memory_") as folder:
            print(measured_text(words, folder))
    except (BenchFault, OSError) as fault:
        print(f"memory: {fault}", file=sys.stderr)
        return 1
    return 0


if __name__ == "__main__":
    sys.exit(main())
