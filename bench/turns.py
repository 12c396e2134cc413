"""What is run, whether it answers what it has to, and its measures in turns."""

import os
import statistics
from dataclasses import dataclass

from measure import BenchFault, run, staying_on, stir_memory

COMMANDS = ("check", "plan", "canon", "replay", "match", "run")
READ_BATCH = "read batch"

# The commands over two documents, with the reading of the second.
SECONDS = {"replay": "read outcomes", "match": "read responses", "run": "read events"}
ONLY_READ = "fault F04 NoRequests batch\n"


@dataclass(frozen=True)
class Job:
    """A run that is measured in each turn: the name, part and command that it is filed under, the
    words of the command line and the exit status that it has to have."""

    name: str
    part: int
    command: str
    words: tuple
    status: int


def start_job(program, tiny):
    """One start of the program: the check of a batch without requests."""
    return Job("start", 1, "check", (program, "check", tiny), 0)


def case_jobs(program, case):
    """The jobs of a case: each command, and the readings."""
    second = {"replay": case.outcomes, "match": case.responses, "run": case.events}
    words = {command: (command, case.batch) for command in COMMANDS}
    words |= {command: (command, case.batch, path) for command, path in second.items()}
    words["replay"] = ("replay", *case.options, case.batch, case.outcomes)
    words |= {SECONDS[command]: ("check", path) for command, path in second.items()}
    words[READ_BATCH] = ("check", case.unread)
    return [
        Job(case.name, case.part, command, (program, *given), 0 if command in COMMANDS else 1)
        for command, given in words.items()
    ]


def label(job):
    """What the job is, in words."""
    return f"{job.command} of {job.name} at 1/{job.part} of its size"


def run_job(job, output=os.devnull):
    """Runs a job and measures it."""
    measured = run(job.words, output)
    if measured.status != job.status:
        raise BenchFault(f"{label(job)} ended with status {measured.status}, and not {job.status}")
    return measured


def is_right(job, content, text):
    """Whether the job printed what it has to print."""
    if job.command not in COMMANDS:
        return text == ONLY_READ
    return text == content.wanted(job.command)


def try_job(job, content, folder):
    """Runs a job once and measures it; fails where it does not print what it has to."""
    output = os.path.join(folder, "printed")
    measured = run_job(job, output)
    with open(output, encoding="utf-8", errors="replace", newline="") as file:
        text = file.read()
    if not is_right(job, content, text):
        raise BenchFault(f"{label(job)} gave a wrong answer")
    return measured


@dataclass(frozen=True)
class Measure:
    """The measures of a job in each turn: seconds of time and of processor time, and the greatest
    memory in bytes."""

    walls: list
    processors: list
    memories: list

    @property
    def wall(self):
        """The median of the seconds of time."""
        return statistics.median(self.walls)

    @property
    def processor(self):
        """The median of the seconds of processor time."""
        return statistics.median(self.processors)

    @property
    def memory(self):
        """The greatest memory in bytes."""
        return max(self.memories)


def summary(runs):
    """The measures of the runs of one job."""
    return Measure(
        walls=[it.wall for it in runs],
        processors=[it.processor for it in runs],
        memories=[it.memory for it in runs],
    )


def times_as_long(measured, base):
    """How many times as much processor time a job takes as another: the median of what this was in
    each turn."""
    return statistics.median(one / other for one, other in zip(measured.processors, base.processors))


def sizes_together(jobs):
    """The jobs in the order in which a turn runs them: the sizes of a workload, whose times are
    compared, come one after the other for each command."""
    firsts = list(dict.fromkeys((job.name, job.command) for job in jobs))
    return sorted(jobs, key=lambda job: firsts.index((job.name, job.command)))


def measure_in_turns(jobs, turns, report):
    """Runs all jobs in their order, and again in each turn, each on memory that was stirred. A turn
    stays on one processor, and the next one goes to the next, so that the runs of a turn do
    not differ by where the system put them. Gives the measures of each job by its name, part and
    command."""
    runs = {(job.name, job.part, job.command): [] for job in jobs}
    processors = sorted(os.sched_getaffinity(0))
    for turn in range(turns):
        report(f"turn {turn + 1} of {turns}")
        with staying_on(processors[turn % len(processors)]):
            for job in jobs:
                stir_memory()
                runs[job.name, job.part, job.command].append(run_job(job))
    return {key: summary(measured) for key, measured in runs.items()}


def measured(jobs, count):
    """Measures jobs in turns, each turn on one processor."""
    runs, processors = [[] for _ in jobs], sorted(os.sched_getaffinity(0))
    for turn in range(count):
        with staying_on(processors[turn % len(processors)]):
            for job, found in zip(jobs, runs):
                stir_memory()
                found.append(run_job(job))
    return [summary(found) for found in runs]
