"""Runs a program and measures it: time, processor time and memory. Linux alone.

What the system reports as the greatest memory of a process begins with that of the process which
started it. So a program is not started by this one, whose memory is many times that of a small
program, but by a shell: it starts a process that waits for a word, and ends; then this one adopts
that process, gives the word, waits for the end and takes the measures. What that process took
until then, some tenths of a millisecond, is in its processor time.
"""

import contextlib
import ctypes
import os
import signal
import subprocess
import time
from dataclasses import dataclass

SET_CHILD_SUBREAPER = 36

# About half as much again as the greatest run of a workload that is measured at several sizes.
STIRRED_BYTES = 96 * 2**20

# The words are an output file and a command. The shell prints the number of the process that waits.
LEAVE_WAITING = """
output=$1
shift
exec 3<&0
{ read -r word && exec "$@" 3<&- </dev/null; } <&3 >"$output" 2>&1 &
echo $!
"""


class BenchFault(Exception):
    """What is wrong, in one line."""


@dataclass(frozen=True)
class Run:
    """The measures of one run: its exit status, or less than 0 the signal that ended it; seconds of
    time and of processor time, of the user and the system; the greatest memory in bytes; and the
    faults of pages that no disk was read for."""

    status: int
    wall: float
    processor: float
    memory: int
    faults: int


def adopt_orphans():
    """Lets this process adopt those whose parent has ended."""
    try:
        adopted = ctypes.CDLL(None).prctl(SET_CHILD_SUBREAPER, 1, 0, 0, 0) == 0
    except AttributeError:
        adopted = False
    if not adopted:
        raise BenchFault("processes can be measured on Linux alone")


def leave_waiting(words, output):
    """Starts a shell that leaves a process which waits for a word. Gives the number of the process,
    and the file to write the word to."""
    receiving, sending = os.pipe()
    try:
        shell = subprocess.run(
            ["/bin/sh", "-c", LEAVE_WAITING, "sh", output, *words],
            stdin=receiving,
            stdout=subprocess.PIPE,
            check=True,
        )
        return int(shell.stdout), sending
    except (OSError, ValueError, subprocess.SubprocessError) as error:
        os.close(sending)
        raise BenchFault(f"the shell did not start a program: {error}") from None
    finally:
        os.close(receiving)


def stir_memory():
    """Lets a process fill much memory and end, so that each run is handed memory of the same kind.
    Without this, small runs were faster by up to a quarter and great ones were not, it seems since
    a small run is handed memory that the one before it has left in the processor's caches."""
    process = os.fork()
    if process == 0:
        try:
            _filled = b"\1" * STIRRED_BYTES
        finally:
            os._exit(0)
    os.waitpid(process, 0)


@contextlib.contextmanager
def staying_on(processor):
    """Keeps this process, and those that it starts meanwhile, on one processor."""
    before = os.sched_getaffinity(0)
    os.sched_setaffinity(0, {processor})
    try:
        yield
    finally:
        os.sched_setaffinity(0, before)


def end(process):
    """Ends a process that may have ended."""
    with contextlib.suppress(ProcessLookupError, ChildProcessError):
        os.kill(process, signal.SIGKILL)
        os.waitpid(process, 0)


def run(words, output=os.devnull):
    """Runs the command and measures it, from the word that lets it start to its end. What it prints
    goes to the file."""
    process, sending = leave_waiting(words, output)
    try:
        begun = time.perf_counter()
        os.write(sending, b"\n")
        _, status, usage = os.wait4(process, 0)
        wall = time.perf_counter() - begun
    except BaseException:
        end(process)
        raise
    finally:
        os.close(sending)
    return Run(
        status=-os.WTERMSIG(status) if os.WIFSIGNALED(status) else os.WEXITSTATUS(status),
        wall=wall,
        processor=usage.ru_utime + usage.ru_stime,
        memory=usage.ru_maxrss * 1024,
        faults=usage.ru_minflt,
    )
