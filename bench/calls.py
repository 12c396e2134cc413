#!/usr/bin/env python3
"""Times of calls in process: `calls.py [FOLDER]`.

FOLDER is what `bin/odb_library` has written, `dist/library` unless it is given. Prints the processor time of a check of a
batch in C, in Python and by a process; and of a live run with all its calls in C, beside the replay by a process. It
needs `cc` and the program.
"""

import os
import resource
import subprocess
import sys
import tempfile
import time
from pathlib import Path

ROOT = os.path.dirname(os.path.dirname(os.path.abspath(__file__)))
LIBRARY = os.path.abspath(sys.argv[1] if len(sys.argv) > 1 else os.path.join(ROOT, "dist", "library"))
os.environ["ODB_BATCH_LIBRARY"] = os.path.join(LIBRARY, "libodb_batch.so.0")
sys.path[:0] = [os.path.join(ROOT, "tests"), os.path.join(ROOT, "python")]

from odb_batch import check  # noqa: E402
from support.in_process import MOST_REQUESTS, SIZES, compile_c, document_of, live_documents  # noqa: E402
from support.program import PROGRAM, ready  # noqa: E402

SECONDS, TURNS = 0.5, 5
HEADS = ("bytes of a batch", "C", "Python", "a process")
LIVE_HEADS = ("requests", "a live run", "a replay", "live run / replay")


def spent():
    """The processor time of this process and of those that it has started, in seconds."""
    return sum(sum(resource.getrusage(it)[:2]) for it in (resource.RUSAGE_SELF, resource.RUSAGE_CHILDREN))


def repeated(work):
    """The processor time of a call, in microseconds."""
    begun, before, count = time.monotonic(), spent(), 0
    while count == 0 or time.monotonic() - begun < SECONDS:
        work()
        count += 1
    return (spent() - before) / count * 1e6


def measured(*words):
    """The time that a program in C writes to standard error."""
    return float(subprocess.run(words, stdout=subprocess.DEVNULL, stderr=subprocess.PIPE, check=True).stderr)


def of_process(*words):
    return repeated(lambda: subprocess.run(words, stdout=subprocess.DEVNULL, check=True))


def show(*cells):
    print(f"| {' | '.join(cells)} |", flush=True)


def show_heads(heads):
    show(*heads)
    show(*["---:"] * len(heads))


def main():
    """Prints a table of checks, in microseconds, and one of a live run, in milliseconds."""
    program = ready(PROGRAM)
    with tempfile.TemporaryDirectory() as name:
        folder = Path(name)
        over = f"{LIBRARY}/libodb_batch.a"
        speed, live = compile_c(folder, "speed", over), compile_c(folder, "live_speed", over)
        show_heads(HEADS)
        for size in SIZES:
            document, path = document_of(size), folder / "document"
            path.write_bytes(document)
            times = measured(speed, path, str(SECONDS)), repeated(lambda: check(document)), of_process(program, "check", path)
            show(f"{len(document):,}", *(f"{it:,.1f}" for it in times))
        print()
        show_heads(LIVE_HEADS)
        paths = live_documents(folder, MOST_REQUESTS)
        run = min(measured(live, paths[0]) for _ in range(TURNS))
        replay = min(of_process(program, "replay", *paths) for _ in range(TURNS)) / 1e3
        show(f"{MOST_REQUESTS:,}", f"{run:.1f}", f"{replay:.1f}", f"{run / replay:.2f}")


if __name__ == "__main__":
    main()
