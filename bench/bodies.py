#!/usr/bin/env python3
"""Reports of a megabyte of JSON to a live run, beside the reading of the same bytes: `bodies.py [FOLDER]`.

FOLDER is what `bin/odb_library` has written, `dist/library` unless it is given. The reading is `check` of the body
in place of a batch, which it refuses once it has read it whole into a value (F03, F04). Each report and each reading
is measured in turns, and the best of each counts.
"""

import os
import random
import sys
import time

ROOT = os.path.dirname(os.path.dirname(os.path.abspath(__file__)))
LIBRARY = sys.argv[1] if len(sys.argv) > 1 else os.path.join(ROOT, "dist", "library")
os.environ["ODB_BATCH_LIBRARY"] = os.path.join(os.path.abspath(LIBRARY), "libodb_batch.so.0")
sys.path.insert(0, os.path.join(ROOT, "python"))

from odb_batch import Fault, Run, check  # noqa: E402  (it loads the library that is named above)

BODY_BYTES = 1_000_000
TURNS = 20
DEPTH = 120
HEADS = ("body", "report ms", "reading ms", "report / reading")


def array_of(element):
    """An array of about a megabyte, of the elements that a function makes of their positions."""
    parts, size = [], 2
    while size < BODY_BYTES:
        parts.append(element(len(parts)))
        size += len(parts[-1]) + 1
    return f"[{','.join(parts)}]"


def object_of(member):
    """The same as an object, of its members."""
    return "{" + array_of(member)[1:-1] + "}"


def bodies():
    """The bodies by their names. The same each time."""
    draw = random.Random(1)
    entity = '"Book{0}":{{"Number":{0},"Title":"Book {0}","Price":9.990,"Lent":true}}'
    return {
        "an object of objects": object_of(entity.format),
        "whole numbers": array_of(lambda at: str(draw.randrange(10 ** draw.randrange(1, 10)))),
        "prices": array_of(lambda at: f"{draw.uniform(0, 1000):.2f}"),
        "floats of 17 digits": array_of(lambda at: repr(draw.uniform(-1000, 1000))),
        "literals": array_of(lambda at: draw.choice(("true", "false", "null"))),
        "short texts": array_of(lambda at: f'"text {at}"'),
        "one long text": f'"{"x" * (BODY_BYTES - 2)}"',
        "one text of two bytes a letter": f'"{"é" * (BODY_BYTES // 2 - 1)}"',
        "one text of escapes": '"' + '\\n\\u00e9\\"' * (BODY_BYTES // 10) + '"',
        f"arrays, {DEPTH} deep": array_of(lambda at: "[" * (DEPTH - 1) + "]" * (DEPTH - 1)),
        f"objects, {DEPTH} deep": array_of(lambda at: '{"a":' * (DEPTH - 1) + "0" + "}" * (DEPTH - 1)),
        "an array of blanks": f"[{' ' * (BODY_BYTES - 2)}]",
    }


def seconds(call, *words):
    """How long a call takes."""
    start = time.perf_counter()
    call(*words)
    return time.perf_counter() - start


def read(body):
    """Reads the body into a value, and no more."""
    try:
        check(body)
    except Fault as fault:
        if fault.code in ("F03", "F04"):
            return
        raise
    raise AssertionError("a body is no batch")


def measured(body):
    """The best times of a report of the body and of its reading."""
    batch = {"requests": [{"id": str(turn), "method": "get", "url": "Books"} for turn in range(TURNS)]}
    reports, readings = [], []
    with Run(batch) as run:
        for turn in range(TURNS):
            run.start(str(turn))
            reports.append(seconds(run.report, str(turn), 200, None, body))
            readings.append(seconds(read, body))
    return min(reports), min(readings)


def main():
    """Prints the table."""
    print(f"| {' | '.join(HEADS)} |\n| --- | ---: | ---: | ---: |")
    for name, text in bodies().items():
        report, reading = measured(text.encode())
        print(f"| {name} | {1000 * report:.2f} | {1000 * reading:.2f} | {report / reading:.2f} |", flush=True)


if __name__ == "__main__":
    main()
