"""Documents for calls in process, and the programs in C that make them: tests/library compares answers, bench/calls.py times."""

import json
import os

from .commands import run
from .program import ROOT

SIZES = (300, 1_000, 100_000, 10_000_000)
MOST_REQUESTS = 10_000


def document_of(size):
    """A batch of about this many bytes: requests with small bodies, and with larger ones where they are too many."""
    one = {"method": "post", "url": "Orders", "headers": {"Content-Type": "application/json"}}
    row = lambda i, filling: {"id": f"r{i}", **one, "body": {"Count": i, "Text": "x" * filling}}
    count = min(max(size // 120, 1), MOST_REQUESTS)
    filling = max(size // count - len(json.dumps(row(count, 0))), 0)
    return json.dumps({"requests": [row(i, filling) for i in range(count)]}).encode()


def live_documents(folder, count):
    """Writes a batch of which each second request needs the one before, and its outcomes; returns the paths."""
    need = lambda i: {"dependsOn": [f"r{i - 1}"]} if i % 2 else {}
    requests = [{"id": f"r{i}", "method": "get", "url": "Orders", **need(i)} for i in range(count)]
    outcomes = [{"id": f"r{i}", "status": 200, "body": {"Count": 1}} for i in range(count)]
    paths = folder / f"batch{count}", folder / f"outcomes{count}"
    for path, document in zip(paths, ({"requests": requests}, {"outcomes": outcomes})):
        path.write_text(json.dumps(document), encoding="utf-8")
    return paths


def compile_c(folder, name, over):
    """Compiles a program of tests/library with the static library, or with another object; returns its path."""
    source = os.path.join(ROOT, "tests", "library", f"{name}.c")
    run("cc", "-O2", f"-I{ROOT}/include", "-o", folder / name, source, over)
    return folder / name
