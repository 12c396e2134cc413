"""The worked cases as a file of calls, for programs that print what the library answers: tests/library/answers.c, and
tests/library/wasm/answers.mjs."""

import struct

from .worked import CALLS

RUNS = 400  # live runs, too
COMMANDS = ["check", "plan", "canon", "match", "run", "replay", "rest"]
ORDERS = ["first", "last", "wide"]
STRICT = [False, True, "units"]


def call_bytes(call):
    """A call; none if it has an option that a call of the library does not take."""
    options = call.options
    width, order = options.get("width", 10_000), options.get("order", "first")
    if not isinstance(width, int) or order not in ORDERS:
        return b""
    first, second = [*call.documents, b""][:2]
    strict = STRICT.index(options.get("strict", False))
    flags = [options.get("mode") == "stop", width, ORDERS.index(order), options.get("trace", False), strict]
    return struct.pack("<8I", COMMANDS.index(call.command), *flags, len(first), len(second)) + first + second


def write_calls(path):
    with open(path, "wb") as file:
        for call in CALLS:
            file.write(call_bytes(call))
