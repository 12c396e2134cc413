"""The commands of the package for Python: `python3 -m odb_batch COMMAND ..`. The others are those of the program."""

import argparse
import importlib
import sys
from typing import Sequence

from ._native.library import MISSING

# The exit status without the library; wrong arguments end with 2.
UNUSABLE = 3

# Each command: the module whose `main` takes the words after it and returns the exit status, and what it does.
COMMANDS = {
    "gateway": ("odb_batch.gateway._tool", "answers $batch for services that have none"),
    "conformance": ("odb_batch.conformance._command", "judges whether a service keeps what a batch promises"),
    "page": ("odb_batch._page", "opens a page in the browser in which a batch is checked, drawn and run"),
}
# Those that call the library, unless they print their help.
OVER_LIBRARY = ("gateway", "conformance")


def parser() -> argparse.ArgumentParser:
    lines = "".join(f"\n  {name:14}{shows}" for name, (_, shows) in COMMANDS.items())
    found = argparse.ArgumentParser(
        prog="python3 -m odb_batch",
        usage="%(prog)s COMMAND ..",
        epilog=f"commands, each with an option --help of its own:{lines}",
        formatter_class=argparse.RawDescriptionHelpFormatter,
    )
    found.add_argument("command", metavar="COMMAND", choices=COMMANDS, help="what to do")
    return found


def main(words: Sequence[str]) -> int:
    """Does what the words of a command line ask; returns the exit status."""
    command = parser().parse_args(words[:1]).command
    if MISSING is not None and command in OVER_LIBRARY and not {"-h", "--help"}.intersection(words):
        print(f"error: {MISSING}", file=sys.stderr)
        return UNUSABLE
    status: int = importlib.import_module(COMMANDS[command][0]).main(words[1:])
    return status


if __name__ == "__main__":
    sys.exit(main(sys.argv[1:]))
