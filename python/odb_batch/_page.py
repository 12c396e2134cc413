"""``python3 -m odb_batch page``: the page in which a batch is checked, drawn and run."""

import argparse
import os
import pathlib
import shutil
import sys
import webbrowser
from typing import Sequence

HERE = os.path.dirname(__file__)
NAME = "odb_batch.html"
# The exit status where there is no page, or it cannot be written; wrong arguments end with 2.
UNUSABLE = 3


def places() -> "list[str]":
    """Where the page may be: in the package, or where bin/odb_page writes it in the repository."""
    return [os.path.join(HERE, NAME), os.path.join(HERE, "..", "..", "dist", NAME)]


def main(words: Sequence[str]) -> int:
    """Does what the words of a command line ask; returns the exit status."""
    parser = argparse.ArgumentParser(
        prog="python3 -m odb_batch page",
        description="Opens a page in the browser in which a batch is checked, drawn and run. It sends nothing anywhere.",
    )
    parser.add_argument("file", metavar="FILE", nargs="?", help="write the page to this file, and open nothing")
    file = parser.parse_args(words).file
    page = next((place for place in places() if os.path.isfile(place)), None)
    if page is None:
        print("error: this package has no page: bin/odb_page makes it", file=sys.stderr)
        return UNUSABLE
    if file is None:
        return _open(page)
    try:
        shutil.copyfile(page, file)
    except OSError as error:
        print(f"error: {file}: {error.strerror or error}", file=sys.stderr)
        return UNUSABLE
    return 0


def _open(page: str) -> int:
    address = pathlib.Path(page).resolve().as_uri()
    if webbrowser.open(address):
        return 0
    print(f"error: no browser can be started: open {address}", file=sys.stderr)
    return UNUSABLE
