"""Judges whether a service keeps what OData promises of batches in JSON. See docs/conformance.md."""

import argparse
import contextlib
import re
import sys
from typing import Any, Sequence, cast

from .._native.calls import MAX_REQUESTS
from ..arguments import require, seconds, whole_number
from . import _report
from ._cases import REQUESTS, cases_like
from ._entities import Entities
from ._exact_json import value_of
from ._interruption import Interrupted, Interruption
from ._promises import Case
from ._runner import Runner
from ._service import MAX_SECONDS, ROOT, SECONDS, Service, Unusable, is_root

PROGRAM = "python3 -m odb_batch conformance"
BODY_HELP = "a body that creates an entity; the key is added. One with a property of each type judges more"
HEADER_HELP = "a header of all requests; @FILE has one in each line"
# Exit statuses; wrong arguments end with 2.
BROKEN, UNUSABLE = 1, 3


def url_of(text: str) -> str:
    """The root URL of a service."""
    require(is_root(text), text, ROOT)
    return text


def body_of(text: str) -> dict[str, Any]:
    """The body of an entity."""
    value = None
    with contextlib.suppress(ValueError, RecursionError):
        value = value_of(text)
    require(isinstance(value, dict), text, "an object of JSON")
    return cast(dict[str, Any], value)


def header_of(text: str) -> list[str]:
    """The name and the value of a header."""
    name, colon, value = text.partition(":")
    is_header = colon and re.fullmatch(r"[\w!#$%&'*+.^`|~-]+", name, re.ASCII) and value.isprintable()
    require(is_header, text, "a header, such as Authorization: Bearer 123")
    return [name, value.strip()]


def headers_of(text: str) -> list[list[str]]:
    """The header that a text is; or, after @, those in the lines of a file, which no list of processes shows."""
    if not text.startswith("@"):
        return [header_of(text)]
    try:
        with open(text[1:], encoding="utf-8") as file:
            return [header_of(line) for line in file.read().splitlines() if line]
    except (OSError, UnicodeDecodeError):
        raise argparse.ArgumentTypeError(f"{text[1:]!r} is not a file of headers that can be read") from None


def name_of(text: str) -> str:
    require(re.fullmatch(r"\w+", text), text, "a name")
    return text


seconds_of, number_of = seconds(MAX_SECONDS), whole_number(MAX_REQUESTS)


def parser() -> argparse.ArgumentParser:
    found = argparse.ArgumentParser(prog=PROGRAM, description=__doc__)
    found.add_argument("url", metavar="URL", type=url_of, nargs="?", help="the root of the service, above its $batch")
    found.add_argument("--set", metavar="NAME", type=name_of, help="an entity set in which entities may be made")
    found.add_argument("--key", metavar="NAME", type=name_of, help="the key property of its entities")
    found.add_argument("--body", metavar="JSON", type=body_of, help=BODY_HELP)
    found.add_argument("--header", metavar="H: V", type=headers_of, action="extend", default=[], help=HEADER_HELP)
    found.add_argument("--requests", metavar="N", type=number_of, default=REQUESTS, help="how many a batch may have; 100")
    found.add_argument("--timeout", metavar="S", type=seconds_of, default=SECONDS, help="seconds for an answer; 20")
    found.add_argument("--case", metavar="GLOB", action="append", help="runs cases of such names alone, as 'group-*'")
    found.add_argument("--breaks", metavar="FOLDER", default="conformance-breaks", help="where breaks are written")
    found.add_argument("--json", action="store_true", help="prints one document of JSON in place of the table")
    found.add_argument("--list", action="store_true", help="lists the cases, and sends nothing")
    return found


def progress(at: int, name: str, count: int) -> None:
    """Shows on a terminal how far the run is."""
    if sys.stderr.isatty():
        print(f"\r\033[K{at + 1}/{count} {name}" if name else "\r\033[K", end="", file=sys.stderr, flush=True)


def run(options: argparse.Namespace, cases: list[Case], interruption: Interruption) -> int:
    """Runs the cases and prints what they show; returns the exit status."""
    service = Service(options.url, dict(options.header), options.timeout, interruption)
    entities = Entities(service, options.set, options.key, options.body)
    runner = Runner(service, entities, options.requests)
    try:
        results = runner.run(cases, lambda at, name: progress(at, name, len(cases)))
    except (Unusable, Interrupted) as error:
        progress(0, "", 0)
        for url in entities.forget():
            print(f"not removed: {url}", file=sys.stderr)
        print(f"error: {error}", file=sys.stderr)
        interruption.ignore()
        return UNUSABLE
    progress(0, "", 0)
    if options.json:
        print(_report.json_text(_report.document(service.root, results, entities.left, entities.notes)))
    else:
        lines = _report.lines_of(results, entities.left, options.breaks, entities.notes)
        print(_report.table(results), *lines, sep="\n")
    try:
        _report.write_breaks(results, options.breaks)
    except OSError as error:
        print(f"error: {error.filename}: {error.strerror}", file=sys.stderr)
        return UNUSABLE
    return BROKEN if any(result.breaks for result in results) else 0


def main(words: Sequence[str]) -> int:
    """Does what the words of a command line ask; returns the exit status."""
    interruption = Interruption()
    interruption.catch()
    arguments = parser()
    options = arguments.parse_args(words)
    globs = options.case or ["*"]
    cases = cases_like(globs, options.requests)
    if not cases:
        arguments.error(f"no case has a name like {' or '.join(map(repr, globs))}")
    if options.list:
        print(_report.list_cases(cases))
        return 0
    if None in (options.url, options.set, options.key, options.body):
        arguments.error("needed are URL, --set, --key and --body, or --list")
    return run(options, cases, interruption)
