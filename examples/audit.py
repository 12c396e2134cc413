#!/usr/bin/env python3
"""Audits a log of batches with the responses of their service, a pair a line, and counts the lines by fault.

    python3 examples/audit.py LOG [--command match] [--strict] [--list [N]] [--jobs 4] [--program PATH]
    python3 examples/audit.py LOG --extract LINE

Each line of the log is what `odb_batch match --lines` reads: the array `[batch, responses]`; or what another command reads.
GNU parallel splits the log where it is installed; else this script gives each of its processes a part of the log. A part
begins after a newline, so a line belongs to one part. It prints how many lines each fault has, and how many have none.
With `--list` the first N lines with a fault come first, 100 if N is not given: the number of the line, and its fault.
`--extract` audits nothing: it writes the two documents of a line to LINE.batch.json and LINE.second.json, byte for byte.

    status  when
    0       no line has a fault
    1       some lines have one
    2       wrong arguments
    3       the log could not be read to its end, a process failed, or standard output could not be written
    127     the program is not found, or does not run

With 2, 3 and 127 one line on standard error says why, after those of the program.
"""

import argparse
import json
import os
import re
import shutil
import subprocess
import sys
from collections import Counter
from concurrent.futures import ThreadPoolExecutor
from contextlib import suppress
from itertools import islice
from threading import Thread
from typing import IO, Callable, Iterable, List, NoReturn, Optional, Tuple

HERE = os.path.dirname(os.path.realpath(__file__))
# A clone has this script in examples/, an archive of a release in share/doc/odb_batch/examples/.
PLACES = ("odb_batch", os.path.join(HERE, "..", "bin", "odb_batch"), os.path.join(HERE, *[".."] * 4, "bin", "odb_batch"))
COMMANDS = ("check", "plan", "canon", "match", "replay", "run")
FAULT = b'{"fault":'
PIECE = 1 << 20
INCOMPLETE, NOT_FOUND, INTERRUPTED = 3, 127, 130


class Results:
    """What an audit finds of the lines of a log, or of a part of it.

    Attributes:
        counts: How many lines have each fault, by its code, or none.
        lines: How many lines there are.
        faults: The first lines with a fault, at most `listed`: each with its number, and its fault.
    """

    def __init__(self, listed: int) -> None:
        self.counts: "Counter[Optional[str]]" = Counter()
        self.lines, self.listed = 0, listed
        self.faults: List[Tuple[int, str]] = []

    def add(self, line: bytes) -> None:
        """Takes the next line that a process has written."""
        self.lines += 1
        fault = json.loads(line)["fault"] if line.startswith(FAULT) else None
        self.counts[fault and fault["code"]] += 1
        if fault and len(self.faults) < self.listed:
            self.faults.append((self.lines, "{code} {name} {place}".format_map(fault)))

    def join(self, after: "Results") -> None:
        """Takes the results of the part that follows."""
        room = self.listed - len(self.faults)
        self.faults += [(self.lines + number, fault) for number, fault in after.faults[:room]]
        self.counts += after.counts
        self.lines += after.lines


class Failed(Exception):
    """Why an audit has no result, and its exit status."""

    def __init__(self, text: str, status: int = INCOMPLETE) -> None:
        super().__init__(text)
        self.status = status


class Parser(argparse.ArgumentParser):
    """Reports wrong arguments by one line."""

    def error(self, message: str) -> NoReturn:
        self.exit(2, f"error: {message}\n")


def up_to(most: int) -> Callable[[str], int]:
    """What reads a whole number from 1 to `most`."""

    def read(text: str) -> int:
        if not re.fullmatch("[0-9]{1,12}", text) or not 1 <= int(text) <= most:
            raise argparse.ArgumentTypeError(f"{text!r} is not a whole number from 1 to {most}")
        return int(text)

    return read


def arguments() -> argparse.Namespace:
    parser = Parser(description="Counts the lines of a log of batches by their faults.")
    option = parser.add_argument
    option("log", help="a file with a line for each batch")
    option("--command", default="match", choices=COMMANDS)
    option("--strict", action="store_true", help="have match also refuse statuses that no finished run answers")
    option("--list", dest="listed", type=up_to(1_000_000), nargs="?", const=100, default=0, metavar="N",
           help="list the first N lines with a fault; 100")  # fmt: skip
    option("--extract", type=up_to(10**12 - 1), metavar="LINE", help="write the documents of this line to files")
    option("--jobs", type=up_to(1000), default=os.cpu_count() or 1, help="how many processes; as many as there are processors")
    option("--program", help="the program odb_batch; else the one on the PATH, of this clone or of this archive")
    option("--own", action="store_true", help="do not use GNU parallel")
    options = parser.parse_args()
    if options.strict and options.command != "match":
        parser.error("--strict is an option of match alone")
    return options


def printed(*words: str) -> bytes:
    """What a program prints, or nothing if it does not run."""
    with suppress(OSError):
        return subprocess.run(words, stdin=subprocess.DEVNULL, stdout=subprocess.PIPE).stdout
    return b""


def found_program(named: Optional[str]) -> str:
    """The path of the program: the one that is named, else the first of its places that has one."""
    paths = (shutil.which(place) for place in ([named] if named else PLACES))
    path = next(filter(None, paths), None)
    if path is None:
        raise Failed(f"{named or 'odb_batch'} is not found; --program PATH names the program", NOT_FOUND)
    # A clone that has not built its program does so here, once and not in each process.
    if not printed(path, "--version").startswith(b"odb_batch "):
        raise Failed(f"{path} does not run as odb_batch", NOT_FOUND)
    return os.path.abspath(path)


def found_log(named: str) -> str:
    """The path of the log, whose parts are read from their places."""
    path = os.path.realpath(named)
    if os.path.exists(path) and not os.path.isfile(path):
        raise Failed(f"{named} is not a regular file")
    return path


def lines_of(log: str) -> int:
    """How many lines a log has. What follows its last newline is one, unless it is empty."""
    count, last = 0, b"\n"
    with open(log, "rb") as file:
        while piece := file.read(PIECE):
            count, last = count + piece.count(b"\n"), piece[-1:]
    return count + (last != b"\n")


def parts_of(log: str, parts: int) -> List[Tuple[int, int]]:
    """Where the parts of a log begin and end: each but the first begins after the newline next to an even cut."""
    size = os.path.getsize(log)
    cuts = [0]
    with open(log, "rb") as file:
        for part in range(1, parts):
            file.seek(max(size * part // parts - 1, cuts[-1]))
            while (piece := file.readline(PIECE)) and not piece.endswith(b"\n"):
                pass
            cuts.append(file.tell())
    return [(begin, end) for begin, end in zip(cuts, [*cuts[1:], size]) if begin < end]


def feed(log: str, begin: int, end: int, pipe: IO[bytes]) -> None:
    """Writes a part of a log to a process. If that fails, lines are missing among the counted ones."""
    with suppress(OSError), pipe, open(log, "rb") as file:
        file.seek(begin)
        while piece := file.read(min(PIECE, end - begin)):
            pipe.write(piece)
            begin += len(piece)


def results_of(lines: Optional[Iterable[bytes]], listed: int) -> Results:
    """The results that a process writes to its pipe."""
    found = Results(listed)
    for line in lines or ():
        found.add(line)
    return found


def audit_part(command: List[str], log: str, listed: int, begin: int, end: int) -> Results:
    """The results of a part of a log, by a process of its own."""
    with subprocess.Popen(command, stdin=subprocess.PIPE, stdout=subprocess.PIPE) as process:
        feeder = Thread(target=feed, args=(log, begin, end, process.stdin))
        feeder.start()
        found = results_of(process.stdout, listed)
        feeder.join()
    if process.returncode not in (0, 1):
        raise Failed(f"{command[0]} ended with status {process.returncode}")
    return found


def audit_by_own(program: str, command: List[str], log: str, options: argparse.Namespace) -> Results:
    words, found = [program, *command], Results(options.listed)
    with ThreadPoolExecutor(options.jobs) as pool:
        for part in pool.map(lambda part: audit_part(words, log, options.listed, *part), parts_of(log, options.jobs)):
            found.join(part)
    return found


def audit_by_parallel(program: str, command: List[str], log: str, options: argparse.Namespace) -> Results:
    words = ["parallel", "--plain", "--will-cite", "--pipe-part", "--block", "-1", "--keep-order"]
    words += ["--jobs", str(options.jobs), "--arg-file", log]
    # The status of GNU parallel is how many jobs did not end with 0. One that refused lines has done its work.
    job = f'"$ODB_BATCH" {" ".join(command)} || test $? -eq 1'
    variables = {**os.environ, "ODB_BATCH": program, "PARALLEL_SHELL": "/bin/sh"}
    with subprocess.Popen([*words, job], env=variables, stdin=subprocess.DEVNULL, stdout=subprocess.PIPE) as process:
        found = results_of(process.stdout, options.listed)
    if process.returncode:
        raise Failed(f"parallel ended with status {process.returncode}")
    return found


def audit(options: argparse.Namespace) -> Results:
    """The results of all lines of a log."""
    program, log = found_program(options.program), found_log(options.log)
    lines = lines_of(log)
    uses_parallel = lines and not options.own and printed("parallel", "--version").startswith(b"GNU parallel")
    way = audit_by_parallel if uses_parallel else audit_by_own
    command = [options.command, "--lines", "--json", *(["--strict"] if options.strict else [])]
    found = way(program, command, log, options)
    if found.lines != lines:
        raise Failed(f"{options.log} has {lines} lines, of which {found.lines} were counted")
    return found


def show(found: Results) -> None:
    """Prints the lines with a fault that are listed; then how many lines have each fault, after those that have none."""
    print_lines(
        [f"line {number}: {fault}" for number, fault in found.faults]
        + [f"{code or 'ok'} {count}" for code, count in sorted(found.counts.items(), key=lambda it: it[0] or "")]
    )


def print_lines(lines: List[str]) -> None:
    if sys.stdout is None:
        raise Failed("standard output is closed")
    try:
        for line in lines:
            print(line)
        sys.stdout.flush()
    except OSError as error:
        os.dup2(os.open(os.devnull, os.O_WRONLY), sys.stdout.fileno())  # takes what the buffer still has
        raise Failed(f"standard output: {error.strerror}") from None


def extract(log: str, number: int) -> None:
    """Writes the two documents of a line to files of their own, which must not be there."""
    with open(log, "rb") as file:
        line = next(islice(file, number - 1, None), None)
    if line is None:
        raise Failed(f"{log} has no line {number}")
    paths = f"{number}.batch.json", f"{number}.second.json"
    for path, document in zip(paths, documents_of(line, number)):
        with open(path, "xb") as file:
            file.write(document + b"\n")
    print_lines(list(paths))


def documents_of(line: bytes, number: int) -> Tuple[bytes, bytes]:
    """The two documents of a line, as they are in it."""
    text = line.decode("utf-8", "surrogateescape").strip()
    begin = 1 + len(text[1:]) - len(text[1:].lstrip())
    try:
        _, end = json.JSONDecoder().raw_decode(text, begin)
    except (ValueError, RecursionError):
        end = begin
    rest = text[end:].strip()
    if not (text.startswith("[") and begin < end and rest.startswith(",") and rest.endswith("]")):
        raise Failed(f"line {number} is not an array of two documents")
    first, second = (it.encode("utf-8", "surrogateescape") for it in (text[begin:end], rest[1:-1].strip()))
    return first, second


def main() -> int:
    options = arguments()
    try:
        if options.extract:
            extract(options.log, options.extract)
            return 0
        found = audit(options)
        show(found)
    except Failed as error:
        print(f"error: {error}", file=sys.stderr)
        return error.status
    except OSError as error:
        print(f"error: {error.filename or 'a process'}: {error.strerror}", file=sys.stderr)
        return INCOMPLETE
    except KeyboardInterrupt:
        return INTERRUPTED
    return 1 if set(found.counts) - {None} else 0


if __name__ == "__main__":
    sys.exit(main())
