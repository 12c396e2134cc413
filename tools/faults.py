"""Compares docs/faults.md with what the program prints of each fault, and its documents with what they claim.

A fault has a section `### CODE NAME, PLACES`: a paragraph, and two items, `refused` and `accepted`,
each with a document or with words. `odb_batch explain CODE` has to print just that, without back
quotes; and a document in back quotes has to be refused by this fault, or not by it. A second document
is read with the batch that the page shows above the first fault. With `--write` the texts of the
program and the library are made of the page; `rt fmt` lays them out.
"""

import argparse
import json
import os
import re
import subprocess
import sys
import tempfile
from dataclasses import dataclass

ROOT = os.path.dirname(os.path.dirname(os.path.realpath(__file__)))
sys.dont_write_bytecode = True
sys.path.append(os.path.join(ROOT, "tests"))

from support.program import add_program, ready

PAGE = os.path.join(ROOT, "docs", "faults.md")
TEXTS = os.path.join(ROOT, "crates", "odb_explain", "src", "faults.rt")
HEAD = """\
// Generated from docs/faults.md by tools/faults.py --write; do not edit.
//! The explanations of all faults, and of the causes by which an event may not come.

/// The explanations in the order of their codes. The first line of each has the code, the name and the places of its fault.
"""


@dataclass
class Fault:
    """A section of the page."""

    code: str
    name: str
    places: str
    meaning: str
    refused: str
    accepted: str

    @property
    def heading(self):
        return f"{self.code} {self.name} {self.places}"

    @property
    def printed(self):
        """What `explain` has to print."""
        return plain(f"{self.heading}\n{self.meaning}\nrefused: {self.refused}\naccepted: {self.accepted}\n")


def plain(text):
    return text.replace("`", "")


def read_fault(section):
    """The fault of a section, whose first line is its heading."""
    heading, _, body = section.partition("\n")
    title, _, places = heading.partition(", ")
    code, name = title.split(" ")
    paragraphs = body.strip().split("\n\n")
    items = dict(line[2:].split(": ", 1) for line in paragraphs[1].split("\n"))
    return Fault(code, name, places, paragraphs[0], items["refused"], items["accepted"])


def read_page():
    """The faults of the page, and its batch for second documents."""
    with open(PAGE, encoding="utf-8") as file:
        page = file.read()
    batch = re.search(r"```json\n(.*?)\n```", page, re.DOTALL)[1]
    sections = re.split(r"(?m)^### ", page)[1:]
    return [read_fault(re.split(r"(?m)^## ", section)[0]) for section in sections], batch


def literal(fault):
    """What `explain` prints of a fault as a string of the program, which ends without a line feed."""
    return f'r#"{fault.printed[:-1]}"#'


def write(faults):
    """Makes the texts of the program and the library."""
    with open(TEXTS, "w", encoding="utf-8") as file:
        file.write(f"{HEAD}pub const FAULTS: [&str; {len(faults)}] = [{', '.join(map(literal, faults))}];\n")


def call(binary, folder, *words):
    """What the program prints and its exit status."""
    done = subprocess.run([binary, *words], cwd=folder, capture_output=True, text=True, timeout=60)
    return done.stdout, done.returncode


def command_for(fault, document):
    """The command that reads a document of this fault, with the options that the fault needs."""
    if fault.code == "F07":
        return ["replay", "--lines", "document"]
    second = next(iter(json.loads(document)), "") if not fault.code.startswith("F0") else ""
    if second == "outcomes":
        return ["replay", "batch", "document"]
    if second == "responses":
        return ["match", "batch", "document", *(["--strict"] if fault.code in ("F76", "F77", "F78") else [])]
    if second == "events":
        return ["run", "batch", "document", *(["--stop"] if fault.code == "S2" else [])]
    return ["canon" if fault.code == "F50" else "check", "document"]


def verdict(binary, batch, fault, document):
    """What the program prints of this document, and its exit status."""
    with tempfile.TemporaryDirectory(prefix="faults-") as folder:
        for name, text in (("batch", batch), ("document", document)):
            with open(os.path.join(folder, name), "w", encoding="utf-8") as file:
                file.write(text)
        return call(binary, folder, *command_for(fault, document))


def differences(binary, batch, fault):
    """How the program differs from this section of the page, a line each."""
    wanted = (fault.printed, 0)
    for word in (fault.code, fault.code.lower()):
        if call(binary, ROOT, "explain", word) != wanted:
            yield f"explain {word} prints something else"
    for word in (fault.name, fault.name.upper()):
        if fault.printed not in call(binary, ROOT, "explain", word)[0]:
            yield f"explain {word} does not print it"
    for text, wanted, status in ((fault.refused, f"fault {fault.code} {fault.name} ", 1), (fault.accepted, "", 0)):
        document = re.fullmatch(r"`([{\[].*)`", text)
        if document:
            out, ended = verdict(binary, batch, fault, document[1])
            if ended != status or not out.startswith(wanted):
                yield f"of {document[1]} the program prints {out}"


def main():
    parser = argparse.ArgumentParser(description="Compares docs/faults.md with the program.")
    add_program(parser.add_argument)
    parser.add_argument("--write", action="store_true", help="make the texts of the program")
    options = parser.parse_args()
    faults, batch = read_page()
    if options.write:
        return write(faults)
    binary = ready(options.program)
    table = "".join(it.heading + "\n" for it in faults)
    found = [] if call(binary, ROOT, "explain") == (table, 0) else ["explain: the table differs from the page"]
    found += [f"{it.code} {it.name}: {line}" for it in faults for line in differences(binary, batch, it)]
    print(*found, sep="\n", end="\n" if found else "")
    print(f"docs/faults.md: {len(faults)} faults, {len(found)} differences")
    return 1 if found else 0


if __name__ == "__main__":
    sys.exit(main())
