"""Compares the version that the file VERSION has with every other place that has it.

`--write` puts it into the sources, headers, packages and pages; CHANGELOG.md has to describe it by a
section, which is written by hand. With `--program` the program has to print it too. The last
line is `N places, M differ`.
"""

import argparse
import os
import re
import subprocess
import sys
from dataclasses import dataclass

ROOT = os.path.dirname(os.path.dirname(os.path.realpath(__file__)))
sys.dont_write_bytecode = True
sys.path.append(os.path.join(ROOT, "tests"))

from support.program import PROGRAM, ready

SOURCE = "VERSION"
EXPORT = "crates/odb_ffi/src/exports.rt"
HEADER = "include/odb_batch.h"


@dataclass
class Place:
    """A file, a pattern whose group is the version there, and the form in which it is written."""

    path: str
    pattern: str
    form: str = "{0}.{1}.{2}"

    def text(self):
        with open(os.path.join(ROOT, self.path), encoding="utf-8") as file:
            return file.read()

    def found(self):
        """The version at each place of the file."""
        return [it[1] for it in re.finditer(self.pattern, self.text(), re.MULTILINE)]

    def wanted(self, version):
        numbers = [int(it) for it in version.split(".")]
        return self.form.format(*numbers, number=numbers[0] * 10000 + numbers[1] * 100 + numbers[2])

    def write(self, version):
        def put(it):
            begin, end = it.span(1)
            return it[0][: begin - it.start()] + self.wanted(version) + it[0][end - it.start() :]

        text = re.sub(self.pattern, put, self.text(), flags=re.MULTILINE)
        with open(os.path.join(ROOT, self.path), "w", encoding="utf-8") as file:
            file.write(text)


PLACES = [
    Place("crates/odb_cli/src/commands.rt", r'const VERSION: &str = "(.*)";'),
    Place(EXPORT, r"fn odb_version\(\) -> u32\s+ensures \{ result ≡ (\d+) \}", "{number}"),
    Place(EXPORT, r"fn odb_version\(\) -> u32\s+ensures [^\n]*\n\{\s+(\d+)\s+\}", "{number}"),
    Place(HEADER, r"#define ODB_VERSION_MAJOR (\d+)", "{0}"),
    Place(HEADER, r"#define ODB_VERSION_MINOR (\d+)", "{1}"),
    Place(HEADER, r"#define ODB_VERSION_PATCH (\d+)", "{2}"),
    Place("python/pyproject.toml", r'^version = "(.*)"$'),
    Place("python/odb_batch/_native/library.py", r"^MAJOR, MINOR = (\d+, \d+)$", "{0}, {1}"),
    Place("node/package.json", r'^  "version": "(.*)",$'),
    Place("java/pom.xml", r"^  <version>(.*)</version>"),
    Place("java/src/main/java/odbbatch/OdbLibrary.java", r"MAJOR = (\d+, MINOR = \d+);", "{0}, MINOR = {1}"),
    Place("docs/java.md", r"odb_batch-(\d+\.\d+\.\d+)\."),
    Place("dotnet/src/Native.cs", r"const uint Major = (\d+, Minor = \d+);", "{0}, Minor = {1}"),
    Place("dotnet/OdbBatch.csproj", r"<Version>(.*)</Version>"),
    Place("dotnet/OdbBatch.nuspec", r"<version>(.*)</version>"),
    Place("docs/dotnet.md", r"OdbBatch\.(\d+\.\d+\.\d+)\.nupkg"),
    Place("docs/go.md", r"odb_batch-(\d+\.\d+\.\d+)-go"),
    Place("tests/cases/help.txt", r"^out odb_batch (\d\S*)$"),
    Place("README.md", r"odb_batch-(\d+\.\d+\.\d+)"),
]

# The newest version that the changes describe; above it there may be changes without a version.
CHANGES = Place("CHANGELOG.md", r"\A(?:(?!^## \[\d)[\s\S])*^## \[(\d[^\]]*)\]")


def read_version():
    """The version of this repository, MAJOR.MINOR.PATCH."""
    with open(os.path.join(ROOT, SOURCE), encoding="utf-8") as file:
        text = file.read()
    if not re.fullmatch(r"\d+\.\d?\d\.\d?\d\n", text):
        sys.exit(f"{SOURCE} has to be a line MAJOR.MINOR.PATCH, of which the last two are below 100")
    return text.strip()


def differences(version, program):
    """The places that have another version, or none, a line each."""
    for place in [*PLACES, CHANGES]:
        if set(place.found()) != {place.wanted(version)}:
            yield f"{place.path}: {place.found() or 'none'} and not {place.wanted(version)}, where {place.pattern}"
    if program:
        printed = subprocess.run([program, "--version"], capture_output=True, text=True, check=False, timeout=60).stdout
        if printed != f"odb_batch {version}\n":
            yield f"{program} prints {printed!r}"


def main():
    parser = argparse.ArgumentParser(description="Compares the version with every place that has it.")
    what = "a built program, which has to print the version; without PATH the one built here"
    parser.add_argument("--program", nargs="?", const=PROGRAM, metavar="PATH", help=what)
    parser.add_argument("--write", action="store_true", help="write it to every place but CHANGELOG.md")
    options = parser.parse_args()
    version = read_version()
    if options.write:
        for place in PLACES:
            place.write(version)
    found = list(differences(version, options.program and ready(options.program)))
    count = len(PLACES) + 1 + bool(options.program)
    print(*found, f"version {version}: {count} places, {len(found)} differ", sep="\n")
    return 1 if found else 0


if __name__ == "__main__":
    sys.exit(main())
