"""The pages and examples of the archives of a release."""

import os
import re
import textwrap

ROOT = os.path.dirname(os.path.dirname(os.path.realpath(__file__)))

# The folders of the repository of which the archive has the files, and pages of the packages. Tests are left out.
SHIPPED_FOLDERS = (
    "docs", "docs/schemas", "examples", "examples/frameworks", "examples/gateway", "examples/service", "examples/tutorial",
)  # fmt: skip
PICTURES = "docs/pictures"
SHIPPED_FILES = (
    "README.md", "CHANGELOG.md", "SECURITY.md", "python/README.md", "node/README.md", "node/client.d.ts",
    "node/index.d.ts", "node/middleware.d.ts", "node/perform.d.ts",
)  # fmt: skip

# What the pages name and the repository alone has.
OF_REPOSITORY = (
    ".ci/", "bench/", "bin/building.sh", "bin/crates", "bin/odb_library", "bin/odb_page", "bin/odb_program", "bin/odb_wasm", "bin/release",
    "crates/", "dotnet/compile", "examples/service/tests/", "go/", "java/compile", "java/src/", "node/bundle", "node/compile", "node/http/",
    "node/library/wasm.js", "node/middleware/", "node/perform/", "node/test/", "page/", "ports/", "python/odb_batch/", "python/tests/",
    "tests/", "tools/", "wasm/",
)  # fmt: skip

# A paragraph of README.md in the archive.
ABOUT_PAGES = """\
The pages of this archive are those of the repository. Their commands run in the folder of this page, `share/doc/odb_batch`, which
has a link to the program on Linux. Those of Python need the package that `pip install --no-index python/*.whl` installs at the top
of the archive. The repository alone has {names}.
"""

PROVED = """\
# What is proved of odb_batch {version}

Made of the commit `{commit}`{changes}
by `{kit}`. The program and the libraries were proved before they were built: every function of
every crate that they consist of. The packages for Python, Node, C#, Java and Go, the inline functions of the header and
the packing are tested alone. {where}

## Proved

The prover shows of every function that it is safe and, if the caller's readers, writers, choosers and services do,
returns, without a panic or an overflow, on any bytes and with readers and writers that fail. Unless memory runs out:

{promises}

[docs/guarantees.md](docs/guarantees.md) has each promise in full, with the call whose contract carries it.

## Not proved

{unproved}

## Trusted

{trusted}

## Tested

{tested}The command line, exit statuses and messages by worked cases; all commands by random documents against plain rules, by
documents that are cut or as long as the program takes, and against each other; allocations that fail, one by one and
all; names that crowd the tables; the calls of the library under the sanitizers of the C compiler and valgrind; the
packages on the worked cases; and this archive, unpacked by another user. That the prover refuses
wrong bodies is tested by {edits} of them.
"""


def read(*path):
    with open(os.path.join(ROOT, *path), encoding="utf-8") as file:
        return file.read()


def shipped(path, text, pages):
    """A page, with links to pages of the archive alone; lines that name cases of the repository are left out."""

    def link(it):
        target = os.path.normpath(os.path.join(os.path.dirname(path), it[2]))
        return it[0] if "://" in it[2] or target in pages else it[1]

    text = re.sub(r"\n*^Cases: \[.*(?:\n.+)*$", "", text, flags=re.MULTILINE)
    return re.sub(r"\[([^\]]*)\]\(([^)#\s]+)(?:#[^)\s]*)?\)", link, text)


def section(text, title):
    return re.search(rf"(?ms)^## {title}\n(.*?)(?=^## |\Z)", text)[1]


def paragraph(text):
    """A text as a paragraph of its own."""
    return textwrap.fill(text[0].upper() + text[1:], 120, break_long_words=False, break_on_hyphens=False)


def proved(**facts):
    """The page on what is proved: the promises and the sentences of README.md, and what this archive is made of."""
    part = section(read("README.md"), "What is proved")
    found = re.search(r"(?s)\n(1\. .*?)\n\n.*?Not proved: (.*?)\sTrusted: (.*?)\n\Z", part)
    if not found:
        raise SystemExit("README.md does not say what is proved, not proved and trusted as before")
    promises, unproved, trusted = (it.strip() for it in found.groups())
    edits = sum(name.endswith(".edit") for _, _, names in os.walk(os.path.join(ROOT, "crates")) for name in names)
    return PROVED.format(
        promises=promises, unproved=paragraph(unproved), trusted=paragraph(trusted), edits=edits, **facts
    )


def with_note(page):
    """README.md with a paragraph on what its pages name, before its first section."""
    *names, last = (f"`{it}`" for it in OF_REPOSITORY)
    note = textwrap.fill(ABOUT_PAGES.format(names=f"{', '.join(names)} and {last}"), 120, break_on_hyphens=False)
    begin = page.index("\n## ")
    return f"{page[:begin]}\n{note}\n{page[begin:]}"


def shipped_files():
    """The files of the repository that the archive has as they are, or as pages."""
    yield from SHIPPED_FILES
    for folder in SHIPPED_FOLDERS:
        yield from (f"{folder}/{it.name}" for it in os.scandir(os.path.join(ROOT, folder)) if it.is_file())


def pictures():
    """The pictures of the pages, by their paths."""
    found = {}
    for it in os.scandir(os.path.join(ROOT, PICTURES)):
        with open(it.path, "rb") as file:
            found[f"{PICTURES}/{it.name}"] = file.read()
    return found


def pages_of(facts):
    """The bytes of the pages with their pictures, the examples and the service, by their paths. PROVED.md has these facts."""
    texts, others = {name: read(name) for name in shipped_files()}, pictures()
    texts["README.md"] = with_note(texts["README.md"])
    texts["PROVED.md"] = proved(**facts)
    pages = {*texts, *SHIPPED_FOLDERS, *others}
    made = {name: shipped(name, text, pages) if name.endswith(".md") else text for name, text in texts.items()}
    return {**{name: text.encode() for name, text in made.items()}, **others}
