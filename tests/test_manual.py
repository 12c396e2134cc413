"""The manual page has to be the one that the help of each command makes, line by line.

That page is put together here: its sections in order, each command with the use, the arguments and the options that
its `--help` lists, a `\\-` for each hyphen, in brackets what may be left out, and the exit statuses. `groff` finds
nothing to warn of, and sets each section and each exit status. Each planted mistake has to be found.
"""

import re
import subprocess

import pytest

from support.helps import read_helps

PAGE = """\
.TH ODB_BATCH 1
.SH NAME
odb_batch \\- check, plan and replay OData JSON batch requests
.SH SYNOPSIS
.B odb_batch
[COMMAND] [ARGUMENTS]
.SH DESCRIPTION
{about}
.SH OPTIONS
{options}
.SH COMMANDS
A refused document is reported by one line: the code, the name and the place of its first fault.
{commands}
.SH EXIT STATUS
Exit status: 0 for a result, 1 for a fault of a document, 2 for wrong arguments, \
3 if a file or the output fails, 4 if out of memory
"""

# What a reader has to find in the page as it is set, in this order: before the commands, and after them.
SET_BEFORE = ["NAME", "SYNOPSIS", "DESCRIPTION", "OPTIONS", "COMMANDS"]
SET_AFTER = [
    "EXIT STATUS",
    "0 for a result",
    "1 for a fault",
    "2 for wrong arguments",
    "3 if a file or the output fails",
    "4 if out of memory",
]

# What a page may have wrong: a title, and what makes such a page of the right one.
MISTAKES = {
    "no exit statuses": lambda page: page.partition(".SH EXIT STATUS")[0],
    "no status for memory": lambda page: page.replace(", 4 if out of memory", ""),
    "bare hyphens": lambda page: page.replace("\\-", "-"),
    "options as demanded": lambda page: re.sub(r"\[(\\-\\-.*?)\]", r"\1", page),
    "arguments as optional": lambda page: page.replace(".SS completions SHELL", ".SS completions [SHELL]"),
    "the values of an option left out": lambda page: page.replace("One of: first last wide\n", ""),
    "an option without a short name": lambda page: page.replace(".B \\-V, ", ".B "),
    "an option without its value": lambda page: page.replace(".B \\-\\-width N", ".B \\-\\-width"),
    "an argument that is not repeated": lambda page: page.replace("[CODE ..]", "[CODE]"),
    "sections in another order": lambda page: page.replace(".SH NAME", ".SH SYNOPSIS", 1),
    "a paragraph without a tag": lambda page: page.replace(".TP\n.B FILE", ".B FILE", 1),
}


def roff(words):
    """A text as the page has it, in which a hyphen stays a hyphen."""
    return words.replace("\\", "\\e").replace("-", "\\-")


def described(item):
    """The paragraph of an option or an argument."""
    name = " ".join(filter(None, [", ".join(item.names), item.value]))
    values = [f"One of: {roff(' '.join(item.values))}"] if item.values else []
    return "\n".join([".TP", f".B {roff(name)}", roff(item.about), *values])


def used(item):
    """An argument or an option in the heading of its command: in brackets unless it is demanded."""
    name = f"{item.long} {item.value}".strip() if item.names else item.value
    name += " .." if item.repeated else ""
    return name if item.demanded else f"[{name}]"


def heading(name, command):
    """The heading of a command. It leaves out the help option, which each command has."""
    items = command.arguments + command.options
    return " ".join([name, *(used(item) for item in items if "--help" not in item.names)])


def section(name, command):
    """The section of a command."""
    items = command.arguments + command.options
    return "\n".join([f".SS {roff(heading(name, command))}", roff(command.about), *map(described, items)])


def page_of(program, commands):
    """The page that belongs to the help."""
    return PAGE.format(
        about=roff(program.about),
        options="\n".join(map(described, program.options)),
        commands="\n".join(section(name, command) for name, command in commands.items()),
    )


def test_page(texts):
    assert texts.text("man").splitlines() == page_of(*read_helps(texts)).splitlines()


@pytest.mark.needs("groff")
def test_groff(texts):
    words = ["groff", "-man", "-Tascii", "-P-cbou", "-rLL=100n", "-ww"]
    done = subprocess.run(words, input=texts.text("man"), capture_output=True, text=True)
    assert (done.returncode, done.stderr) == (0, "")
    rest = " ".join(done.stdout.split())
    headings = [heading(*it) for it in read_helps(texts)[1].items()]
    for wanted in [*SET_BEFORE, *headings, *SET_AFTER]:
        _, found, rest = rest.partition(wanted)
        assert found, f"groff does not set {wanted!r}, or not there"


@pytest.mark.parametrize("title", MISTAKES)
def test_mistake(texts, title):
    page = texts.text("man")
    changed = MISTAKES[title](page)
    assert changed != page, "the planted mistake changes nothing"
    assert changed.splitlines() != page_of(*read_helps(texts)).splitlines(), "the planted mistake is not found"
