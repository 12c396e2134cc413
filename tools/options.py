"""Compares the options that the help of each command lists with docs/command-line.md, the worked cases and the sources.

The table of commands of that page has each command and each option, and no other option. For each option of
each command there is a call in tests/cases/. `help` takes the commands that the program lists. And each
name of names.rt is in the table of the commands and is read from the command line, which has no name
of its own. The last line counts what was compared and what is missing.
"""

import argparse
import os
import re
import sys

ROOT = os.path.dirname(os.path.dirname(os.path.realpath(__file__)))
sys.dont_write_bytecode = True
sys.path.append(os.path.join(ROOT, "tests"))

from support import pages
from support.cases import CASES
from support.helps import Texts, read_helps
from support.program import add_program, ready

PAGE = "docs/command-line.md"
SOURCES = os.path.join(ROOT, "crates", "odb_cli", "src")
HEAD = "| command or option | what it prints or does |"


def table():
    """The lines of the table of commands."""
    with open(os.path.join(ROOT, PAGE), encoding="utf-8") as file:
        _, _, rest = file.read().partition(HEAD + "\n")
    return rest.partition("\n\n")[0].splitlines()[1:]


def words_of(line):
    """The words in back quotes in the first column of a line, of which a `\\|` ends none."""
    first = re.split(r"(?<!\\)\|", line)[1]
    return [word for quoted in re.findall("`([^`]*)`", first) for word in quoted.split()]


def page_faults(program, commands):
    """The commands and options that the table leaves out, and those that it has alone."""
    shown = {word for line in table() for word in words_of(line)}
    of_all = [program, *commands.values()]
    listed = {name for help_ in of_all for option in help_.options for name in option.names} | set(commands)
    long = {option.long for help_ in of_all for option in help_.options} | set(commands)
    for name in sorted(long - shown):
        yield f"{PAGE}: the table of commands has no {name}"
    for name in sorted(word for word in shown - listed if word.startswith("-")):
        yield f"{PAGE}: {name} is not an option of any command"


def given(command):
    """The options that the cases give to a command."""
    found = set()
    for run in pages.read_folder(CASES):
        words = [word.decode(errors="replace") for word in run.arguments]
        if run.command == command and words[:1] == [command]:
            found |= {word.partition("=")[0] for word in words[1:] if word.startswith("-")}
    return found


def case_faults(commands):
    """The options of a command that no case gives, by any of their names."""
    for name, help_ in commands.items():
        missing = [option for option in help_.options if not set(option.names) & given(name)]
        for option in missing:
            yield f"tests/cases: no call of {name} has {option.long}"


def name_faults(commands):
    """A difference between the commands that `help` takes and those that the program lists."""
    taken = commands["help"].arguments[0].values
    if taken != list(commands):
        yield f"help takes {', '.join(taken)}; the program lists {', '.join(commands)}"


def source(name):
    with open(os.path.join(SOURCES, name), encoding="utf-8") as file:
        return file.read()


def source_faults():
    """The names that the table of the commands or what reads the command line leaves out, and those written anew."""
    table_of_commands, command_line = source("commands.rt"), source("command_line.rt")
    readers = command_line + source("completions.rt")
    for name in re.findall(r"pub const (\w+): &str", source("names.rt")):
        if not re.search(rf"names::{name}\b", table_of_commands):
            yield f"commands.rt: nothing is called names::{name}"
        if not re.search(rf"names::{name}\b", readers):
            yield f"command_line.rt: names::{name} is not read"
    for literal in re.findall(r'get_\w+\("[^"]*"\)', command_line):
        yield f"command_line.rt: {literal} is no name of names.rt"


def main():
    parser = argparse.ArgumentParser(description="Compares the options of the help with docs/command-line.md and the cases.")
    add_program(parser.add_argument)
    program, commands = read_helps(Texts(ready(parser.parse_args().program)))
    found = [*page_faults(program, commands), *case_faults(commands), *name_faults(commands), *source_faults()]
    print(*found, sep="\n", end="\n" if found else "")
    count = sum(len(it.options) for it in commands.values())
    print(f"{len(commands)} commands, {count} options, {len(found)} missing")
    return 1 if found else 0


if __name__ == "__main__":
    sys.exit(main())
