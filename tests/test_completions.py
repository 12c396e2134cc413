"""What the completion scripts offer has to be what the help of each command lists.

Each line is completed by bash, zsh and fish themselves. What is offered has to be commands, options and values, with
the text of the help if the shell shows one, and files if a document may follow. Each planted mistake has to be found.
"""

import re
import subprocess
from dataclasses import dataclass
from typing import Callable

import pytest

from support import shells
from support.helps import read_helps
from support.shells import FILE, Unread

# Lines, each with what is offered for its last word.
LINES = [
    ("odb_batch ch", ["check"]),
    ("odb_batch re", ["replay", "rest"]),
    ("odb_batch --v", ["--version"]),
    ("odb_batch check ", [FILE]),
    ("odb_batch replay --or", ["--order"]),
    ("odb_batch replay --order ", ["first", "last", "wide"]),
    ("odb_batch replay batch outcomes --order w", ["wide"]),
    ("odb_batch replay --width ", []),
    ("odb_batch replay batch outcomes --width 1", []),
    ("odb_batch replay --stop ", [FILE]),
    ("odb_batch replay batch ", [FILE]),
    ("odb_batch match batch ", [FILE]),
    ("odb_batch run --wi", ["--width"]),
    ("odb_batch run --q", ["--quiet"]),
    ("odb_batch run --width ", []),
    ("odb_batch run batch events --st", ["--stop"]),
    ("odb_batch run batch ", [FILE]),
    ("odb_batch completions ", ["bash", "zsh", "fish"]),
    ("odb_batch help can", ["canon"]),
]


@dataclass
class Shell:
    """How a shell checks a script and completes lines by it, and for what it shows a text beside the word."""

    syntax: list
    offers: Callable
    shows: tuple


SHELLS = {
    "bash": Shell(["bash", "-n"], shells.by_bash, ()),
    "zsh": Shell(["zsh", "-n"], shells.by_zsh, ("command",)),
    "fish": Shell(["fish", "--no-execute"], shells.by_fish, ("command", "option")),
}


def without(words):
    return lambda script: script.replace(words, "", 1)


# What a script may have wrong: its shell, a title, and what makes such a script of the right one.
MISTAKES = [
    ("bash", "files for a width", without(" compopt +o default")),
    ("bash", "no files after a command", without("-o default ")),
    ("bash", "an order left out", without(" wide")),
    ("bash", "an option left out", without(" --stop")),
    ("bash", "a short option left out", without(" -q")),
    ("bash", "a command left out", without(" canon")),
    ("bash", "the orders after each option", lambda script: script.replace(" replay --order'", " replay --'*")),
    ("zsh", "no texts", lambda script: re.sub(r"(?m)^( +\w+:)'.*'$", r"\1", script)),
    ("zsh", "files for a width", lambda script: re.sub(r"(?m)^ +'\w+ --width'.*\n", "", script)),
    ("zsh", "an order left out", without(" wide")),
    ("zsh", "no shells", without(" bash zsh fish")),
    ("zsh", "an option left out", without(" --stop")),
    ("fish", "no texts", lambda script: re.sub(r"(?m) -d '.*'$", "", script)),
    ("fish", "no texts of options", lambda script: re.sub(r"(?m)( -l .*) -d '.*'$", r"\1", script)),
    ("fish", "files for a width", lambda script: script.replace(" -l width -x", " -l width")),
    ("fish", "an order left out", without(" wide")),
    ("fish", "files beside the commands", lambda script: script.replace(" -f -a", " -a")),
    ("fish", "an option left out", without(" -l stop")),
    ("fish", "a short option left out", without(" -s q")),
]

each_shell = pytest.mark.parametrize("shell", [pytest.param(it, marks=pytest.mark.needs(it)) for it in SHELLS])
each_mistake = pytest.mark.parametrize(
    "shell, change",
    [pytest.param(it, change, id=f"{it}-{title}", marks=pytest.mark.needs(it)) for it, title, change in MISTAKES],
)


def offered(program, commands, words):
    """What the help lists for the last word of a line, each with its text, and what kind that is."""
    word, before = words[-1], words[-2]
    command = commands[words[1]] if len(words) > 2 else program
    values = {name: it.values for it in command.options if it.value for name in it.names}
    if len(words) > 2 and before in values:
        return "value", dict.fromkeys(values[before], "")
    if word.startswith("-"):
        return "option", {name: it.about for it in command.options for name in it.names}
    if len(words) == 2:
        return "command", {name: it.about for name, it in commands.items()}
    listed = [value for it in command.arguments for value in it.values]
    return "value", dict.fromkeys(listed or [FILE], "")


def lines_of(commands):
    """The lines above, and for each command its arguments, its options and their values."""
    lines = [line.split(" ") for line, _ in LINES] + [["odb_batch", word] for word in ("", "-", "--")]
    for name, command in commands.items():
        lines += [["odb_batch", name, word] for word in ("", "-", "--")]
        lines += [["odb_batch", name, it.long, ""] for it in command.options if it.value]
    return lines


def faults_of(texts, shell, script):
    """How what a shell offers by a script differs from what the help lists."""
    program, commands = read_helps(texts)
    lines = lines_of(commands)
    try:
        found = SHELLS[shell].offers(script, lines)
    except Unread as error:
        return [str(error)]
    faults = [] if len(found) == len(lines) else [f"it ends after {len(found)} of {len(lines)} lines"]
    for words, got in zip(lines, found):
        kind, wanted = offered(program, commands, words)
        wanted = shells.begun(wanted, words[-1])
        if kind not in SHELLS[shell].shows:
            wanted, got = dict.fromkeys(wanted, ""), dict.fromkeys(got, "")
        if got != wanted:
            faults.append(f"for {' '.join(words)!r} it offers {got}, and not {wanted}")
    return faults


@pytest.mark.parametrize("line, wanted", LINES)
def test_help(texts, line, wanted):
    """The help lists for the lines above what they say."""
    words = line.split(" ")
    assert list(shells.begun(offered(*read_helps(texts), words)[1], words[-1])) == wanted


@each_shell
def test_syntax(texts, shell):
    script = texts.text("completions", shell)
    done = subprocess.run(SHELLS[shell].syntax, input=script, capture_output=True, text=True)
    assert (done.returncode, done.stderr) == (0, "")


@each_shell
def test_script(texts, shell):
    assert faults_of(texts, shell, texts.text("completions", shell)) == []


@each_mistake
def test_mistake(texts, shell, change):
    script = texts.text("completions", shell)
    assert change(script) != script, "the planted mistake changes nothing"
    assert faults_of(texts, shell, change(script)), "the planted mistake is not found"
