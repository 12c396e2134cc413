"""What the help of each command lists: what the manual page and the completions have to agree with."""

import re
import subprocess
from dataclasses import dataclass, field

SECONDS = 60


class Texts:
    """What the program prints. Each text is asked for once."""

    def __init__(self, binary):
        self.binary, self.known = binary, {}

    def text(self, *words):
        """What the program prints, which has to end with status 0."""
        if words not in self.known:
            done = subprocess.run([self.binary, *words], capture_output=True, text=True, timeout=SECONDS)
            assert not done.returncode and not done.stderr, f"{words}: status {done.returncode}, {done.stderr}"
            self.known[words] = done.stdout
        return self.known[words]


@dataclass
class Item:
    """An option, or an argument, which has no names: what one line of the help says of it."""

    names: list
    value: str
    demanded: bool
    repeated: bool
    about: str
    values: list

    @property
    def long(self):
        return self.names[-1]


@dataclass
class Help:
    """The help of a command, or of the program, whose commands are listed."""

    about: str
    notes: str
    arguments: list = field(default_factory=list)
    options: list = field(default_factory=list)
    commands: dict = field(default_factory=dict)


def read_item(line):
    """The item of a line such as `      --order <ORDER>  What it is [possible values: a, b]`."""
    form, _, words = line.strip().partition("  ")
    about, _, values = words.strip().partition(" [possible values: ")
    return Item(
        names=re.findall(r"(?<!\S)--?[A-Za-z-]+", form.replace(",", " ")),
        value="".join(re.findall(r"[<\[](.*)[>\]]", form)),
        demanded=form.startswith("<"),
        repeated=form.endswith("..."),
        about=about,
        values=values.rstrip("]").split(", ") if values else [],
    )


def read_help(text):
    paragraphs = text.rstrip("\n").split("\n\n")
    found = Help(about=paragraphs[0], notes=paragraphs[-1])
    for paragraph in paragraphs:
        title, *lines = paragraph.split("\n")
        if title == "Commands:":
            found.commands = dict(re.split("  +", line.strip(), maxsplit=1) for line in lines)
        if title == "Arguments:":
            found.arguments = [read_item(line) for line in lines]
        if title == "Options:":
            found.options = [read_item(line) for line in lines]
    return found


def read_helps(texts):
    """The help of the program, and of each command by its name."""
    program = read_help(texts.text("--help"))
    return program, {name: read_help(texts.text(name, "--help")) for name in program.commands}
