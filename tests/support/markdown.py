"""Pages of the repository, and the blocks of code in them."""

import os
from typing import NamedTuple

from .program import ROOT


class Block(NamedTuple):
    """A block of code.

    Attributes:
        kind: The word after its first fence, as `python`.
        line: The number of its first line.
        lines: What is between its fences.
    """

    kind: str
    line: int
    lines: list


def text_of(*names):
    """Returns the text of a file of the repository."""
    with open(os.path.join(ROOT, *names), encoding="utf-8") as file:
        return file.read()


def blocks_of(text):
    """Returns all blocks of a page."""
    found, inside = [], False
    for number, line in enumerate(text.splitlines(), 1):
        if line.startswith("```"):
            inside = not inside
            if inside:
                found.append(Block(line[3:], number + 1, []))
        elif inside:
            found[-1].lines.append(line)
    return found


def blocks(text, kind):
    """Returns the texts of the blocks of one kind."""
    return ["".join(f"{line}\n" for line in it.lines) for it in blocks_of(text) if it.kind == kind]
