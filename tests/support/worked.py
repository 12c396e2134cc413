"""The worked cases that need documents alone, as calls of the library.

Such a case calls a command over a batch with files that it has, and options that a call has too; the others are about the
command line and devices.
"""

import os

from . import pages
from .program import ROOT

# The commands that are calls, and how many documents each takes.
DOCUMENTS = {"check": 1, "plan": 1, "canon": 1, "match": 2, "run": 2, "replay": 2, "rest": 2}
OPTIONS = {"--order": "order", "--width": "width"}
FLAGS = {
    "--stop": ("mode", "stop"), "--trace": ("trace", True), "--json": ("form", "json"),
    "--strict": ("strict", True), "--units": ("strict", "units"),
}  # fmt: skip


def options_of(words):
    """The files and the options of a command line, or None where a call has no such option."""
    files, options, rest = [], {}, iter(words)
    for word in rest:
        name, is_joined, value = word.partition("=")
        if word in FLAGS:
            key, value = FLAGS[word]
        elif name in OPTIONS:
            key, value = OPTIONS[name], value if is_joined else next(rest, "")
        elif word.startswith("-"):
            return None
        else:
            files.append(word)
            continue
        options[key] = int(value) if key == "width" and value.isdigit() else value
    return files, options


class Call:
    """A case as a call: its documents are made where it is called."""

    def __init__(self, case, files, options):
        self.case, self.files, self.options, self.command = case, files, options, case.command

    @property
    def documents(self):
        return [pages.joined(self.case.documents[it]) for it in self.files]

    @property
    def wanted(self):
        return pages.joined(self.case.out)


def call_of(case):
    """The call of a case, or None where it needs more than documents."""
    if case.status not in (0, 1) or case.command not in DOCUMENTS:
        return None
    if case.arguments[:1] != [case.command.encode()]:
        return None
    if case.source or case.to or case.closed or case.memory or case.terminal:
        return None
    found = options_of([it.decode() for it in case.arguments[1:]])
    if not found or len(found[0]) != DOCUMENTS[case.command] or any(it not in case.documents for it in found[0]):
        return None
    return Call(case, *found)


CALLS = [it for it in map(call_of, pages.read_folder(os.path.join(ROOT, "tests", "cases"))) if it]
