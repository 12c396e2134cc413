"""Checks the examples that the docs of calls name: `python3 tools/call_examples.py`.

Above a public function stands ``Example: `NAME` in PATH.``, where PATH has a function NAME that calls it. The last line is
`N examples, M wrong`; the exit status is 1 if one is wrong.
"""

import glob
import os
import re
import sys

ROOT = os.path.dirname(os.path.dirname(os.path.realpath(__file__)))
EXAMPLE = re.compile(r"/// Example: `(\w+)` in (\S+)\.\n(?: *///.*\n| *#\[.*\n)* *pub fn (\w+)")
FUNCTION = re.compile(r"^ *(?:pub )?fn (\w+)", re.MULTILINE)


def read(path):
    with open(os.path.join(ROOT, path), encoding="utf-8") as file:
        return file.read()


def functions(text):
    """The functions of a file by their names, each with its text up to the next one."""
    starts = [(it.start(), it[1]) for it in FUNCTION.finditer(text)]
    ends = [at for at, _ in starts[1:]] + [len(text)]
    return {name: text[at:end] for (at, name), end in zip(starts, ends)}


def wrong(name, path, called):
    """What is wrong with an example, or nothing."""
    if not os.path.isfile(os.path.join(ROOT, path)):
        return f"there is no {path}"
    body = functions(read(path)).get(name)
    if body is None:
        return f"{path} has no function {name}"
    return "" if re.search(rf"\b{called}(?:::<.*?>)?\(", body) else f"{name} in {path} does not call it"


def main():
    count, faults = 0, 0
    for path in sorted(glob.glob(os.path.join(ROOT, "crates/*/src/**/*.rt"), recursive=True)):
        text = read(path)
        named = EXAMPLE.findall(text)
        count += len(named)
        whys = [(called, wrong(name, at, called)) for name, at, called in named]
        if len(named) != text.count("/// Example: "):
            whys.append(("a doc", "its example is not above a public function"))
        for called, why in whys:
            if why:
                print(f"{os.path.relpath(path, ROOT)}: {called}: {why}")
                faults += 1
    print(f"{count} examples, {faults} wrong")
    return 1 if faults or not count else 0


sys.exit(main())
