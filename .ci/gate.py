"""Runs what has to pass before a change lands, and reports the processor time of each part.

The parts are `rt ci` (the proofs, the tests, the must-fail edits), the program and the library if they are older, the
tools that compare what is written twice, the tests of what is built, and the short form of the benchmark, which compares
answers and judges no time. Parts that do not need each other run side by side, and what one prints is shown when it has
ended. A part runs even if one before it failed. The exit status is 0 if all of them pass. The arguments are packages that
are not installed, which a line at the end names.
"""

import os
import shutil
import subprocess
import sys
import time
from concurrent.futures import ThreadPoolExecutor
from dataclasses import dataclass

ROOT = os.path.dirname(os.path.dirname(os.path.realpath(__file__)))

# What the tests import, each with its package for Debian.
MODULES = {
    "pytest": "python3-pytest",
    "xdist": "python3-pytest-xdist",
    "hypothesis": "python3-hypothesis",
    "jsonschema": "python3-jsonschema",
}

# Parts that need a tool, and are left out where that is not installed.
TOOLS = {"aarch64-linux": "aarch64-linux-gnu-gcc", "x86_64-windows": "x86_64-w64-mingw32-gcc"}


def build_for(target, what):
    """Returns the part that builds the library or the program for another system."""
    return (f"the {what} for {target}, if it is older", [f"bin/odb_{what}", "--target", target, f"dist/{target}"])


# What is built after `rt ci`, by two lists that run side by side: a title and a command. In each the first proves and
# builds a crate, of which the others are made.
BUILDS = [
    [
        ("the program, if it is older", ["bin/odb_batch", "--version"]),
        build_for("aarch64-linux", "program"),
        build_for("x86_64-windows", "program"),
    ],
    [
        ("the library, if it is older", ["bin/odb_library", "dist/library"]),
        ("the WebAssembly modules, if they are older", ["bin/odb_wasm", "dist/wasm"]),
        ("the page", ["bin/odb_page", "dist/wasm"]),
        build_for("aarch64-linux", "library"),
        build_for("x86_64-windows", "library"),
        ("the objects for macOS, if they are older", ["bin/odb_library", "--target", "macos", "dist/macos"]),
    ],
]

# What compares texts that are written twice: a title, and what follows `python3`.
COMPARISONS = [
    ("versions", ["tools/version.py", "--program"]),
    ("the places of the faults", ["tools/places.py"]),
    ("the questions of the edits", ["tools/edits.py"]),
    ("commands and excerpts of pages", ["tools/readme.py"]),
    ("options in docs and in cases", ["tools/options.py"]),
    ("examples of calls", ["tools/call_examples.py"]),
    ("docs/faults.md", ["tools/faults.py"]),
]

# What is run side by side over all of that: a title, what follows `python3`, and when what it prints is shown.
LAST = [
    ("the tests", f"-m pytest -n {os.cpu_count()} -q --hypothesis-profile gate --durations 10".split(), "as it comes"),
    ("the short benchmark", ["bench/bench.py", "--short"], "if it fails"),
]


def lacking(python):
    """The packages of the modules that a Python lacks; all, if it cannot be run."""
    ask = "import importlib.util as it, sys; print(*(name for name in sys.argv[1:] if not it.find_spec(name)))"
    try:
        done = subprocess.run([python, "-c", ask, *MODULES], capture_output=True, text=True)
    except OSError:
        return list(MODULES.values())
    return list(MODULES.values()) if done.returncode else [MODULES[name] for name in done.stdout.split()]


def python_of_tests():
    """A Python that has the modules; ends the gate with a line if there is none."""
    pythons = (sys.executable, "/usr/bin/python3")
    found = next((it for it in pythons if not lacking(it)), None)
    return found or sys.exit(not_installed([*lacking(pythons[-1]), *sys.argv[1:]]))


def not_installed(packages):
    return f".ci/run: not installed: {', '.join(dict.fromkeys(packages))}"


@dataclass(frozen=True)
class Part:
    """A part that has ended; its processor time is in seconds."""

    title: str
    failed: bool
    seconds: float
    printed: str


def run(title, words, shown="at the end"):
    """Runs a part, and shows what it prints: as it comes, at the end, or only if it fails."""
    print(f"{title}: begun", flush=True)
    lines = []
    how = {"stdin": subprocess.DEVNULL, "stdout": subprocess.PIPE, "stderr": subprocess.STDOUT, "errors": "replace"}
    process = subprocess.Popen(words, text=True, **how)
    for line in process.stdout:
        lines.append(line)
        if shown == "as it comes":
            print(line, end="", flush=True)
    _, status, used = os.wait4(process.pid, 0)
    process.returncode = os.waitstatus_to_exitcode(status)
    part = Part(title, status != 0, used.ru_utime + used.ru_stime, "".join(lines))
    is_shown = shown == "at the end" or part.failed and shown == "if it fails"
    print(f"{title}: {'FAILED' if part.failed else 'passed'}\n{part.printed if is_shown else ''}", end="", flush=True)
    return part


def tool_of(words):
    """Returns the tool that a part needs and that is not installed, if there is one."""
    tool = next((TOOLS[word] for word in words if word in TOOLS), None)
    return tool if tool and not shutil.which(tool) else None


def build(parts):
    """Runs parts one after another, but for those that lack their tool."""
    ended = []
    for title, words in parts:
        tool = tool_of(words)
        if tool:
            print(f"{title}: skipped: {tool} is not installed", flush=True)
        else:
            ended.append(run(title, words))
    return ended


def main():
    os.chdir(ROOT)
    python, begun = python_of_tests(), time.monotonic()
    parts = [run("rt ci", ["rt", "ci"], "as it comes")]
    with ThreadPoolExecutor(os.cpu_count()) as pool:
        parts += [part for ended in pool.map(build, BUILDS) for part in ended]
        parts += pool.map(lambda each: run(each[0], [python, *each[1]]), COMPARISONS)
        parts += pool.map(lambda each: run(each[0], [python, *each[1]], each[2]), LAST)
    print("processor minutes:")
    for part in parts:
        print(f"  {part.title:48}{part.seconds / 60:7.1f}")
    print(f"  {'all':48}{sum(part.seconds for part in parts) / 60:7.1f}")
    print(f"minutes by the clock:{(time.monotonic() - begun) / 60:36.1f}")
    print("rt ci:", *parts[0].printed.splitlines()[-3:], sep="\n")
    if sys.argv[1:]:
        print(not_installed(sys.argv[1:]))
    failed = [part.title for part in parts if part.failed]
    print(f"failed: {', '.join(failed)}" if failed else "all passed")
    return 1 if failed else 0


sys.exit(main())
