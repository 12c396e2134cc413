"""Runs a program for many worked cases by one start of the emulator that it needs, which takes longer to start than a case:
tests/library/forks.c starts the program as often."""

import os
import subprocess

from . import cases, pages

SECONDS = 600


def path(folder, at, name):
    return os.path.join(folder, f"{at}.{name}")


def write_case(run, folder, at):
    """Writes what a case is started with, where forks.c looks for it."""
    inside = os.path.join(folder, str(at))
    os.mkdir(inside)
    cases.write_files(run, inside)
    arguments = b"".join(it + b"\0" for it in [b"odb_batch", *run.arguments])
    for name, data in (("input", pages.joined(run.input)), ("words", arguments)):
        with open(path(folder, at, name), "wb") as file:
            file.write(data)


def read(folder, at, name):
    with open(path(folder, at, name), "rb") as file:
        return file.read()


def tried(runs, runner, library, program, folder):
    """What a program does otherwise than cases show, a line each; the library is forks.c."""
    runs = sorted(runs, key=lambda it: len(it.arguments))
    for at, it in enumerate(runs):
        write_case(it, folder, at)
    told = {"LD_PRELOAD": library, "CASES": folder, "COUNT": len(runs)}
    words = [word for name, value in told.items() for word in ("-E", f"{name}={value}")]
    subprocess.run([*runner, *words, program], check=True, timeout=SECONDS)
    return [
        f"{it.name}: {line}"
        for at, it in enumerate(runs)
        for line in cases.differences(it, read(folder, at, "output"), read(folder, at, "errors"), int(read(folder, at, "status")))
    ]
