"""How many instructions a command takes, which valgrind's callgrind counts: any machine counts nearly the same."""

import os
import re

from .commands import run

# With these the C library fills and copies without `rep`, of which valgrind counts each byte as an instruction.
PLAIN = {"GLIBC_TUNABLES": ":".join(f"glibc.cpu.x86_rep_{it}_threshold={2**40}" for it in ("stosb", "movsb"))}
TOTALS = re.compile(r"(?m)^totals: (\d+)$")


def counts_of(folder, *words, env=None, options=()):
    """The path of what callgrind counts of a command, which has to succeed, and what the command prints."""
    counts = folder / "counts"
    counted = ("valgrind", "--tool=callgrind", f"--callgrind-out-file={counts}", *options, *words)
    return counts, run(*counted, env={**os.environ, **PLAIN, **(env or {})})


def total(counts):
    return int(TOTALS.search(counts.read_text(encoding="utf-8"))[1])


def instructions(folder, *words, env=None):
    """The instructions of a command, and what it prints."""
    counts, printed = counts_of(folder, *words, env=env)
    return total(counts), printed


def instructions_of_foreign_calls(folder, *words, env=None):
    """The instructions of each call that a command in Python makes of C by ctypes, in order, and what the command prints."""
    options = ("--toggle-collect=ffi_call", "--dump-after=ffi_call")
    counts, printed = counts_of(folder, *words, env=env, options=options)
    parts = sorted(folder.glob(f"{counts.name}.*"), key=lambda it: int(it.suffix[1:]))
    found = [total(it) for it in parts]
    for it in parts:
        it.unlink()
    return found, printed
