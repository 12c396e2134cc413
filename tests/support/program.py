"""Where the built program and the built library are, and whether they are older than their sources.

Nothing builds them in silence: a script or a test that needs one ends with a line if it is missing or older.
"""

import os
import subprocess
import sys

ROOT = os.path.dirname(os.path.dirname(os.path.dirname(os.path.realpath(__file__))))
TESTS = os.path.join(ROOT, "tests")
CRATES = os.path.join(ROOT, "crates")
EXAMPLES = os.path.join(ROOT, "examples")
PROGRAM = os.path.join(CRATES, "odb_batch", "out", "odb_batch")
LIBRARY = os.path.join(ROOT, "dist", "library")
SHARED = "libodb_batch.so.0"
WASM = os.path.join(ROOT, "dist", "wasm")
# Where the tests keep modules of Python that are compiled, beside no source.
COMPILED = os.path.join(ROOT, "dist", "compiled")
MODULE, MODULE32 = "odb_batch.wasm", "odb_batch32.wasm"


def sources(top):
    """The files that a crate and those below it are made of."""
    yield os.path.join(ROOT, "crates.txt")
    for crate in subprocess.check_output([os.path.join(ROOT, "bin", "crates"), top], text=True).split():
        for part in ("src", "specs", "proofs"):
            for folder, _, names in os.walk(os.path.join(CRATES, crate, part)):
                yield from (os.path.join(folder, name) for name in names)


def older_than(made, top):
    """A source of a crate that is newer than what was made of it, in words; or nothing."""
    built = os.stat(made).st_mtime_ns
    newer = next((path for path in sources(top) if os.stat(path).st_mtime_ns > built), None)
    return newer and f"is older than its sources, as {os.path.relpath(newer, ROOT)}"


def program_fault(path):
    """Why a program cannot be tested, in a line; or nothing."""
    if not (os.path.isfile(path) and os.access(path, os.X_OK)):
        return f"{path} is not there; run bin/odb_batch first, which builds it"
    older = older_than(path, "odb_batch") if path == PROGRAM else None
    return older and f"the program {older}; run bin/odb_batch first, which builds it"


def fault_in(folder, usual, file, what, tool):
    """Why what a tool writes to a folder cannot be tested, in a line; or nothing."""
    how = f"run bin/{tool} {os.path.relpath(folder, ROOT) if folder == usual else folder} first, which builds it"
    path = os.path.join(folder, file)
    if not os.path.exists(path):
        return f"{folder} has no {what}; {how}"
    older = older_than(path, "odb_ffi") if folder == usual else None
    return older and f"the {what} {older}; {how}"


def library_fault(folder):
    """Why the library in a folder cannot be tested, in a line; or nothing."""
    return fault_in(folder, LIBRARY, SHARED, "library", "odb_library")


def wasm_fault(folder):
    """Why the WebAssembly modules in a folder cannot be tested, in a line; or nothing."""
    return fault_in(folder, WASM, MODULE32, "module", "odb_wasm")


# What tests may need that is built here: where it is, and what finds a fault of it.
BUILT = {"program": (PROGRAM, program_fault), "library": (LIBRARY, library_fault), "wasm": (WASM, wasm_fault)}


def place_of(config, name):
    """The path of what a run of pytest tests: what the option names, or what is built here."""
    return os.path.abspath(config.getoption(name) or BUILT[name][0])


def add_program(option):
    """Adds the option `--program` to a script."""
    option("--program", default=PROGRAM, metavar="PATH", help="the program; else the one built here")


def ready(path):
    """The absolute path of a program; ends the script if it cannot be tested."""
    path = os.path.abspath(path)
    fault = program_fault(path)
    if fault:
        sys.exit(fault)
    return path
