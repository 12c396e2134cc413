"""Compares the blocks of pages with the repository.

In a block that begins ```console, a line that begins with `$ ` is a command, and the lines up to the
next command or the end of the block are what it prints, on standard output and standard error.
Commands run by bash at the top of the repository; one that ends with ` &` is a server, which runs until
the end of its page, and the next command waits until it answers. Where one calls bin/odb_batch, the program
has to be built, since that would build it in silence here. Where one calls python3, that is this Python, it finds
the package, and the library has to be built, or named by ODB_BATCH_LIBRARY. A block that begins ```rust
or ```python begins with a comment that names a file, as `// crates/NAME/src/tests.rt` or
`# examples/NAME.py`, and shows lines of that file: what follows the comment has to appear there word for
word, but for an indent that all its lines have there. So has a block that begins ```diff, without its lines that
begin with `-`. A block that begins ```sh is run as a whole, and has to end with status 0; if the paragraph below it
says that the last line is `TEXT`, it has to print that last. Any other block needs a test in TESTED. Without an
argument it reads PAGES.
"""

import contextlib
import importlib.util
import os
import re
import socket
import subprocess
import sys
import textwrap
import time

ROOT = os.path.dirname(os.path.dirname(os.path.realpath(__file__)))
PAGES = (
    "README.md",
    "docs/client.md",
    "docs/command-line.md",
    "docs/conformance.md",
    "docs/deploy.md",
    "docs/gateway.md",
    "docs/library.md",
    "docs/scale.md",
    "docs/service.md",
    "docs/testing.md",
    "docs/tutorial.md",
    "examples/README.md",
)
DEPLOY, GATEWAY = "tests/frameworks/test_deploy.py::test_", "tests/gateway/test_page.py::test_"
SCALE, SERVICE = "tests/test_scale.py::test_", "examples/service/tests/test_pages.py::test_"
CONFORMANCE = "python/tests/conformance/test_page.py::test_the_commands_print_what_the_page_shows"
# The blocks that tests run or check: of each page how they begin, and the test.
TESTED = {
    "README.md": {".ci/run": "tests/test_gate.py::test_the_second_command_of_readme"},
    "docs/conformance.md": {
        "$ python3 -m odb_batch conformance http://localhost:8080/library/": CONFORMANCE,
        "$ python3 -m odb_batch conformance http://localhost:8080/library/ --set Books": CONFORMANCE,
        "import pytest": "python/tests/conformance/test_judge.py::test_the_tests_of_a_service",
    },
    "docs/deploy.md": {
        "# /opt/orders/gunicorn.conf.py": f"{DEPLOY}gunicorn_takes_its_configuration",
        "uvicorn --host": f"{DEPLOY}uvicorn_behind_nginx",
        "server {": f"{DEPLOY}a_service_behind_gunicorn_and_nginx",
        "    location /shop/ {": f"{DEPLOY}a_prefix_before_gunicorn",
        "from werkzeug.": f"{DEPLOY}a_prefix_before_gunicorn",
        "[Unit]": f"{DEPLOY}systemd_takes_the_unit_of_a_service",
        "apiVersion: apps/v1": f"{DEPLOY}kubernetes_waits_as_long_as_gunicorn",
    },
    "docs/gateway.md": {
        "PYTHONPATH=python python3 examples/service": f"{GATEWAY}the_commands_print_what_the_page_shows",
        "$ curl": f"{GATEWAY}the_commands_print_what_the_page_shows",
        "location ~ /": f"{GATEWAY}nginx_sends_batches_to_the_gateway",
        "terminationGracePeriodSeconds:": f"{GATEWAY}the_probes_of_the_page_are_answered",
        "listen = ": f"{GATEWAY}the_file_of_the_page_is_read",
        "from opentelemetry": f"{GATEWAY}the_hook_of_the_page_makes_spans",
        "$ sent=": f"{GATEWAY}the_commands_print_what_the_page_shows",
    },
    "docs/scale.md": {
        "$ odb_batch match --strict --lines": f"{SCALE}way",
        "parallel --pipe-part": f"{SCALE}way",
        "$ python3 examples/audit.py": f"{SCALE}audit",
    },
    "docs/service.md": {
        "bin/odb_library": f"{SERVICE}the_commands_of_the_page_answer_the_batch",
        "PYTHONPATH=python gunicorn": f"{SERVICE}gunicorn_by_the_command_of_the_page_answers_the_batch",
    },
}
# The comments that name a file, by the kind of their block.
NAMED = {"rust": r"// (\S+/\S+\.rt)", "python": r"# (\S+/\S+\.py)", "diff": r"# (\S+/\S+\.py)"}
sys.dont_write_bytecode = True
sys.path.append(os.path.join(ROOT, "tests"))

from support.markdown import blocks_of, text_of
from support.program import LIBRARY, PROGRAM, SHARED, library_fault, ready


def beginning(block):
    return block.lines[0] if block.lines else ""


def examples(blocks):
    """The commands of the blocks, each with its line number and the lines that it is to print."""
    found = []
    for block in blocks:
        commands = []
        for number, line in enumerate(block.lines, block.line):
            if line.startswith("$ "):
                commands.append((number, line[2:], []))
            elif commands:
                commands[-1][2].append(line)
        found += commands
    return found


def excerpts(blocks):
    """The blocks that show a file: line number, the file's path, or none, and its lines."""
    found = []
    for kind, number, lines in blocks:
        if kind == "diff":
            lines = [line[1:] for line in lines if not line.startswith("-")]
        named = re.fullmatch(NAMED[kind], lines[0]) if lines else None
        found.append((number, named[1] if named else None, lines[1:]))
    return found


def test_fault(test):
    """Why a test of TESTED does not stand for its block, in words; or nothing."""
    path, name = test.split("::")
    found = os.path.exists(os.path.join(ROOT, path)) and f"\ndef {name}(" in text_of(path)
    return None if found else f"there is no {test}"


def untested(path, blocks):
    """Splits the blocks of a page: those that TESTED does not name; and what is wrong with it, by lines of the page."""
    tests, rest, faults = dict(TESTED.get(path, {})), [], []
    for block in blocks:
        start = next((it for it in tests if beginning(block).startswith(it)), None)
        fault = None
        if start:
            fault = test_fault(tests.pop(start))
        elif block.kind in ("console", "sh", *NAMED):
            rest.append(block)
        else:
            fault = "nothing runs or checks this block: TESTED of tools/readme.py names no test"
        if fault:
            faults.append((block.line, fault))
    return rest, faults + [(1, f"there is no block that begins with {start}") for start in tests]


def stands_in(path, lines):
    """Whether a file is named and has these lines, one after another, with or without an indent."""
    if path is None:
        return False
    try:
        with open(os.path.join(ROOT, path), encoding="utf-8") as file:
            all_lines = file.read().splitlines()
    except OSError:
        return False
    starts, text = range(len(all_lines) - len(lines) + 1), "\n".join(lines)
    return bool(lines) and any(textwrap.dedent("\n".join(all_lines[i : i + len(lines)])) == text for i in starts)


def surroundings(commands):
    """The environment of the commands; ends the run if one needs the library, and that cannot be tested."""
    named = os.environ.get("ODB_BATCH_LIBRARY")
    if not named and any(command.startswith("python3 ") for command in commands):
        fault = library_fault(LIBRARY)
        if fault:
            sys.exit(fault)
    return {
        **os.environ,
        "ODB_BATCH_LIBRARY": named or os.path.join(LIBRARY, SHARED),
        "PATH": os.pathsep.join([os.path.dirname(sys.executable), os.environ["PATH"]]),
        "PYTHONPATH": os.path.join(ROOT, "python"),
    }


def run_server(command, page, environment):
    """Starts a server in the background, and waits until it answers at the port of localhost that the page names."""
    server = subprocess.Popen(["bash", "-c", "exec " + command[:-2]], cwd=ROOT, env=environment, start_new_session=True)
    port, end = int(re.search(r"localhost:(\d+)", page)[1]), time.monotonic() + 30
    while server.poll() is None and time.monotonic() < end:
        with contextlib.suppress(OSError), socket.create_connection(("localhost", port), timeout=1):
            break
        time.sleep(0.1)
    return server


def printed(command, environment):
    """The lines that a command prints."""
    run = subprocess.run(
        ["bash", "-c", command],
        cwd=ROOT,
        env=environment,
        stdin=subprocess.DEVNULL,
        stdout=subprocess.PIPE,
        stderr=subprocess.STDOUT,
        text=True,
    )
    return run.stdout.splitlines()


def last_line(page, block):
    """What the paragraph below a block says that its last line is; or nothing."""
    below = "\n".join(page.splitlines()[block.line + len(block.lines) :])
    named = re.search(r"last\s+line\s+is\s+`([^`]+)`", below.strip().partition("\n\n")[0])
    return named and named[1]


def script_fault(page, block):
    """What is wrong with a block that is run as a whole, in words; or nothing."""
    words = ["bash", "-e", "-c", "\n".join(block.lines)]
    more = {"stdin": subprocess.DEVNULL, "stdout": subprocess.PIPE, "stderr": subprocess.STDOUT, "text": True}
    done, wanted = subprocess.run(words, cwd=ROOT, env=surroundings(block.lines), **more), last_line(page, block)
    last = done.stdout.splitlines()[-1:]
    if done.returncode:
        return f"ends with status {done.returncode}: {done.stdout.strip()}"
    return f"last line shown: {wanted}; printed: {last}" if wanted and last != [wanted] else None


def count_differences(path, page, cases):
    """How many commands of a page print something else than it shows."""
    environment, failed = surroundings([command for _, command, _ in cases]), 0
    with contextlib.ExitStack() as servers:
        for number, command, wanted in cases:
            if command.endswith(" &"):
                servers.callback(run_server(command, page, environment).kill)
                continue
            found = printed(command, environment)
            if found != wanted:
                failed += 1
                print(f"{path}:{number}: {command}")
                print("  shown:   " + "\n           ".join(wanted))
                print("  printed: " + "\n           ".join(found))
    return failed


def differences(path):
    """Compares one page; returns how many of its commands, excerpts and other blocks differ, of how many."""
    page = text_of(path)
    blocks = blocks_of(page)
    rest, faults = untested(path, blocks)
    of_kind = lambda *kinds: [it for it in rest if it.kind in kinds]
    cases, shown, scripts = examples(of_kind("console")), excerpts(of_kind(*NAMED)), of_kind("sh")
    if any(command.endswith(" &") for _, command, _ in cases) and importlib.util.find_spec("flask") is None:
        print(f"{path}: skipped: flask is not installed")
        return 0, len(cases)
    if any("bin/odb_batch" in it for it in [*(command for _, command, _ in cases), *map(beginning, scripts)]):
        ready(PROGRAM)
    failed = count_differences(path, page, cases)
    print(f"{path}: {len(cases) - failed} commands as shown, {failed} not")
    differ = [it for it in shown if not stands_in(it[1], it[2])]
    for number, source, _ in differ:
        print(f"{path}:{number}: {source + ' does not have these lines' if source else 'no file is named'}")
    print(f"{path}: {len(shown) - len(differ)} excerpts as in their files, {len(differ)} not")
    faults += [(it.line, fault) for it in scripts for fault in [script_fault(page, it)] if fault]
    for number, fault in faults:
        print(f"{path}:{number}: {fault}")
    print(f"{path}: {len(scripts)} scripts run, {len(TESTED.get(path, {}))} blocks with a test, {len(faults)} faults")
    return failed + len(differ) + len(faults), len(blocks)


def main():
    found = [differences(path) for path in sys.argv[1:] or PAGES]
    return 1 if not found or any(bad or not all_ for bad, all_ in found) else 0


sys.exit(main())
