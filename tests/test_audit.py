"""The audit of examples/ over logs, and with programs, logs and arguments that it cannot audit by.

The counts of a log are those of its lines, by GNU parallel and by processes of the audit's own. A program that ends
early, leaves out lines or is killed, a log that is not a file, wrong arguments and an output that is closed each end
with their status and a line, and never with counts.
"""

import os
import shutil
import subprocess
import sys

import pytest

from support.program import EXAMPLES

SECONDS = 120
AUDIT = os.path.join(EXAMPLES, "audit.py")
BATCH = b'{"requests":[{"id":"1","method":"get","url":"A"}]}'
FITS, FITS_NOT = b'{"responses":[{"id":"1","status":200}]}', b'{"responses":[]}'
# A group of which a half was performed: no run answers so.
HALF = (
    b'[{"requests":[{"id":"1","atomicityGroup":"g","method":"post","url":"A"},{"id":"2","atomicityGroup":"g","method":"post","url":"A"}]},'
    b'{"responses":[{"id":"1","atomicityGroup":"g","status":201},{"id":"2","atomicityGroup":"g","status":409}]}]'
)
# A document of objects takes some 125 times its size in memory.
LARGE = b'{"requests":[{"id":"1","method":"post","url":"A","headers":{"content-type":"application/json"},"body":[%s]}]}'
OBJECTS = b",".join([b'{"a":{"a":{"a":{}}}}'] * 400_000)
# In a folder with such a name, GNU parallel and a shell would replace parts of a path that is not quoted.
FOLDER = "a b'{#} $HOME;"
PATH = "/usr/bin:/bin"

# Programs that are not odb_batch, or odb_batch with a mistake; REAL is the program itself.
STAND_INS = {
    "ends_early": 'head -n 2 | "REAL" "$@"; exit 4',
    "fails_after_its_work": '"REAL" "$@"; exit 3',
    "leaves_out": 'head -n 2 | "REAL" "$@"; exit 0',
    "is_killed": '"REAL" "$@"; kill -9 $$',
    "has_no_memory": 'ulimit -v 500000; exec "REAL" "$@"',
}

# The counts of whole logs.
COUNTS = {
    "mixed": ("ok 857\nF07 1\nF73 143\n", "", 1),
    "good": ("ok 300\n", "", 0),
    "one": ("ok 1\n", "", 0),
    "empty": ("", "", 0),
    "uneven": ("ok 41\nF02 1\n", "", 1),
}

# Where the audit finds a program, each with its place below a folder.
PLACES = {
    "clone": ("clone/examples/audit.py", "clone/bin/odb_batch"),
    "archive": ("archive/share/doc/odb_batch/examples/audit.py", "archive/bin/odb_batch"),
    "PATH": ("alone/audit.py", "tools/odb_batch"),
}

BY_PARALLEL = [pytest.mark.needs("parallel"), pytest.mark.slow]
each_way = pytest.mark.parametrize(
    "way", [pytest.param(["--own"], id="own"), pytest.param([], id="parallel", marks=BY_PARALLEL)]
)


def pairs(count, every):
    """The lines of a log of pairs; the responses of one of so many do not fit, and the last line has no newline."""
    return b"".join(b"[%s,%s]\n" % (BATCH, FITS_NOT if every and k % every == 0 else FITS) for k in range(count))[:-1]


class Place:
    """A folder with logs and programs."""

    def __init__(self, folder, program):
        self.folder, self.program = folder, program
        for name, script in STAND_INS.items():
            begin = f'#!/bin/sh\n[ "$1" = --version ] && exec "{program}" --version\n'
            self.write(name, f"{begin}{script.replace('REAL', program)}\n".encode(), 0o755)
        logs = {"mixed": pairs(1000, 7) + b"\n[1]", "good": pairs(300, 0), "one": pairs(1, 0), "empty": b""}
        for name, data in logs.items():
            self.write(name, data)
        long_line = b"[%s,%s]" % (BATCH, FITS + b" " * 3_000_000)
        self.write("halves", b"\n".join([pairs(20, 0), HALF, HALF, pairs(20, 0)]))
        self.write("uneven", b"\n".join([pairs(20, 0), long_line, b"", pairs(20, 0)]))
        self.write("large", (BATCH + b"\n") * 50 + LARGE % OBJECTS + b"\n" + (BATCH + b"\n") * 50)
        os.mkfifo(self.path("pipe"))

    def path(self, name):
        return os.path.join(self.folder, name)

    def write(self, name, data, mode=0o644):
        path = self.path(name)
        os.makedirs(os.path.dirname(path), exist_ok=True)
        with open(path, "wb") as file:
            file.write(data)
        os.chmod(path, mode)
        return path

    def audit(self, *words, script=AUDIT, path=None, **more):
        """What an audit prints on each stream, and its status."""
        variables = {**os.environ, "PATH": path} if path else dict(os.environ)
        pipes = {"stdin": subprocess.DEVNULL, "stdout": subprocess.PIPE, "stderr": subprocess.PIPE, **more}
        more = {"cwd": self.folder, "env": variables, "timeout": SECONDS, "text": True, **pipes}
        try:
            done = subprocess.run([sys.executable, script, *words], **more)
        except subprocess.TimeoutExpired:
            return "", f"no end after {SECONDS} s", None
        return done.stdout, done.stderr, done.returncode


@pytest.fixture(scope="module")
def place(program, tmp_path_factory):
    return Place(str(tmp_path_factory.mktemp("audit") / FOLDER), program)


def assert_ended(found, status, any_before=False):
    """An audit ends with a status, a line that says why, and no counts; a program that fails may write lines before it."""
    out, errors, ended_with = found
    *before, last = errors.splitlines() or [""]
    assert (out, ended_with) == ("", status), found
    assert last.startswith("error: ") and "Traceback" not in errors and (any_before or not before), found


@each_way
@pytest.mark.parametrize("name", COUNTS)
def test_counts(place, way, name):
    assert place.audit(name, "--program", place.program, "--jobs", "3", *way) == COUNTS[name]


@each_way
@pytest.mark.parametrize("words, counts", [([], ("ok 42\n", "", 0)), (["--strict"], ("ok 40\nF77 2\n", "", 1))])
def test_groups_that_are_half_performed(place, way, words, counts):
    assert place.audit("halves", "--program", place.program, "--jobs", "3", *words, *way) == counts


@each_way
@pytest.mark.parametrize("words, numbers", [(["--list", "3"], [1, 8, 15]), (["--list"], range(1, 701, 7)), (["--list", "1000"], range(1, 1001, 7))])
def test_lists_the_first_lines_with_a_fault(place, way, words, numbers):
    listed = [f"line {number}: F73 ResponseMissing /requests/0\n" for number in numbers]
    last = ["line 1001: F07 NotPair batch\n"] if len(numbers) == 143 else []
    counts, errors, status = COUNTS["mixed"]
    found = place.audit("mixed", "--program", place.program, "--jobs", "3", *words, *way)
    assert found == ("".join([*listed, *last, counts]), errors, status)


def test_extracts_the_documents_of_a_line(place):
    """They are as they are in the log, byte for byte, and are never written over a file."""
    pair = b'{"requests": ["\xff", 1.50]}\t', b' {"responses":[]}'
    place.write("odd", b"[1]\n[ %s,%s ]\r\n[1" % pair)
    assert place.audit("odd", "--extract", "2") == ("2.batch.json\n2.second.json\n", "", 0)
    for name, document in zip(("2.batch.json", "2.second.json"), pair):
        with open(place.path(name), "rb") as file:
            assert file.read() == document.strip() + b"\n"
    for number in ("1", "2", "3", "4"):
        assert_ended(place.audit("odd", "--extract", number), 3)


@each_way
@pytest.mark.parametrize("name", STAND_INS)
def test_stand_in(place, way, name):
    """A program that ends early, in all of its processes."""
    log = ["large", "--command", "check"] if name == "has_no_memory" else ["mixed"]
    assert_ended(place.audit(*log, "--program", place.path(name), "--jobs", "3", *way), 3, True)


@each_way
@pytest.mark.parametrize("name", ("./nothere", "mixed", ".", "/bin/cat"))
def test_missing_program(place, way, name):
    program = name if "/" in name else place.path(name)
    assert_ended(place.audit("mixed", "--program", program, *way), 127)


@each_way
@pytest.mark.parametrize("name", ("nothere", ".", "pipe"))
def test_missing_log(place, way, name):
    assert_ended(place.audit(name, "--program", place.program, *way), 3)


JOBS = [["--jobs", it] for it in ("0", "-1", "four", "1.5", "1001", "")]


LISTED = [[option, it] for option in ("--list", "--extract") for it in ("0", "four")]


@pytest.mark.parametrize("words", [*JOBS, *LISTED, ["--command", "explain"], ["--more"], ["second"], ["--strict", "--command", "check"]], ids=" ".join)
def test_wrong_arguments(place, words):
    assert_ended(place.audit("mixed", "--program", place.program, *words), 2)


def test_output_that_fails(place):
    """A reader that has gone, and a full device."""
    reading, writing = os.pipe()
    os.close(reading)
    with open("/dev/full", "wb") as full:
        for output in (writing, full):
            _, *found = place.audit("mixed", "--program", place.program, stdout=output)
            assert_ended(("", *found), 3)
    os.close(writing)


@pytest.mark.parametrize("more, status, output", ((">&-", 3, ""), ("| head -1", 0, "ok 857\n")))
def test_closed_output(place, more, status, output):
    script = f'"{sys.executable}" "{AUDIT}" mixed --program "{place.program}" {more}'
    done = subprocess.run(["bash", "-c", script], cwd=place.folder, capture_output=True, text=True, timeout=SECONDS)
    assert (done.stdout, done.returncode) == (output, status) and "Traceback" not in done.stderr


@pytest.mark.parametrize("title", PLACES)
def test_place_of_program(place, title):
    script, program = PLACES[title]
    copy = place.write(script, b"")
    shutil.copy(AUDIT, copy)
    assert_ended(place.audit("good", "--own", script=copy, path=PATH), 127)
    os.makedirs(os.path.dirname(place.path(program)), exist_ok=True)
    os.symlink(place.program, place.path(program))
    assert place.audit("good", "--own", script=copy, path=f"{place.path('tools')}:{PATH}") == COUNTS["good"]


def test_another_parallel(place):
    """Another program that is called parallel is not taken for GNU parallel."""
    place.write("other/parallel", b"#!/bin/sh\necho parallel of another kind\n", 0o755)
    found = place.audit("good", "--program", place.program, path=f"{place.path('other')}:{PATH}")
    assert found == COUNTS["good"]
