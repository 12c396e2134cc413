"""The calls of the library in C: as they are, with the sanitizers of the compiler, under valgrind; and their stack."""

import os

import pytest

from support.commands import run
from support.embedding import STRICT
from support.program import ROOT

HERE = os.path.dirname(os.path.abspath(__file__))
WRAPPED = "-Wl,--wrap=malloc,--wrap=realloc,--wrap=free"

# How the programs are compiled, and the words before them.
WAYS = {
    "plain": (["-O2"], []),
    "sanitizers": (["-fsanitize=address,undefined", "-fno-sanitize-recover=all"], []),
    "valgrind": ([], ["valgrind", "-q", "--error-exitcode=9", "--leak-check=full"]),
}

UNDER_SANITIZERS, UNDER_VALGRIND = pytest.mark.slow, [pytest.mark.slow, pytest.mark.needs("valgrind")]
SLOW_WAYS = [pytest.param("sanitizers", marks=UNDER_SANITIZERS), pytest.param("valgrind", marks=UNDER_VALGRIND)]


def compile_c(program, standard, sources, library, *flags):
    """Compiles sources of this folder with the static library."""
    paths = [os.path.join(HERE, it) for it in sources]
    common = [f"-std={standard}", *STRICT, "-g", f"-I{ROOT}/include"]
    run("cc", *common, *flags, "-o", program, *paths, os.path.join(library, "libodb_batch.a"))


PROGRAMS = (
    "calls", "constants", "explanations", "faults", "headers", "live", "openings", "parts", "places", "positions", "requests",
    "responses", "steps", "targets", "units",
)  # fmt: skip


@pytest.mark.parametrize("tests", PROGRAMS)
@pytest.mark.parametrize("way", ["plain", *SLOW_WAYS])
def test_calls(tests, way, library, tmp_path):
    flags, words = WAYS[way]
    compile_c(tmp_path / "calls", "c99", [f"{tests}.c", "allocations.c"], library, *flags, WRAPPED)
    print(run(*words, tmp_path / "calls"))


def test_the_stack_of_calls(library, tmp_path):
    compile_c(tmp_path / "stack", "gnu99", ["stack.c"], library, "-pthread")
    print(run(tmp_path / "stack"))
