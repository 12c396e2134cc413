"""The header and the built library: what they declare, in C and C++."""

import pytest

import declarations
from support.commands import run
from support.embedding import STRICT
from support.program import ROOT

USE = '#include "odb_batch.h"\nint main(void) { return odb_version() != ODB_VERSION; }\n'


def test_it_declares_what_the_source_exports():
    assert list(declarations.differences()) == []


def test_the_built_library_shows_it_and_needs_the_c_library_alone(library):
    assert list(declarations.built_differences(library)) == []


CPP = pytest.mark.needs("c++")


@pytest.mark.parametrize("dialect", ["c99", "c11", pytest.param("c++11", marks=CPP), pytest.param("c++17", marks=CPP)])
def test_it_compiles_in_each_dialect(dialect, library, environment, tmp_path):
    source, program = tmp_path / "use.c", tmp_path / "use"
    source.write_text(USE)
    compiler, kind = ("c++", "c++") if "+" in dialect else ("cc", "c")
    words = [compiler, f"-std={dialect}", *STRICT, f"-I{ROOT}/include", "-x", kind, source, "-x", "none"]
    run(*words, f"{library}/libodb_batch.so.0", "-o", program)
    run(program, env=environment)
