"""The objects for macOS, as `bin/odb_library --target macos` writes them: what they show and need. Nothing runs them here."""

import os
import struct

import pytest

import declarations
from support.program import ROOT, older_than

FOLDER = os.path.join(ROOT, "dist", "macos")
OBJECTS = {"odb_batch-arm64.o": 0x0100000C, "odb_batch-x86_64.o": 0x01000007}  # each with its processor

# Of the C library, and of the allocator in C that they are linked with.
NEEDED = {"__bzero", "bzero", "memcpy", "memmove", "memset", "rattle_alloc", "rattle_dealloc", "rattle_realloc"}

MAGIC, OBJECT, SYMBOLS = 0xFEEDFACF, 1, 2
IS_EXTERNAL, KIND, IN_SECTION = 0x01, 0x0E, 0x0E

pytestmark = pytest.mark.slow


def symbols_of(data, processor):
    """The names of a Mach-O object that are seen from outside: those that it has, and those that it needs."""
    magic, found, _, kind, count = struct.unpack_from("<5I", data)
    assert (magic, found, kind) == (MAGIC, processor, OBJECT)
    at = 32
    has, needs = set(), set()
    for _ in range(count):
        command, size = struct.unpack_from("<2I", data, at)
        if command == SYMBOLS:
            start, number, names, _ = struct.unpack_from("<4I", data, at + 8)
            for place in range(start, start + 16 * number, 16):
                name, kind = struct.unpack_from("<IB", data, place)
                text = data[names + name : data.index(b"\0", names + name)].decode()
                if kind & IS_EXTERNAL:
                    (has if kind & KIND == IN_SECTION else needs).add(text.removeprefix("_"))
        at += size
    return has, needs


@pytest.mark.parametrize("name, processor", OBJECTS.items(), ids=OBJECTS)
def test_an_object_shows_the_calls_and_needs_little(name, processor):
    path = os.path.join(FOLDER, name)
    if not os.path.exists(path):
        pytest.skip("dist/macos is not built: bin/odb_library --target macos dist/macos")
    assert older_than(path, "odb_ffi") is None
    with open(path, "rb") as file:
        has, needs = symbols_of(file.read(), processor)
    assert has == set(declarations.declarations())
    assert needs <= NEEDED
