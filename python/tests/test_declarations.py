"""Whether the package declares the functions that it calls as the header does."""

import ctypes
import os
import re

from odb_batch._native import library

ROOT = os.path.dirname(os.path.dirname(os.path.dirname(os.path.abspath(__file__))))
HEADER = os.path.join(ROOT, "include", "odb_batch.h")
KINDS = {
    "const uint8_t *": ctypes.c_char_p,
    "uint8_t *": ctypes.c_void_p,
    "size_t": ctypes.c_size_t,
    "size_t *": ctypes.POINTER(ctypes.c_size_t),
    "uint32_t": ctypes.c_uint32,
    "uint32_t *": ctypes.POINTER(ctypes.c_uint32),
    "uint64_t": ctypes.c_uint64,
    # The package reads structs as their numbers.
    "odb_fault *": ctypes.c_void_p,
    "odb_request *": ctypes.c_void_p,
    "odb_response *": ctypes.c_void_p,
    "odb_header *": ctypes.c_void_p,
    "odb_position *": ctypes.c_void_p,
    "odb_live_run": ctypes.c_void_p,
    "odb_live_run *": ctypes.POINTER(ctypes.c_void_p),
    "void": None,
}


def declared():
    """The functions of the header: a result and the parameters, by name."""
    with open(HEADER, encoding="utf-8") as file:
        found = re.findall(r"^(\w+) (odb_\w+)\(([^)]*)\);", file.read(), re.MULTILINE)
    kind = lambda parameter: KINDS[re.sub(r"\w+$", "", " ".join(parameter.split())).strip()]
    return {name: (KINDS[result], [kind(it) for it in of.split(",") if it != "void"]) for result, name, of in found}


def test_declarations_are_those_of_the_header():
    names = [name for name in vars(library.LIBRARY) if name.startswith("odb_")]
    functions = {name: getattr(library.LIBRARY, name) for name in names}
    found = {name: (it.restype, list(it.argtypes)) for name, it in functions.items()}
    wanted = declared()
    assert found == {name: wanted.get(name) for name in found}
