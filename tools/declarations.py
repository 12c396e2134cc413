#!/usr/bin/env python3
"""Compares what is written twice of the library for C.

- Each declaration of include/odb_batch.h is the one that follows from the export in crates/odb_ffi;
  nothing else compares them. The bindings in python/ and node/ call just these functions.
- Statuses and options have the same numbers in the header as in crates/odb_calls, and those of the text of `odb_constants`.

With a built library, `declarations.py FOLDER`, also that libodb_batch.so shows just these functions,
has its name, and needs the C library alone; and that none is larger than it may be.
"""

import json
import os
import re
import subprocess
import sys

ROOT = os.path.dirname(os.path.dirname(os.path.realpath(__file__)))
HEADER = "include/odb_batch.h"
EXPORTS = "crates/odb_ffi/src"
CALLS = "crates/odb_calls/src"
NAME = "libodb_batch.so.0"
MOST_BYTES = 855_000

# What a type of Rattle is for C; `alloc` is nothing.
TYPES = {
    "u32": ["uint32_t {}"],
    "u64": ["uint64_t {}"],
    "&mut usize": ["size_t *{}"],
    "&mut u32": ["uint32_t *{}"],
    "&[u8]": ["const uint8_t *{}", "size_t {}_size"],
    "&mut [u8]": ["uint8_t *{}", "size_t {}_size"],
    "&mut [u32]": ["uint32_t *{}", "size_t {}_size"],
    "&mut [Request]": ["odb_request *{}", "size_t {}_size"],
    "&mut [Response]": ["odb_response *{}", "size_t {}_size"],
    "&mut [Header]": ["odb_header *{}", "size_t {}_size"],
    "&mut [Fault]": ["odb_fault *{}", "size_t {}_size"],
    "&mut Position": ["odb_position *{}"],
    "Handle": ["odb_live_run {}"],
    "&mut Handle": ["odb_live_run *{}"],
    "&mut Slot": ["odb_live_run *{}"],
    "": ["void {}"],
    "Global": [],
}

# The structs of the source that are an `odb_live_run` for C: a pointer, and fields that take no bytes.
HANDLES = {
    "Handle": "crates/odb_ffi/src/handle.rt",
    "Slot": "crates/odb_ffi/src/slot.rt",
}

# The structs of the source that have the same fields for C.
STRUCTS = {
    "Part": "odb_part", "Request": "odb_request", "Response": "odb_response", "Header": "odb_header",
    "Position": "odb_position", "Fault": "odb_fault",
}  # fmt: skip
FIELDS = {"usize": "size_t", **STRUCTS}

# A number of the header, and the constant or the definition of the source that has it.
NUMBERS = {
    "ODB_DONE": r"const DONE: u32 = (\d+)",
    "ODB_REFUSED": r"const REFUSED: u32 = (\d+)",
    "ODB_WRONG_OPTION": r"const WRONG_OPTION: u32 = (\d+)",
    "ODB_OUT_OF_MEMORY": r"const OUT_OF_MEMORY: u32 = (\d+)",
    "ODB_SMALL_BUFFER": r"const SMALL_BUFFER: u32 = (\d+)",
    "ODB_CONTINUE": r"(\d+) => Some\(Mode::Continue\)",
    "ODB_STOP": r"(\d+) => Some\(Mode::Stop\)",
    "ODB_FIRST": r"(\d+) => Some\(Order::First\)",
    "ODB_LAST": r"(\d+) => Some\(Order::Last\)",
    "ODB_WIDE": r"(\d+) => Some\(Order::Wide\)",
    "ODB_LINES": r"(\d+) => Some\(Form::Lines\)",
    "ODB_JSON": r"(\d+) => Some\(Form::Json\)",
    "ODB_ALREADY_STARTED": r"StartRefusal::AlreadyStarted => (\d+)",
    "ODB_STOPPED": r"StartRefusal::Stopped => (\d+)",
    "ODB_UNIT_FAILED": r"StartRefusal::UnitFailed => (\d+)",
    "ODB_WAITING": r"StartRefusal::Waiting\(_\) => (\d+)",
    "ODB_WIDTH_REACHED": r"StartRefusal::WidthReached => (\d+)",
    "ODB_NOT_RUNNING": r"ReportRefusal::NotRunning => (\d+)",
    "ODB_BAD_STATUS": r"ReportRefusal::BadStatus => (\d+)",
    "ODB_UNREADABLE": r"Refusal::Unreadable => (\d+)",
    "ODB_OUTSIDE": r"Refusal::Outside => (\d+)",
    "ODB_NO_LOCATION": r"Refusal::NoLocation => (\d+)",
    "ODB_STATE_WAITING": r"RequestState::Waiting => \((\d+), 0\)",
    "ODB_STATE_READY": r"RequestState::Ready => \((\d+), 0\)",
    "ODB_STATE_RUNNING": r"RequestState::Running => \((\d+), 0\)",
    "ODB_STATE_REPORTED": r"RequestState::Reported\(status\) => \((\d+), ",
    "ODB_STATE_SKIPPED": r"RequestState::Skipped => \((\d+), 0\)",
    "ODB_STATE_UNDONE": r"const UNDONE: u32 = (\d+)",
    "ODB_STEP_NONE": r"const NO_STEP: u32 = (\d+)",
    "ODB_STEP_START": r"Step::Start\(i\) => \((\d+), i\)",
    "ODB_STEP_REPORT": r"Step::Report\(i\) => \((\d+), i\)",
}

# Lists of `odb_constants`, and how the header begins their names: each has the place in its list as number.
LISTS = {"forms": "ODB_", "modes": "ODB_", "orders": "ODB_", "states": "ODB_STATE_", "steps": "ODB_STEP_"}
LIMITS = {"document_bytes": "ODB_MAX_DOCUMENT", "requests": "ODB_MAX_REQUESTS", "width": "ODB_MAX_WIDTH"}


def text_of(path):
    with open(os.path.join(ROOT, path), encoding="utf-8") as file:
        return file.read()


def source(folder):
    """The text of a crate."""
    return "\n".join(text_of(f"{folder}/{name}") for name in sorted(os.listdir(os.path.join(ROOT, folder))))


def exports():
    """The declarations that follow from the source, by name."""
    found = {}
    pattern = r'#\[unsafe\(no_mangle\)\]\s*pub extern "C" fn (\w+)\((.*?)\)(?:\s*->\s*(\w+))?'
    for name, parameters, result in re.findall(pattern, source(EXPORTS), re.DOTALL):
        parts = [it.split(":", 1) for it in parameters.split(",") if it.strip()]
        places = [form.format(word.strip()) for word, kind in parts for form in TYPES[kind.strip()]]
        found[name] = TYPES[result][0].format(f"{name}({', '.join(places) or 'void'})")
    return found


def declarations():
    """The declarations of the header, by name."""
    found = re.findall(r"(?m)^(\w+ (odb_\w+)\([^)]*\));", text_of(HEADER))
    return {name: re.sub(r"\s+", " ", text) for text, name in found}


def one(pattern, text, what):
    """The one place of a pattern."""
    found = re.findall(pattern, text)
    if len(found) != 1:
        sys.exit(f"{what}: {pattern!r} is there {len(found)} times, not once")
    return found[0]


def constant_differences(header):
    """The numbers of the header that are others in the text of `odb_constants`, a line each."""
    constants = json.loads(one(r'(?s)CONSTANTS: &str = r#"(.*?)"#', source(CALLS), CALLS))
    numbers = {prefix + name.upper(): at for member, prefix in LISTS.items() for at, name in enumerate(constants[member])}
    numbers |= {name: constants["limits"][member] for member, name in LIMITS.items()}
    for name, number in numbers.items():
        if int(one(rf"\b{name} (?:= )?(\d+)", header, HEADER)) != number:
            yield f"{name}: the header and the source have different numbers"


def struct_differences(header):
    """The structs that have other fields in the header than in the source, a line each."""
    text = source(CALLS)
    for name, typedef in STRUCTS.items():
        wanted = one(rf"#\[repr\(C\)\](?:\s*#\[[^]]*\])*\s*pub struct {name} \{{([^}}]*)\}}", text, CALLS)
        found = one(rf"typedef struct {typedef} \{{([^}}]*)\}} {typedef};", header, HEADER)
        fields = [f"{FIELDS[kind]} {field}" for field, kind in re.findall(r"(?m)^\s*pub (\w+): (\w+),$", wanted)]
        if re.findall(r"(?m)^\s*(\w+ \w+);", found) != fields:
            yield f"{typedef}: the header and the source have different fields"


def differences():
    """What differs, a line each."""
    wanted, found = exports(), declarations()
    for name in sorted({*wanted, *found}):
        if wanted.get(name) != found.get(name):
            yield f"{name}: the header declares {found.get(name)}, and the source exports {wanted.get(name)}"
    header, calls = text_of(HEADER), source(CALLS)
    for name, pattern in NUMBERS.items():
        if one(rf"\b{name} = (\d+)", header, HEADER) != one(pattern, calls, CALLS):
            yield f"{name}: the header and the source have different numbers"
    for name, path in HANDLES.items():
        struct = rf"#\[repr\(C\)\](?:\s*#\[[^]]*\])*\s*pub struct {name} \{{([^}}]*\}}[^}}]*)\}}"
        fields = one(struct, text_of(path), path)
        kinds = re.findall(r"(?m)^\s*(?:pub(?:\(crate\))? )?\w+: ([^{]*?),$", fields)
        if kinds != ["*mut u8", "Global"]:
            yield f"{name}: its fields are {kinds}, and not those of an odb_live_run"
    yield from constant_differences(header)
    yield from struct_differences(header)
    struct = one(r"typedef struct (\w+) \*odb_live_run;", header, HEADER)
    if re.search(rf"struct {struct}\s*\{{", header):
        yield "odb_live_run: the header says what a handle points to"


def output(*words):
    return subprocess.run(words, capture_output=True, text=True, check=True).stdout


def built_differences(folder):
    """What is otherwise than it has to be of the built library, a line each."""
    shared = os.path.join(folder, NAME)
    shown = {line.split()[-1] for line in output("nm", "-D", "--defined-only", shared).splitlines()}
    if shown != set(exports()):
        yield f"{NAME} shows {sorted(shown ^ set(exports()))} too, or lacks them"
    archive = output("nm", "-g", "--defined-only", os.path.join(folder, "libodb_batch.a"))
    if set(re.findall(r" [A-Z] (\w+)", archive)) != set(exports()):
        yield "libodb_batch.a shows other names than the exports"
    about = output("readelf", "-d", shared)
    if re.findall(r"SONAME.*\[(.*)\]", about) != [NAME]:
        yield f"{NAME} has another name in itself"
    if re.findall(r"NEEDED.*\[(.*)\]", about) != ["libc.so.6"] or "TEXTREL" in about:
        yield f"{NAME} needs more than the C library"
    for name in (NAME, "libodb_batch.a"):
        if os.path.getsize(os.path.join(folder, name)) > MOST_BYTES:
            yield f"{name} has {os.path.getsize(os.path.join(folder, name))} bytes, more than {MOST_BYTES}"


def main():
    found = list(differences())
    for folder in sys.argv[1:]:
        found += built_differences(folder)
    print(*found, f"{len(exports())} declarations, {len(found)} differences", sep="\n")
    return 1 if found else 0


if __name__ == "__main__":
    sys.exit(main())
