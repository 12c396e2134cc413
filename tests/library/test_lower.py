"""wasm/lower.py on small functions of two numbers: what they return in Node after it, and that each address of more than 32
bits traps, whichever way leads to the instruction."""

import json

import instructions as wasm
import lower
import pytest
from instructions import I64, NO_TYPE, Instruction, sized

from support.commands import run

GREAT, TRAP = 1 << 32, "trap"
NAMES = {
    "add": Instruction(0x7C),
    "again": Instruction(wasm.BR_IF, (0,)),
    "block": Instruction(wasm.BLOCK, (bytes([NO_TYPE]),)),
    "copy": Instruction(wasm.MEMORY_COPY, (0, 0)),
    "drop": Instruction(wasm.DROP),
    "else": Instruction(wasm.ELSE),
    "end": Instruction(wasm.END),
    "fill": Instruction(wasm.MEMORY_FILL, (0,)),
    "get": lambda local: Instruction(wasm.LOCAL_GET, (local,)),
    "grow": Instruction(wasm.MEMORY_GROW, (0,)),
    "if": Instruction(wasm.IF, (bytes([NO_TYPE]),)),
    "leave": Instruction(wasm.BR_IF, (0,)),
    "load": Instruction(0x29, (3, 0)),
    "load8": Instruction(0x29, (3, 8)),
    "loop": Instruction(wasm.LOOP, (bytes([NO_TYPE]),)),
    "nonzero": Instruction(wasm.WRAP),
    "number": lambda value: Instruction(wasm.I64_CONST, (value,)),
    "set": lambda local: Instruction(wasm.LOCAL_SET, (local,)),
    "short": lambda value: Instruction(wasm.I32_CONST, (value,)),
    "size": Instruction(wasm.MEMORY_SIZE, (0,)),
    "store": Instruction(0x37, (3, 0)),
    "tee": lambda local: Instruction(wasm.LOCAL_TEE, (local,)),
}

# Functions of the locals 0 and 1, and what calls of them return. The memory has one page and is empty before each call.
CASES = {
    "get:0 load": [(0, 0, 0), (65528, 0, 0), (65529, 0, TRAP), (GREAT, 0, TRAP), (-8, 0, TRAP)],
    "get:0 load8": [(65520, 0, 0), (65521, 0, TRAP), (-8, 0, TRAP)],
    "get:0 get:1 store get:0 load": [(8, 7, 7), (GREAT + 8, 7, TRAP), (-8, 7, TRAP)],
    "number:8 load": [(0, 0, 0)],
    "number:4294967296 load": [(0, 0, TRAP)],
    "get:0 get:1 add load": [(8, 8, 0), (GREAT, -GREAT, 0), (GREAT, 8, TRAP)],
    # The address of the store is the old value of the local, and what was tested the new one.
    "get:0 get:1 tee:0 load store get:0": [(8, 16, 16), (GREAT, 16, TRAP), (8, GREAT, TRAP)],
    "get:0 get:0 load store get:0 get:1 set:0 get:0 load add": [(8, 16, 8), (GREAT, 8, TRAP), (8, GREAT, TRAP)],
    # One way leads by a test, and the other does not.
    "get:1 nonzero if get:0 load drop end get:0 load": [(0, 1, 0), (GREAT, 0, TRAP), (GREAT, 1, TRAP)],
    "get:1 nonzero if get:0 load drop else get:0 load8 drop end get:0 load": [(0, 1, 0), (GREAT, 0, TRAP), (GREAT, 1, TRAP)],
    "get:1 nonzero if number:0 set:0 else get:0 load drop end get:0 load": [(GREAT, 1, 0), (GREAT, 0, TRAP)],
    "get:0 load drop get:1 nonzero if number:4294967296 set:0 end get:0 load": [(0, 0, 0), (0, 1, TRAP)],
    "block get:1 nonzero leave get:0 load drop end get:0 load": [(0, 1, 0), (GREAT, 1, TRAP), (GREAT, 0, TRAP)],
    "block get:0 load drop get:1 nonzero leave number:4294967296 set:0 end get:0 load": [(0, 1, 0), (0, 0, TRAP)],
    # Only the second turn has another address.
    "get:0 load drop loop get:0 load drop get:0 get:1 add set:0 get:0 nonzero again end get:0": [(8, -8, 0), (8, GREAT, TRAP)],
    "loop get:1 nonzero if get:0 load drop end get:0 get:1 add set:0 get:1 nonzero if number:0 set:1 get:1 nonzero again end end "
    "get:0 load": [(0, 8, 0), (0, GREAT, TRAP)],
    "get:0 get:1 number:8 copy number:0": [(0, 16, 0), (GREAT, 16, TRAP), (0, GREAT, TRAP)],
    "number:0 number:0 get:0 copy number:0": [(8, 0, 0), (GREAT, 0, TRAP)],
    "get:0 short:7 get:1 fill number:0 load": [(0, 1, 7), (GREAT, 1, TRAP), (0, GREAT, TRAP)],
    "size": [(0, 0, 1)],
    "get:0 grow": [(1, 0, 1), (65536, 0, -1), (GREAT, 0, -1), (GREAT + 1, 0, -1), (-1, 0, -1)],
    "get:0 grow drop size": [(2, 0, 3), (GREAT + 2, 0, 1)],
}  # fmt: skip

CALLS = """
const called = (module, values) => {
  try { return String(new WebAssembly.Instance(module).exports.f(...values.map(BigInt))) }
  catch (error) { if (error instanceof WebAssembly.RuntimeError) return 'trap'; throw error }
}
const returned = ([bytes, calls]) => {
  try {
    const module = new WebAssembly.Module(Uint8Array.from(bytes))
    return calls.map((values) => called(module, values))
  } catch (error) { return String(error) }
}
console.log(JSON.stringify(JSON.parse(require('fs').readFileSync(0)).map(returned)))
"""


def body_of(text):
    words = (word.partition(":") for word in text.split())
    return [NAMES[name](int(value)) if value else NAMES[name] for name, _, value in words]


def module_of(text):
    """A module with a memory of 64 bits, and a function over two numbers."""
    code = b"\0" + b"".join(it.encoded() for it in [*body_of(text), NAMES["end"]])
    sections = {
        1: bytes([0x60, 2, I64, I64, 1, I64]),
        3: b"\0",
        5: b"\4\1",
        7: sized(b"f") + b"\0\0",
        10: sized(code),
    }
    return b"\0asm\1\0\0\0" + b"".join(bytes([kind]) + sized(b"\1" + it) for kind, it in sections.items())


@pytest.fixture(scope="module")
def returned(need, tmp_path_factory):
    """What the calls of each function return after it, in one process."""
    need("node")
    given = tmp_path_factory.mktemp("lowered") / "given"
    lowered = (list(lower.Module(module_of(text)).lowered()) for text in CASES)
    calls = ([list(map(str, values)) for *values, _ in found] for found in CASES.values())
    given.write_text(json.dumps(list(zip(lowered, calls))))
    with open(given, encoding="utf-8") as file:
        return dict(zip(CASES, json.loads(run("node", "-e", CALLS, stdin=file))))


@pytest.mark.parametrize("text", CASES)
def test_functions(text, returned):
    assert returned[text] == [str(it) for *_, it in CASES[text]]


@pytest.mark.parametrize("number", [0, 1, 63, 64, 127, 128, 8191, 8192, 2**31, 2**32, 2**63 - 1])
def test_numbers(number):
    for it in {number, -number, -number - 1}:
        assert wasm.Reader(wasm.signed(it)).signed() == it
    assert wasm.Reader(wasm.unsigned(number)).unsigned() == number


@pytest.mark.parametrize("text, line", [("get:0", "a file that is not a module"), ("", "the section 2")])
def test_what_is_not_known(text, line):
    data = b"something" if text else b"\0asm\1\0\0\0" + bytes([2]) + sized(b"\0")
    with pytest.raises(wasm.Unknown, match=line):
        lower.Module(data).lowered()
