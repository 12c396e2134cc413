"""The instructions and the numbers of WebAssembly in its binary format, as LLVM's linker writes them."""

from dataclasses import dataclass

I32, I64, F32, F64, NO_TYPE = 0x7F, 0x7E, 0x7D, 0x7C, 0x40

# Opcodes, by their names in the standard.
UNREACHABLE, BLOCK, LOOP, IF, ELSE, END, BR, BR_IF, BR_TABLE, RETURN = 0x00, 0x02, 0x03, 0x04, 0x05, 0x0B, 0x0C, 0x0D, 0x0E, 0x0F
CALL, CALL_INDIRECT, DROP, SELECT, LOCAL_GET, LOCAL_SET, LOCAL_TEE = 0x10, 0x11, 0x1A, 0x1B, 0x20, 0x21, 0x22
GLOBAL_GET, GLOBAL_SET, I32_CONST, I64_CONST, F32_CONST, F64_CONST = 0x23, 0x24, 0x41, 0x42, 0x43, 0x44
LOADS, STORES, MEMORY_SIZE, MEMORY_GROW = range(0x28, 0x36), range(0x36, 0x3F), 0x3F, 0x40
MEMORY_COPY, MEMORY_FILL = 0xFC0A, 0xFC0B
LT_U, ADD, SHR_U, WRAP, EXTEND_S, EXTEND_U = 0x54, 0x7C, 0x88, 0xA7, 0xAC, 0xAD

# How many operands an instruction takes and gives, of those that need no more than that: first opcode, last, takes, gives.
ARITHMETIC = [
    (0x01, 0x01, 0, 0), (0x1A, 0x1A, 1, 0), (0x1B, 0x1B, 3, 1), (0x20, 0x20, 0, 1), (0x21, 0x21, 1, 0), (0x22, 0x22, 1, 1),
    (0x23, 0x23, 0, 1), (0x24, 0x24, 1, 0), (0x28, 0x35, 1, 1), (0x36, 0x3E, 2, 0), (0x3F, 0x3F, 0, 1), (0x40, 0x40, 1, 1),
    (0x41, 0x44, 0, 1), (0x45, 0x45, 1, 1), (0x46, 0x4F, 2, 1), (0x50, 0x50, 1, 1), (0x51, 0x66, 2, 1), (0x67, 0x69, 1, 1),
    (0x6A, 0x78, 2, 1), (0x79, 0x7B, 1, 1), (0x7C, 0x8A, 2, 1), (0x8B, 0x91, 1, 1), (0x92, 0x98, 2, 1), (0x99, 0x9F, 1, 1),
    (0xA0, 0xA6, 2, 1), (0xA7, 0xC4, 1, 1), (0xFC00, 0xFC07, 1, 1), (0xFC0A, 0xFC0B, 3, 0),
]  # fmt: skip
OPERANDS = {op: counts for first, last, *counts in ARITHMETIC for op in range(first, last + 1)}


class Unknown(Exception):
    """What the linker does not write of the compiled crates."""


class Reader:
    """Reads numbers and bytes of a module from a place on."""

    def __init__(self, data, at=0):
        self.data, self.at = data, at

    def byte(self):
        self.at += 1
        return self.data[self.at - 1]

    def bytes(self, size):
        self.at += size
        return self.data[self.at - size : self.at]

    def unsigned(self):
        found = shift = 0
        while True:
            byte = self.byte()
            found |= (byte & 127) << shift
            shift += 7
            if byte < 128:
                return found

    def signed(self):
        start = self.at
        found, bits = self.unsigned(), 7 * (self.at - start)
        return found - (1 << bits) if found >> (bits - 1) else found


def unsigned(number):
    out = bytearray()
    while number > 127:
        out.append(number & 127 | 128)
        number >>= 7
    return bytes([*out, number])


def signed(number):
    out = bytearray()
    while not -64 <= number < 64:
        out.append(number & 127 | 128)
        number >>= 7
    return bytes([*out, number & 127])


def sized(data):
    return unsigned(len(data)) + data


@dataclass
class Instruction:
    """An instruction, its immediates, and what is added behind it; and what is found out about it when it is lowered."""

    op: int
    immediates: tuple = ()
    after: bytes = b""
    is_left_out: bool = False
    depth: int = 0  # how many blocks are open behind it, with the function
    operands: tuple = ()  # the places of the instructions that made its operands
    value: int = 0  # of a local, how often that was set before

    def encoded(self):
        op, numbers = self.op, self.immediates
        if self.is_left_out:
            return self.after
        head = bytes([0xFC]) + unsigned(op & 0xFF) if op > 0xFF else bytes([op])
        if op in (BLOCK, LOOP, IF, F32_CONST, F64_CONST):
            return head + numbers[0] + self.after
        if op in (I32_CONST, I64_CONST):
            return head + signed(numbers[0]) + self.after
        if op == BR_TABLE:
            return head + unsigned(len(numbers) - 1) + b"".join(map(unsigned, numbers)) + self.after
        return head + b"".join(map(unsigned, numbers)) + self.after


def immediates_of(op, reader):
    """Reads the immediates of an instruction."""
    if op in (BLOCK, LOOP, IF):
        return (reader.bytes(1),)
    if op == BR_TABLE:
        return tuple(reader.unsigned() for _ in range(reader.unsigned() + 1))
    if op in (I32_CONST, I64_CONST):
        return (reader.signed(),)
    if op in (F32_CONST, F64_CONST):
        return (reader.bytes(4 if op == F32_CONST else 8),)
    if op in LOADS or op in STORES:
        alignment, offset = reader.unsigned(), reader.unsigned()
        if offset >> 32:
            raise Unknown("an offset of more than 32 bits")
        return (alignment, offset)
    if op in (CALL_INDIRECT, MEMORY_COPY):
        return (reader.unsigned(), reader.unsigned())
    if op in (BR, BR_IF, CALL, MEMORY_SIZE, MEMORY_GROW, MEMORY_FILL) or LOCAL_GET <= op <= GLOBAL_SET:
        return (reader.unsigned(),)
    if op not in OPERANDS and op not in (ELSE, END, UNREACHABLE, RETURN):
        raise Unknown(f"the instruction {op:#x}")
    return ()


def instructions_of(reader, end):
    found = []
    while reader.at < end:
        op = reader.byte()
        if op == 0xFC:
            op = 0xFC00 | reader.unsigned()
        found.append(Instruction(op, immediates_of(op, reader)))
    return found
