#!/usr/bin/env python3
"""Rewrites a WebAssembly module with a memory of 64 bits into one with a memory of 32 bits, which every engine takes.

    wasm/lower.py IN.wasm OUT.wasm

Pointers stay numbers of 64 bits, in functions and in memory, and exports take the same arguments. An address is cut to 32
bits where it is made, for the instruction that uses it. If it has more than 32 bits, the module traps before that: such
an address would be another one after the cut. The test is left out where the same local has passed it on every way to
the instruction. The address of the stack is tested where a function sets it. A small constant that is added to a tested
address becomes a part of the offset of the instruction. Names and other custom sections are left out.

A test is a branch to the end of a block around the whole function, behind which the function traps.

Reads what LLVM's linker writes of the compiled crates, and ends with a line for any other instruction or section.
"""

import sys
from dataclasses import dataclass, field

import instructions as wasm
from instructions import Instruction, Reader, Unknown, instructions_of, signed, sized, unsigned

MOST_PAGES = 65536
MOST_OFFSET = 4096  # less than this is added to an address only if that is one itself
LEAVES = (wasm.UNREACHABLE, wasm.BR, wasm.BR_TABLE, wasm.RETURN)


@dataclass
class Frame:
    """A block that is open: how many operands are below it, and which locals hold tested addresses at its start and its end."""

    op: int
    results: int
    height: int
    at_start: frozenset = frozenset()
    at_end: "frozenset | None" = None  # where a branch leads to the end of the block; None without one
    is_left: bool = False  # what follows in the block is never reached


@dataclass
class Function:
    """Lowers the body of a function. An operand is known by the instruction that made it."""

    module: "Module"
    locals: int
    body: list
    result_count: int
    operands: list = field(default_factory=list)
    frames: list = field(default_factory=list)
    tested: frozenset = frozenset()  # the locals that hold tested addresses
    values: dict = field(default_factory=dict)  # how often each local was set before, in the order of the code
    needs_local: bool = False
    needs_trap: bool = False

    def lower(self):
        changed = changed_by_loops(self.body)
        self.frames = [Frame(wasm.BLOCK, self.result_count, 0)]
        for place, it in enumerate(self.body):
            if it.op in (wasm.BLOCK, wasm.LOOP, wasm.IF):
                self.open(place, changed.get(place, frozenset()))
            elif it.op in (wasm.ELSE, wasm.END):
                self.close(place)
            elif it.op in (wasm.BR, wasm.BR_IF, wasm.BR_TABLE, wasm.RETURN, wasm.UNREACHABLE):
                self.branch(it)
            else:
                self.plain(place, it)
            it.depth = len(self.frames)
        if self.needs_trap:
            self.add_trap()

    def add_trap(self):
        """Puts the function into a block, behind which it traps. Branches to its end go there still."""
        for it in self.body:
            if it.op in (wasm.BR, wasm.BR_IF, wasm.BR_TABLE):
                it.immediates = tuple(to + (to == it.depth - 1) for to in it.immediates)
        start, end = Instruction(wasm.BLOCK, (bytes([wasm.NO_TYPE]),)), self.body[-1]
        before = [Instruction(wasm.RETURN), Instruction(wasm.END), Instruction(wasm.UNREACHABLE)]
        self.body = [start, *self.body[:-1], *before, end]

    def pop(self):
        frame = self.frames[-1]
        if len(self.operands) > frame.height:
            return self.operands.pop()
        if not frame.is_left:
            raise Unknown("an operand that is missing")
        return None

    def open(self, place, changed):
        it = self.body[place]
        kind = it.immediates[0][0]
        if kind not in (wasm.I32, wasm.I64, wasm.F32, wasm.F64, wasm.NO_TYPE):
            raise Unknown("a block with parameters")
        if it.op == wasm.IF:
            self.pop()
        if it.op == wasm.LOOP:
            self.tested -= changed
        frame = Frame(it.op, int(kind != wasm.NO_TYPE), len(self.operands), self.tested)
        frame.is_left = self.frames[-1].is_left
        self.frames.append(frame)

    def close(self, place):
        """Ends a block, or the first part of an `if`."""
        frame = self.frames[-1]
        if not frame.is_left:
            self.meet(frame)
        del self.operands[frame.height :]
        if self.body[place].op == wasm.ELSE:
            frame.op, frame.is_left, self.tested = wasm.ELSE, self.frames[-2].is_left, frame.at_start
            return
        if frame.op == wasm.IF:
            self.tested = frame.at_start
            self.meet(frame)
        if frame.op == wasm.LOOP and not frame.is_left:
            frame.at_end = self.tested
        self.frames.pop()
        self.tested = frame.at_end if frame.at_end is not None else frozenset()
        self.operands += [place] * frame.results

    def meet(self, frame):
        """Takes note of what is tested where a way leads to the end of a block."""
        frame.at_end = self.tested if frame.at_end is None else frame.at_end & self.tested

    def branch(self, it):
        if it.op in (wasm.BR_IF, wasm.BR_TABLE):
            self.pop()
        for depth in it.immediates:
            frame = self.frames[-1 - depth]
            if frame.op != wasm.LOOP:
                self.meet(frame)
        if it.op in LEAVES:
            frame = self.frames[-1]
            del self.operands[frame.height :]
            frame.is_left = True

    def plain(self, place, it):
        taken, given = self.counts(it)
        operands = it.operands = tuple(self.pop() for _ in range(taken))[::-1]
        self.operands += [place] * given
        if it.op in wasm.LOADS or it.op in wasm.STORES:
            if not self.fold(it):
                self.cut(operands[0])
        elif it.op in (wasm.MEMORY_COPY, wasm.MEMORY_FILL):
            for which in (0, 1, 2) if it.op == wasm.MEMORY_COPY else (0, 2):
                self.cut(operands[which])
        elif it.op == wasm.CALL_INDIRECT:
            self.cut(operands[-1])
        elif it.op == wasm.MEMORY_SIZE:
            it.after = bytes([wasm.EXTEND_U])
        elif it.op == wasm.MEMORY_GROW:
            self.limit(operands[0])
            it.after = bytes([wasm.EXTEND_S])
        elif it.op == wasm.GLOBAL_SET:
            self.test_stack(operands[0])
        if it.op in (wasm.LOCAL_SET, wasm.LOCAL_TEE):
            self.tested -= {it.immediates[0]}
            self.values[it.immediates[0]] = self.values.get(it.immediates[0], 0) + 1
        if it.op in (wasm.LOCAL_GET, wasm.LOCAL_TEE):
            it.value = self.values.get(it.immediates[0], 0)

    def counts(self, it):
        if it.op == wasm.CALL:
            return self.module.counts_of_function(it.immediates[0])
        if it.op == wasm.CALL_INDIRECT:
            taken, given = self.module.types[it.immediates[0]]
            return taken + 1, given
        return wasm.OPERANDS[it.op]

    def made(self, place):
        """The instruction that made an operand; None in code that is never reached."""
        return None if place is None else self.body[place]

    def cut(self, place):
        """Cuts an operand to 32 bits, after it was tested."""
        it = self.made(place)
        if it is None:
            return
        if it.op == wasm.I64_CONST and 0 <= it.immediates[0] < 1 << 32 and not it.after:
            it.op, it.immediates = wasm.I32_CONST, ((it.immediates[0] ^ 1 << 31) - (1 << 31),)
            return
        self.test(it)
        it.after += bytes([wasm.WRAP])

    def fold(self, user):
        """Adds a constant to the offset of an instruction, in place of the address, if that is then one that is tested."""
        it = self.made(user.operands[0])
        if it is None or it.op != wasm.ADD or None in it.operands:
            return False
        address, constant = (self.made(place) for place in it.operands)
        offset = user.immediates[1] + (constant.immediates[0] if constant.op == wasm.I64_CONST else -1)
        if not 0 <= offset - user.immediates[1] < MOST_OFFSET or not self.is_local(address):
            return False
        self.test(address)
        address.after += bytes([wasm.WRAP])
        it.is_left_out = constant.is_left_out = True
        user.immediates = (user.immediates[0], offset)
        return True

    def is_local(self, it):
        """Whether an operand is a local that was not set since."""
        return it.op in (wasm.LOCAL_GET, wasm.LOCAL_TEE) and it.value == self.values.get(it.immediates[0], 0)

    def test_stack(self, place):
        it = self.made(place)
        if it is not None and it.op == wasm.LOCAL_TEE:
            self.test(it)

    def test(self, it):
        """Adds the trap for an operand that has more than 32 bits, unless it is a local that has passed it since it was set."""
        if self.is_local(it):
            local = it.immediates[0]
            if local in self.tested:
                return
            self.tested |= {local}
        else:
            local, self.needs_local = self.locals, True
            it.after += bytes([wasm.LOCAL_TEE]) + unsigned(local)
        high = bytes([wasm.I64_CONST]) + signed(32) + bytes([wasm.SHR_U, wasm.WRAP])
        self.needs_trap = True
        it.after += high + bytes([wasm.BR_IF]) + unsigned(it.depth - 1) + bytes([wasm.LOCAL_GET]) + unsigned(local)

    def limit(self, place):
        """Cuts a number of pages to what a memory of 32 bits can have at most, which it never gets."""
        it, local = self.made(place), unsigned(self.locals)
        self.needs_local = True
        most = bytes([wasm.I64_CONST]) + signed(MOST_PAGES)
        get = bytes([wasm.LOCAL_GET]) + local
        it.after += bytes([wasm.LOCAL_TEE]) + local + most + get + most + bytes([wasm.LT_U, wasm.SELECT, wasm.WRAP])


def changed_by_loops(body):
    """The locals that each loop sets, by its place."""
    found, open_blocks = {}, []
    for place, it in enumerate(body):
        if it.op in (wasm.BLOCK, wasm.LOOP, wasm.IF):
            open_blocks.append((place, it.op, set()))
        elif it.op in (wasm.LOCAL_SET, wasm.LOCAL_TEE):
            for _, _, changed in open_blocks:
                changed.add(it.immediates[0])
        elif it.op == wasm.END and open_blocks:
            start, op, changed = open_blocks.pop()
            if op == wasm.LOOP:
                found[start] = frozenset(changed)
    return found


class Module:
    """A module that is lowered: its types and functions, as counts of parameters and results."""

    def __init__(self, data):
        if data[:8] != b"\0asm\1\0\0\0":
            raise Unknown("a file that is not a module")
        self.data, self.types, self.functions = data, [], []

    def counts_of_function(self, function):
        return self.types[self.functions[function]]

    def lowered(self):
        """The bytes of the lowered module."""
        out, reader = bytearray(self.data[:8]), Reader(self.data, 8)
        while reader.at < len(self.data):
            kind = reader.byte()
            size = reader.unsigned()
            body = reader.bytes(size)
            if kind != 0:
                out += bytes([kind]) + sized(self.section(kind, body))
        return bytes(out)

    def section(self, kind, body):
        reader = Reader(body)
        if kind == 1:
            self.types = [self.type(reader) for _ in range(reader.unsigned())]
        elif kind == 3:
            self.functions = [reader.unsigned() for _ in range(reader.unsigned())]
        elif kind in (4, 5):
            return self.limits(kind, reader)
        elif kind in (9, 11):
            return self.segments(kind, reader)
        elif kind == 10:
            return self.code(reader)
        elif kind not in (6, 7, 12):
            raise Unknown(f"the section {kind}")
        return body

    def type(self, reader):
        if reader.byte() != 0x60:
            raise Unknown("a type that is not of a function")
        counts = []
        for _ in range(2):
            counts.append(reader.unsigned())
            reader.bytes(counts[-1])
        return tuple(counts)

    def limits(self, kind, reader):
        """The memory or the table, with limits of 32 bits."""
        if reader.unsigned() != 1:
            raise Unknown("a second memory or table")
        head = reader.bytes(1) if kind == 4 else b""
        has_most, least = reader.byte() & 1, reader.unsigned()
        most = reader.unsigned() if has_most else MOST_PAGES
        return b"\1" + head + b"\1" + unsigned(least) + unsigned(min(most, MOST_PAGES))

    def segments(self, kind, reader):
        """The elements of the table or the data of the memory, with places of 32 bits."""
        count = reader.unsigned()
        out = bytearray(unsigned(count))
        for _ in range(count):
            head = [reader.unsigned(), reader.byte()]
            place = reader.signed()
            if head != [0, wasm.I64_CONST] or reader.byte() != wasm.END:
                raise Unknown("a place of a segment that is not a number")
            out += bytes([0, wasm.I32_CONST]) + signed(place) + bytes([wasm.END])
            if kind == 11:
                out += sized(reader.bytes(reader.unsigned()))
            else:
                out += self.elements(reader)
        return bytes(out)

    def elements(self, reader):
        found = [reader.unsigned() for _ in range(reader.unsigned())]
        return unsigned(len(found)) + b"".join(map(unsigned, found))

    def code(self, reader):
        count = reader.unsigned()
        out = bytearray(unsigned(count))
        for index in range(count):
            size = reader.unsigned()
            out += sized(self.function(index, reader, reader.at + size))
        return bytes(out)

    def function(self, index, reader, end):
        """The body of a function, with one more local where its addresses need it."""
        groups = [(reader.unsigned(), reader.byte()) for _ in range(reader.unsigned())]
        taken, given = self.counts_of_function(index)
        it = Function(self, taken + sum(count for count, _ in groups), instructions_of(reader, end), given)
        it.lower()
        if it.needs_local:
            groups.append((1, wasm.I64))
        head = unsigned(len(groups)) + b"".join(unsigned(count) + bytes([kind]) for count, kind in groups)
        return head + b"".join(part.encoded() for part in it.body)


def main():
    if len(sys.argv) != 3:
        sys.exit("usage: wasm/lower.py IN.wasm OUT.wasm")
    with open(sys.argv[1], "rb") as file:
        data = file.read()
    try:
        lowered = Module(data).lowered()
    except Unknown as error:
        sys.exit(f"lower.py: {error} is not known")
    with open(sys.argv[2], "wb") as file:
        file.write(lowered)


if __name__ == "__main__":
    main()
