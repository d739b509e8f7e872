"""Gives a WebAssembly module with addresses of 64 bits addresses of 32 bits, as each browser has them. No proof covers it.

Each address is cut to its low 32 bits where it is used, and nothing else changes: a pointer stays a number of 64 bits. An address of 4 GiB
or more would come out as another one. The module has none: its memory has at most 1 GiB (heap.c), and a frame below address 0 is found by
the test with which each function begins (retarget.py), which is made on all 64 bits. What isn't known here is refused with a ValueError.

Left out are the names of functions, and a table that has no elements.
"""

from collections import namedtuple

Section = namedtuple("Section", "kind content")
CUSTOM, TYPES, IMPORTS, FUNCTIONS, TABLES, MEMORY, ELEMENTS, CODE, DATA = 0, 1, 2, 3, 4, 5, 9, 10, 11

I32, I64, F32, F64 = 0x7F, 0x7E, 0x7D, 0x7C
BLOCK, LOOP, IF, END, BR_TABLE = 0x02, 0x03, 0x04, 0x0B, 0x0E
# br, br_if, call, and what reads or writes a local or a global: one number follows.
WITH_A_NUMBER = (0x0C, 0x0D, 0x10, 0x20, 0x21, 0x22, 0x23, 0x24)
# unreachable, nop, else, return, drop, select, and all that compares, computes and converts: nothing follows.
ALONE = (0x00, 0x01, 0x05, 0x0F, 0x1A, 0x1B, *range(0x45, 0xC5))
LOADS = range(0x28, 0x36)
# What each store stores.
STORES = {0x36: I32, 0x37: I64, 0x38: F32, 0x39: F64, 0x3A: I32, 0x3B: I32, 0x3C: I64, 0x3D: I64, 0x3E: I64}
MEMORY_SIZE, MEMORY_GROW, I32_CONST, I64_CONST, F32_CONST, F64_CONST = 0x3F, 0x40, 0x41, 0x42, 0x43, 0x44
MORE, MEMORY_COPY, MEMORY_FILL = 0xFC, 10, 11

CUT = b"\xa7"  # i32.wrap_i64
WIDEN, WIDEN_SIGNED = b"\xad", b"\xac"  # i64.extend_i32_u, i64.extend_i32_s
GET, SET = b"\x20", b"\x21"  # local.get, local.set


def number(value):
    """A number as the format writes it, seven bits a byte."""
    written = bytearray()
    while value >= 128:
        written.append(value & 127 | 128)
        value >>= 7
    return bytes([*written, value])


def signed(value):
    """The same for a place where a number may be negative; this one isn't."""
    written = number(value)
    return written if written[-1] < 64 else written[:-1] + bytes([written[-1] | 128, 0])


class Reader:
    """Goes through bytes."""

    def __init__(self, content):
        self.content, self.at = content, 0

    def left(self):
        return self.at < len(self.content)

    def byte(self):
        self.at += 1
        return self.content[self.at - 1]

    def number(self):
        value = shift = 0
        while True:
            found = self.byte()
            value |= (found & 127) << shift
            shift += 7
            if found < 128:
                return value

    def bytes(self, count):
        self.at += count
        return self.content[self.at - count : self.at]

    def rows(self):
        """Counts down a number that is read first."""
        return range(self.number())


def wanted(holds, what):
    if not holds:
        raise ValueError(f"the WebAssembly module has {what}")


def sections(module):
    wanted(module[:8] == b"\0asm\1\0\0\0", "another head")
    reader = Reader(module[8:])
    while reader.left():
        kind = reader.byte()
        yield Section(kind, reader.bytes(reader.number()))


def parameters(content):
    """How many parameters each type of function has."""
    reader, counts = Reader(content), []
    for _ in reader.rows():
        wanted(reader.byte() == 0x60, "another kind of type")
        counts.append(reader.number())
        reader.bytes(counts[-1])
        reader.bytes(reader.number())
    return counts


class Body:
    """The body of a function, as it is written anew. Where an address lies below other operands, these wait in locals of its own."""

    def __init__(self, content, parameters_of_it):
        self.reader, self.written, self.spare = Reader(content), bytearray(), {}
        self.locals, self.count = [], parameters_of_it
        for _ in self.reader.rows():
            many, kind = self.reader.number(), self.reader.byte()
            self.locals.append((many, kind))
            self.count += many

    def waiting(self, kind, which=0):
        """The number of a local in which an operand of this kind waits."""
        return number(self.spare.setdefault((kind, which), self.count + len(self.spare)))

    def narrowed(self):
        depth = 1
        while self.reader.left():
            begin, code = self.reader.at, self.reader.byte()
            depth += (code in (BLOCK, LOOP, IF)) - (code == END)
            new = self.instruction(code)
            self.written += self.reader.content[begin : self.reader.at] if new is None else new
        wanted(depth == 0, "a body that doesn't end")
        groups = self.locals + [(1, kind) for kind, _ in self.spare]
        return number(len(groups)) + b"".join(number(many) + bytes([kind]) for many, kind in groups) + bytes(self.written)

    def instruction(self, code):
        """Reads what follows an instruction's code; answers what is written in its place, or None where it stays as it is."""
        reader = self.reader
        if code in LOADS or code in STORES:
            align, offset = reader.number(), reader.number()
            wanted(align < 64 and offset < 1 << 32, "an access of another kind")
            place = bytes([code]) + number(align) + number(offset)
            if code in LOADS:
                return CUT + place
            value = self.waiting(STORES[code])
            return SET + value + CUT + GET + value + place
        if code == MEMORY_SIZE:
            return bytes([code, reader.byte()]) + WIDEN
        if code == MEMORY_GROW:
            return CUT + bytes([code, reader.byte()]) + WIDEN_SIGNED
        if code == MORE:
            return self.more(reader.number())
        if code in (BLOCK, LOOP, IF):
            wanted(reader.byte() >= 0x40, "a block with parameters")
        elif code == BR_TABLE:
            for _ in range(reader.number() + 1):
                reader.number()
        elif code in WITH_A_NUMBER or code in (I32_CONST, I64_CONST):
            reader.number()
        elif code in (F32_CONST, F64_CONST):
            reader.bytes(4 if code == F32_CONST else 8)
        else:
            wanted(code in ALONE or code == END, f"an instruction {code:#x}")
        return None

    def more(self, code):
        """The instructions with a second code."""
        if code < 8:  # conversions of floats
            return None
        wanted(code in (MEMORY_COPY, MEMORY_FILL), f"an instruction {MORE:#x} {code}")
        memories = self.reader.bytes(2 if code == MEMORY_COPY else 1)
        # the address to which, then an address or a byte, then the length
        second, length = self.waiting(I64 if code == MEMORY_COPY else I32, 1), self.waiting(I64, 2)
        cut = CUT if code == MEMORY_COPY else b""
        return SET + length + SET + second + CUT + GET + second + cut + GET + length + CUT + bytes([MORE, code]) + memories


def narrow_code(content, counts):
    """All bodies; `counts` has how many parameters each function has."""
    reader = Reader(content)
    bodies = [Body(reader.bytes(reader.number()), counts[at]).narrowed() for at in reader.rows()]
    return number(len(bodies)) + b"".join(number(len(it)) + it for it in bodies)


def narrow_memory(content):
    reader = Reader(content)
    wanted(reader.number() == 1 and reader.byte() == 4, "another memory than one of 64 bits without a limit")
    return b"\1\0" + number(reader.number())


def narrow_data(content):
    reader, rows = Reader(content), []
    for _ in reader.rows():
        wanted(reader.number() == 0 and reader.byte() == I64_CONST, "data of another kind")
        place = reader.number()
        wanted(place < 1 << 30 and not reader.content[reader.at - 1] & 64 and reader.byte() == END, "data at another place")
        size = reader.number()
        rows.append(bytes([0, I32_CONST]) + signed(place) + bytes([END]) + number(size) + reader.bytes(size))
    return number(len(rows)) + b"".join(rows)


def narrow(module):
    """The module with addresses of 32 bits."""
    found = {it.kind: it.content for it in sections(module)}
    wanted(Reader(found.get(IMPORTS, b"\0")).number() == 0, "imports")
    wanted(ELEMENTS not in found, "a table with elements")
    counts, reader = parameters(found[TYPES]), Reader(found[FUNCTIONS])
    counts = [counts[reader.number()] for _ in reader.rows()]
    written = module[:8]
    for kind, content in sections(module):
        if kind in (CUSTOM, TABLES):
            continue
        if kind == CODE:
            content = narrow_code(content, counts)
        elif kind == MEMORY:
            content = narrow_memory(content)
        elif kind == DATA:
            content = narrow_data(content)
        written += bytes([kind]) + number(len(content)) + content
    return written
