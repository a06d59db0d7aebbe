"""Modules in the binary format (chapter 5, and the threads proposal), whose instructions are tuples of a name and its immediates.

`block`, `loop` and `if` have their inner instructions as lists.
"""

from lib.instructions import ACCESSES, ATOMICS, LETTERS, NUMERIC, of_integers
from lib.numbers import leb, signed, sleb

HEAD = b"\0asm\1\0\0\0"
TYPES = {"i32": 0x7F, "i64": 0x7E}

PLAIN = {"unreachable": 0x00, "nop": 0x01, "return": 0x0F, "drop": 0x1A, "select": 0x1B}
PLAIN |= {name: int(opcode, 16) for name, opcode, _, _ in of_integers(NUMERIC)}
INDEXED = {"br": 0x0C, "br_if": 0x0D, "call": 0x10, "local.get": 0x20, "local.set": 0x21, "local.tee": 0x22, "global.get": 0x23,
           "global.set": 0x24}
FIXED = {"memory.size": b"\x3F\x00", "memory.grow": b"\x40\x00", "atomic.fence": b"\xFE\x03\x00"}
# The opcode's bytes and the exponent of the alignment.
MEMORY = {name: (bytes.fromhex(opcode), exponent) for name, opcode, _, _, exponent in of_integers(ACCESSES + ATOMICS)}


def sized(data):
    """Bytes with their number before them."""
    return leb(len(data)) + data


def vector(items):
    """A vector (5.1.3)."""
    return leb(len(items)) + b"".join(items)


def section(number, items):
    """A section (5.5.2) of a vector; none where it has no items."""
    return bytes([number]) + sized(vector(items)) if items else b""


def name(text):
    return sized(text.encode())


def block_type(of):
    return bytes([TYPES[of] if of else 0x40])


def instruction(i):
    word, rest = i[0], i[1:]
    if word in PLAIN:
        return bytes([PLAIN[word]])
    if word in INDEXED:
        return bytes([INDEXED[word]]) + leb(rest[0])
    if word in FIXED:
        return FIXED[word]
    if word in MEMORY:
        opcode, exponent = MEMORY[word]
        return opcode + bytes([exponent]) + leb(rest[0])
    if word in ("block", "loop", "if"):
        second = b"\x05" + sequence(rest[2]) if len(rest) > 2 else b""
        return bytes([2 + ("block", "loop", "if").index(word)]) + block_type(rest[0]) + sequence(rest[1]) + second + b"\x0B"
    if word == "br_table":
        return b"\x0E" + vector([leb(n) for n in rest[0]]) + leb(rest[1])
    if word == "call_indirect":
        return b"\x11" + leb(rest[0]) + b"\x00"
    opcode, bits = {"i32.const": (b"\x41", 32), "i64.const": (b"\x42", 64)}[word]
    return opcode + sleb(signed(bits, rest[0]))


def sequence(body):
    return b"".join(instruction(i) for i in body)


def expression(*body):
    return sequence(body) + b"\x0B"


def limits(least, most=None, shared=False):
    if most is None:
        return b"\x00" + leb(least)
    return (b"\x03" if shared else b"\x01") + leb(least) + leb(most)


def function_type(parameters, results):
    return b"\x60" + b"".join(vector([block_type(of) for of in types]) for types in (parameters, results))


class Module:
    """types: (parameters, results); imports: type numbers of imported functions; functions: (type number, local groups (count,
    type), body); table: its least size; elements: (offset or ("global.get", index), function indices); memory: (least, most, shared);
    globals: (type, whether it can be set, number); exports: (name, function index)."""

    def __init__(self, types, functions, imports=(), table=None, elements=(), memory=None, globals=()):
        self.types, self.functions, self.imports = list(types), list(functions), list(imports)
        self.table, self.elements, self.memory, self.globals = table, list(elements), memory, list(globals)

    def type_of(self, function):
        imported = len(self.imports)
        return self.types[self.imports[function] if function < imported else self.functions[function - imported][0]]

    def bytes(self, exports=()):
        at = lambda offset: expression(("i32.const", offset) if isinstance(offset, int) else offset)
        return HEAD + b"".join([
            section(1, [function_type(*of) for of in self.types]),
            section(2, [name("h") + name(f"f{k}") + b"\x00" + leb(of) for k, of in enumerate(self.imports)]),
            section(3, [leb(of) for of, _, _ in self.functions]),
            section(4, [] if self.table is None else [b"\x70" + limits(self.table)]),
            section(5, [] if self.memory is None else [limits(*self.memory)]),
            section(6, [block_type(of) + bytes([mutable]) + expression((f"{of}.const", n)) for of, mutable, n in self.globals]),
            section(7, [name(text) + b"\x00" + leb(index) for text, index in exports]),
            section(9, [b"\x00" + at(offset) + vector([leb(x) for x in functions]) for offset, functions in self.elements]),
            section(10, [sized(vector([leb(n) + block_type(of) for n, of in groups]) + expression(*body)) for _, groups, body in self.functions]),
        ])
