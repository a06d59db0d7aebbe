#!/usr/bin/env python3
"""Writes the rows of the operator suite, data/operators.txt, and the lines that are expected of them, stdout.

    python3 make_cases.py            writes them
    python3 make_cases.py --check    asks wabt's interpreter (Debian's package wabt) for the answers of operators and of signed numbers

The values are computed with Python's integers, which have no bound, by the definitions of WebAssembly Core 1.0,
sections 4.3.2 and 4.3.4, those of numbers by section 5.2.2, and the atomic ones by the threads proposal. Nothing
here knows of the project's code.

`NAME A` and `NAME A B` are an operator on numbers in hexadecimal, of 32 bits in 8 digits and of 64 bits in 16;
`NAME of 00 01 ..` is an item read from the front of bytes.
"""
import sys

sys.path.insert(1, sys.path[0] + "/../../suites")
from lib import wabt
from lib.cases import Suite
from lib.instructions import NUMERIC, of_integers
from lib.modules import Module, sized
from lib.numbers import BINARY, COMPARISONS, MODIFY, Trap, UNARY, numeric

SUITE = Suite("operators.txt", "# The rows of the operator suite, written by make_cases.py, which says what they are. The answers are in the",
              "# file stdout.")
title, row = SUITE.note, SUITE.row

# ------------------------------------------------------------------- operators


def digits(bits, n):
    return f"{n % 2 ** bits:0{bits // 4}x}"


def operator(name, bits, gives, *operands):
    """A row of an operator on numbers of so many bits, which gives one of so many."""
    try:
        answer = digits(gives, numeric(name, *operands))
    except Trap as trap:
        answer = {"DivideByZero": "divide by zero", "Overflow": "overflow"}[str(trap)]
    row(" ".join([name, *(digits(bits, n) for n in operands)]), answer)


def corners(bits):
    """0, the least and the greatest numbers with and without a sign, and numbers near them."""
    half = 2 ** (bits - 1)
    return [0, 1, 7, half - 1, half, 2 * half - 7, 2 * half - 1]

def distances(bits):
    """Counts of bits about the number of bits."""
    return [0, 1, bits - 1, bits, bits + 1, 2 * bits - 1, 2 ** bits - 1]

for bits in (32, 64):
    for name in BINARY:
        title(f"i{bits}.{name}")
        for a in corners(bits):
            for b in distances(bits) if name in ("shl", "shr_s", "shr_u", "rotl", "rotr") else corners(bits):
                operator(f"i{bits}.{name}", bits, bits, a, b)
    for compare in COMPARISONS:
        for name in [f"i{bits}.{compare}"] if compare in ("eq", "ne") else [f"i{bits}.{compare}_s", f"i{bits}.{compare}_u"]:
            title(name)
            for a in corners(bits)[::2]:
                for b in corners(bits)[1::2] + [a]:
                    operator(name, bits, 32, a, b)
    title(f"i{bits}.eqz, clz, ctz, popcnt")
    for a in corners(bits) + [2 ** place for place in range(3, bits, 9)]:
        operator(f"i{bits}.eqz", bits, 32, a)
        for name in UNARY:
            operator(f"i{bits}.{name}", bits, bits, a)

title("Conversions")
for a in corners(32):
    operator("i64.extend_i32_s", 32, 64, a)
    operator("i64.extend_i32_u", 32, 64, a)
for a in corners(64) + [2 ** 32 - 1, 2 ** 32, 2 ** 32 + 1, 2 ** 31 + 2 ** 40]:
    operator("i32.wrap_i64", 64, 32, a)

for name, bits in (("rmw8", 8), ("rmw16", 16), ("rmw32", 32), ("rmw", 64)):
    for modify, of in MODIFY.items():
        title(f"{name}.{modify}, of the low {bits} bits")
        for a in (1, 0x123456789ABCDEFF, 2 ** (bits - 1)):
            for b in (1, 2 ** bits - 1, (2 ** bits + 2) % 2 ** 64, 2 ** 64 - 1):
                row(f"{name}.{modify} {digits(64, a)} {digits(64, b)}", digits(64, of(a % 2 ** bits, b % 2 ** bits) % 2 ** bits))

# --------------------------------------------------------------------- reading

def leb(data, bits, is_signed):
    """The number at the front of bytes (5.2.2), and how many bytes it has: or a fault, and none."""
    value, shift = 0, 0
    for place, byte in enumerate(data):
        left = bits - shift
        value |= byte % 128 << shift
        if left > 7 and byte >= 128:
            shift += 7
            continue
        if byte >= 128:
            return "too long", 0
        if is_signed and byte >= 64:
            value -= 2 ** (shift + 7)
        least, most = (-2 ** (bits - 1), 2 ** (bits - 1)) if is_signed else (0, 2 ** bits)
        return (value, place + 1) if least <= value < most else ("too long", 0)
    return "end", 0

def reading(name, data, answer, used):
    row(f"{name} of {' '.join(f'{byte:02x}' for byte in data)}", f"{answer}, {len(data) - used} left")

NUMBERS = [
    "00", "3f", "40", "7f", "80", "ff", "80 00", "80 01", "ff 00", "ff 7f", "80 80", "e5 8e 26", "c0 bb 78",
    "87 80 80 80 00", "ff ff ff ff", "ff ff ff ff 07", "ff ff ff ff 08", "ff ff ff ff 0f", "ff ff ff ff 10",
    "80 80 80 80 07", "80 80 80 80 08", "80 80 80 80 10", "80 80 80 80 70", "80 80 80 80 77", "80 80 80 80 78",
    "80 80 80 80 7f", "87 80 80 80 80 00", "87 80 80 80 80", "ff ff ff ff ff ff ff ff ff", "7f 01 02",
    "80 80 80 80 80 80 80 80 80 00", "80 80 80 80 80 80 80 80 80 01", "80 80 80 80 80 80 80 80 80 7f",
    "80 80 80 80 80 80 80 80 80 7e", "80 80 80 80 80 80 80 80 80 40", "ff ff ff ff ff ff ff ff ff 00",
    "ff ff ff ff ff ff ff ff ff 01", "80 80 80 80 80 80 80 80 80 80 00", "c0 bb 78 00",
]
for name, bits, is_signed in (("u32", 32, False), ("i32", 32, True), ("i64", 64, True)):
    title(f"LEB128, {name}")
    for text in NUMBERS:
        data = bytes.fromhex(text)
        reading(name, data, *leb(data, bits, is_signed))

title("Items of fixed sizes, the lowest byte first")
for name, size in (("byte", 1), ("two bytes", 2), ("four bytes", 4), ("eight bytes", 8)):
    for data in (bytes(range(1, 10)), bytes(range(1, size + 1)), bytes(range(1, size)) + b"\xff",
                 bytes([0xFF] * size), bytes(range(1, size))):
        if data:
            enough = len(data) >= size
            reading(name, data, int.from_bytes(data[:size], "little") if enough else "end", size if enough else 0)

# ----------------------------------------------------------------------- wabt

TYPES = {"i": "i32", "l": "i64"}
SIGNATURES = {name: (takes, gives) for name, _, takes, gives in of_integers(NUMERIC)}
SIGNATURES |= {f"{width}.{modify}": ("ll", "l") for width in ("rmw8", "rmw16", "rmw32", "rmw") for modify in MODIFY}
TRAPS = {"divide by zero": "integer divide by zero", "overflow": "integer overflow"}


def assertion(line):
    """What the standard's kind of script says of a line, or None where a script can't say it."""
    row, answer = line.split(": ")
    name, *words = row.split(" ")
    if name in SIGNATURES:
        takes, gives = SIGNATURES[name]
        call = f'(invoke "{name}" ' + " ".join(f"({TYPES[of]}.const 0x{word})" for of, word in zip(takes, words)) + ")"
        return f'(assert_trap {call} "{TRAPS[answer]}")' if answer in TRAPS else f"(assert_return {call} ({TYPES[gives]}.const 0x{answer}))"
    if name not in ("i32", "i64"):
        return None
    answer, left = answer.removesuffix(" left").split(", ")
    data = bytes.fromhex("".join(words[1:len(words) - int(left)]))
    # Up to the size of the code section.
    module = Module([([], [name])], [(0, [], [])]).bytes(exports=[("f", 0)])[:-5]
    code = b"\x00" + bytes([0x41 if name == "i32" else 0x42]) + data + (b"\x0b" if answer.lstrip("-").isdigit() else b"")
    spelled = "".join(f"\\{byte:02x}" for byte in module + sized(b"\1" + sized(code)))
    if answer in ("end", "too long"):
        return f'(assert_malformed (module binary "{spelled}") "{answer}")'
    return f'(module binary "{spelled}") (assert_return (invoke "f") ({name}.const {answer}))'


def check():
    functions = []
    for name, (takes, gives) in SIGNATURES.items():
        words = " ".join(f"(local.get {place})" for place in range(len(takes)))
        body = f"({name} {words})"
        if name.startswith("rmw"):
            of = name.replace("rmw.", "i64.atomic.rmw.") if name.startswith("rmw.") else f"i64.atomic.{name}_u"
            load = "i64.load" + (f"{name[3:].partition('.')[0]}_u" if name[3] != "." else "")
            body = f"(i64.store (i32.const 0) (local.get 0)) (drop ({of} (i32.const 0) (local.get 1))) ({load} (i32.const 0))"
        types = " ".join(TYPES[of] for of in takes)
        functions.append(f'(func (export "{name}") (param {types}) (result {TYPES[gives]}) {body})')
    found = {line: assertion(line) for line in SUITE.lines}
    # Those that bring a module of their own come last.
    asked = sorted(filter(None, found.values()), key=lambda text: text.startswith("(module"))
    return wabt.report(SUITE, len(asked), wabt.failing([f"(module (memory 1) {' '.join(functions)})", *asked]))


sys.exit(check()) if sys.argv[1:] == ["--check"] else SUITE.write()
