"""Writes the rows of the memory suite and the answers that are expected of them, by the model of suites/lib/memory.py.

    python3 make_cases.py            writes them
    python3 make_cases.py --check    asks wabt's interpreter (Debian's package wabt) for the answers
"""

import sys

sys.path.insert(1, sys.path[0] + "/../../suites")
from lib import wabt
from lib.cases import Suite
from lib.memory import MOST, PAGE, Memory
from lib.numbers import MODIFY, Trap

SUITE = Suite("accesses.txt", "# The rows of the memory suite, written by make_cases.py, which says what they are. The answers are in the file stdout.")
note = SUITE.note
memory = Memory(0, 0)
NAMES = {"exchange": "xchg", "compare_exchange": "cmpxchg"}


def answer(name, *words):
    """What a row answers: decimal numbers, but for the values of accesses, which are hexadecimal."""
    global memory
    first, second = [*map(int, words[:2]), 0, 0][:2]
    if name == "memory":
        memory = Memory(first, second)
    elif name == "size":
        return memory.size()
    elif name == "grow":
        return memory.grow(first)
    elif name == "bytes":
        return "outside" if first + second > len(memory.bytes) else memory.bytes[first:first + second].hex()
    elif name == "write":
        memory.access("store", 4, memory.check(first, 4), int.from_bytes(bytes([second]) * 4))
    elif name != "copy":
        at = memory.check(second, first, name not in ("load", "store"))
        old = memory.access(NAMES.get(name, name), first, at, *(int(word, 16) for word in words[2:]))
        return "done" if name == "store" else f"{old:x}"
    return "done"


def do(*rows):
    for row in rows:
        try:
            SUITE.row(row, answer(*row.split()))
        except Trap as trap:
            SUITE.row(row, trap)


note("The ends of a memory of one page, and addresses past 2^32")
do("memory 1 4")
for width in (1, 2, 4, 8):
    for at in (PAGE - width - 1, PAGE - width, PAGE - width + 1, PAGE, 2**32 - width, 2**32, 2**32 + 1, 2**64 - 1, 2**64 - width):
        do(f"store {width} {at} fedcba9876543210", f"load {width} {at}")

note("A memory without pages")
do("memory 0 0")
for width in (1, 2, 4, 8):
    do(f"load {width} 0", f"store {width} 0 1", f"add {width} 0 1")
do("bytes 0 0", "bytes 0 1", "size", "grow 0", "grow 1")

note("Narrow accesses leave the bytes beside them")
do("memory 1 1", "store 8 96 8877665544332211")
for width in (1, 2, 4):
    do("store 8 104 0", f"store {width} 104 ffffffffffffffff", "load 8 104", f"load {width} 97", f"load {width} 99")
do("bytes 96 16")

note("Atomic accesses: every operator at every width, with arguments wider than it")
for width in (1, 2, 4, 8):
    for name in ("add", "sub", "and", "or", "xor", "exchange"):
        do("store 8 160 f0e1d2c3b4a59687", f"{name} {width} 160 123456789abcdef0", "load 8 160")
    do(f"add {width} 160 ffffffffffffffff", f"sub {width} 160 ffffffffffffffff", "load 8 160")

note("Misaligned comes before the bounds")
for width in (2, 4, 8):
    for at in (161, PAGE - 1, PAGE + 1, 2**32 - 1, PAGE, 2**32):
        do(f"xor {width} {at} 1", f"compare_exchange {width} {at} 0 1")
do("load 8 160")

note("A compare and exchange compares with the whole expected operand")
for width in (1, 2, 4, 8):
    old = 0x0807060504030201 % 2 ** (8 * width)
    do("store 8 200 807060504030201", f"compare_exchange {width} 200 {old + 1:x} aaaaaaaaaaaaaaaa", "load 8 200")
    if width < 8:
        do(f"compare_exchange {width} 200 807060504030201 bbbbbbbbbbbbbbbb", "load 8 200")
    do(f"compare_exchange {width} 200 {old:x} cccccccccccccccc", "load 8 200")

note("Growth: by nothing, to the maximum, past it; new pages are zeros, and the others stay")
do("memory 1 3", f"store 4 {PAGE - 4} deadbeef", "grow 0", "grow 3", "size", f"load 4 {PAGE}", "grow 1", f"load 4 {PAGE - 4}",
   f"load 8 {PAGE}", f"load 8 {2 * PAGE - 8}", f"load 1 {2 * PAGE}", "grow 4294967295", "grow 1", "size", f"load 8 {3 * PAGE - 8}",
   "grow 1", "grow 0", f"load 8 {3 * PAGE - 4}")

note("No memory has more than 256 pages")
do("memory 1 65536", "grow 256", "grow 255", "grow 1", "grow 0", "size", f"store 8 {256 * PAGE - 8} 1122334455667788",
   f"load 8 {256 * PAGE - 8}", f"load 8 {256 * PAGE - 7}")

note("A maximum below the first size")
do("memory 2 1", "grow 0", "size")

note("Ranges, and a copy")
do("memory 1 2", "write 0 65", f"write {PAGE - 4} 66", f"write {PAGE - 3} 67", f"write {PAGE} 68", "write 4294967295 69", "bytes 0 6",
   f"bytes {PAGE - 5} 5", f"bytes {PAGE - 5} 6", f"bytes {PAGE} 0", f"bytes {PAGE + 1} 0", "bytes 4294967295 4294967295", "copy",
   "bytes 0 6", f"bytes {PAGE - 4} 4", "grow 1", "grow 1")

ATOMICS = {name: f"rmw{{}}.{NAMES.get(name, name)}" for name in [*MODIFY, *NAMES]}
TRAPS = {"Misaligned": "unaligned atomic", "OutOfBounds": "out of bounds memory access"}


def functions():
    """A function for each access at each width, of an address and values of 64 bits."""
    for width in (1, 2, 4, 8):
        bits, low = (8 * width, "_u") if width < 8 else ("", "")
        yield f'(func (export "load {width}") (param i32) (result i64) (i64.load{bits}{low} (local.get 0)))'
        yield f'(func (export "store {width}") (param i32 i64) (i64.store{bits} (local.get 0) (local.get 1)))'
        for name, of in ATOMICS.items():
            values = 2 if name == "compare_exchange" else 1
            words = " ".join(f"(local.get {place})" for place in range(values + 1))
            types = "i64 " * values
            yield f'(func (export "{name} {width}") (param i32 {types}) (result i64) (i64.atomic.{of.format(bits)}{low} {words}))'
    yield '(func (export "size") (result i32) memory.size)'
    yield '(func (export "grow") (param i32) (result i32) (memory.grow (local.get 0)))'
    yield '(func (export "write") (param i32 i32) (i32.store (local.get 0) (i32.mul (local.get 1) (i32.const 0x01010101))))'


def assertions(row, answer):
    """What the standard's kind of script says of a row. It has no address past 2^32, no copy, and no memory whose maximum is below
    its size; and wabt 1.0.32 compares with the low bits of an expected operand alone."""
    global is_valid
    name, *words = row.split()
    if name == "memory":
        is_valid = int(words[0]) <= int(words[1])
        return [f"(module (memory {words[0]} {min(int(words[1]), MOST)}) {' '.join(functions())})"] if is_valid else []
    if not is_valid or name == "copy" or name in ("load", "store", *ATOMICS) and int(words[1]) >= 2**32 \
            or name == "compare_exchange" and int(words[2], 16) >= 2 ** (8 * int(words[0])):
        return []
    if name == "bytes":
        return [f'(assert_return (invoke "load 1" (i32.const {int(words[0]) + place})) (i64.const {byte}))'
                for place, byte in enumerate(bytes.fromhex(answer) if answer != "outside" else b"")]
    function = name if name in ("size", "grow", "write") else f"{name} {words.pop(0)}"
    of = "i32" if name in ("size", "grow", "write") else "i64"
    call = f'(invoke "{function}"' + "".join(
        f" ({of if place else 'i32'}.const {'0x' if of == 'i64' and place else ''}{word})" for place, word in enumerate(words)) + ")"
    if answer in TRAPS:
        return [f'(assert_trap {call} "{TRAPS[answer]}")']
    given = "" if answer == "done" else f" ({of}.const {'0x' if of == 'i64' else ''}{answer})"
    return [f"(assert_return {call}{given})"]


def check():
    asked = [assertions(*line.split(": ")) for line in SUITE.lines]
    return wabt.report(SUITE, sum(map(bool, asked)), wabt.failing([line for lines in asked for line in lines]))


sys.exit(check()) if sys.argv[1:] == ["--check"] else SUITE.write()
