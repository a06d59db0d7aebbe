"""Writes the cases of the suite of steps and the lines that are expected of them.

A line `NAME = BYTES` is a module. A row below it starts a thread of that module and runs it until it ends: `run FUNCTION
ARGUMENT..`, then `answers ANSWER..` for the calls, waits and notifies at which it stands (a value or `none`), and `bytes AT
LENGTH` for what the memory has in the end. `marked` in place of `run` is a thread whose handler's frame found no room. The answer
is, for each time the thread stood, how many steps were run and at what it stands.

What is expected comes from machine.py, which has the rules of steps and nothing of this project's code.

    python3 make_cases.py            writes them
    python3 make_cases.py --check    asks wabt's interpreter (Debian's package wabt) for the calls and the end of each row
"""

import re
import sys

sys.path.insert(1, sys.path[0] + "/../../suites")
from lib import wabt
from lib.cases import Suite
from lib.instructions import ATOMICS, NUMERIC, of_integers
from lib.memory import PAGE
from lib.modules import Module
from lib.numbers import numeric
from machine import ACCESS, ATOMIC, Thread

SUITE = Suite("steps.txt", "# The cases of the suite of steps, written by make_cases.py, which says what they are. The answers are in the file stdout.")
rows, lines, note = SUITE.rows, SUITE.lines, SUITE.note
current = None
CHECKS = sys.argv[1:] == ["--check"]
asked = []


def module(name, **parts):
    global current
    current = Module(**parts)
    current.name, current.parts = name, parts
    rows.append(f"{name} = {current.bytes().hex()}")


def stopped(ran, what):
    kind, *rest = what
    told = {"call": lambda k, values: f"{k} ({' '.join(f'{n:x}' for n in values)})", "wait": lambda width, at: f"{width} at {at:x}",
            "notify": lambda at: f"at {at:x}", "trap": str, "finished": lambda: ""}
    return f"{ran} {kind} {told[kind](*rest)}".rstrip()


def run(function, *arguments, answers=(), shows=None, marked=False, expect=None):
    """A row. `expect` is the answer where it was worked out by hand from the standard."""
    thread = Thread(current, function, arguments)
    thread.marked = marked
    words = ["marked" if marked else "run", str(function)] + [f"{n:x}" for n in arguments]
    ran, stop = thread.run()
    found = [stopped(ran, stop)]
    for value in answers:
        assert stop[0] in ("call", "wait", "notify"), (words, found)
        thread.answer(value)
        ran, stop = thread.run()
        found.append(stopped(ran, stop))
    if answers:
        words += ["answers"] + ["none" if value is None else f"{value:x}" for value in answers]
    if shows:
        at, length = shows
        words += ["bytes", f"{at:x}", f"{length:x}"]
        found.append(thread.memory.bytes[at:at + length].hex())
    answer = "; ".join(found)
    assert expect is None or answer == expect, (words, answer, expect)
    rows.append(" ".join(words))
    lines.append(f"{current.name}: {' '.join(words)}: {answer}")
    if CHECKS and not marked and is_askable(arguments, answers, answer):
        asked.append((lines[-1], started(function, arguments), [of.split(" ", 1)[1] for of in found if of != found[-1] or not shows]))


def is_askable(arguments, answers, answer):
    """Whether wabt's interpreter has an answer: it has no limits of these numbers, no other threads and no fence; its imported functions
    give 0; and it compares with the low bits of an expected operand alone."""
    is_wide = re.search(r"rmw(8|16|32)\.cmpxchg", current.name) and arguments[1] >= 2 ** (8 * ATOMIC[current.name])
    return not (is_wide or any(answers) or "StackFull" in answer or current.name.startswith(("memory.atomic", "fence", "grow unbounded")))


def started(function, arguments):
    """The module with an exported function that calls one with these arguments."""
    parts = current.parts
    takes, gives = current.type_of(function)
    body = [(f"{of}.const", n) for of, n in zip(takes, arguments)] + [("call", function)] + [("drop",)] * len(gives)
    types, functions = [*parts["types"], ([], [])], [*parts["functions"], (len(parts["types"]), [], body)]
    return Module(**{**parts, "types": types, "functions": functions}).bytes([("f", len(parts.get("imports", ())) + len(functions) - 1)])


TRAPS = {"unreachable executed": "Unreachable", "integer divide by zero": "DivideByZero", "integer overflow": "Overflow",
         "out of bounds memory access": "OutOfBounds", "invalid atomic access": "Misaligned", "undefined table": "UndefinedElement",
         "uninitialized table": "UninitializedElement", "indirect call": "TypeMismatch"}


def by_wabt(module):
    """The calls that wabt's interpreter makes, and how the run ends; None where it doesn't load the module."""
    out = wabt.on_bytes("wasm-interp", module, "--dummy-import-func", "--run-all-exports")[1]
    calls = re.findall(r"^called host h\.f(\d+)\((.*)\) =>", out, re.M)
    told = [f"call {k} ({' '.join(f'{int(n):x}' for n in re.findall(r'i..:([0-9]+)', words))})" for k, words in calls]
    end = re.search(r"^f\(\) =>(?: error: (.*))?", out, re.M)
    trap = end and end[1] and next((name for text, name in TRAPS.items() if text in end[1]), end[1])
    return end and told + [f"trap {trap}" if trap else "finished"]


def check():
    """A row that ends at a call has the calls up to there alone. wabt doesn't say which fault an atomic access has."""
    differing, loaded = [], 0
    for line, module, found in asked:
        answer = by_wabt(module)
        loaded += answer is not None
        if answer and answer[-1] == "trap Misaligned" and found[-1] == "trap OutOfBounds":
            answer[-1] = found[-1]
        if answer and answer != found and (not found[-1].startswith("call") or answer[:len(found)] != found):
            differing.append(f"{line}; wabt: {answer}")
    return wabt.report(SUITE, loaded, differing)


def runs(*rows):
    """Rows of a function and its arguments, in hexadecimal digits, each with ` = ` and its answer where that was worked out by hand."""
    for text in rows:
        words, _, expect = text.partition(" = ")
        function, *arguments = words.split(" ")
        run(int(function), *(int(n, 16) for n in arguments), expect=expect or None)


get = lambda *indices: [("local.get", k) for k in indices]
i32 = lambda n: ("i32.const", n)
i64 = lambda n: ("i64.const", n)

TYPES = {"i": "i32", "l": "i64"}
CORNERS = {"i32": [0, 1, 2, 31, 32, 33, 0x7FFFFFFF, 0x80000000, 0x80000001, 0xFFFFFFFF, 0x12345678],
           "i64": [0, 1, 63, 64, 65, 0x7FFFFFFFFFFFFFFF, 0x8000000000000000, 0x8000000000000001, 0xFFFFFFFFFFFFFFFF,
                   0x80000000, 0xFFFFFFFF, 0x123456789ABCDEF0]}
PAIRS = {of: [(a, b) for a in cs for b in (cs if of == "i32" else cs[:9])] for of, cs in CORNERS.items()}


def numeric_cases():
    """An operator over the parameters, and a call of an imported function that shows the result."""
    table = of_integers(NUMERIC)
    for name, _, letters, result in [row for row in table if "_i" in row[0]] + [row for row in table if "_i" not in row[0]]:
        prefix, op = name.split(".")
        count, takes, gives = len(letters), TYPES[letters[0]], TYPES[result]
        module(name, types=[([takes] * count, []), ([gives], [])], imports=[1],
               functions=[(0, [], get(*range(count)) + [(name,), ("call", 0)])])
        if count == 1:
            for a in CORNERS[takes]:
                run(1, a)
        elif op in ("eq", "ne") or op in ("and", "or", "xor", "add", "sub"):
            for a, b in PAIRS[takes][::4]:
                run(1, a, b)
        else:
            for a, b in PAIRS[takes][::2]:
                run(1, a, b)
        top = 2**31 if prefix == "i32" else 2**63
        if op in ("div_s", "rem_s", "div_u", "rem_u"):
            for a, b in ((top, 2 * top - 1), (top, 0), (0, 0), (2 * top - 7, 2), (7, 2 * top - 2), (2 * top - 7, 2 * top - 2)):
                run(1, a, b)
        if op in ("shl", "shr_s", "shr_u", "rotl", "rotr"):
            for b in (0, 1, 31, 32, 63, 64, 65):
                run(1, top + 5, b)


WORKED = """
i32.clz ffffffff 0; i32.clz 0 20; i32.clz 8000 10; i32.ctz 0 20; i32.ctz 80000000 1f; i32.ctz 00010000 10; i32.popcnt ffffffff 20
i32.popcnt deadbeef 18; i32.add ffffffff 1 0; i32.add 7fffffff 1 80000000; i32.sub 0 1 ffffffff; i32.sub 80000000 1 7fffffff
i32.mul 10000 10000 0; i32.mul ffffffff ffffffff 1; i32.mul 12345678 10 23456780; i32.div_s fffffff9 2 fffffffd
i32.div_s 7 fffffffe fffffffd; i32.div_s 80000000 2 c0000000; i32.div_u 80000000 ffffffff 0; i32.div_u ffffffff 2 7fffffff
i32.rem_s fffffff9 2 ffffffff; i32.rem_s 7 fffffffe 1; i32.rem_s 80000000 ffffffff 0; i32.rem_u fffffff9 2 1; i32.rem_u 80000000 ffffffff 80000000
i32.and f0f0 ff00 f000; i32.or f0f0 ff00 fff0; i32.xor f0f0 ff00 0ff0; i32.shl 1 1f 80000000; i32.shl 1 20 1; i32.shl 3 21 6
i32.shr_s 80000000 1f ffffffff; i32.shr_s 80000000 21 c0000000; i32.shr_u 80000000 1f 1; i32.shr_u 80000000 20 80000000
i32.rotl abcd9876 1 579b30ed; i32.rotl 12345678 20 12345678; i32.rotr 1 1 80000000; i32.rotr ff00cc00 1 7f806600
i32.eqz 0 1; i32.eqz 80000000 0; i32.eq 80000000 80000000 1; i32.ne ffffffff 1 1; i32.lt_s 80000000 0 1; i32.lt_u 80000000 0 0
i32.gt_s 7fffffff ffffffff 1; i32.gt_u 7fffffff ffffffff 0; i32.le_s 80000000 7fffffff 1; i32.le_u 80000000 7fffffff 0
i32.ge_s ffffffff 0 0; i32.ge_u ffffffff 0 1; i32.wrap_i64 123456789abcdef0 9abcdef0
i64.clz 1 3f; i64.clz 0 40; i64.ctz 8000000000000000 3f; i64.ctz 0 40; i64.popcnt aaaaaaaa55555555 20
i64.add ffffffffffffffff 1 0; i64.sub 0 1 ffffffffffffffff; i64.mul 100000000 100000000 0; i64.mul ffffffffffffffff ffffffffffffffff 1
i64.div_s fffffffffffffff9 2 fffffffffffffffd; i64.div_u ffffffffffffffff 10 0fffffffffffffff; i64.rem_s 8000000000000000 ffffffffffffffff 0
i64.rem_s fffffffffffffff9 2 ffffffffffffffff; i64.rem_u ffffffffffffffff 10 f; i64.and ff00000000 f000000000 f000000000
i64.or 1 100000000 100000001; i64.xor ffffffffffffffff 1 fffffffffffffffe; i64.shl 1 3f 8000000000000000; i64.shl 1 40 1
i64.shr_s 8000000000000000 3f ffffffffffffffff; i64.shr_u 8000000000000000 3f 1; i64.shr_u 8000000000000000 41 4000000000000000
i64.rotl 8000000000000001 1 3; i64.rotr 1 1 8000000000000000; i64.rotr 123456789abcdef0 4 0123456789abcdef
i64.eqz 0 1; i64.eqz 100000000 0; i64.eq 100000000 0 0; i64.ne 100000000 0 1; i64.lt_s ffffffffffffffff 0 1; i64.lt_u ffffffffffffffff 0 0
i64.gt_s 0 8000000000000000 1; i64.gt_u 0 8000000000000000 0; i64.le_s 8000000000000000 8000000000000000 1; i64.le_u 1 0 0
i64.ge_s 8000000000000000 0 0; i64.ge_u 8000000000000000 0 1; i64.extend_i32_s 80000000 ffffffff80000000; i64.extend_i32_s 7fffffff 7fffffff
i64.extend_i32_u 80000000 80000000
"""


def worked_values():
    """Values worked out by hand from the standard (4.3.2): the operands, and what the operator gives."""
    for words in WORKED.replace("\n", ";").split(";"):
        if words.strip():
            name, *numbers = words.split()
            numbers = [int(n, 16) for n in numbers]
            found = numeric(name, *numbers[:-1])
            assert found == numbers[-1], (words, hex(found))


worked_values()
note("Each numeric instruction: its operands are the arguments, and a call shows what it gives")
numeric_cases()



def access_cases():
    """A load or store through an address in the first parameter, over a memory of one page that two stores filled."""
    fill = [i32(0), i64(0xF7E6D5C4B3A29180), ("i64.store", 64), i32(0), i64(0x8899AABBCCDDEEFF), ("i64.store", PAGE - 8)]
    for name, width in ACCESS.items():
        of = name.split(".")[0]
        if "load" in name:
            for offset in (0, 3):
                module(f"{name}+{offset}", types=[(["i32"], []), ([of], [])], imports=[1], memory=(1, 2),
                       functions=[(0, [], fill + get(0) + [(name, offset), ("call", 0)])])
                for at in (64, 65, 67, 71, PAGE - width, PAGE - width - 3, PAGE - width + 1, PAGE - width - 2, PAGE - 1, PAGE, 2**32 - 1):
                    run(1, at)
        else:
            for offset in (0, 3):
                module(f"{name}+{offset}", types=[(["i32", of], []), ([], [])], imports=[1], memory=(1, 2),
                       functions=[(0, [], fill + get(0, 1) + [(name, offset)])])
                for at in (60, 61, 67):
                    run(1, at, 0x1122334455667788 % 2**(32 if of == "i32" else 64), shows=(56, 24))
                for at in (PAGE - width, PAGE - width - 3, PAGE - width + 1, PAGE - width - 2, PAGE, 2**32 - 1):
                    run(1, at, 0x66, shows=(PAGE - 16, 16))
    note("An address and the greatest offset don't wrap")
    module("far", types=[(["i32"], [])], memory=(1, 1), functions=[(0, [], get(0) + [("i32.load8_u", 2**32 - 1), ("drop",)])])
    runs("0 0 = 1 trap OutOfBounds", "0 1", "0 ffffffff")
    note("A memory without pages")
    module("empty", types=[(["i32"], [])], memory=(0, 1), functions=[(0, [], get(0) + [("i64.load8_s", 0), ("drop",)])])
    run(0, 0)
    note("Size and growth: the old number of pages or -1, new pages are zeros")
    module("grow", types=[(["i32"], []), (["i32", "i32", "i32"], [])], imports=[1], memory=(1, 3),
           functions=[(0, [], [("memory.size",)] + get(0) + [("memory.grow",), ("memory.size",), ("call", 0)])])
    runs("1 0 = 4 call 0 (1 1 1)", "1 1", "1 2 = 4 call 0 (1 1 3)", "1 3 = 4 call 0 (1 ffffffff 1)", "1 ffffffff")
    module("grow unbounded", types=[(["i32"], []), (["i32", "i32", "i32"], [])], imports=[1], memory=(1,),
           functions=[(0, [], [("memory.size",)] + get(0) + [("memory.grow",), ("memory.size",), ("call", 0)])])
    runs("1 ff", "1 100")
    module("grown", types=[(["i32"], []), (["i64"], [])], imports=[1], memory=(1, 2),
           functions=[(0, [], [i32(1), ("memory.grow",), ("drop",)] + get(0) + [("i64.load", PAGE), ("call", 0)])])
    runs("1 0", "1 fff8", "1 fff9")


def atomic_cases():
    fill = [i32(0), i64(0xF7E6D5C4B3A29180), ("i64.store", 64)]
    # One type and width after the other, of which each kind of access has seven opcodes.
    for name, *_ in sorted(ATOMICS[3:], key=lambda row: (int(row[1][3:], 16) - 0x10) % 7):
        of, width = name.split(".")[0], ATOMIC[name]
        if ".load" in name:
            module(name, types=[(["i32"], []), ([of], [])], imports=[1], memory=(1, 1),
                   functions=[(0, [], fill + get(0) + [(name, 2), ("call", 0)])])
            for at in (62, 63, 66, 70, PAGE - width - 2, PAGE - 2, PAGE - 1, 2**32 - 2):
                run(1, at)
            continue
        count = 1 if ".store" in name else (2 if "cmpxchg" in name else 1)
        gives = [] if ".store" in name else [of]
        module(name, types=[(["i32"] + [of] * count, []), (gives, [])], imports=[1], memory=(1, 1),
               functions=[(0, [], fill + get(*range(count + 1)) + [(name, 2), ("call", 0)])])
        wide = 2**32 if of == "i32" else 2**64
        now = 0xF7E6D5C4B3A29180 % 2**(8 * width)
        if count == 2:
            for expected, new in ((now, 0x0102030405060708), (now + 2**(8 * width), 1), (now ^ 1, 2), (0, 3)):
                if expected < wide:
                    run(1, 62, expected, new % wide, shows=(64, 8))
            rest = (0, 1)
        else:
            for value in (0, 1, 0xFFFFFFFFFFFFFFFF, 0x123456789ABCDEF0):
                run(1, 62, value % wide, shows=(64, 8))
            rest = (1,)
        for at in (63, PAGE - width - 2, PAGE - 2, PAGE - 1, 2**32 - 2, 2**32 - 1):
            run(1, at, *rest)
    note("A fence does nothing")
    module("fence", types=[([], [])], memory=(1, 1), functions=[(0, [], [("atomic.fence",)])])
    run(0, expect="2 finished")


def wait_cases():
    for shared in (True, False):
        word = "shared" if shared else "unshared"
        for name in ("memory.atomic.wait32", "memory.atomic.wait64"):
            of, width = ("i32", 4) if name.endswith("32") else ("i64", 8)
            module(f"{name} {word}", types=[(["i32", of, "i64"], []), (["i32"], [])], imports=[1], memory=(1, 1, shared),
                   functions=[(0, [], get(0, 1, 2) + [(name, 4), ("call", 0)])])
            run(1, 4, 7, 2**64 - 1, answers=[2] if shared else ())
            run(1, PAGE - width - 4, 0, 0, answers=[1] if shared else ())
            for at in (0, 5, PAGE - 4, PAGE - 5, PAGE - 3, 2**32 - 4, 2**32 - 3):
                run(1, at, 0, 0)
        module(f"memory.atomic.notify {word}", types=[(["i32", "i32"], []), (["i32"], [])], imports=[1], memory=(1, 1, shared),
               functions=[(0, [], get(0, 1) + [("memory.atomic.notify", 4), ("call", 0)])])
        run(1, 4, 7, answers=[0])
        run(1, PAGE - 8, 2**32 - 1, answers=[5])
        for at in (5, PAGE - 4, PAGE - 5, PAGE - 3, 2**32 - 4):
            run(1, at, 1)


note("Loads and stores, at the ends of the memory and beside them")
access_cases()
note("Atomic accesses: what stands in memory, and Misaligned before OutOfBounds")
atomic_cases()
note("Waits and notifies stand until they are answered: NotShared, Misaligned, OutOfBounds, in this order")
wait_cases()


def show(of="i32"):
    """A module's types and import for bodies that take i32s and show one number."""
    return dict(types=[(["i32"], []), ([of], []), ([], []), (["i32", "i32"], ["i32"])], imports=[1])


def nested(depth, inner, of=None):
    """`inner` in so many blocks, each of which shows its number when it ends."""
    body = inner
    for k in range(depth):
        body = [("block", of, body), i32(k), ("call", 0)]
    return body


def control_cases():
    module("plain", types=[([], [])], functions=[(0, [], []), (0, [], [("nop",)] * 3), (0, [], [("unreachable",)]), (0, [], [("return",)]),
                                                 (0, [], [("nop",), ("unreachable",), ("nop",)])])
    runs("0 = 1 finished", "1 = 4 finished", "2 = 0 trap Unreachable", "3 = 1 finished", "4 = 1 trap Unreachable")
    module("blocks", types=[([], [])], functions=[(0, [], [("block", None, [])]), (0, [], [("loop", None, [])]),
                      (0, [], [("block", None, [("loop", None, [("block", None, [("nop",)])])])])])
    runs("0 = 3 finished", "1 = 3 finished", "2 = 8 finished")
    note("The value of a block stands above what was there; operands that a branch doesn't take are gone")
    module("block values", **show(), functions=[
        (0, [], [i32(5), ("block", "i32", [i32(6)]), ("i32.sub",), ("call", 0)]),
        (0, [], [i32(5), ("block", "i32", [i32(7), i32(6), ("br", 0)]), ("i32.sub",), ("call", 0)]),
        (0, [], [i32(5), ("block", "i32", [("block", None, [i32(8), i32(9), ("br", 1)]), i32(7)]), ("i32.sub",), ("call", 0)]),
        (0, [], [i32(5), ("loop", "i32", [i32(6)]), ("i32.sub",), ("call", 0)])])
    runs("1 0 = 5 call 0 (ffffffff)", "2 0 = 6 call 0 (ffffffff)", "3 0", "4 0")
    note("An if: the first arm where the operand isn't 0; without an else an empty arm")
    module("if", **show(), functions=[
        (0, [], get(0) + [("if", "i32", [i32(10)], [i32(20)]), ("call", 0)]),
        (0, [], get(0) + [("if", None, [i32(10), ("call", 0)]), i32(30), ("call", 0)]),
        (0, [], get(0) + [("if", None, [("nop",)], []), i32(30), ("call", 0)]),
        (0, [], get(0) + [("if", "i32", [i32(1), i32(10), ("br", 0)], [i32(20), i32(21), ("br", 0)]), ("call", 0)]),
        (0, [], get(0) + [("if", None, [("br", 1)], [("br", 0)]), i32(40), ("call", 0)])])
    for x in range(1, 6):
        for c in (0, 1, 2, 2**31, 2**32 - 1):
            run(x, c, answers=[None] if x == 2 and c else ())
    note("br and br_if at each depth: out of blocks, before a loop, out of the function")
    for depth in range(5):
        module(f"br {depth}", **show(), functions=[
            (0, [], nested(4, [("br", depth)]) + [i32(9), ("call", 0)]),
            (0, [], nested(4, get(0) + [("br_if", depth)]) + [i32(9), ("call", 0)])])
        run(1, 0, answers=[None] * (5 - depth if depth < 4 else 0))
        run(2, 0, answers=[None] * 5)
        run(2, 1, answers=[None] * (5 - depth if depth < 4 else 0))
        run(2, 2**32 - 1)
    note("A branch to a loop goes before it, and it is executed again: 7 steps a round")
    down = get(0) + [i32(1), ("i32.sub",), ("local.tee", 0), ("br_if", 0)]
    module("loop", **show(), functions=[
        (0, [], [("loop", None, down)]), (0, [], [("loop", None, down)] + get(0) + [("call", 0)]),
        (0, [], [("block", None, [("loop", None, get(0) + [("i32.eqz",), ("br_if", 1)] + get(0) + [i32(1), ("i32.sub",), ("local.set", 0), ("br", 0)])])]),
        (0, [], [("loop", None, [("block", None, get(0) + [("br_if", 0), ("return",)])] + get(0) + [i32(1), ("i32.sub",), ("local.set", 0), ("br", 0)])])])
    runs("1 1 = 8 finished", "1 3 = 20 finished", "2 3", "3 0", "3 5", "4 3")
    note("br_table: each label, and the default from the length of the list on")
    for labels, default in (([0, 1, 2, 3], 4), ([3, 0], 1), ([], 2), ([4, 4, 0], 4), ([2] * 9 + [0], 3)):
        module(f"br_table {' '.join(map(str, labels))} / {default}", **show(), functions=[
            (0, [], nested(4, get(0) + [("br_table", labels, default)]) + [i32(9), ("call", 0)])])
        for k in sorted(set(list(range(len(labels) + 2)) + [2**31, 2**32 - 1])):
            run(1, k)
    module("br_table value", **show(), functions=[
        (0, [], [i32(1), ("block", "i32", [i32(2), ("block", "i32", [i32(3), i32(4)] + get(0) + [("br_table", [0, 1], 0)]), ("i32.add",)]), ("i32.shl",), ("call", 0)])])
    for k in (0, 1, 2):
        run(1, k)
    note("A branch out of all blocks leaves the result, and the end of the function is a step of its own; return is one step")
    module("results", types=[(["i32"], ["i32"]), (["i32"], []), (["i32"], ["i64"])], imports=[1], functions=[
        (0, [], get(0)), (0, [], [i32(7)] + get(0) + [("br", 0)]), (0, [], [i32(7)] + get(0) + [("return",)]),
        (0, [], [i32(7), ("block", None, [i32(8)] + get(0) + [("br", 1)]), ("drop",), i32(6)]),
        (0, [], [("block", None, [("loop", None, [i32(8), i32(8)] + get(0) + [("return",)])]), i32(5)]),
        (0, [], get(0, 0) + [("br_if", 0)]), (0, [], [i32(7)] + get(0, 0) + [("br_if", 0), ("drop",)])] + [
            (1, [], [i32(100)] + get(0) + [("call", x), ("i32.add",), ("call", 0)]) for x in range(1, 5)] + [
            (1, [], [i32(100)] + get(0) + [("call", x), ("i32.add",), ("call", 0)]) for x in (5, 6, 7)])
    for x in range(8, 15):
        for c in (0, 1, 5):
            run(x, c)
    run(8, 5, answers=[None], expect="6 call 0 (69); 1 finished")
    runs("1 5 = 2 finished", "2 5 = 4 finished", "3 5 = 3 finished")


def call_cases():
    note("Calls: the arguments are the first locals, the others are 0; values of the caller stay")
    module("locals", types=[(["i32", "i64", "i32"], ["i64"]), (["i64"], []), ([], []), (["i64", "i64", "i32"], ["i32"])], imports=[1, 3],
           functions=[(0, [(2, "i64"), (1, "i32")], get(1) + [("i64.extend_i32_u",)] * 0 + get(3) + [("i64.add",)] + get(4) + [("i64.add",)]),
                      (2, [], [i64(77), i32(1), i64(2), i32(3), ("call", 2), ("i64.add",), ("call", 0)]),
                      (2, [(1, "i64")], [i64(5), ("local.set", 0), i64(77), i32(1), i64(2), i32(3), ("call", 2), ("drop",)] + get(0) + [("i64.sub",), ("call", 0)]),
                      (2, [], [i64(10), i64(20), i32(30), ("call", 1), ("drop",), i64(1), i64(2), i32(3), ("call", 1), i32(2), ("i32.add",), ("drop",)])])
    runs("3", "4")
    run(5, answers=[0xFFFFFFFF, 4])
    note("An imported call without a result, and one with a result above other operands")
    module("imported", types=[([], []), ([], ["i32"]), (["i32"], []), (["i32", "i32"], ["i64"]), (["i64"], [])], imports=[0, 1, 2, 3, 4],
           functions=[(0, [], [("call", 0), ("call", 1), ("call", 2)]),
                      (0, [], [i32(9), i32(1), i32(2), ("call", 3), ("call", 4), ("call", 2)])])
    run(5, answers=[None, 0x11, None])
    run(6, answers=[0xABCDEF0123456789, None, None])
    note("Recursion: the factorial of the argument")
    module("factorial", types=[(["i64"], ["i64"]), (["i64"], [])], imports=[1],
           functions=[(0, [], get(0) + [("i64.eqz",), ("if", "i64", [i64(1)], get(0, 0) + [i64(1), ("i64.sub",), ("call", 1), ("i64.mul",)])]),
                      (1, [], get(0) + [("call", 1), ("call", 0)])])
    for n in (0, 1, 5, 20, 21):
        run(2, n)
    note("An indirect call: past the table, at an empty place, at another type, in this order. Equal types count, not their numbers")
    module("indirect", types=[(["i32"], ["i32"]), (["i32"], []), ([], []), (["i32"], ["i32"]), (["i32"], ["i64"]), (["i32", "i32"], [])], imports=[1, 5],
           table=6, elements=[(0, [2, 3, 0]), (4, [4]), (1, [2]), (1, [3])],
           functions=[(0, [], get(0) + [i32(1), ("i32.add",)]), (3, [], get(0) + [i32(2), ("i32.mul",)]), (4, [], [i64(5)]),
                      (5, [], [i32(50)] + get(1, 0) + [("call_indirect", 0), ("i32.add",), ("call", 0)]),
                      (5, [], [i32(50)] + get(1, 0) + [("call_indirect", 1), ("call", 0)])])
    for x in (5, 6):
        for place in (0, 1, 2, 3, 4, 5, 6, 7, 2**31, 2**32 - 1):
            run(x, place, 9)
    run(6, 2, 9, answers=[None, None])
    module("offset of a global", types=[([], []), (["i32"], [])], table=4, globals=[("i32", False, 1), ("i32", False, 2)],
           elements=[(0, [0]), (("global.get", 1), [1])],
           functions=[(0, [], [("nop",)]), (0, [], [("unreachable",)]), (1, [], get(0) + [("call_indirect", 0)])])
    for place in range(5):
        run(2, place)
    module("no segment", types=[([], [])], table=0, functions=[(0, [], [i32(0), ("call_indirect", 0)])])
    run(0, expect="1 trap UndefinedElement")
    module("full table", types=[([], []), (["i32"], [])], table=65536, elements=[(65533, [0, 0, 0]), (65534, [1])],
           functions=[(0, [], [("nop",)]), (1, [], []), (1, [], get(0) + [("call_indirect", 0)])])
    for place in (0, 65532, 65533, 65534, 65535, 65536):
        run(2, place)
    module("past the table", types=[([], []), (["i32"], [])], table=2, elements=[(1, [0, 0]), (2**32 - 1, [0]), (2**31, [0])],
           functions=[(0, [], [("nop",)]), (1, [], get(0) + [("call_indirect", 0)])])
    for place in (0, 1, 2, 2**31, 2**32 - 1):
        run(1, place)


def variable_cases():
    module("variables", types=[(["i32", "i64"], []), (["i32"], []), (["i64"], [])], imports=[1, 2],
           globals=[("i32", True, 5), ("i64", True, -1), ("i32", False, -7), ("i64", False, 2**63)],
           functions=[(0, [], get(0) + [("local.tee", 0), ("call", 0)] + get(1) + [("local.set", 1)] + get(1) + [("call", 1)]),
                      (0, [(1, "i32"), (1, "i64")], get(0) + [("local.set", 2)] + get(1) + [("local.tee", 3), ("drop",)] + get(2) + [("call", 0)] + get(3) + [("call", 1)]),
                      (0, [], [("global.get", 0), ("call", 0), ("global.get", 1), ("call", 1), ("global.get", 2), ("call", 0), ("global.get", 3), ("call", 1)]),
                      (0, [], get(0) + [("global.set", 0)] + get(1) + [("global.set", 1), ("global.get", 0), ("call", 0), ("global.get", 1), ("call", 1)]),
                      (0, [], [i32(11), i32(22)] + get(0) + [("select",), ("call", 0), i64(33), i64(44)] + get(0) + [("select",), ("call", 1)]),
                      (0, [], [i32(1), i32(2), ("drop",), ("call", 0)])])
    for x in range(2, 8):
        for a, b in ((0, 0), (1, 2**64 - 1), (2**31, 2**63), (2**32 - 1, 1)):
            run(x, a, b, answers=[None] * {2: 2, 3: 2, 4: 4, 5: 2, 6: 2, 7: 1}[x])


def filled(first, count, body):
    """Functions from an index on, the first of which ends in the body where so many values stand."""
    fillers = [(0, [(8192, "i32")], [("call", first + k + 1)]) for k in range(7)]
    return fillers + [(0, [(count - 7 * 8192, "i32")], body)]


def full_cases():
    note("A thread whose handler's frame found no room traps at its next step")
    module("marked", types=[([], [])], functions=[(0, [], [("nop",)])])
    run(0, marked=True, expect="0 trap StackFull")
    note("At most 1,024 frames: a function that calls itself so often as its argument says")
    module("frames", types=[(["i32"], [])], functions=[(0, [], get(0) + [("if", None, get(0) + [i32(1), ("i32.sub",), ("call", 0)])])])
    for n in (0, 1, 1022, 1023, 1024, 2000):
        run(0, n)
    module("frames without values", types=[([], []), (["i32"], [])], globals=[("i32", True, 0)],
           functions=[(0, [], [("global.get", 0), ("if", None, [("global.get", 0), i32(1), ("i32.sub",), ("global.set", 0), ("call", 0)])]),
                      (1, [], get(0) + [("global.set", 0), ("call", 0)])])
    for n in (1022, 1023):
        run(1, n)
    note("At most 65,536 values, the locals of frames among them: seven frames of 8,192 and one with the rest leave so many")
    for more in (8188, 8189, 8190, 8191):
        module(f"locals {more}", types=[([], []), (["i32"], [])], imports=[1],
               functions=filled(1, 57344, [i32(1), i32(2), ("call", 9), ("drop",), ("call", 0)]) + [(0, [(more, "i64")], [])])
        run(1)
    for count in (65534, 65535, 65536):
        bodies = [[i32(7), ("call", 2), ("drop",), ("call", 1), ("call", 0)],
                  get(0) + [("local.tee", 0), ("local.tee", 8000), ("drop",), ("memory.size",), ("drop",)],
                  [("global.get", 0), ("global.set", 0), ("global.get", 0), ("global.get", 0)] + [("drop",)] * 2,
                  [i64(1), i64(2), ("i64.add",), i32(0), ("i64.load", 0), ("drop",), ("drop",)]]
        for k, body in enumerate(bodies):
            module(f"values {count} {k}", types=[([], []), (["i32"], []), ([], ["i32"]), (["i32"], ["i32"])], imports=[1, 2, 3],
                   functions=filled(3, count, body), memory=(1, 1), globals=[("i32", True, 1)])
            run(3, answers=[5, 6] if k == 0 and count < 65536 else ())
    for count in (65535, 65536):
        for k, body in enumerate([[("call", 1), ("call", 0)], [("call", 1), ("drop",)], [i32(3), ("call", 0)]]):
            module(f"a result over {count} values {k}", types=[([], []), (["i32"], []), ([], ["i32"])], imports=[1, 2],
                   functions=filled(2, count, body))
            run(2, answers=([8] if k == 1 else [8, None] if k == 0 else [None]) if count == 65535 else ())
    for count in (65533, 65534, 65535):
        module(f"an argument over {count} values", types=[([], []), (["i32"], []), (["i32"], ["i32"])], imports=[1],
               functions=filled(1, count, [i32(5), ("call", 9), ("call", 0)]) + [(2, [], get(0))])
        run(1, answers=[None] if count < 65535 else ())
    note("An indirect call finds room without its number in the table")
    for k in range(3):
        module(f"an indirect call of {k} locals", types=[([], [])], table=1, elements=[(0, [8])],
               functions=filled(0, 65535, [i32(0), ("call_indirect", 0)]) + [(0, [(k, "i64")], [])])
        run(0)
    note("At most 16,384 labels: 126 blocks, and 128 frames of 127 and one, leave 16,383 of them open")
    at_last = [("block", None, get(0) + [("br_if", 0)] + get(1) + [("call_indirect", 0), ("return",)])]
    tower = at_last + get(0) + [i32(1), ("i32.sub",)] + get(1) + [("call", 1)]
    for _ in range(127):
        tower = [("block", None, tower)]
    entry = get(0, 1) + [("call", 1)]
    for _ in range(126):
        entry = [("block", None, entry)]
    inner = [[("nop",)], [("block", None, [])], [("loop", None, [])], [i32(1), ("if", None, [])], [i32(0), ("if", None, [])]]
    last = inner + [[("block", None, body)] for body in inner]
    module("labels", types=[([], []), (["i32", "i32"], []), (["i32"], [])], imports=[2], table=len(last),
           elements=[(0, [3 + k for k in range(len(last))])],
           functions=[(1, [], tower), (1, [], entry)] + [(0, [], body) for body in last])
    for k in range(len(last)):
        run(2, 127, k)
    runs("2 0 7", "2 80 0")


note("Parametric and variable instructions")
variable_cases()
note("Control")
control_cases()
call_cases()
full_cases()
sys.exit(check()) if CHECKS else SUITE.write()
