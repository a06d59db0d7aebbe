"""Writes the cases of the suite of programs and the lines that are expected of them; it takes `wat2wasm` of Debian's package wabt.

A line `NAME: SLICE FUEL BYTES` is a module, with how many steps one slice has and how many its process may run. Its answer is
the fault of loading it, or why its run ended, what it printed to output and errors (`-` for nothing), what the history weighs, and
the entries: process and thread, steps, call, outcome. An entry weighs 64, and one more for each byte of its reply.

Every answer here was worked out by hand from the standards: an instruction, the end of a block and that of a function are a step
each, and a call of an imported function and what traps are none. `words` alone is counted by this script, from its text.
"""

import collections
import re
import sys

sys.path.insert(1, sys.path[0] + "/../../suites")
from lib.cases import Suite
from lib.wabt import assembled

SLICE, FUEL = 10_000, 4_294_967_296
EXAMPLES = sys.path[0] + "/../../examples/"
WRITE = '(import "wasi_snapshot_preview1" "fd_write" (func $fd_write (param i32 i32 i32 i32) (result i32)))'
EXIT = '(import "wasi_snapshot_preview1" "proc_exit" (func $proc_exit (param i32)))'
START = '(func (export "_start"))'

SUITE = Suite("programs.txt", "# The cases of the suite of programs, written by make_cases.py, which says what they are. The answers are in the file stdout.")
rows, lines, note = SUITE.rows, SUITE.lines, SUITE.note


def case(name, module, answer, slice=SLICE, fuel=FUEL):
    rows.append(f"{name}: {slice} {fuel} {module.hex()}")
    lines.append(f"{name}: {answer}")


def example(name):
    with open(f"{EXAMPLES}{name}.wasm", "rb") as file:
        return file.read()


def spelled(text):
    """The module of a text, valid or not."""
    module, why = assembled(f"(module {text})".encode())
    assert module is not None, why
    return module


def ran(why, *entries, out=b"", err=b"", weight=None):
    """The answer of a run. An entry weighs 64 and the bytes of its reply, which stand last in a reply's words."""
    weighs = sum(64 + int((re.search(r"reply \d+ (\d+)", e) or [0, 0])[1]) for e in entries)
    assert weight is None or weight == weighs, (entries, weighs)
    told = ", ".join("1.1 " + e for e in entries)
    return f"{why}; out {out.hex() or '-'}; err {err.hex() or '-'}; weight {weighs}; {told}"


def exits(code, steps, *before, **rest):
    return ran(f"exited {code}", *before, f"+{steps} proc_exit exit", **rest)


def returns(steps, *before, **rest):
    return ran("exited 0", *before, f"+{steps} return exit", **rest)


def traps(steps, *before, **rest):
    return ran("killed 6", *before, f"+{steps} trap exit", **rest)


def spends(steps, *before, **rest):
    return ran("killed 24", *before, f"+{steps} fuel exit", **rest)


# ---- ends

note("How a process ends: by proc_exit, by the return of _start, by a trap")
case("seven", example("seven"), exits(7, 1, weight=64))
case("the greatest exit code", spelled(f"{EXIT} (func (export \"_start\") (call $proc_exit (i32.const -1)))"), exits(4294967295, 1))
HI = ("+4 fd_write reply 0 3",)
case("hi", example("hi"), returns(2, *HI, out=b"hi\n", weight=131))
case("nothing", spelled(START), returns(1, weight=64))
case("trap", example("trap"), traps(1, "+4 fd_write reply 0 16", out=b"before the trap\n", weight=144))
case("calls without end", spelled("(func $f (call $f)) (func (export \"_start\") (call $f))"), traps(1023))

note("Slices: they end when their steps have run, unless something else stands there")
SPENT = "spent reply 0 0"
case("hi, slices of 4", example("hi"), returns(2, *HI, out=b"hi\n"), slice=4)
case("hi, slices of 3", example("hi"), returns(2, "+3 " + SPENT, "+1 fd_write reply 0 3", out=b"hi\n", weight=195), slice=3)
case("hi, slices of 1", example("hi"),
     returns(1, *["+1 " + SPENT] * 3, "+1 fd_write reply 0 3", "+1 " + SPENT, out=b"hi\n", weight=387), slice=1)

note("Fuel: where none is left and another step would come, the process is killed by xcpu")
case("a loop, fuel 1000", example("loop"), spends(1000, weight=64), fuel=1000)
case("a loop, slices of 300", example("loop"), spends(100, *["+300 " + SPENT] * 3, weight=256), slice=300, fuel=1000)
case("a loop, slices of 500", example("loop"), spends(500, "+500 " + SPENT), slice=500, fuel=1000)
case("a loop, no fuel", example("loop"), spends(0), fuel=0)
case("hi, fuel 3", example("hi"), spends(3), fuel=3)
case("hi, fuel 4", example("hi"), spends(0, *HI, out=b"hi\n"), fuel=4)
case("hi, fuel 5", example("hi"), spends(1, *HI, out=b"hi\n"), fuel=5)
case("hi, fuel 6", example("hi"), returns(2, *HI, out=b"hi\n"), fuel=6)

note("The history is full: 15 writes of 16 MiB weigh 251,659,200, and 16 would weigh more than 268,435,456")
BUFFERS = "\\00\\00\\00\\00\\00\\00\\01\\00" * 256
ENDLESS = f"""{WRITE} (memory 1) (data (i32.const 0) "{BUFFERS}") (func (export "_start")
    (loop $again (drop (call $fd_write (i32.const 1) (i32.const 0) (i32.const 256) (i32.const 2048))) (br $again)))"""
case("endless", spelled(ENDLESS), "journal full 1.1 +7 16777280; out 251658240 bytes; err -; weight 251659200; 15 entries")

note("A program in C, built by clang")
with open(EXAMPLES + "words.c") as file:
    counted = collections.Counter(re.search(r"text\[\] =(.*?);", file.read(), re.S)[1].replace('"', "").split())
table = sorted(counted.items(), key=lambda word: (-word[1], word[0]))
output = "".join(f"{times} {word}\n" for word, times in table).encode()
case("words", example("words"),
     f"exited {len(table)}; out {output.hex()}; err -; weight {64 * (len(table) + 1) + len(output)}; {len(table) + 1} entries",
     slice=1_000_000)

# ---- what instructions do

note("Numbers and memory")
case("the least number divided by -1", example("edges/division_overflow"), traps(2))
case("its remainder", example("edges/remainder"), exits(0, 3))
case("the last four bytes", example("edges/load_last"), exits(42, 2))
case("one byte past them", example("edges/load_past"), traps(1))
case("an address doesn't wrap", example("edges/load_no_wrap"), traps(1))
case("code behind a branch", example("edges/dead_code"), returns(3))
case("a constant in five bytes", example("edges/long_constant"), exits(7, 1))
GROWS = "(drop (memory.grow (i32.const 1)))"
case("a memory grows", spelled(f"{EXIT} (memory 1 2) (func (export \"_start\") {GROWS} (call $proc_exit (memory.size)))"), exits(2, 4))
case("and not past its maximum",
     spelled(f"{EXIT} (memory 1 2) (func (export \"_start\") {GROWS} (call $proc_exit (memory.grow (i32.const 1))))"), exits(4294967295, 5))
case("and by no page",
     spelled(f"{EXIT} (memory 1 1) (func (export \"_start\") (call $proc_exit (memory.grow (i32.const 0))))"), exits(1, 2))
case("a start function runs first", spelled(f"""{EXIT} (memory 1) (start $before)
    (func $before (i32.store (i32.const 0) (i32.const 9)))
    (func (export "_start") (call $proc_exit (i32.load (i32.const 0))))"""), exits(9, 6))
case("the memory of env", spelled(f"""{EXIT} (import "env" "memory" (memory 1)) (data (i32.const 8) "\\05")
    (func (export "_start") (call $proc_exit (i32.load8_u (i32.const 8))))"""), exits(5, 2))

# ---- writes

note("Writes: the descriptor, the list of buffers and the place of the count")


def write(arguments, buffers="", text=""):
    """It makes one write, and exits with what the write answers."""
    words = " ".join(f"(i32.const {n})" for n in arguments)
    data = f'(data (i32.const 0) "{buffers}") (data (i32.const 32) "{text}")'
    return spelled(f"{WRITE} {EXIT} (memory 1) {data} (func (export \"_start\") (call $proc_exit (call $fd_write {words})))")


def replies(errno, count=0, **rest):
    return exits(errno, 0, f"+4 fd_write reply {errno} {count}", **rest)


ONE = "\\20\\00\\00\\00\\02\\00\\00\\00"
case("to the output", write([1, 0, 1, 16], ONE, "ab"), replies(0, 2, out=b"ab"))
case("to the errors", write([2, 0, 1, 16], ONE, "ab"), replies(0, 2, err=b"ab"))
case("to the input", write([0, 0, 1, 16], ONE, "ab"), replies(76))
case("to the root", write([3, 0, 1, 16], ONE, "ab"), replies(31))
case("to no descriptor", write([4, 0, 1, 16], ONE, "ab"), replies(8))
case("to the greatest number", write([-1, 0, 1, 16], ONE, "ab"), replies(8))
case("two buffers", write([1, 0, 2, 16], ONE + "\\21\\00\\00\\00\\03\\00\\00\\00", "abcd"), replies(0, 5, out=b"abbcd"))
case("the list ends one byte past the memory", example("edges/write_past"), replies(21))
case("the list ends with the memory", write([1, 65528, 1, 0]), replies(0))
case("an empty list at the end", write([1, 65536, 0, 0]), replies(0))
case("and one byte past it", write([1, 65537, 0, 0]), replies(21))
case("a buffer one byte past the memory", write([1, 0, 1, 16], "\\ff\\ff\\00\\00\\02\\00\\00\\00"), replies(21))
case("the last byte", write([1, 0, 1, 16], "\\ff\\ff\\00\\00\\01\\00\\00\\00"), replies(0, 1, out=b"\0"))
case("the count at the last four bytes", write([1, 0, 1, 65532], ONE, "ab"), replies(0, 2, out=b"ab"))
case("and one byte past them", write([1, 0, 1, 65533], ONE, "ab"), replies(21))
case("no memory", spelled(f"""{WRITE} {EXIT}
    (func (export "_start") (call $proc_exit (call $fd_write (i32.const 1) (i32.const 0) (i32.const 0) (i32.const 0))))"""), replies(21))
case("1,024 buffers", write([1, 4096, 1024, 16]), replies(0))
case("and one more", write([1, 4096, 1025, 16]), replies(28))
case("a fault before that", write([1, 65528, 1025, 16]), replies(21))
case("and before the descriptor", write([4, 65529, 1, 16]), replies(21))
case("257 pages of bytes", spelled(f"""{WRITE} {EXIT} (memory 1) (data (i32.const 0) "{BUFFERS}\\00\\00\\00\\00\\00\\00\\01\\00")
    (func (export "_start") (call $proc_exit (call $fd_write (i32.const 1) (i32.const 0) (i32.const 257) (i32.const 4096))))"""), replies(28))
case("16 MiB and a byte", spelled(f"""{WRITE} {EXIT} (memory 1) (data (i32.const 0) "{BUFFERS}\\00\\00\\00\\00\\01\\00\\00\\00")
    (func (export "_start") (call $proc_exit (call $fd_write (i32.const 1) (i32.const 0) (i32.const 257) (i32.const 4096))))"""), replies(28))
case("an empty buffer at the end", write([1, 0, 1, 16], "\\00\\00\\01\\00\\00\\00\\00\\00"), replies(0))
case("an empty buffer past it", write([1, 0, 1, 16], "\\01\\00\\01\\00\\00\\00\\00\\00"), replies(21))
case("a buffer past 2 to the 32", write([1, 0, 1, 16], "\\ff\\ff\\ff\\ff\\02\\00\\00\\00"), replies(21))
case("a list past 2 to the 32", write([1, -8, 2, 16]), replies(21))
case("a list of 2 to the 32 bytes", write([1, 0, 536870912, 16]), replies(21))
case("the longest list", write([1, 0, -1, 16]), replies(21))
case("the count past 2 to the 32", write([1, 0, 1, -4], ONE, "ab"), replies(21))
case("the count in the list", write([1, 0, 1, 0], ONE, "ab"), replies(0, 2, out=b"ab"))
case("the count in the buffer", write([1, 0, 1, 32], ONE, "ab"), replies(0, 2, out=b"ab"))
case("no count after a refusal", spelled(f"""{WRITE} {EXIT} (memory 1) (data (i32.const 0) "{ONE}") (data (i32.const 16) "\\07")
    (func (export "_start") (drop (call $fd_write (i32.const 9) (i32.const 0) (i32.const 1) (i32.const 16)))
        (call $proc_exit (i32.load (i32.const 16))))"""), exits(7, 3, "+4 fd_write reply 8 0"))
case("the count that was written", spelled(f"""{WRITE} {EXIT} (memory 1) (data (i32.const 0) "\\08\\00\\00\\00\\02\\00\\00\\00ab") (func (export "_start")
    (drop (call $fd_write (i32.const 1) (i32.const 0) (i32.const 1) (i32.const 16))) (call $proc_exit (i32.load (i32.const 16))))"""),
     exits(2, 3, "+4 fd_write reply 0 2", out=b"ab"))

# ---- faults of loading, in their order

note("Bytes that are no program")
case("one byte", b"\0", "Malformed")
case("the last byte is missing", example("edges/cut"), "Malformed")
case("a float", example("edges/float"), "Float")
case("a float, and the last byte is missing", example("edges/float_cut"), "Malformed")
case("256 pages", spelled(f"(memory 256) {START}"), returns(1))
case("257 pages", spelled(f"(memory 257) {START}"), "Limit(Pages)")
case("257 pages and a float", spelled(f"(memory 257) {START} (func (drop (f32.const 0)))"), "Float")
case("operands are missing", example("edges/missing_operands"), "Invalid")
case("257 pages, and operands are missing", spelled('(memory 257) (func (export "_start") i32.add drop)'), "Limit(Pages)")
case("no _start", spelled('(func (export "start"))'), "Unlinked")
case("no _start, and operands are missing", spelled("(func i32.add drop)"), "Invalid")
case("a _start that takes something", spelled('(func (export "_start") (param i32))'), "Unlinked")
case("a _start that gives something", spelled('(func (export "_start") (result i32) (i32.const 0))'), "Unlinked")
case("a _start that is no function", spelled('(memory (export "_start") 1)'), "Unlinked")
PREVIEW1 = '(import "wasi_snapshot_preview1"'
case("a call of another type", spelled(f'{PREVIEW1} "fd_write" (func (param i32 i32 i32) (result i32))) {START}'), "Unlinked")
case("an unknown name", spelled(f'{PREVIEW1} "fd_writes" (func (param i32 i32 i32 i32) (result i32))) {START}'), "Unlinked")
case("an unknown module", spelled(f'(import "wasi_unstable" "proc_exit" (func (param i32))) {START}'), "Unlinked")
case("an imported global", spelled(f'(import "env" "g" (global i32)) {START}'), "Unlinked")
case("an imported table", spelled(f'(import "env" "table" (table 1 funcref)) {START}'), "Unlinked")
case("a memory of another name", spelled(f'(import "env" "memories" (memory 1)) {START}'), "Unlinked")
case("a segment to the last byte", spelled(f'(memory 1) (data (i32.const 65535) "a") {START}'), returns(1))
case("a segment past it", spelled(f'(memory 1) (data (i32.const 65535) "ab") {START}'), "SegmentOutside")
case("an empty segment at the end", spelled(f'(memory 1) (data (i32.const 65536) "") {START}'), returns(1))
case("an empty segment past it", spelled(f'(memory 1) (data (i32.const 65537) "") {START}'), "SegmentOutside")
case("elements past the table", spelled('(table 1 funcref) (elem (i32.const 1) $f) (func $f (export "_start"))'), "SegmentOutside")
case("a segment past the memory, and no _start", spelled('(memory 1) (data (i32.const 65536) "a")'), "Unlinked")
READ = f'{PREVIEW1} "fd_read" (func (param i32 i32 i32 i32) (result i32)))'
case("a call that isn't answered yet", spelled(f"{READ} {START}"), "NotYet")
case("a further call", spelled(f'(import "wasix_32v1" "fd_pipe" (func (param i32 i32) (result i32))) {START}'), "NotYet")
case("a call that answers nosys", spelled(f'{PREVIEW1} "random_get" (func (param i64) (result i32))) {START}'), "NotYet")
case("one of another result", spelled(f'{PREVIEW1} "random_get" (func (param i32 i32))) {START}'), "Unlinked")
case("a segment past the memory before that", spelled(f'{READ} (memory 1) (data (i32.const 65536) "a") {START}'), "SegmentOutside")
WAITS = "(drop (memory.atomic.wait32 (i32.const 0) (i32.const 0) (i64.const 0)))"
case("a wait", spelled(f"(memory 1 1 shared) {START} (func {WAITS})"), "NotYet")
case("a notify", spelled(f"(memory 1 1 shared) {START} (func (drop (memory.atomic.notify (i32.const 0) (i32.const 0))))"), "NotYet")
case("an atomic load", spelled(f"(memory 1 1 shared) {START} (func (drop (i32.atomic.load (i32.const 0))))"), returns(1))

SUITE.write()
