"""Cases of the binary format (chapter 5): what is malformed, what has floats, what passes a limit, what is written."""
from lib.instructions import *
from lib.numbers import leb, sleb
from spelling import *

LINES.append("# The cases of the module suite, written by make_cases.py. src/notation.rt says how bytes are written.")
LINES.append("# `NAME: BYTES` is a module that is written as those bytes, `NAME: BYTES -> BYTES` one that is written as")
LINES.append("# others, and `NAME: each ..` is varied again and again. The answers are in the file stdout.")
LINES.append("")
fragment("head", "00 \"asm\" 01 00 00 00")

title("The first eight bytes (5.5.15)")
case("nothing", "$head", "valid")
bad("no bytes", "00*0")
each("fronts of the first eight bytes", "front", "{ $head }", "malformed")
bad("another magic number", "00 \"asn\" 01 00 00 00")
bad("version 0", "00 \"asm\" 00 00 00 00")
bad("version 2", "00 \"asm\" 02 00 00 00")
bad("version 1 in the highest byte", "00 \"asm\" 00 00 00 01")
bad("a byte behind the first eight", "$head 00")

title("A module with each section: cut at each byte, with each number long, with each section cut at each byte")
WHOLE = [
    (1, "+3 60 +1 7f +0 60 +0 +0 60 +2 7e 7f +1 7e"), (2, '+2 [ "a" ] [ c3 a9 ] 00 +1 [ ] [ "g" ] 03 7f 00'), (3, "+2 +1 +0"),
    (4, "+1 70 01 +2 +9"), (5, "+1 03 +1 +2"), (6, "+2 7f 01 41 +5 0b 7e 00 42 06 0b"),
    (7, '+4 [ "f" ] 00 +1 [ "t" ] 01 +0 [ "m" ] 02 +0 [ ] 03 +1'), (8, "+1"), (9, "+1 +0 23 +0 0b +2 +1 +2"),
    (10, "+2 [ +0 0b ] [ +2 +1 7f +2 7e 02 40 20 +0 0d +0 20 +0 0e +1 +0 +0 0b 20 +0 04 7f 10 +1 41 +1 05 41 +2 0b "
         "1a 41 +3 41 +1 11 +0 00 41 +8 28 +2 +4 1a 41 +8 fe 10 +2 +4 1a 3f 00 1a 42 06 21 +2 fe 03 00 0b ]"),
    (11, '+1 +0 41 +3 0b [ "hi" ]'),
]
whole = " ".join(section(number, text) for number, text in WHOLE)
case("each section", f"$head {whole}", "valid")

def fronts_of_whole():
    ends, at = {8}, 8
    for number, text in WHOLE:
        at += len(bytes_of(section(number, text))[0])
        # From the function section on, the code section is missing.
        if number in (1, 2, 10, 11):
            ends.add(at)
    return ["valid" if end in ends else "malformed" for end in range(at)]

each("fronts of each section", "front", f"{{ $head {whole} }}", fronts_of_whole())
each("numbers in five bytes", "number in 5 bytes", f"$head {whole}", "valid", written=f"$head {whole}")
each("numbers in six bytes", "number in 6 bytes", f"$head {whole}", "malformed")
NAMED = "custom type import function table memory global export start element code data".split()
for number, text in WHOLE:
    before = "" if number not in (3, 10) else " ".join(section(n, t) for n, t in WHOLE if n in (1, 3) and n < number)
    each(f"{NAMED[number]} section, cut", "front", f"$head {before} {section(number, f'{{ {text} }}')}",
         "malformed", standard=number != 7)
    bad(f"{NAMED[number]} section, with a byte more", f"$head {before} {section(number, text, '00')}")
    bad(f"{NAMED[number]} section, whose size is one more",
        f"$head {before} {number:02x} {words(leb(len(bytes_of(text)[0]) + 1))} {text}")
bad("a function section without its code", f"$head {section(1, '+1 60 00 00')} {section(3, '+1 00')}")
bad("code without a function section", f"$head {section(1, '+1 60 00 00')} {section(10, '+1 [ 00 0b ]')}")
bad("more code than functions", f"$head {section(1, '+1 60 00 00')} {section(3, '+1 00')} {section(10, '+2 [ 00 0b ] [ 00 0b ]')}")
bad("more functions than code", f"$head {section(1, '+1 60 00 00')} {section(3, '+2 00 00')} {section(10, '+1 [ 00 0b ]')}")
for numbers in ("12", "13", "255"):
    bad(f"a section of the number {numbers}", f"$head {section(int(numbers), '00')}")
EMPTY = [number for number in range(1, 12) if number != 8]
case("each section without an entry", "$head " + " ".join(section(n, "+0") for n in EMPTY), "valid", written="$head")
case("each section without an entry, in long numbers",
     "$head " + " ".join(f"{n:02x} 85 80 80 80 00 80 80 80 80 00" for n in EMPTY), "valid", written="$head")
for first in range(1, 12):
    content = lambda n: "+0" if n != 8 else "00"
    # A start section needs its function, so it is malformed or not by the order alone.
    bad(f"{NAMED[first]} section, twice", f"$head {section(first, content(first))} {section(first, content(first))}")
    if first > 1:
        bad(f"{NAMED[first]} section before the {NAMED[first - 1]} section",
            f"$head {section(first, content(first))} {section(first - 1, content(first - 1))}")

title("Custom sections (5.5.3)")
KEPT, ABC, C = '[ "kept" ]', '[ "abc" ] 07', '[ "c" ] 00'
case("custom section of no name", f"$head {section(0, '+0')}", "valid", written="$head")
case("custom section of a name", f"$head {section(0, KEPT)}", "valid", written="$head")
case("custom section with bytes", f"$head {section(0, KEPT + ' 01 02 ff')}", "valid", written="$head")
bad("custom section without a name", f"$head {section(0)}")
bad("custom section whose name is cut", f"$head {section(0, '04 61 62 63')}")
each("custom section that is cut", "front", f"$head {{ {section(0, ABC)} }}", ["valid"] + ["malformed"] * 6, standard=False)
between = " ".join(f"{section(0, C)} {section(n, t)}" for n, t in WHOLE) + " " + section(0, C)
case("custom sections between all others", f"$head {between}", "valid", written=f"$head {whole}")
each("custom section in long numbers", "number in 5 bytes", f"$head {section(0, KEPT + ' 01')}", "valid", written="$head")

title("Names are UTF-8 (5.2.4): spelled too long, surrogates, cut short, past the last scalar, a continuation alone")
NOT_UTF8 = [
    "80", "bf", "c0 80", "c1 bf", "c2", "c2 7f", "c2 c0", "e0 80 af", "e0 9f bf", "ed a0 80", "ed bf bf",
    "\"a\" e2 82", "e2 28 a1", "e2 82 28", "f0 8f bf bf", "f0 9f 98", "f0 28 8c bc", "f4 90 80 80", "f5 80 80 80",
    "f8 88 80 80 80", "fe", "ff",
]
UTF8 = ["\"a\" e2 82 ac", "7f", "c2 80", "df bf", "e0 a0 80", "ed 9f bf", "ee 80 80", "ef bf bf", "f0 90 80 80", "f4 8f bf bf", "00"]
PLACES = [
    ("custom section", lambda name: f"$head {section(0, f'[ {name} ] 01')}", True),
    ("module of an import", lambda name: f"$head {section(1, '+1 60 00 00')} {section(2, f'+1 [ {name} ] 00 00 00')}", False),
    ("name of an import", lambda name: f"$head {section(1, '+1 60 00 00')} {section(2, f'+1 00 [ {name} ] 00 00')}", False),
    ("export", lambda name: f"$head {section(5, '+1 00 01')} {section(7, f'+1 [ {name} ] 02 00')}", False),
]
for place, of, drops in PLACES:
    for name in NOT_UTF8:
        bad(f"{place} of the name {name}".replace('"', ""), of(name))
    for name in UTF8:
        case(f"{place} of the name {name}".replace('"', ""), of(name), "valid", written="$head" if drops else None)

title("Counts of 2^32 - 1, and of 2^31, that a few bytes follow")
COUNTS = [
    (0, "", '"abc"'), (1, "", "60 00 00"), (1, "01 60", "7f"), (1, "01 60 00", "7f"), (2, "", "00 00 00 00"),
    (2, "01", '"abc"'), (3, "", "00"), (4, "", "70 00 00"), (5, "", "00 00"), (6, "", "7f 00 0b"),
    (7, "", "00 00 00"), (9, "", "00 0b 00"), (9, "01 00 0b", "00"), (10, "", "02 00 0b"), (11, "", "00 0b 00"),
    (11, "01 00 0b", '"abc"'),
]
for count, spelled in (("2^32 - 1", "ff ff ff ff 0f"), ("2^31", "80 80 80 80 08")):
    for number, before, behind in COUNTS:
        bad(f"{NAMED[number]} section, a count of {count} behind {before or 'its size'}",
            " ".join(f"$head {section(number, f'{before} {spelled} {behind}')}".split()))
    bad(f"a table of branches with a count of {count}", body_of(f"0e {spelled} 00 00"))
    bad(f"groups of locals with a count of {count}", body_of("", f"{spelled} 00 7f"))
    bad(f"code with a size of {count}", f"$head {section(1, '+1 60 00 00')} {section(3, '+1 00')} "
        f"{section(10, f'+1 {spelled} 00 0b')}")
bad("a section with a size of 2^32 - 1", "$head 01 ff ff ff ff 0f 60")
bad("locals that are 2^32", body_of("", "02 ff ff ff ff 0f 7f 01 7e"))
bad("locals that are 2^33", body_of("", "03 ff ff ff ff 0f 7f ff ff ff ff 0f 7f 02 7e"))
case("locals that are 2^32 - 1", body_of("", "01 ff ff ff ff 0f 7f"), "limit locals")
case("locals that are 2^32 - 1, in two groups", body_of("", "02 fe ff ff ff 0f 7f 01 7e"), "limit locals")

title("Numbers (5.2.2)")
for bits, opcode, most in ((32, "41", 5), (64, "42", 10)):
    for number in (0, 1, -1, 63, 64, -64, -65, 127, 128, 8191, 8192, -8192, -8193, 2 ** (bits - 1) - 1, -2 ** (bits - 1)):
        shortest = body_of(f"{opcode} {words(sleb(number))} 1a")
        case(f"i{bits}.const {number}", shortest, "valid")
        if len(sleb(number)) < most:
            case(f"i{bits}.const {number} in {most} bytes", body_of(f"{opcode} {words(sleb(number, most))} 1a"),
                 "valid", written=shortest)
        bad(f"i{bits}.const {number} in {most + 1} bytes", body_of(f"{opcode} {words(sleb(number, most + 1))} 1a"))
for last in ("08", "0f", "10", "40", "70", "77", "80", "ff"):
    bad(f"i32.const whose fifth byte is {last}", body_of(f"41 80 80 80 80 {last} 1a"))
for last in ("01", "02", "3f", "40", "7e", "80", "ff"):
    bad(f"i64.const whose tenth byte is {last}", body_of(f"42 80*9 {last} 1a"))
for last in ("10", "1f", "70", "7f", "80"):
    bad(f"a size whose fifth byte is {last}", f"$head 01 80 80 80 80 {last}")
for number in (0, 1, 127, 128, 16383, 16384, 2 ** 32 - 1):
    case(f"i32.load at offset {number}",
         module(types=[("", "")], functions=[(0, code(f"41 00 28 02 {words(leb(number))} 1a"))], memories=["00 01"]), "valid")

title("Types, limits and kinds (5.3, 5.5)")
for byte in ("00", "40", "6f", "70", "7b", "80"):
    bad(f"a parameter of the type {byte}", f"$head {section(1, f'+1 60 01 {byte} 00')}")
    bad(f"locals of the type {byte}", body_of("", f"01 01 {byte}"))
    bad(f"a global of the type {byte}", f"$head {section(6, f'+1 {byte} 00 41 00 0b')}")
for byte in ("00", "5f", "61", "7f"):
    bad(f"a function type that begins with {byte}", f"$head {section(1, f'+1 {byte} 00 00')}")
for byte in ("00", "6f", "7f"):
    bad(f"a table of the type {byte}", f"$head {section(4, f'+1 {byte} 00 01')}")
bad("a global that can be set by 02", f"$head {section(6, '+1 7f 02 41 00 0b')}")
bad("an imported global that can be set by 02", f"$head {section(2, '+1 00 00 03 7f 02')}")
bad("an import of the kind 04", f"$head {section(2, '+1 00 00 04 00')}")
bad("an export of the kind 04", f"$head {section(5, '+1 00 01')} {section(7, '+1 00 04 00')}")
case("a memory of the limits 00", f"$head {section(5, '+1 00 01')}", "valid")
case("a memory of the limits 01", f"$head {section(5, '+1 01 01 02')}", "valid")
case("a memory of the limits 03", f"$head {section(5, '+1 03 01 02')}", "valid")
bad("a memory of the limits 02", f"$head {section(5, '+1 02 01')}")
bad("a memory of the limits 04", f"$head {section(5, '+1 04 01')}")
bad("a memory of the limits 01 without a greatest", f"$head {section(5, '+1 01 01')}")
bad("a memory of the limits 03 without a greatest", f"$head {section(5, '+1 03 01')}")
case("a table of the limits 00", f"$head {section(4, '+1 70 00 01')}", "valid")
case("a table of the limits 01", f"$head {section(4, '+1 70 01 01 02')}", "valid")
bad("a table of the limits 02", f"$head {section(4, '+1 70 02 01')}")
bad("a table of the limits 03", f"$head {section(4, '+1 70 03 01 02')}")

title("Bodies (5.4)")
bad("a body without its end", body_of("").replace("0b ]", "]"))
bad("a block without its end", body_of("02 40 0b").replace("0b 0b ]", "0b ]"))
bad("instructions behind the end", body_of("0b 01"))
bad("a second end", body_of("0b"))
bad("an else outside of an if", body_of("05"))
bad("an else in a block", body_of("02 40 05 0b"))
bad("an else in a loop", body_of("03 40 05 0b"))
bad("a second else", body_of("41 00 04 40 05 05 0b"))
bad("an else in a constant expression", f"$head {section(6, '+1 7f 00 41 00 05 0b')}")
bad("a global without a first value", f"$head {section(6, '+1 7f 00')}")
for kind in ("02", "03", "04"):
    for byte in ("00", "41", "6f", "70", "7b", "80"):
        bad(f"an opcode {kind} of the block type {byte}", body_of(f"41 00 {kind} {byte} 0b"))
bad("memory.size with a byte that isn't 0", body_of("3f 01 1a"))
bad("memory.size without its byte", body_of("3f").replace("0b ]", "]"))
bad("memory.size with its 0 in two bytes", body_of("3f 80 00 1a"))
bad("memory.grow with a byte that isn't 0", body_of("41 00 40 01 1a"))
bad("call_indirect with a byte that isn't 0", body_of("41 00 11 00 01"))
bad("atomic.fence with a byte that isn't 0", body_of("fe 03 01"))
bad("atomic.fence without its byte", body_of("fe 03").replace("0b ]", "]"))
for byte in range(256):
    if byte not in OPCODES | {0x05, 0x0B, 0xFE}:
        bad(f"the opcode {byte:02x}", body_of(f"{byte:02x}"))
for byte in [*range(0x04, 0x10), *range(0x4F, 0x80)]:
    bad(f"the opcode fe {byte:02x}", body_of(f"fe {byte:02x} 00 00"))
bad("the opcode fe alone", body_of("fe").replace("0b ]", "]"))
# The project's choice: the byte behind fe is a single one, and no number that may be spelled long.
case("the opcode fe 03, its second byte spelled long", body_of("fe 83 00 00"), "malformed", standard="skip")

title("What is written shorter")
case("an else without instructions", body_of("41 00 04 40 01 05 0b"), "valid", written=body_of("41 00 04 40 01 0b"))
case("an if without instructions", body_of("41 00 04 40 05 0b"), "valid", written=body_of("41 00 04 40 0b"))
case("an else with instructions", body_of("41 00 04 40 05 01 0b"), "valid")
case("groups of equal types", body_of("", "06 02 7f 00 7e 01 7f 03 7e 04 7e 00 7f"), "valid", written=body_of("", "02 03 7f 07 7e"))
case("groups of no locals", body_of("", "03 00 7f 00 7e 00 7f"), "valid", written=body_of(""))
case("groups of equal types past 127", body_of("", "02 64 7f 1c 7f"), "valid", written=body_of("", "01 80 01 7f"))
case("a size in five bytes", "$head 01 84 80 80 80 00 01 60 00 00", "valid", written="$head 01 04 01 60 00 00")
case("a segment without bytes", f"$head {section(5, '+1 00 01')} {section(11, '+1 00 41 00 0b 80 00')}", "valid",
     written=f"$head {section(5, '+1 00 01')} {section(11, '+1 00 41 00 0b +0')}")
EVERY = " ".join(
    ["00 01 02 40 01 0b 03 7f 41 3f 0b 04 7e 42 c0 00 05 42 40 0b 04 40 01 0b 04 40 05 02 40 0b 0b",
     "0c 01 0d 80 01 0e 03 00 7f 80 01 02 0f 10 ff ff ff ff 0f 11 01 00 1a 1b"] + [opcode for name, opcode, *_ in OTHERS]
    + [f"{opcode} {exponent + 5:02x} {words(leb(300 + place))}" for place, (name, opcode, takes, gives, exponent)
       in enumerate(ACCESSES + ATOMICS) if not has_floats(name, takes, gives)]
    + [opcode for name, opcode, takes, gives in NUMERIC if not has_floats(name, takes, gives)])
case("every instruction once", body_of(EVERY), "invalid")
each("every instruction once, cut", "front", f"$head {section(1, '+1 60 00 00')} {section(3, '+1 00')} "
     + section(10, f"+1 [ 00 {{ {EVERY} 0b }} ]"), "malformed", standard=False)

title("Floats are refused, with whatever immediates; their last byte missing they are malformed")
def float_case(name, opcode, immediates, takes, gives):
    operands = " ".join(CONST[letter] for letter in takes)
    text = f"{operands} {opcode} {immediates} {'1a' if gives else ''}"
    of = lambda body: module(types=[("", "")], functions=[(0, code(body))], memories=["00 01"])
    case(f"{name} {immediates}".strip(), of(" ".join(text.split())), "float", standard="valid")
    bad(f"{name} {immediates}".strip() + ", its last byte missing", of(" ".join(text.split())).replace("0b ]", "]"))

for immediates in ("00 00 00 00", "0b 0b 0b 0b", "41 1a 0b 05", "00 00 80 3f", "ff ff ff ff"):
    float_case("f32.const", "43", immediates, "", "f")
for immediates in ("00 00 00 00 00 00 00 00", "0b 0b 0b 0b 0b 0b 0b 0b", "00 00 00 00 00 00 f0 3f",
                   "43 0b 05 02 40 0b 1a 1a", "ff ff ff ff ff ff ff ff"):
    float_case("f64.const", "44", immediates, "", "d")
for count in range(4):
    bad(f"f32.const of {count} bytes", body_of(f"43 {words([0] * count)}").replace("0b ]", "]"))
for count in range(8):
    bad(f"f64.const of {count} bytes", body_of(f"44 {words([0] * count)}").replace("0b ]", "]"))
for name, opcode, takes, gives, exponent in ACCESSES:
    if has_floats(name, takes, gives):
        for immediates in (f"{exponent:02x} 0b", "00 00", f"01 {words(leb(2 ** 32 - 1))}"):
            float_case(name, opcode, immediates, takes, gives)
for name, opcode, takes, gives in NUMERIC:
    if has_floats(name, takes, gives):
        float_case(name, opcode, "", takes, gives)
FLOAT_TYPES = [
    ("a parameter", f"$head {section(1, '+2 60 00 00 60 02 7f 7d 00')}"), ("a result", f"$head {section(1, '+1 60 00 01 7c')}"),
    ("an imported global", f"$head {section(2, '+1 00 00 03 7d 00')}"),
    ("a global", f"$head {section(6, '+2 7f 00 41 00 0b 7c 01 44 00*8 0b')}"), ("a local", body_of("", "02 01 7f 01 7c")),
    ("a group of no locals", body_of("", "02 01 7f 00 7c")), ("a block", body_of("02 7d 00 0b 1a")),
    ("a loop", body_of("03 7c 00 0b 1a")), ("an if", body_of("41 00 04 7d 00 05 00 0b 1a")),
    ("a block in an else", body_of("41 00 04 40 05 02 40 02 7d 00 0b 1a 0b 0b")),
    ("an instruction in an else", body_of("41 00 04 40 05 43 00*4 1a 0b")),
    ("an instruction behind a block", body_of("02 40 0b 43 00*4 1a")), ("an instruction that isn't reached", body_of("00 43 00*4 1a")),
    ("an instruction in a second function", module(types=[("", "")], functions=[(0, code("")), (0, code("44 00*8 1a"))])),
]
for name, text in FLOAT_TYPES:
    if name == "a group of no locals":
        # Such a group leaves no trace: the module has no float.
        case(f"floats in {name}", text, "valid", written=body_of("", "01 01 7f"))
    else:
        case(f"floats in {name}", text, "float", standard="valid")
        bad(f"floats in {name}, a byte behind the module", f"{text} 0b")
for name, text in (
    ("the first value of a global", f"$head {section(6, '+1 7f 00 43 00*4 0b')}"),
    ("the offset of a segment", f"$head {section(5, '+1 00 01')} {section(11, '+1 00 43 00*4 0b 00')}"),
    ("the offset of elements", f"$head {section(4, '+1 70 00 01')} {section(9, '+1 00 44 00*8 0b 00')}"),
):
    case(f"floats in {name}", text, "float", standard="invalid")
case("types of floats, written", f"$head {section(1, '+1 60 02 7d 7c 01 7d')} {section(3, '+1 00')} "
     f"{section(6, '+1 7c 00 23 00 0b')} {section(10, '+1 [ 02 01 7d 02 7c 02 7d 0b 03 7c 0b 04 7d 05 01 0b 0b ]')}",
     "float", written=f"$head {section(1, '+1 60 02 7d 7c 01 7d')} {section(3, '+1 00')} "
     f"{section(6, '+1 7c 00 23 00 0b')} {section(10, '+1 [ 02 01 7d 02 7c 02 7d 0b 03 7c 0b 04 7d 05 01 0b 0b ]')}",
     standard="invalid")

title("The limits of decoding, at their numbers and one past, and their order")
def limit(name, of, most, bound, written=None, verdict="valid", standard="valid"):
    case(f"{name}, {most}", of(most), verdict, written=written(most) if written else None)
    case(f"{name}, {most + 1}", of(most + 1), f"limit {bound}", standard=standard)

limit("bytes", lambda n: f"$head 00 [ 00*{n - 13} ]", 4_194_304, "length", written=lambda n: "$head")
case("bytes that are none, 4194305", "00*4194305", "limit length", standard="malformed")
bad("bytes that are none, 4194304", "00*4194304")
types_of_number = lambda n: f"01 [ +{n} ( 60 00 00 )*{n} ]"
limit("types", lambda n: f"$head {types_of_number(n)}", 10_000, "types")
functions_of_number = lambda n: f"03 [ +{n} 00*{n} ]"
codes_of_number = lambda n: f"0a [ +{n} ( 02 00 0b )*{n} ]"
imported = section(2, "+1 00 00 00 00")
limit("functions of its own", lambda n: f"$head {types_of_number(1)} {functions_of_number(n)} {codes_of_number(n)}",
      20_000, "functions")
limit("functions, one imported", lambda n: f"$head {types_of_number(1)} {imported} {functions_of_number(n - 1)} "
      f"{codes_of_number(n - 1)}", 20_000, "functions")
limit("functions, all imported", lambda n: f"$head {types_of_number(1)} 02 [ +{n} ( 00 00 00 00 )*{n} ]", 20_000, "functions")
case("other imports, 20001", "$head 02 [ +20001 ( 00 00 03 7f 00 )*20001 ]", "valid")
limit("locals", lambda n: body_of("", f"+1 +{n} 7f"), 8_192, "locals")
limit("locals in two groups", lambda n: body_of("", f"+2 +1 7f +{n - 1} 7e"), 8_192, "locals")
with_parameters = lambda n: f"$head {section(1, '+2 60 00 00 60 02 7f 7e 00')} {section(3, '+2 00 01')} " \
    f"{section(10, f'+2 [ 00 0b ] [ +1 +{n - 2} 7f 0b ]')}"
limit("locals, two of them parameters", with_parameters, 8_192, "locals")
NESTS = [
    ("blocks", "02 40", "0b", None), ("loops", "03 40", "0b", None), ("ifs", "41 00 04 40", "0b", None),
    ("ifs with an empty else", "41 00 04 40", "05 0b", "41 00 04 40"), ("ifs in else arms", "41 00 04 40 05", "0b", "41 00 04 40 05"),
]
for name, begin, end, kept in NESTS:
    of = lambda n: body_of(f"( {begin} )*{n} ( {end} )*{n}")
    if kept == begin:
        written = lambda n: body_of(f"( {begin} )*{n - 1} 41 00 04 40 0b*{n}")
    elif kept:
        written = lambda n: body_of(f"( {begin} )*{n} 0b*{n}")
    else:
        written = None
    limit(f"nested {name}", of, 256, "nesting", written=written)
limit("nested blocks in a constant expression",
      lambda n: f"$head {section(6, f'+1 7f 00 ( 02 40 )*{n} 0b*{n} 0b')}", 256, "nesting", verdict="invalid", standard="invalid")
case("nested blocks in a first and a second function",
     module(types=[("", "")], functions=[(0, code("( 02 40 )*200 0b*200"))] * 2), "valid")
case("neighbouring blocks, 1000", body_of("( 02 40 0b )*1000"), "valid")
case("a million nested blocks", body_of("( 02 40 )*1000000 0b*1000000"), "limit nesting")
bad("a million blocks without an end", body_of("( 02 40 )*1000000").replace("0b ]", "]"))
limit("elements of a table", lambda n: f"$head {section(4, f'+1 70 00 +{n}')}", 65_536, "table")
limit("elements of an imported table", lambda n: f"$head {section(2, f'+1 00 00 01 70 00 +{n}')}", 65_536, "table")
case("a table of which more than 65536 are allowed", f"$head {section(4, '+1 70 01 00 +65537')}", "valid")
limit("pages of a memory", lambda n: f"$head {section(5, f'+1 00 +{n}')}", 256, "pages")
limit("pages of an imported memory", lambda n: f"$head {section(2, f'+1 00 00 02 00 +{n}')}", 256, "pages")
case("a memory of which more than 256 are allowed", f"$head {section(5, '+1 01 00 +65536')}", "valid")

# A module that passes each limit from one on. The project's order: floats, types, functions, locals, nesting, table, pages.
PASSED = ["float", "limit types", "limit functions", "limit locals", "limit nesting", "limit table", "limit pages"]
for first in range(len(PASSED)):
    past = lambda place: first <= place
    text = " ".join([
        "$head", types_of_number(10_001 if past(1) else 1), functions_of_number(20_001 if past(2) else 1),
        section(4, "+1 70 00 " + ("+65537" if past(5) else "+1")), section(5, "+1 00 " + ("+257" if past(6) else "+1")),
        f"0a [ +{20_001 if past(2) else 1} [ " + ("01 +8193 7f" if past(3) else "00") + (" ( 02 40 )*257 0b*257" if past(4) else "")
        + (" 43 00*4 1a" if past(0) else "") + " 0b ]" + (" ( 02 00 0b )*20000" if past(2) else "") + " ]",
    ])
    case(f"past all limits from {PASSED[first].split()[-1]} on", text, PASSED[first])
    bad(f"past all limits from {PASSED[first].split()[-1]} on, with a byte more", f"{text} 0b")
case("past a limit and not valid", module(types=[("", "")], functions=[(0, code("1a ( 02 40 )*257 0b*257"))]),
     "limit nesting", standard="invalid")
