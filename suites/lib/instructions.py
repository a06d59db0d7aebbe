"""The instructions of WebAssembly Core 1.0 (5.4, 3.3) and of the threads proposal: opcodes, operands, results, alignments.

An opcode is spelled in hexadecimal digits. Of operands and results `i` is i32, `l` is i64, `f` is f32, `d` is f64; the last operand
is on top.
"""

COMPARE = "eqz eq ne lt_s lt_u gt_s gt_u le_s le_u ge_s ge_u"
COMPARE_FLOATS = "eq ne lt gt le ge"
COUNT = "clz ctz popcnt"
COMBINE = "add sub mul div_s div_u rem_s rem_u and or xor shl shr_s shr_u rotl rotr"
ROUND = "abs neg ceil floor trunc nearest sqrt"
COMBINE_FLOATS = "add sub mul div min max copysign"

# Name, opcode, what it takes and gives.
NUMERIC = []
for first, of, operators, takes, gives in [
    (0x45, "i32", COMPARE, "ii", "i"), (0x50, "i64", COMPARE, "ll", "i"),
    (0x5B, "f32", COMPARE_FLOATS, "ff", "i"), (0x61, "f64", COMPARE_FLOATS, "dd", "i"),
    (0x67, "i32", COUNT, "i", "i"), (0x6A, "i32", COMBINE, "ii", "i"), (0x79, "i64", COUNT, "l", "l"), (0x7C, "i64", COMBINE, "ll", "l"),
    (0x8B, "f32", ROUND, "f", "f"), (0x92, "f32", COMBINE_FLOATS, "ff", "f"),
    (0x99, "f64", ROUND, "d", "d"), (0xA0, "f64", COMBINE_FLOATS, "dd", "d"),
    (0xA7, "i32", "wrap_i64", "l", "i"), (0xA8, "i32", "trunc_f32_s trunc_f32_u", "f", "i"), (0xAA, "i32", "trunc_f64_s trunc_f64_u", "d", "i"),
    (0xAC, "i64", "extend_i32_s extend_i32_u", "i", "l"),
    (0xAE, "i64", "trunc_f32_s trunc_f32_u", "f", "l"), (0xB0, "i64", "trunc_f64_s trunc_f64_u", "d", "l"),
    (0xB2, "f32", "convert_i32_s convert_i32_u", "i", "f"), (0xB4, "f32", "convert_i64_s convert_i64_u", "l", "f"),
    (0xB6, "f32", "demote_f64", "d", "f"), (0xB7, "f64", "convert_i32_s convert_i32_u", "i", "d"),
    (0xB9, "f64", "convert_i64_s convert_i64_u", "l", "d"), (0xBB, "f64", "promote_f32", "f", "d"),
    (0xBC, "i32", "reinterpret_f32", "f", "i"), (0xBD, "i64", "reinterpret_f64", "d", "l"),
    (0xBE, "f32", "reinterpret_i32", "i", "f"), (0xBF, "f64", "reinterpret_i64", "l", "d"),
]:
    for offset, operator in enumerate(operators.split()):
        NUMERIC.append((f"{of}.{operator}", f"{first + offset:02x}", takes[:1] if operator == "eqz" else takes, gives))

# Name, opcode, what it takes and gives, the exponent of its alignment (5.4.4, 4.2.8).
LETTERS = {"i32": "i", "i64": "l", "f32": "f", "f64": "d"}
WIDTHS = [("i32", "", 2), ("i64", "", 3), ("f32", "", 2), ("f64", "", 3), ("i32", "8", 0), ("i32", "16", 1), ("i64", "8", 0),
          ("i64", "16", 1), ("i64", "32", 2)]
ACCESSES = []
for of, bits, exponent in WIDTHS:
    for sign in ("_s", "_u") if bits else ("",):
        ACCESSES.append((f"{of}.load{bits}{sign}", f"{0x28 + len(ACCESSES):02x}", "i", LETTERS[of], exponent))
for of, bits, exponent in WIDTHS:
    ACCESSES.append((f"{of}.store{bits}", f"{0x28 + len(ACCESSES):02x}", "i" + LETTERS[of], "", exponent))

# The threads proposal: the alignment is just this. Seven opcodes of each kind, in which `v` is a value of the type.
ATOMICS = [("memory.atomic.notify", "fe 00", "ii", "i", 2), ("memory.atomic.wait32", "fe 01", "iil", "i", 2),
           ("memory.atomic.wait64", "fe 02", "ill", "i", 3)]
for first, kind, takes, gives in [
    (0x10, "load", "i", "v"), (0x17, "store", "iv", ""), (0x1E, "rmw.add", "iv", "v"), (0x25, "rmw.sub", "iv", "v"),
    (0x2C, "rmw.and", "iv", "v"), (0x33, "rmw.or", "iv", "v"), (0x3A, "rmw.xor", "iv", "v"), (0x41, "rmw.xchg", "iv", "v"),
    (0x48, "rmw.cmpxchg", "ivv", "v"),
]:
    for offset, (of, bits, exponent) in enumerate(width for width in WIDTHS if width[0][0] == "i"):
        name, _, operator = kind.partition(".")
        full = f"{of}.atomic.{name}{bits}{'.' if operator else ''}{operator}{'_u' if bits and name != 'store' else ''}"
        ATOMICS.append((full, f"fe {first + offset:02x}", takes.replace("v", LETTERS[of]), gives.replace("v", LETTERS[of]), exponent))

# Name, opcode with immediates, what it takes and gives: in a function whose local 0 is an i32 and local 1
# an i64, in a module whose global 0 is an i32 and global 1 an i64.
OTHERS = [
    ("nop", "01", "", ""),
    ("local.get 0", "20 00", "", "i"), ("local.get 1", "20 01", "", "l"), ("local.set 0", "21 00", "i", ""), ("local.set 1", "21 01", "l", ""),
    ("local.tee 0", "22 00", "i", "i"), ("local.tee 1", "22 01", "l", "l"),
    ("global.get 0", "23 00", "", "i"), ("global.get 1", "23 01", "", "l"), ("global.set 0", "24 00", "i", ""), ("global.set 1", "24 01", "l", ""),
    ("memory.size", "3f 00", "", "i"), ("memory.grow", "40 00", "i", "i"),
    ("i32.const", "41 ff 00", "", "i"), ("i64.const", "42 ff 00", "", "l"), ("atomic.fence", "fe 03 00", "", ""),
]


def has_floats(name, takes, gives):
    return any(letter in "fd" for letter in takes + gives)


def of_integers(table):
    """The rows of a table without floats."""
    return [row for row in table if not has_floats(*row[:1], *row[2:4])]


# Opcodes of one byte that Core 1.0 has, but for `else`, `end` and the first byte of the atomic ones.
OPCODES = {*range(0x00, 0x05), *range(0x0C, 0x12), 0x1A, 0x1B, *range(0x20, 0x25), *range(0x28, 0x41), *range(0x41, 0xC0)}
