"""Numbers: LEB128 (5.2.2), the operators on integers (4.3.2, 4.3.4), and those of the atomic accesses."""


class Trap(Exception):
    """Why an instruction has no result."""


def leb(number, size=1):
    """An unsigned number, in at least so many bytes."""
    out = bytearray()
    while number >= 128 or len(out) + 1 < size:
        out.append(number % 128 + 128)
        number //= 128
    return bytes(out + bytes([number]))


def sleb(number, size=1):
    """A signed number, in at least so many bytes."""
    out = bytearray()
    while True:
        low = number & 127
        number >>= 7
        if number in (0, -1) and (low >= 64) == (number == -1) and len(out) + 1 >= size:
            return bytes(out + bytes([low]))
        out.append(low + 128)


def signed(bits, number):
    """The signed number of the same bits."""
    number %= 2**bits
    return number - 2**bits if number >> bits - 1 else number


def quotient(a, b):
    """The quotient, rounded towards 0."""
    rounded = abs(a) // abs(b)
    return rounded if (a < 0) == (b < 0) else -rounded


def divided(bits, a, b):
    if b == 0:
        raise Trap("DivideByZero")
    if quotient(a, b) == 2 ** (bits - 1) and a < 0:
        raise Trap("Overflow")
    return quotient(a, b)


def remainder(a, b):
    if b == 0:
        raise Trap("DivideByZero")
    return a - b * quotient(a, b)


UNARY = {
    "clz": lambda bits, a: bits - a.bit_length(),
    "ctz": lambda bits, a: (a & -a).bit_length() - 1 if a else bits,
    "popcnt": lambda bits, a: bin(a).count("1"),
}
BINARY = {
    "add": lambda bits, a, b: a + b, "sub": lambda bits, a, b: a - b, "mul": lambda bits, a, b: a * b,
    "div_s": lambda bits, a, b: divided(bits, signed(bits, a), signed(bits, b)), "div_u": divided,
    "rem_s": lambda bits, a, b: remainder(signed(bits, a), signed(bits, b)), "rem_u": lambda bits, a, b: remainder(a, b),
    "and": lambda bits, a, b: a & b, "or": lambda bits, a, b: a | b, "xor": lambda bits, a, b: a ^ b,
    "shl": lambda bits, a, b: a << b % bits, "shr_s": lambda bits, a, b: signed(bits, a) >> b % bits, "shr_u": lambda bits, a, b: a >> b % bits,
    "rotl": lambda bits, a, b: a << b % bits | a >> bits - b % bits, "rotr": lambda bits, a, b: a << -b % bits | a >> bits - -b % bits,
}
COMPARISONS = {"eq": lambda a, b: a == b, "ne": lambda a, b: a != b, "lt": lambda a, b: a < b, "gt": lambda a, b: a > b,
               "le": lambda a, b: a <= b, "ge": lambda a, b: a >= b}
# What an atomic access writes, of what it reads and its operand.
MODIFY = {"add": lambda a, b: a + b, "sub": lambda a, b: a - b, "and": lambda a, b: a & b, "or": lambda a, b: a | b,
          "xor": lambda a, b: a ^ b, "xchg": lambda a, b: b}


def numeric(name, a, b=None):
    """What the instruction gives, as the number of its bits."""
    of, operator = name.split(".")
    bits = int(of[1:])
    if operator == "eqz":
        return int(a == 0)
    if operator == "extend_i32_s":
        return signed(32, a) % 2**64
    if operator in ("wrap_i64", "extend_i32_u"):
        return a % 2**32
    if operator in UNARY:
        return UNARY[operator](bits, a)
    if operator in BINARY:
        return BINARY[operator](bits, a, b) % 2**bits
    compare, _, sign = operator.partition("_")
    return int(COMPARISONS[compare](*((signed(bits, a), signed(bits, b)) if sign == "s" else (a, b))))
