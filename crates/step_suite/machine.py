"""Steps of a guest thread (WebAssembly Core 1.0, chapter 4, and the threads proposal), over modules of lib.modules.

A step executes one instruction; the end of a block or arm is one that removes its label, the end of a function one that
returns. A branch to a loop goes before the loop, which is executed again; one out of all blocks leaves the function's results,
and its end is the next step. A step that would leave more than 1,024 frames, 65,536 values (locals among them) or 16,384
labels traps StackFull, and a step that traps isn't counted. A compare and exchange of a narrow number compares the number
that was loaded with the whole expected operand.
"""

import collections

from lib.instructions import ACCESSES, ATOMICS, NUMERIC, of_integers
from lib.memory import Memory
from lib.numbers import Trap, numeric, signed

# How many operands each takes, and how many bytes it accesses.
OPERANDS = {name: len(takes) for name, _, takes, _ in of_integers(NUMERIC)}
ACCESS = {name: 2**exponent for name, *_, exponent in of_integers(ACCESSES)}
ATOMIC = {name: 2**exponent for name, *_, exponent in ATOMICS}


Label = collections.namedtuple("Label", "arity goes_on behind height")


class Frame:
    def __init__(self, number, arity, local_values, body):
        self.number, self.arity, self.locals = number, arity, local_values
        self.labels, self.operands, self.code = [], [], (body, 0)


class Thread:
    def __init__(self, module, function, arguments):
        self.m = module
        self.globals = [n % 2**(64 if of == "i64" else 32) for of, _, n in module.globals]
        least, most, self.shared = (module.memory + (None, False))[:3] if module.memory else (0, 0, False)
        self.memory = Memory(least, 65536 if most is None else most)
        self.frames = [self.entered(function, arguments)]
        self.marked = False

    def entered(self, function, arguments):
        of, groups, body = self.m.functions[function - len(self.m.imports)]
        zeros = sum(n for n, _ in groups)
        return Frame(function, len(self.m.types[of][1]), list(arguments) + [0] * zeros, body)

    def values(self):
        return sum(len(f.locals) + len(f.operands) for f in self.frames)

    def at(self):
        """The next instruction of the innermost frame, or None at the end of a list."""
        body, k = self.frames[-1].code
        return body[k] if k < len(body) else None

    def room(self, more):
        if self.values() + more > 65536:
            raise Trap("StackFull")

    def push(self, value):
        self.room(1)
        self.frames[-1].operands.append(value)

    def check_labels(self):
        if sum(len(f.labels) for f in self.frames) >= 16384:
            raise Trap("StackFull")

    def open(self, arity, goes_on, behind, inner):
        self.check_labels()
        f = self.frames[-1]
        f.labels.append(Label(arity, goes_on, behind, len(f.operands)))
        f.code = (inner, 0)

    def branch(self, n):
        f = self.frames[-1]
        if n == len(f.labels):
            kept = f.operands[len(f.operands) - f.arity:]
            f.labels, f.operands, f.code = [], kept, ([], 0)
            return
        label = f.labels[-1 - n]
        kept = f.operands[len(f.operands) - label.arity:]
        f.operands = f.operands[:label.height] + kept
        f.labels = f.labels[:len(f.labels) - 1 - n]
        f.code = label.goes_on

    def returns(self):
        f = self.frames.pop()
        kept = f.operands[len(f.operands) - f.arity:]
        if self.frames:
            self.frames[-1].operands += kept

    def call(self, x, over):
        """A call, with so many operands above its arguments."""
        f = self.frames[-1]
        params, results = self.m.type_of(x)
        if x < len(self.m.imports):
            if self.values() - over - len(params) + len(results) > 65536:
                raise Trap("StackFull")
            return ("call", x, f.operands[len(f.operands) - over - len(params):len(f.operands) - over])
        zeros = sum(n for n, _ in self.m.functions[x - len(self.m.imports)][1])
        if len(self.frames) + 1 > 1024 or self.values() - over + zeros > 65536:
            raise Trap("StackFull")
        del f.operands[len(f.operands) - over:]
        count = len(params)
        arguments = f.operands[len(f.operands) - count:]
        del f.operands[len(f.operands) - count:]
        self.next()
        self.frames.append(self.entered(x, arguments))

    def element(self, place):
        """The function at a place of the table: that of the last segment counts."""
        found = None
        for offset, functions in self.m.elements:
            if not isinstance(offset, int):
                offset = self.m.globals[offset[1]][2] % 2**32
            if offset <= place < offset + len(functions):
                found = functions[place - offset]
        return found

    def next(self):
        body, k = self.frames[-1].code
        self.frames[-1].code = (body, k + 1)

    def answer(self, value):
        """Answers what the thread stands at: takes its operands, puts the value there, if any, and goes behind it."""
        f, i = self.frames[-1], self.at()
        if i[0] == "call":
            taken = len(self.m.type_of(i[1])[0])
        elif i[0] == "call_indirect":
            taken = len(self.m.types[i[1]][0]) + 1
        else:
            taken = 2 if i[0] == "memory.atomic.notify" else 3
        del f.operands[len(f.operands) - taken:]
        if value is not None:
            f.operands.append(value)
        self.next()

    def step(self):
        """None after a step, else what stands. A trap leaves the thread unchanged."""
        if self.marked:
            return ("trap", "StackFull")
        if not self.frames:
            return ("finished",)
        try:
            return self.execute()
        except Trap as trap:
            return ("trap", trap.args[0])

    def execute(self):
        f, i = self.frames[-1], self.at()
        if i is None:
            if not f.labels:
                self.returns()
                return None
            label = f.labels.pop()
            f.code = label.behind
            return None
        name, ops = i[0], f.operands
        behind = (f.code[0], f.code[1] + 1)
        # What moves to another place, or stands.
        if name == "block":
            self.open(1 if i[1] else 0, behind, behind, i[2])
        elif name == "loop":
            self.open(0, f.code, behind, i[2])
        elif name == "if":
            self.check_labels()
            inner = i[2] if ops.pop() else (i[3] if len(i) > 3 else [])
            self.open(1 if i[1] else 0, behind, behind, inner)
        elif name == "br":
            self.branch(i[1])
        elif name == "br_if":
            self.branch(i[1]) if ops.pop() else self.next()
        elif name == "br_table":
            k = ops.pop()
            self.branch(i[1][k] if k < len(i[1]) else i[2])
        elif name == "return":
            self.returns()
        elif name == "call":
            return self.call(i[1], 0)
        elif name == "call_indirect":
            if ops[-1] >= (self.m.table or 0):
                raise Trap("UndefinedElement")
            x = self.element(ops[-1])
            if x is None:
                raise Trap("UninitializedElement")
            if self.m.types[i[1]] != self.m.type_of(x):
                raise Trap("TypeMismatch")
            return self.call(x, 1)
        elif name == "memory.atomic.notify":
            return ("notify", self.memory.check(ops[-2] + i[1], ATOMIC[name], True))
        elif name.startswith("memory.atomic.wait"):
            if not self.shared:
                raise Trap("NotShared")
            return ("wait", ATOMIC[name], self.memory.check(ops[-3] + i[1], ATOMIC[name], True))
        else:
            self.compute(name, i[1:], f)
            self.next()
        return None

    def compute(self, name, rest, f):
        """An instruction behind which the next one stands."""
        ops, (of, _, operator) = f.operands, name.partition(".")
        if name == "unreachable":
            raise Trap("Unreachable")
        elif name in ("nop", "atomic.fence"):
            pass
        elif name == "drop":
            ops.pop()
        elif name == "select":
            c, second, first = ops.pop(), ops.pop(), ops.pop()
            ops.append(first if c else second)
        elif name == "local.get":
            self.push(f.locals[rest[0]])
        elif name == "local.set":
            f.locals[rest[0]] = ops.pop()
        elif name == "local.tee":
            f.locals[rest[0]] = ops[-1]
        elif name == "global.get":
            self.push(self.globals[rest[0]])
        elif name == "global.set":
            self.globals[rest[0]] = ops.pop()
        elif operator == "const":
            self.push(rest[0] % 2 ** int(of[1:]))
        elif name == "memory.size":
            self.push(self.memory.size())
        elif name == "memory.grow":
            ops.append(self.memory.grow(ops.pop()))
        elif name in OPERANDS:
            first = len(ops) - OPERANDS[name]
            ops[first:] = [numeric(name, *ops[first:])]
        else:
            self.access(name, operator, rest[0], ops)

    def access(self, name, operator, offset, ops):
        width = ATOMIC.get(name) or ACCESS[name]
        kind = "load" if "load" in name else "store" if "store" in name else operator.split(".")[2].removesuffix("_u")
        # The address stands below what is written.
        place = len(ops) - {"load": 1, "cmpxchg": 3}.get(kind, 2)
        address, *values = ops[place:]
        old = self.memory.access(kind, width, self.memory.check(address + offset, width, name in ATOMIC), *values)
        is_signed = kind == "load" and name.endswith("_s")
        ops[place:] = [] if kind == "store" else [signed(8 * width, old) % 2 ** int(name[1:3]) if is_signed else old]

    def run(self):
        """Steps until something stands: how many, and what."""
        ran = 0
        while True:
            what = self.step()
            if what:
                return ran, what
            ran += 1
