"""Memories (4.2.8), with the accesses of 4.4.4 and those of the threads proposal."""

from lib.numbers import MODIFY, Trap

PAGE = 65536
# No memory has more pages here.
MOST = 256


class Memory:
    def __init__(self, least, most):
        self.bytes, self.most = bytearray(least * PAGE), min(most, MOST)

    def size(self):
        return len(self.bytes) // PAGE

    def grow(self, pages):
        """The old size in pages, or -1 where there is no room."""
        old = self.size()
        if old + pages > self.most:
            return 2**32 - 1
        self.bytes.extend(bytes(pages * PAGE))
        return old

    def check(self, at, width, aligned=False):
        if aligned and at % width:
            raise Trap("Misaligned")
        if at + width > len(self.bytes):
            raise Trap("OutOfBounds")
        return at

    def access(self, kind, width, at, *values):
        """A load, a store, or an atomic access by the name of what it writes; it gives what was there, the lowest byte first (4.3.1). A
        compare and exchange compares that with the whole expected operand."""
        old = int.from_bytes(self.bytes[at:at + width], "little")
        if kind == "cmpxchg":
            new = values[1] if old == values[0] else old
        else:
            new = old if kind == "load" else values[0] if kind == "store" else MODIFY[kind](old, values[0])
        self.bytes[at:at + width] = (new % 2 ** (8 * width)).to_bytes(width, "little")
        return old
