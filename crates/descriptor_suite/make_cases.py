#!/usr/bin/env python3
"""Writes data/cases.txt and stdout: rows of pipes, descriptors and open descriptions, and what POSIX.1-2017 and
the rules of this host have them answer. It states the rules anew, and knows nothing of the host's code.

A pipe row has how many bytes the pipe holds, a write or a read of so many, and whether an end of the other side
is left. The other rows go on where the row before left the process; `new` begins one anew, with the console's
input. `open KIND FLAGS RIGHTS` opens a description and puts it at the lowest number; `many` opens COUNT without a
number. The kinds are input, output, errors, root, reading, writing, and else the name of a file in the root.
"""
import sys

sys.path.insert(1, sys.path[0] + "/../../suites")
from lib.cases import Refused, Suite, refuse

CAPACITY, PIPE_BUF = 65536, 4096
SIZES = [0, 1, 4095, 4096, 4097, 65535, 65536]
BADF, INVAL, ISDIR, MFILE, NFILE, FBIG, SPIPE, NOTCAPABLE = 8, 28, 31, 33, 41, 22, 70, 76
MOST = 67108864
NAMES = {"root": "directory", "reading": "reading end", "writing": "writing end", "input": "input", "output": "output", "errors": "errors"}


def pipe_write(held, count, left):
    if count == 0:
        return "took 0"
    if not left:
        return "no reader"
    room = CAPACITY - held
    if count <= PIPE_BUF:
        return f"took {count}" if count <= room else "waits"
    return f"took {min(count, room)}" if room else "waits"


def pipe_read(held, count, left):
    if count == 0:
        return "gave 0"
    if held:
        return f"gave {min(held, count)}"
    return "waits" if left else "gave 0"


class Description:
    def __init__(self, kind, flags, rights):
        self.kind, self.flags, self.rights, self.offset, self.references = kind, flags, rights, 0, 1


class Process:
    """What the rows do: a method for each, of its words, which gives the answer."""

    def __init__(self, text=""):
        self.input, self.files, self.pipe = text, {}, b""
        self.table, self.descriptions = {}, []

    def free(self):
        return next((fd for fd in range(128) if fd not in self.table), None)

    def lowest(self):
        return "none" if self.free() is None else self.free()

    def at(self, fd):
        refuse(BADF, fd not in self.table)
        return self.table[fd][0]

    def put_lowest(self, d):
        fd = self.free()
        if fd is None:
            self.forget(d)
            raise Refused(MFILE)
        self.table[fd] = [d, False]
        return fd

    def forget(self, d):
        d.references -= 1
        if d.references:
            return "closes nothing"
        self.descriptions.remove(d)
        return "closes " + NAMES.get(d.kind, "file")

    def new_description(self, kind, flags, rights):
        if kind not in NAMES:
            self.files.setdefault(kind, b"")
        refuse(NFILE, len(self.descriptions) == 1024)
        self.descriptions.append(Description(kind, flags, rights))
        return self.descriptions[-1]

    def open(self, kind, flags, rights):
        return self.put_lowest(self.new_description(kind, flags, rights))

    def many(self, kind, flags, rights, count):
        for opened in range(count):
            try:
                self.new_description(kind, flags, rights)
            except Refused as refused:
                return f"{opened}, then error {refused}"
        return count

    def dup(self, fd):
        d = self.at(fd)
        d.references += 1
        return self.put_lowest(d)

    def close(self, fd):
        self.at(fd)
        return self.forget(self.table.pop(fd)[0])

    def renumber(self, a, b):
        self.at(a)
        refuse(BADF, b >= 128)
        if a == b:
            return "closes nothing"
        displaced = self.table.get(b)
        self.table[b] = self.table.pop(a)
        return self.forget(displaced[0]) if displaced else "closes nothing"

    def mark(self, fd, word):
        self.at(fd)
        self.table[fd][1] = word == "on"
        return "done"

    def exec(self):
        marked = [fd for fd in sorted(self.table) if self.table[fd][1]]
        for fd in marked:
            self.forget(self.table.pop(fd)[0])
        return f"closes {len(marked)}"

    def count(self):
        return len(self.descriptions)

    def left(self, kind):
        return any(d.kind == kind for d in self.descriptions)

    def ends(self):
        return f"reading {str(self.left('reading')).lower()}, writing {str(self.left('writing')).lower()}"

    def usable(self, fd, right, kinds):
        """The description, unless it is refused before anything moves."""
        d = self.at(fd)
        refuse(ISDIR, d.kind == "root")
        refuse(NOTCAPABLE, not d.rights & right or d.kind in kinds)
        return d

    def read(self, fd, count):
        d = self.usable(fd, 2, ("output", "errors", "writing"))
        if d.kind == "input":
            data, self.input = self.input[:count].encode(), self.input[count:]
        elif d.kind == "reading":
            if pipe_read(len(self.pipe), count, self.left("writing")) == "waits":
                return "waits"
            data, self.pipe = self.pipe[:count], self.pipe[count:]
        else:
            data = self.files[d.kind][d.offset:d.offset + count]
            d.offset += len(data)
        return f"gave {len(data)} '" + (data.decode() if len(data) <= 40 else "..") + "'"

    def put(self, fd, data):
        d = self.usable(fd, 64, ("input", "reading"))
        if d.kind == "writing":
            answer = pipe_write(len(self.pipe), len(data), self.left("reading"))
            if answer.startswith("took"):
                self.pipe += data[:int(answer.split()[1])]
            return answer
        if data and d.kind not in ("output", "errors"):
            old = self.files[d.kind]
            start = len(old) if d.flags & 1 else d.offset
            refuse(FBIG, start + len(data) > MOST)
            self.files[d.kind] = old[:start].ljust(start, b"\0") + data + old[start + len(data):]
            d.offset = start + len(data)
        return f"took {len(data)}"

    def write(self, fd, text=""):
        return self.put(fd, text.encode())

    def fill(self, fd, count):
        return self.put(fd, bytes((97 + i) % 251 for i in range(count)))

    def seek(self, fd, delta, whence):
        d = self.at(fd)
        refuse(ISDIR, d.kind == "root")
        refuse(SPIPE, d.kind in NAMES)
        refuse(INVAL, whence > 2)
        offset = [0, d.offset, len(self.files[d.kind])][whence] + delta
        refuse(INVAL, not 0 <= offset < 2**63)
        d.offset = offset
        return offset


SUITE = Suite("cases.txt", "# The rows of the descriptor suite, written by make_cases.py, which says what they are. The answers are in",
              "# the file stdout.", "")
SUITE.before_notes = []
process = Process()


def do(text):
    """A row, or `NUMBER* ROW` for that many."""
    global process
    times, star, row = text.rpartition("* ")
    for _ in range(int(times) if star else 1):
        name, *words = row.split()
        if name == "new":
            process = Process(*words)
            SUITE.row(row, "done")
            continue
        numbers = [int(word) if word.lstrip("-").isdigit() and (name, at) != ("write", 1) else word for at, word in enumerate(words)]
        try:
            SUITE.row(row, getattr(process, name)(*numbers))
        except Refused as refused:
            SUITE.row(row, f"error {refused}")


SUITE.note("a pipe that holds so many bytes, and a write or a read of so many")
for held in SIZES + [61440, 61441]:
    for count in SIZES:
        for end in ("left", "gone"):
            SUITE.row(f"pipe {held} write {count} {end}", pipe_write(held, count, end == "left") + ", in order")
            answer = pipe_read(held, count, end == "left")
            SUITE.row(f"pipe {held} read {count} {end}", answer if answer == "waits" else answer + ", in order")

SUITE.script("""
# 128 descriptors: the lowest free number, and each refusal
new; open input 0 66; 127* dup 0; lowest; dup 0; open output 0 66; count; close 5; lowest; dup 0; close 100; close 7;
close 127; close 64; close 63; close 0; 7* dup 1; dup 128; close 128; close 4294967295; 2* close 3; dup 3; renumber 3 4;
renumber 4 128; mark 3 on; read 3 1; write 3 a; seek 3 0 0
# a renumbering hands back what it displaced, and keeps the mark; equal numbers change nothing
new; open input 0 66; open output 0 66; open errors 0 66; mark 2 on; renumber 2 2; renumber 2 0; lowest; count; renumber 0 5;
lowest; exec; count; renumber 5 1; renumber 1 127; renumber 127 128; dup 127; renumber 0 127; close 127; count
# a duplicate has no mark, and an exec closes the marked numbers alone
new; open input 0 66; mark 0 on; dup 0; open output 0 66; mark 2 on; mark 2 off; open errors 0 66; mark 3 on; 2* exec; count;
lowest; read 1 1
# 1,024 descriptions
new; many input 0 66 1023; 2* open output 0 66; count; close 0; open output 0 66; many errors 0 66 5; count
# an end of a pipe is left while a descriptor refers to it
new; ends; open reading 0 2; open writing 0 64; ends; dup 1; read 0 5; write 1 abc; close 1; ends; write 2 de; read 0 4;
close 2; ends; 2* read 0 4; read 0 0; open writing 0 64; read 0 4; close 0; ends; write 1 f; write 1; close 1; ends
# a large write takes what fits, a small one goes in whole or not at all
new; open reading 0 2; open writing 0 64; fill 1 61440; fill 1 4097; fill 1 1; read 0 1; fill 1 1; new; open reading 0 2;
open writing 0 64; fill 1 61441; fill 1 4096; fill 1 4095; read 0 1; fill 1 1
# each kind, read and written
new hello; open input 0 2; open output 0 64; open errors 0 64; open root 0 66; open reading 0 2; open writing 0 64;
open notes 0 66; read 0 0; write 0; read 1 0; write 1; read 2 0; write 2; read 3 0; write 3; read 4 0; write 4; read 5 0;
write 5; read 6 0; write 6; read 0 2; 2* read 0 10; write 0 text; write 1 text; write 2 text; write 3 text; write 4 text;
write 5 text; write 6 text; read 0 3; read 1 3; read 2 3; read 3 3; read 4 3; read 5 3; read 6 3; seek 0 0 1; seek 1 0 1;
seek 2 0 1; seek 3 0 1; seek 4 0 1; seek 5 0 1; seek 6 0 1; open input 0 64; open output 0 2; open reading 0 64;
open writing 0 2; read 7 1; write 7 x; read 8 1; write 8 x; read 9 1; write 9 x; read 10 1; write 10 x
# a file: the offset moves behind what was read and written, and a refusal leaves it
new; open notes 0 66; write 0 abcdef; seek 0 0 1; read 0 4; seek 0 0 0; 3* read 0 4; write 0; seek 0 0 1; seek 0 2 0;
write 0 XY; seek 0 0 1; seek 0 0 0; read 0 10; open notes 1 64; seek 1 1 0; write 1; seek 1 0 1; write 1 end; seek 1 0 1;
seek 0 0 0; read 0 20; open notes 0 2; write 2 no; read 1 1; dup 0; seek 3 1 0; read 0 2; seek 0 67108864 0; write 0 a;
seek 0 0 1; read 0 1; write 0
# seeks: the three origins and both ends
new; open notes 0 66; write 0 0123456789
""", do)
for whence in range(4):
    for delta in (0, 3, -3, -10, -11, 2**63 - 1, 2**63 - 11, -2**63):
        do("seek 0 4 0")
        do(f"seek 0 {delta} {whence}")
for text in (f"seek 0 {2**63 - 1} 0", "seek 0 1 1", "seek 0 0 1", "read 0 1", "seek 0 -1 2", "read 0 5"):
    do(text)
SUITE.write()
