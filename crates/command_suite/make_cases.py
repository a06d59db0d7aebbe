#!/usr/bin/env python3
"""Writes the cases of the suite of commands, and the lines that are expected of them.

A line `NAME: SETTING; ..` is a command with the objects that it is given; `src/case.rt` says how it is spelled. Its answer is the
reason and the status, what each sink took, how many entries the history has and what they weigh, the first three of them (process and
thread, steps, call, signal, outcome), and the files that are to be told.

The modules are written by hand from the binary format of WebAssembly Core 1.0, images from docs/BOOT_IMAGE.md, and answers from
docs/COMMANDS.md and docs/FORMATS.md."""

import sys

sys.path.insert(1, sys.path[0] + "/../../suites")
from lib.cases import Suite

RETURN, FD_WRITE, PROC_EXIT, TRAP = 4, 17, 37, 3
NO_COMMAND = "usage: wasix one|run|asm|pack|kit|gen|trace\n"
SUITE = Suite("commands.txt", "# The cases of the suite of commands, written by make_cases.py. The answers are in the file stdout.")
rows, lines, note = SUITE.rows, SUITE.lines, SUITE.note


def case(name, words, reason, status, entries=(), out=b"", err="", weight=None, tell=(), files=(), **limits):
    """The limits are those of `shelf`, `out_limits` and `err_limits`. A file's content is bytes, or parts as they are spelled."""
    settings = [f"words {words}"] if words is not None else []
    settings += [f"{key.removesuffix('_limits')} {limit}" for key, limit in limits.items()]
    settings += [f"file {name} {parts.hex() if isinstance(parts, bytes) else parts}" for name, parts in files]
    settings += [f"tell {name}" for name, _ in tell]
    rows.append(f"{name}: " + "; ".join(settings))
    weight = 64 * len(entries) if weight is None else weight
    left = [reason, f"status {status}", f"out {shown(out)}", f"err {shown(err.encode())}", f"{len(entries)} entries of {weight}"]
    left += [f"1.1 {entry}" for entry in entries[:3]]
    left += [f"no {name}" if content is None else f"{name} {shown(content)}" for name, content in tell]
    lines.append(f"{name}: " + "; ".join(left))


def shown(data):
    return "-" if not data else data.hex() if len(data) <= 1024 else f"{len(data)} bytes"


def one(name, module, reason, status, entries=(), **rest):
    case(name, "one f", reason, status, entries, files=[("f", module)], **rest)


def ends(steps, call):
    return f"+{steps} call {call} sig 0 exit"


# ---- ends of a program

# a module that imports proc_exit and exports _start, up to its code section
HEAD = (b"\0asm\1\0\0\0" b"\1\x08\2\x60\1\x7f\0\x60\0\0" b"\2\x24\1\x16wasi_snapshot_preview1\x09proc_exit\0\0"
        b"\3\2\1\1" b"\7\x0a\1\6_start\0\1")


def exits(name, code, exit, status, steps=1, call=PROC_EXIT):
    one(name, HEAD + code, f"exited {exit}", status, [ends(steps, call)])


note("How a program ends, with the code modulo 256 or 128 and the signal")
exits("seven", b"\x0a\x08\1\6\0\x41\7\x10\0\x0b", 7, 7)
exits("seven in five bytes", b"\x0a\x0c\1\x0a\0\x41\x87\x80\x80\x80\0\x10\0\x0b", 7, 7)
exits("zero", b"\x0a\x08\1\6\0\x41\0\x10\0\x0b", 0, 0)
exits("255", b"\x0a\x09\1\7\0\x41\xff\1\x10\0\x0b", 255, 255)
exits("256", b"\x0a\x09\1\7\0\x41\x80\2\x10\0\x0b", 256, 0)
exits("the import isn't called", b"\x0a\4\1\2\0\x0b", 0, 0, call=RETURN)
one("a trap", HEAD + b"\x0a\5\1\3\0\0\x0b", "killed 6", 134, [ends(0, TRAP)])

# ---- refusals

note("Words that are no command, and names")


def no_command(name, words, **rest):
    case(name, words, "usage", 64, err=NO_COMMAND, **rest)


no_command("no words", None)
for words in ("one", "one f f", "two f", "asm f"):
    no_command(words, words, files=[("f", HEAD)])
no_command("an output that isn't written to", "two f", out_limits="0 0 1")
ZERO = HEAD + b"\x0a\x08\1\6\0\x41\0\x10\0\x0b"
case("an empty name", "one ", "exited 0", 0, [ends(1, PROC_EXIT)], files=[("", ZERO)])

note("Files that can't be read, or are too long")
FILE_FAULT, FILE_TOO_LONG = "wasix: file fault\n", "wasix: file too long\n"
case("no such file", "one g", "shelf fault", 66, err=FILE_FAULT, files=[("f", ZERO)])
one("the read fails", ZERO, "shelf fault", 66, err=FILE_FAULT, shelf="0 1")
one("the second read would fail", ZERO, "exited 0", 0, [ends(1, PROC_EXIT)], shelf="0 2")
LIMIT = "00000000*1048576"
one("a program of 4 MiB of zeros", LIMIT, "bad program Malformed", 126, err="wasix: bad program\n")
one("and a byte more", LIMIT + " 00", "too long", 66, err=FILE_TOO_LONG)
case("a text of 4 MiB and a byte", "asm f o", "too long", 66, err=FILE_TOO_LONG, files=[("f", LIMIT + " 00")], tell=[("o", None)])

note("Files that are no program")
CLOSES = (b"\0asm\1\0\0\0" b"\1\x09\2\x60\1\x7f\1\x7f\x60\0\0" b"\2\x23\1\x16wasi_snapshot_preview1\x08fd_close\0\0"
          b"\3\2\1\1" b"\7\x0a\1\6_start\0\1" b"\x0a\4\1\2\0\x0b")
one("no bytes", b"", "bad program Malformed", 126, err="wasix: bad program\n")
one("nothing is exported", b"\0asm\1\0\0\0", "bad program Unlinked", 126, err="wasix: bad program\n")
one("a function has no code", HEAD, "bad program Malformed", 126, err="wasix: bad program\n")
one("a call that isn't answered yet", CLOSES, "bad program NotYet", 126, err="wasix: not built yet\n")

# ---- writes

# a module that imports fd_write and has a page of memory, up to its code section, and its data section: one buffer of three bytes
# at 8, and the bytes
WRITER = (b"\0asm\1\0\0\0" b"\1\x0c\2\x60\4\x7f\x7f\x7f\x7f\1\x7f\x60\0\0" b"\2\x23\1\x16wasi_snapshot_preview1\x08fd_write\0\0"
          b"\3\2\1\1" b"\5\3\1\0\1" b"\7\x0a\1\6_start\0\1")
HI = b"\x0b\x11\1\0\x41\0\x0b\x0b\x08\0\0\0\3\0\0\0hi\n"


def write(fd):
    return b"\x41" + bytes([fd]) + b"\x41\0\x41\1\x41\x10\x10\0\x1a"


def reply(errno, count, steps=4):
    return f"+{steps} call {FD_WRITE} sig 0 reply {errno} {count}"


note("Writes to the descriptors")
writers = [WRITER + b"\x0a\x0f\1\x0d\0" + write(fd) + b"\x0b" + HI for fd in range(5)]
for fd, errno, streams in ((0, 76, {}), (1, 0, {"out": b"hi\n"}), (2, 0, {"err": "hi\n"}), (3, 31, {}), (4, 8, {})):
    count = 3 if streams else 0
    one(f"to {fd}", writers[fd], "exited 0", 0, [reply(errno, count), ends(2, RETURN)], weight=128 + count, **streams)
WHOLE = WRITER + b"\x0a\xaa\1\1\xa7\1\0" + write(1) * 15 + b"\x0b" b"\x0b\x0e\1\0\x41\0\x0b\x08\0\0\0\0\0\0\1\0"
one("a page of memory fifteen times", WHOLE, "exited 0", 0, [reply(0, 65536)] + [reply(0, 65536, 5)] * 14 + [ends(2, RETURN)],
    out=bytes(983040), weight=984064, out_limits="1000000 1000000")

note("Sinks that take less, or fail")


def hi(name, reason, status, out, **rest):
    one(name, writers[1], reason, status, [reply(0, 3), ends(2, RETURN)], out=out, weight=131, **rest)


hi("single bytes", "exited 0", 0, b"hi\n", out_limits="3 1")
hi("the first call fails", "write fault", 74, b"", out_limits="1000 1 1")
hi("the second", "write fault", 74, b"h", out_limits="1000 1 2")
hi("the third", "write fault", 74, b"hi", out_limits="1000 1 3")
hi("the fourth isn't made", "exited 0", 0, b"hi\n", out_limits="1000 1 4")
hi("room for two", "write fault", 74, b"hi", out_limits="2 1")
hi("the output and the errors fail", "write fault", 74, b"", out_limits="0 1", err_limits="0 1")
BOTH = WRITER + b"\x0a\x1a\1\x18\0" + write(1) + write(2) + b"\x0b" + HI
TWO_REPLIES = [reply(0, 3), reply(0, 3, 5), ends(2, RETURN)]
one("the errors are written though the output fails", BOTH, "write fault", 74, TWO_REPLIES, weight=198, err="hi\n", out_limits="0 1")
one("the errors fail", BOTH, "write fault", 74, TWO_REPLIES, weight=198, out=b"hi\n", err="h", err_limits="1000 1 2")
case("the text of a reason fails", "none", "write fault", 74, err="usage: w", err_limits="1000 8 2")
case("its first call", "none", "write fault", 74, err_limits="1000 8 1")

# ---- texts

note("Texts are assembled")
EMPTY = (b"\0asm\1\0\0\0" b"\1\4\1\x60\0\0" b"\3\2\1\0" b"\7\x0a\1\6_start\0\0" b"\x0a\4\1\2\0\x0b")
START = b'(module (func (export "_start")))'


def asm(name, text, reason, status, made=None, **rest):
    case(name, "asm f o", reason, status, files=[("f", text)], tell=[("o", made), ("f", text)], **rest)


asm("a text", START, "done", 0, EMPTY)
asm("room for just the module", START, "done", 0, EMPTY, shelf=str(1 + len(EMPTY)))
asm("room for less", START, "shelf fault", 66, err=FILE_FAULT, shelf=str(len(EMPTY)))
asm("the write fails", START, "shelf fault", 66, err=FILE_FAULT, shelf="1000 2")
asm("no such instruction", b"(module (func i32.bad))", "bad syntax 1", 65, err="wasix: bad text\n")
asm("no such function", b"(module\n(func call $f))", "bad name 2", 65, err="wasix: bad text\n")
asm("a string without end", b'(module\n\n"', "bad token 3", 65, err="wasix: bad text\n")

# ---- lists

note("Lists are packed")


def pack(name, text, reason, status, made=None, **rest):
    files = [("l", text), ("x", b"hi"), ("y", b"")]
    case(name, "pack l o", reason, status, files=files, tell=[("o", made)], **rest)


BAD_LIST = "wasix: bad list\n"
ONE = b"WXI1\2\2\0/p\2\0\0\0hi\0"
pack("a file", b"file /p x", "done", 0, ONE)
pack("nothing", b"", "done", 0, b"WXI1\0")
pack("a directory and files", b"dir /a\nfile /a/p x\nfile /b y\n", "done", 0,
     b"WXI1" b"\1\2\0/a" b"\2\4\0/a/p\2\0\0\0hi" b"\2\2\0/b\0\0\0\0" b"\0")
pack("a wrong line", b"fill /p x", "bad list 1", 65, err=BAD_LIST)
pack("no such file", b"file /p z", "shelf fault", 66, err=FILE_FAULT)
pack("no such file, and then a wrong line", b"file /p z\nfill /p x", "bad list 2", 65, err=BAD_LIST)
for call in (1, 2, 3):
    pack(f"call {call} of the shelf fails", b"file /p x", "shelf fault", 66, err=FILE_FAULT, shelf=f"1000 {call}")
pack("a list of 1 MiB of zeros", "00*1048576", "bad list 1", 65, err=BAD_LIST)
pack("a list of one byte more", "00*1048577", "too long", 66, err=FILE_TOO_LONG)
case("a file of 64 MiB and a byte", "pack l o", "too long", 66, err=FILE_TOO_LONG, tell=[("o", None)],
     files=[("l", b"file /p x"), ("x", "00" * 64 + "*1048576 00")])
SUITE.write()
