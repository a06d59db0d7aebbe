#!/usr/bin/env python3
"""How much of the processor's time decoding, validating and writing take on valid modules of 4 MiB.

    python3 bench/modules/run.py [REPOSITORY]

A copy of the repository (this one, if none is named) is made in a temporary folder, with the program of main.rt.in
beside it as a further crate, which is proved, built and run there, twice, so that what else the machine does shows.
With two repositories named, the one after the other. Times are the least of five passes, in milliseconds.
"""
import os
import sys
import tempfile

sys.path.insert(1, sys.path[0] + "/../../suites")
from lib import bench
from lib.modules import HEAD, section, sized
from lib.numbers import leb

LENGTH = 4_194_304
NOTHING = b"\x60\0\0"

def of_bodies(bodies, memory=False):
    parts = [HEAD, section(1, [NOTHING]), section(3, [b"\0"] * len(bodies))]
    if memory:
        parts.append(section(5, [b"\0\1"]))
    return b"".join(parts) + section(10, [sized(body) for body in bodies])

def body(unit, room, locals_=b"\0"):
    return locals_ + unit * ((room - len(locals_) - 1) // len(unit)) + b"\x0b"

# i32.const, i32.const, i32.add, drop
SUMS = b"\x41\x07\x41\x80\x01\x6a\x1a"
# Of a local: get, i32.const, i32.mul, tee, drop
LOCALS = b"\x20\x00\x41\x05\x6c\x22\x00\x1a"
# i32.const, i32.load, i64.extend, i64.atomic.rmw.add's operands and so on
MEMORY = b"\x41\x08\x41\x08\x28\x02\x04\x36\x02\x10\x41\x08\x42\x07\xfe\x1f\x03\x08\x1a"
NEST = (b"\x02\x40" * 256 + b"\x0b" * 256)
IFS = b"\x41\x01\x04\x7f\x41\x02\x05\x41\x03\x0b\x1a"
LOOPS = b"\x02\x40\x03\x40\x41\x00\x0d\x01\x41\x01\x0d\x00\x0b\x0b"

MODULES = {
    "many_functions": of_bodies([body(SUMS, 205)] * 19_999), "one_body": of_bodies([body(SUMS, LENGTH - 64)]),
    "locals": of_bodies([body(LOCALS, LENGTH - 64, b"\1\1\x7f")]), "memory": of_bodies([body(MEMORY, LENGTH - 64)], memory=True),
    "nests_of_256_blocks": of_bodies([body(NEST, LENGTH - 64)]), "ifs": of_bodies([body(IFS, LENGTH - 64)]),
    "loops": of_bodies([body(LOOPS, LENGTH - 64)]),
    "data": HEAD + section(5, [b"\0\x80\1"]) + section(11, [b"\0\x41\0\x0b" + sized(bytes(LENGTH - 64))]),
    "many_segments": HEAD + section(5, [b"\0\1"]) + section(11, [b"\0\x41\0\x0b\1x"] * 690_000),
    "elements": HEAD + section(1, [NOTHING]) + section(3, [b"\0"]) + section(4, [b"\x70\0\1"])
    + section(9, [b"\0\x41\0\x0b" + leb(4_190_000) + bytes(4_190_000)]) + section(10, [b"\2\0\x0b"]),
    "branch_table": of_bodies([b"\0\x41\0\x0e" + leb(4_190_000) + bytes(4_190_001) + b"\x0b"]),
    "globals_and_exports": HEAD + section(6, [b"\x7f\0\x41\0\x0b"] * 400_000)
    + section(7, [sized(b"%x" % index) + b"\3" + leb(index) for index in range(200_000)]),
}

def measured(repository, files):
    with bench.copied(repository, "bench_modules", "wasm_decode wasm_encode wasm_validate") as crate:
        for _ in range(2):
            rows = bench.rows(crate, len(files), files.__contains__, *files)
            yield {os.path.basename(row[0]): row[1:] for row in rows}

def milliseconds(times):
    return "/".join(f"{int(time) / 1000:.1f}" for time in times)

repositories = [os.path.abspath(path) for path in sys.argv[1:]] or [bench.TOP]
with tempfile.TemporaryDirectory() as folder:
    files = [os.path.join(folder, name) for name in MODULES]
    for path, data in zip(files, MODULES.values()):
        with open(path, "wb") as file:
            file.write(data)
    columns = [times for repository in repositories for times in measured(repository, files)]
print("decode/validate/encode, milliseconds; two runs of " + ", and of ".join(repositories))
for name, data in MODULES.items():
    print(f"{name:22} {len(data):8} " + "   ".join(f"{milliseconds(column[name]):>20}" for column in columns))
