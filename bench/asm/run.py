#!/usr/bin/env python3
"""How fast texts are assembled, beside `wat2wasm` (Debian's package wabt).

    python3 bench/asm/run.py [--size BYTES] [REPOSITORY]

A copy of the repository (this one, if none is named) is made in a temporary folder, with the program of main.rt.in beside
it as a further crate, which is proved, built and run there. Three texts are assembled: one like a program, of many functions
with names, blocks and calls; one of names alone; and one of folded instructions deep in one another. Each is measured at about
so many bytes (2,000,000 if none are said) and at half of them: the larger may take at most 2.2 times as long. The modules are
compared with those of `wat2wasm`, without validation.
"""
import argparse
import argparse
import os
import sys
import tempfile
import time

sys.path.insert(1, sys.path[0] + "/../../suites")
from lib import bench, wabt

ROUNDS = 5


def program(size):
    """Functions that loop, branch, use memory and call earlier ones."""
    out, place, length = ["(module\n  (memory 1)\n  (global $seed (mut i32) (i32.const 1))\n"], 0, 0
    while length < size:
        text = f"""  ;; number {place}
  (func $function_{place} (param $left i32) (param $right i64) (result i32) (local $sum i32) (local $count i32)
    (local.set $count (i32.const {place % 97}))
    (block $done
      (loop $again
        (br_if $done (i32.eqz (local.get $count)))
        (local.set $sum (i32.add (local.get $sum) (i32.load offset={place % 4096} align=4 (local.get $left))))
        (i32.store (local.get $left) (i32.xor (local.get $sum) (i32.wrap_i64 (local.get $right))))
        (local.set $count (i32.sub (local.get $count) (i32.const 1)))
        (br $again)))
    local.get $sum
    i32.const 0x{place:x}
    i32.gt_u
    if (result i32)
      (call $function_{place * 7919 % (place + 1)} (local.get $sum) (i64.const -{place}))
    else
      global.get $seed
    end)
"""
        out.append(text)
        length += len(text)
        place += 1
    return "".join(out) + ")\n"


def names(size):
    """Functions that call all over the module."""
    count = size // 54
    return "(module\n" + "".join(f"  (func $n{place:07} call $n{place * 7919 % count:07} br 0)\n" for place in range(count)) + ")\n"


def deep(size):
    """One block in another."""
    count = size // 18
    return "(module (func\n" + "(block $a (br $a)\n" * count + ")" * count + "))\n"


TEXTS = {"program": program, "names": names, "deep": deep}


def by_wabt(path):
    """The seconds of the fastest round of wat2wasm with its start, and the module."""
    best = None
    for _ in range(ROUNDS):
        start = time.perf_counter()
        done = wabt.ran("wat2wasm", *wabt.FEATURES, "--no-check", path, "-o", path + ".wabt")[0]
        took = time.perf_counter() - start
        if not done:
            return None, None
        best = min(best or took, took)
    with open(path + ".wabt", "rb") as file:
        return best, file.read()


def main():
    words = argparse.ArgumentParser()
    words.add_argument("--size", type=int, default=2_000_000)
    words.add_argument("repository", nargs="?", default=bench.TOP)
    said = words.parse_args()
    failed = False
    with tempfile.TemporaryDirectory() as folder, \
            bench.copied(said.repository, "bench_asm", "anyhow wasm_ast wasm_encode wat_asm wx_types") as crate:
        paths = {}
        for name, text in TEXTS.items():
            for size in (said.size // 2, said.size):
                paths[name, size] = os.path.join(folder, f"{name}_{size}")
                with open(paths[name, size], "w") as file:
                    file.write(text(size))
        rows = dict(bench.rows(crate, len(paths), lambda word: word.startswith(folder), *paths.values()))
        for name in TEXTS:
            half, whole = rows[paths[name, said.size // 2]], rows[paths[name, said.size]]
            if "none" in (half, whole):
                print(f"{name}: NO MODULE")
                failed = True
                continue
            path = paths[name, said.size]
            seconds, module = by_wabt(path)
            with open(path + ".wasm", "rb") as file:
                same = "the same module" if file.read() == module else "ANOTHER MODULE"
            length = os.path.getsize(path) / 1e6
            theirs = f"{length / seconds:.1f} MB/s" if seconds else "none"
            times = int(whole) / int(half)
            print(f"{name}: {length:.2f} MB, {1e9 * length / int(whole):.1f} MB/s; wat2wasm with its start {theirs}; "
                  f"{times:.2f} times the time of half as much; {same}")
            failed = failed or times > 2.2 or same != "the same module"
    return 1 if failed else 0


if __name__ == "__main__":
    sys.exit(main())
