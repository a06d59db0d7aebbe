#!/usr/bin/env python3
"""How long `wasix one` takes for the kernels beside this script, and how long wabt's `wasm-interp` takes for the same modules
(Debian's package wabt).

    python3 bench/interp/run.py [REPOSITORY]

Each kernel is a module without imports, whose function `_start` computes a number and traps unless it is the one that it should be:
so both are seen to compute the same. NAME.wasm is what wat2wasm makes of NAME.wat.

The program is that of the repository (this one, if none is named), which its launcher builds where it isn't. For each kernel the least
of five runs counts, user and system time of the whole process, less that of a module that does nothing. The last line is the
geometric mean of the quotients.
"""
import math
import os
import resource
import subprocess
import sys
import tempfile

HERE = os.path.dirname(os.path.abspath(__file__))
# a module whose `_start` does nothing
NOTHING = b"\0asm\1\0\0\0" + b"\1\4\1\x60\0\0" + b"\3\2\1\0" + b"\5\4\1\1\x20\x20" + b"\7\x0a\1\6_start\0\0" + b"\x0a\4\1\2\0\x0b"
# how many steps each kernel takes, as the definition of a step counts them
STEPS = {"atomics": 49_500_009, "fibonacci": 30_964_181, "fill_and_sum": 68_157_589, "indirect_calls": 59_504_405,
         "long_arithmetic": 54_000_011, "machine": 117_200_021, "sieve": 50_176_661, "sort": 47_089_824}


def seconds(command):
    """The least user and system time of five runs, none of which may fail or say that the kernel trapped."""
    least = math.inf
    for _ in range(5):
        before = resource.getrusage(resource.RUSAGE_CHILDREN)
        done = subprocess.run(command, capture_output=True, text=True)
        after = resource.getrusage(resource.RUSAGE_CHILDREN)
        if done.returncode or "error" in done.stdout:
            sys.exit(f"{' '.join(command)}: {done.returncode} {done.stdout}{done.stderr}")
        least = min(least, after.ru_utime + after.ru_stime - before.ru_utime - before.ru_stime)
    return least


def main():
    repository = os.path.abspath(sys.argv[1]) if sys.argv[1:] else os.path.dirname(os.path.dirname(HERE))
    kernels = sorted(name for name in os.listdir(HERE) if name.endswith(".wasm"))
    with tempfile.NamedTemporaryFile(suffix=".wasm") as nothing:
        nothing.write(NOTHING)
        nothing.flush()
        # the launcher builds the program; the program itself is measured
        if subprocess.run([os.path.join(repository, "wasix"), "one", nothing.name]).returncode:
            sys.exit("the program could not be built")
        ours = lambda path: seconds([os.path.join(repository, "crates", "wasix", "out", "wasix"), "one", path])
        theirs = lambda path: seconds(["wasm-interp", "--enable-threads", "--run-all-exports", path])
        our_start, their_start = ours(nothing.name), theirs(nothing.name)
        print(f"a module that does nothing: {our_start:.3f} s, wasm-interp {their_start:.3f} s")
        print(f"{'kernel':18} {'steps':>12} {'seconds':>8} {'ns a step':>9} {'wasm-interp':>11} {'quotient':>8}")
        logarithms = []
        for name in kernels:
            path = os.path.join(HERE, name)
            time, other, steps = ours(path) - our_start, theirs(path) - their_start, STEPS[name[:-5]]
            logarithms.append(math.log(time / other))
            print(f"{name[:-5]:18} {steps:12} {time:8.3f} {time * 1e9 / steps:9.2f} {other:11.3f} {time / other:8.2f}")
        print(f"geometric mean of the quotients: {math.exp(sum(logarithms) / len(logarithms)):.2f}")


if __name__ == "__main__":
    main()
