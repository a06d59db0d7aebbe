#!/usr/bin/env python3
"""Writes the cases of the module suite, data/modules.txt, and the lines that are expected of them, stdout.

    python3 make_cases.py            writes both
    python3 make_cases.py --check    compares the verdicts with wabt's (Debian's package wabt)

The tables and verdicts are those of WebAssembly Core 1.0 (W3C Recommendation of December 2019; the sections
are named beside them) and of the threads proposal, and nothing here knows of the project's code. Only the
limits and the refusal of floats are the project's own (docs/BINARY_FORMAT.md).

The cases stand in format_cases.py and typing_cases.py, the tables in suites/lib. How bytes are written is said
in src/notation.rt, and spelling.py writes them so.

With --check each case of which the standard speaks is given to `wasm-validate`, with threads on and all later
features off, and the malformed ones also to `wasm2wat --no-check`. Each line that it prints is a case in which
wabt and these files differ; DIFFERS names those that are known, with the reason.
"""
import sys

sys.dont_write_bytecode = True
sys.path.insert(1, sys.path[0] + "/../../suites")
import format_cases
import typing_cases
from lib.cases import written
from lib.wabt import on_bytes
from spelling import CHECKED, EXPECTED, LINES

# Where wabt 1.0.32 is known to differ.
DIFFERS = {
    # It lets an expression end with its section or its function, without the last `end` (5.4.6 wants one).
    "global section, cut, variation 8", "global section, cut, variation 10",
    "a block without its end", "a global without a first value",
    # It refuses these, but as invalid: it reads types of later features, and the limits of shared memories of no bound.
    "a table of the type 6f", "a memory of the limits 02",
}

def check():
    known = differing = 0
    for name, data, verdict in CHECKED:
        accepted, _, why = on_bytes("wasm-validate", data)
        if accepted is not None and accepted == (verdict == "valid"):
            if verdict != "malformed" or not on_bytes("wasm2wat", data, "--no-check", "-o", "/dev/null")[0]:
                continue
            why = "read without validation"
        if name in DIFFERS:
            known += 1
            continue
        differing += 1
        print(f"{name}: {verdict}; wabt: {why or 'valid'}")
    print(f"{len(CHECKED)} cases, {known} known to differ, {differing} that differ")
    return differing

if __name__ == "__main__":
    if sys.argv[1:] == ["--check"]:
        sys.exit(1 if check() else 0)
    written("data/modules.txt", LINES)
    written("stdout", EXPECTED)
