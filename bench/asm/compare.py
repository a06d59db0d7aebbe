#!/usr/bin/env python3
"""Compares the modules that `wasix asm` makes of texts with those of wabt's `wat2wasm` (Debian's package wabt).

    python3 bench/asm/compare.py [--wasix PROGRAM] [TEXT..]

Each TEXT is a file of the text format. Without one these are compared: the texts in examples/, bench/interp/ and crates/asm_suite/data/,
and those of the guest tools, which are taken out of crates/guest_kit.

Two modules are equal where wabt's `wasm2wat` reads the same text out of both, without names. So numbers count, however long they are
spelled, and custom and empty sections don't. One line is printed for a text: `equal`, `both refuse`, or `DIFFERS`, with the first lines
of those texts that differ, or which of the two refuses, and what it says. The status is 1 where a text differs.

`wat2wasm` doesn't type the module here, as `asm` doesn't either.
"""
import argparse
import glob
import os
import re
import sys
import tempfile

TOP = os.path.dirname(os.path.dirname(sys.path[0]))
sys.path.insert(1, os.path.join(TOP, "suites"))
from lib import wabt


def read_out(module):
    """The lines of a module's text by `wasm2wat`."""
    done, text, said = wabt.on_bytes("wasm2wat", module, "--no-check", "--no-debug-names")
    return text.split("\n") if done else [f"cannot be read: {said}"]


def verdict(wasix, path, folder):
    out = os.path.join(folder, "ours")
    made, _, said_here = wabt.ran(wasix, "asm", path, out)
    with open(path, "rb") as file:
        there, said_there = wabt.assembled(file.read())
    if not made or there is None:
        return "both refuse" if not made and there is None else \
            f"DIFFERS: refused by wat2wasm ({said_there})" if made else f"DIFFERS: refused here ({said_here})"
    with open(out, "rb") as file:
        here = file.read()
    if here == there:
        return "equal"
    for mine, other in zip(read_out(here) + [""], read_out(there) + [""]):
        if mine != other:
            return f"DIFFERS: {mine.strip()!r} here, {other.strip()!r} by wat2wasm"
    return "equal"


def tools(folder):
    """The texts of the guest tools, each put into a file."""
    for source in sorted(glob.glob(os.path.join(TOP, "crates", "guest_kit", "src", "*.rt"))):
        with open(source) as file:
            text = re.search(r'&str = r#"(.*?)"#;', file.read(), re.DOTALL)
        if text:
            path = os.path.join(folder, os.path.basename(source).replace(".rt", ".wat"))
            with open(path, "w") as file:
                file.write(text[1])
            yield path


def main():
    parser = argparse.ArgumentParser(description="compares modules of `wasix asm` with those of `wat2wasm`")
    parser.add_argument("--wasix", default=os.path.join(TOP, "wasix"), metavar="PROGRAM")
    parser.add_argument("texts", nargs="*", metavar="TEXT")
    words = parser.parse_args()
    with tempfile.TemporaryDirectory() as folder:
        places = ("examples", "bench/interp", "crates/asm_suite/data")
        texts = words.texts or [*(path for place in places for path in sorted(glob.glob(os.path.join(TOP, place, "*.wat")))), *tools(folder)]
        wrong = 0
        for text in texts:
            found = verdict(words.wasix, text, folder)
            wrong += found.startswith("DIFFERS")
            print(f"{os.path.basename(text)}: {found}", flush=True)
    print(f"{len(texts)} texts, {wrong} differ")
    sys.exit(1 if wrong else 0)


if __name__ == "__main__":
    main()
