#!/usr/bin/env python3
"""Fills the modules into the cases of the assembler's suite, data/texts.txt, and writes the lines that are expected, stdout.

    python3 make_cases.py            asks `wat2wasm` (Debian's package wabt) for each module again; nothing may change then
    python3 make_cases.py --check    prints the refused texts that `wat2wasm` takes, for it knows more forms

A line of data/texts.txt is a case: its group, what is expected, and the text, with tabs between. A new one is written there, and the
bytes of its module are left to this script, as `?`. src/notation.rt says how a text is spelled; `@NAME` is a file beside it.

The bytes of each module are those that `wat2wasm` writes, with threads on, all later features off and without validation,
which docs/TEXT_FORMAT.md doesn't ask for. Where it refuses a text of the standard LIKE has a text of the same module that it takes.
By hand stand, by the rules of that page, the kind and line of each refusal, the bytes of long texts, in which a piece comes many
times, and those of a start that it doesn't write. Nothing here knows of the project's code.
"""
import os
import re
import sys
from urllib.parse import unquote_to_bytes

sys.path.insert(1, sys.path[0] + "/../../suites")
from lib.cases import written
from lib.wabt import assembled

DATA = os.path.join(sys.path[0], "data")
LIKE = {
    r'(module (data (i32.const 0) "\u{1_0}"))': r'(module (data (i32.const 0) "\u{10}"))',
    r'(module (data (i32.const 0) "\u{10_ff_ff}"))': r'(module (data (i32.const 0) "\u{10ffff}"))',
    '(module(data(i32.const 0)"a""b"))': '(module(data(i32.const 0)"a" "b"))',
    "(module (func (block $a (if $a (br_if $a (i32.const 0)) (i32.const 1) (then (br $a) br 1) (else (br $a) (br 1))))))":
        "(module (func block $a i32.const 0 br_if $a i32.const 1 if $b br $b br 1 else br $b br 1 end end))",
    "(module (func (if (i32.const 1) (i32.const 2) (then nop) (else))))": "(module (func i32.const 1 i32.const 2 if nop else end))",
}
BY_HAND = [f"(module (start {index}))" for index in ("4294967295", "0xffffffff", "0xFfFf_fFfF", "4_294_967_295")]


def contents(name):
    with open(os.path.join(DATA, name), "rb") as file:
        return file.read()


def module_of(text):
    """The module by wat2wasm of a text as it is spelled, or of the one that stands for it."""
    module, why = assembled(contents(text[1:]) if text[0] == "@" else unquote_to_bytes(text))
    if text not in LIKE:
        return module, why
    like, why = assembled(LIKE[text].encode())
    return (None, "no second text needed") if module == like else (like, why)


def main():
    lines, groups, faults = [], {}, []
    for line in contents("texts.txt").decode("ascii").splitlines():
        group, expected, text = line.split("\t")
        is_refused = bool(re.fullmatch("(token|syntax|name) [0-9]+", expected))
        if not is_refused and "%[" not in text and text not in BY_HAND:
            module, why = module_of(text)
            if module is None:
                faults.append(f"{group}: {text}: {why}")
            elif text[0] == "@":
                with open(os.path.join(DATA, expected[1:]), "wb") as file:
                    file.write(module)
            else:
                expected = module.hex()
        lines.append(f"{group}\t{expected}\t{text}")
        groups.setdefault(group, [0, 0])[is_refused] += 1
    written("data/texts.txt", lines)
    written("stdout", [f"{group}: {modules} modules, {refusals} refusals" for group, (modules, refusals) in groups.items()])
    print("\n".join([*faults, f"{len(lines)} cases"]))
    return 1 if faults else 0


def check():
    for line in contents("texts.txt").decode("ascii").splitlines():
        group, expected, text = line.split("\t")
        if " " in expected and "%[" not in expected + text and assembled(unquote_to_bytes(text))[0] is not None:
            print(line)


if __name__ == "__main__":
    sys.exit(check() if sys.argv[1:] == ["--check"] else main())
