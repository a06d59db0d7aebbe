#!/usr/bin/env python3
"""How much of the processor's time the file tree takes: directories of many names, directories in one another, and a
file of 64 MiB written in pieces.

    python3 bench/tree/run.py [REPOSITORY]            proves and builds the program, and measures
    python3 bench/tree/run.py --try [REPOSITORY]      shows in a minute, with no proof, that the program is right

The crates that the program stands on are copied into a temporary folder (from this repository, if none is named), with
what `rt check` keeps of them, and the program of main.rt.in beside them as a further crate. There it runs with
directories of 2,047, 4,095, 8,191 and 16,383 names and with 512 directories in one another. The time of one step, in
microseconds, grows with the logarithm of the number of names. With --try the program is interpreted, with 63 names: its
counts are looked at, and its times say nothing.
"""
import sys

sys.path.insert(1, sys.path[0] + "/../../suites")
from lib import bench

CRATES = ["wx_types", "path_walk", "tree_nodes", "file_tree"]
COUNTS = [2_047, 4_095, 8_191, 16_383]
NAMES = ["made", "looked_up", "listed", "removed", "deepened", "path_of", "undone", "written"]


def wanted(count):
    """How many steps of each kind there are: none is refused."""
    deep = min(count, 512)
    return [count, count, count, count, deep, 2 * deep, deep, 16_384]


def rows(crate, count, *command):
    found = bench.rows(crate, len(NAMES), NAMES.__contains__, str(count), command=command)
    if [row[0] for row in found] != NAMES or [int(row[1]) for row in found] != wanted(count):
        sys.exit(f"some steps were refused: {found}")
    return found


words = sys.argv[1:]
tried = words[:1] == ["--try"]
with bench.copied(*words[tried:][:1] or [bench.TOP], "bench_tree", "file_tree path_walk wx_types", CRATES) as crate:
    if tried:
        rows(crate, 63, "rt", "try", "--seconds", "300")
        print("the program is right")
    for count in [] if tried else COUNTS:
        print(f"{count} names: microseconds a step")
        for name, steps, micros in rows(crate, count, "rt", "run"):
            print(f"  {name:10} {int(steps):6} steps {int(micros):8} {int(micros) / max(int(steps), 1):10.2f}")
