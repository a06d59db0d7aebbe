#!/usr/bin/env python3
"""How fast bytes go through a pipe, and how long a duplicate and its close take, with 1, 128 and 1,024 descriptions open.

    python3 bench/descriptors/run.py [REPOSITORY]

The program of main.rt.in is proved, built and run in a copy of the repository (this one, if none is named).
"""
import sys

sys.path.insert(1, sys.path[0] + "/../../suites")
from lib import bench

with bench.copied(*sys.argv[1:2] or [bench.TOP], "bench_descriptors", "open_desc fd_table pipes anyhow") as crate:
    for count in (1, 128, 1024):
        print(f"{count} descriptions asked for")
        for name, what, total, nanos in bench.rows(crate, 5, ("pipe", "dup", "ends").__contains__, str(count)):
            total, nanos = int(total), int(nanos)
            if name == "pipe":
                rounds = total // int(what)
                print(f"  pipe, pieces of {what} bytes: {total / nanos:.2f} GB a second, {nanos / rounds:.1f} ns a write and a read")
            elif name == "dup":
                print(f"  a duplicate and its close, {what} open: {nanos / total:.1f} ns")
            else:
                print(f"  whether an end is left, {what} open: {nanos / total:.1f} ns")
