"""Programs that measure: each stands as main.rt.in in a folder of bench/, and runs as a further crate of a copy of the repository."""

import contextlib
import os
import shutil
import subprocess
import sys
import tempfile

HERE = sys.path[0]
TOP = os.path.dirname(os.path.dirname(HERE))


@contextlib.contextmanager
def copied(repository, name, libraries, crates=None):
    """The folder of the crate NAME in a copy, over these libraries. With `crates` named just those are copied, with what `rt check`
    keeps of them."""
    with tempfile.TemporaryDirectory() as copy:
        left_out = shutil.ignore_patterns(*([] if crates else ["out"]), ".git")
        for crate in crates or os.listdir(os.path.join(repository, "crates")):
            shutil.copytree(os.path.join(repository, "crates", crate), os.path.join(copy, "crates", crate), ignore=left_out)
        shutil.copy(os.path.join(repository, "HANDLES"), copy)
        with open(os.path.join(repository, "crates.txt")) as file:
            lines = [line for line in file if not crates or line.split(":")[0] in crates]
        with open(os.path.join(copy, "crates.txt"), "w") as file:
            file.writelines([*lines, f"\n{name}: {libraries}\n"])
        crate = os.path.join(copy, "crates", name)
        os.makedirs(os.path.join(crate, "src"))
        shutil.copy(os.path.join(HERE, "main.rt.in"), os.path.join(crate, "src", "main.rt"))
        yield crate


def rows(crate, number, is_row, *words, command=("rt", "run")):
    """So many lines that the program prints, split into words, of which the first is that of a row."""
    done = subprocess.run([*command, "--", *words], cwd=crate, capture_output=True, text=True)
    found = [line.split() for line in done.stdout.split("\n") if line.split() and is_row(line.split()[0])]
    if done.returncode or len(found) != number:
        sys.exit(done.stdout[-3000:] + done.stderr[-3000:])
    return found
