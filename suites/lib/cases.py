"""The rows of a suite, and the lines that are expected of it."""

import os
import sys


class Refused(Exception):
    """A refusal, of an error number."""


def refuse(error, where):
    if where:
        raise Refused(error)


class Suite:
    """Its rows go to data/NAME and its lines to stdout, beside the script that runs."""

    def __init__(self, name, *head):
        self.name, self.rows, self.lines, self.before_notes = name, list(head), [], [""]

    def note(self, text):
        self.rows += [*self.before_notes, "# " + text]

    def row(self, text, answer):
        """A row whose line is itself and its answer."""
        self.rows.append(text)
        self.lines.append(f"{text}: {answer}")

    def script(self, text, do):
        """Notes, and rows that `do` adds, with `; ` between them, or `;` at the end of a line. Lines that begin with `##` are for the reader."""
        for line in text.replace(";\n", "; ").strip().split("\n"):
            if line.startswith("# "):
                self.note(line[2:])
            elif not line.startswith("##"):
                for row in line.split("; "):
                    do(row)

    def write(self):
        written(f"data/{self.name}", self.rows)
        written("stdout", self.lines)


def written(name, lines):
    with open(os.path.join(sys.path[0], name), "w", encoding="utf-8", newline="\n") as file:
        file.write("\n".join(lines) + "\n")
