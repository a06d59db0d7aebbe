"""The programs of wabt (Debian's package wabt, 1.0.32), with threads on and all later features off."""

import os
import re
import subprocess
import tempfile

FEATURES = ["--enable-threads", "--disable-saturating-float-to-int", "--disable-sign-extension", "--disable-simd",
            "--disable-multi-value", "--disable-bulk-memory", "--disable-reference-types"]


def ran(program, *words, seconds=60):
    """Whether the program ended with 0, what it wrote, and the first line of what it said."""
    try:
        done = subprocess.run([program, *words], capture_output=True, text=True, errors="replace", timeout=seconds)
    except subprocess.TimeoutExpired:
        return None, "", f"doesn't end in {seconds} seconds"
    return done.returncode == 0, done.stdout, (done.stderr or done.stdout).strip().split("\n")[0]


def on_bytes(program, module, *words, seconds=20):
    """The same of a program that is given the bytes of a module in a file."""
    with tempfile.NamedTemporaryFile(suffix=".wasm") as file:
        file.write(module)
        file.flush()
        return ran(program, *FEATURES, *words, file.name, seconds=seconds)


def assembled(text):
    """The module of a text by `wat2wasm`, without validation, or None, and what it says against it."""
    with tempfile.TemporaryDirectory() as folder:
        source, target = os.path.join(folder, "a.wat"), os.path.join(folder, "a.wasm")
        with open(source, "wb") as file:
            file.write(text)
        done, _, said = ran("wat2wasm", *FEATURES, "--no-check", source, "-o", target)
        if not done:
            return None, said
        with open(target, "rb") as file:
            return file.read(), ""


def failing(script):
    """Runs the lines of a script of the standard's kind, an assertion a line: those that fail, each with what is said of it."""
    with tempfile.TemporaryDirectory() as folder:
        source, target = os.path.join(folder, "a.wast"), os.path.join(folder, "a.json")
        with open(source, "w") as file:
            file.write("\n".join(script))
        done, _, said = ran("wast2json", *FEATURES, source, "-o", target)
        if not done:
            return [said]
        _, out, _ = ran("spectest-interp", *FEATURES, target, seconds=600)
    told = re.findall(r"^\S*a\.wast:(\d+): (?!assert_\w+ passed)(.*)", out, re.M)
    passed, asked = map(int, re.search(r"(\d+)/(\d+) tests passed", out).groups())
    assert len(told) == asked - passed, out[-2000:]
    return [f"{script[int(line) - 1]}: {why}" for line, why in told]


def report(suite, asked, differing):
    """Says how many of a suite's rows were asked and which of them differ, and gives the status."""
    print("\n".join([*differing, f"{asked} of {len(suite.lines)} rows were asked of wabt, {len(differing)} differ"]))
    return 1 if differing else 0
