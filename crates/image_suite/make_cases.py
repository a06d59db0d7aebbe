#!/usr/bin/env python3
"""Writes the cases of images and pack lists, and the lines that are expected of them.

The rules below are those of docs/BOOT_IMAGE.md, written again: nothing here comes from the project's code."""
import sys

sys.path.insert(1, sys.path[0] + "/../../suites")
from lib.cases import Suite

MOST_NODES = 16384
MOST_BYTES = 67108864


def directory(path):
    return b"\x01" + len(path).to_bytes(2, "little") + path


def file(path, content):
    return b"\x02" + len(path).to_bytes(2, "little") + path + len(content).to_bytes(4, "little") + content


def image(*entries):
    return b"WXI1" + b"".join(entries) + b"\x00"


def is_path(path):
    if not 0 < len(path) <= 1024 or b"\0" in path or not path.startswith(b"/"):
        return False
    try:
        path.decode("utf-8")
    except UnicodeDecodeError:
        return False
    return all(0 < len(name) <= 255 and name not in (b".", b"..") for name in path[1:].split(b"/"))


class Tree:
    """Paths with None for a directory, or a file's bytes."""

    def __init__(self):
        self.paths = {}

    def add(self, path, content):
        if not is_path(path) or path in self.paths:
            return False
        parent = path[: path.rindex(b"/")]
        if parent and self.paths.get(parent, b"") is not None:
            return False
        if len(self.paths) + 2 > MOST_NODES:
            return False
        total = sum(len(held) for held in self.paths.values() if held)
        if content and total + len(content) > MOST_BYTES:
            return False
        self.paths[path] = content
        return True

    def image(self):
        return image(*(directory(path) if held is None else file(path, held) for path, held in sorted(self.paths.items())))


def read(data):
    """The tree of an image, or None."""
    tree, at = Tree(), 4
    if data[:4] != b"WXI1":
        return None

    def take(count):
        nonlocal at
        if at + count > len(data):
            raise EOFError
        at += count
        return data[at - count : at]

    try:
        while True:
            kind = take(1)[0]
            if kind == 0:
                return tree if at == len(data) else None
            if kind > 2:
                return None
            path = take(int.from_bytes(take(2), "little"))
            content = take(int.from_bytes(take(4), "little")) if kind == 2 else None
            if not tree.add(path, content):
                return None
    except EOFError:
        return None


def judge(text):
    """The tree of a list, or the number of its first wrong line."""
    lines = text.split(b"\n")
    if lines[-1] == b"":
        lines.pop()
    tree = Tree()
    for number, line in enumerate(lines, 1):
        words = line.split(b" ")
        if len(words) == 2 and words[0] == b"dir":
            right = tree.add(words[1], None)
        elif len(words) == 3 and words[0] == b"file" and words[2] != b"":
            try:
                words[2].decode("utf-8")
                right = tree.add(words[1], b"")
            except UnicodeDecodeError:
                right = False
        else:
            right = False
        if not right:
            return number
    return tree


def shown(name, tree):
    written = tree.image()
    return f"{name}: image {written.hex()}" if len(written) <= 4096 else f"{name}: image of {len(written)} bytes"


SUITE = Suite("cases.txt")


def one_image(name, data, spelled=None):
    SUITE.rows.append(f"{name}: image {spelled or data.hex()}")
    tree = read(data)
    SUITE.lines.append(f"{name}: no image" if tree is None else shown(name, tree))


def one_list(name, text, spelled=None):
    SUITE.rows.append(f"{name}: list {spelled or text.hex()}")
    tree = judge(text)
    SUITE.lines.append(f"{name}: wrong line {tree}" if isinstance(tree, int) else shown(name, tree))


ROOT = image()
HI = image(file(b"/p", b"hi"))
SMALL = image(directory(b"/a"), directory(b"/a/b"), file(b"/a/b/c", b"\0\1"), file(b"/d", b""))

one_image("the root alone", ROOT)
one_image("one file", HI)
one_image("directories and files", SMALL)
for which, data in (("root", ROOT), ("file", HI), ("small", SMALL)):
    for cut in range(len(data)):
        if data[:cut]:
            one_image(f"{which} cut to {cut}", data[:cut])
    for more in (b"\0", b"\1", b"a"):
        one_image(f"{which} and {more.hex()}", data + more)
one_image("another first byte", b"w" + ROOT[1:])
one_image("another version", b"WXI2\0")
one_image("another kind", b"WXI1\3\0\0\0")
one_image("order of bytes", image(directory(b"/a"), file(b"/a/b", b"1"), file(b"/a-b", b"2"), directory(b"/a0")))
one_image("order of entries", image(file(b"/z", b"1"), directory(b"/b"), file(b"/b/y", b"2"), file(b"/a", b"3")))
one_image("same content", image(file(b"/x", b"1"), file(b"/y", b"1")))

WRONG = {
    "empty path": b"", "relative path": b"a", "root": b"/", "slash at the end": b"/a/", "empty component": b"//a",
    "empty component inside": b"/d//a", "dot": b"/.", "dot inside": b"/./a", "dot at the end": b"/d/.", "two dots": b"/..",
    "two dots inside": b"/d/../a", "two dots first": b"/../a", "zero byte": b"/a\0b", "not UTF-8": b"/\xff",
    "surrogate": b"/\xed\xa0\x80", "cut character": b"/\xc3",
}
for name, path in WRONG.items():
    one_image(f"directory {name}", image(directory(b"/d"), directory(path)))
    one_image(f"file {name}", image(directory(b"/d"), file(path, b"x")))
for name, path in {"three dots": b"/...", "a name with dots": b"/..a", "two bytes": b"/\xc3\xa9", "space": b"/ ", "a tab": b"/\t"}.items():
    one_image(name, image(directory(path)))
one_image("no parent", image(file(b"/a/b", b"")))
one_image("parent later", image(file(b"/a/b", b""), directory(b"/a")))
one_image("parent is a file", image(file(b"/a", b""), file(b"/a/b", b"")))
one_image("directory twice", image(directory(b"/a"), directory(b"/a")))
one_image("file twice", image(file(b"/a", b""), file(b"/a", b"")))
one_image("file over a directory", image(directory(b"/a"), file(b"/a", b"")))
one_image("directory over a file", image(file(b"/a", b""), directory(b"/a")))
one_image("component of 255", image(directory(b"/" + b"a" * 255)))
one_image("component of 256", image(directory(b"/" + b"a" * 256)))
LONG = [directory((b"/" + b"a" * 255) * depth) for depth in range(1, 4)]
one_image("path of 1024", image(*LONG, directory((b"/" + b"a" * 255) * 4)))
one_image("path of 1025", image(*LONG, directory((b"/" + b"a" * 255) * 3 + b"/" + b"a" * 254 + b"/b")))
DEEP = [directory(b"/a" * depth) for depth in range(1, 513)]
one_image("512 components", image(*DEEP), f"{b'WXI1'.hex()} ^512 00")
one_image("513 components", image(*DEEP, directory(b"/a" * 513)), f"{b'WXI1'.hex()} ^513 00")
for count in (MOST_NODES - 1, MOST_NODES):
    entries = b"".join(directory(b"/%05d" % number) for number in range(count))
    one_image(f"{count} directories", b"WXI1" + entries + b"\0", f"{b'WXI1'.hex()} {bytes([1, 6, 0, 47]).hex()}%{count}% 00")
for count in (MOST_BYTES, MOST_BYTES + 1):
    head = b"\2\2\0/f" + count.to_bytes(4, "little")
    one_image(f"file of {count} bytes", b"WXI1" + head + bytes(count) + b"\0", f"{(b'WXI1' + head).hex()} 00*{count} 00")
half = MOST_BYTES // 2
for more in (half, half + 1):
    first = b"WXI1\2\2\0/f" + half.to_bytes(4, "little")
    second = b"\2\2\0/g" + more.to_bytes(4, "little")
    one_image(f"files of {half} and {more} bytes", first + bytes(half) + second + bytes(more) + b"\0", f"{first.hex()} 00*{half} {second.hex()} 00*{more} 00")

one_list("one newline", b"\n")
one_list("a list of a file", b"file /p x")
one_list("a list that ends with a newline", b"file /p x\n")
one_list("a list of both", b"dir /a\nfile /a/b x\ndir /c\n")
one_list("a list with an empty line at its end", b"dir /a\n\n")
one_list("fill", b"fill /p x")
one_list("second line wrong", b"dir /a\nfill /p x\ndir /b\n")
one_list("two lines wrong", b"dir /a\nfill /p x\nfill /q x\n")
for name, line in {
    "a word alone": b"dir", "no path": b"dir ", "two spaces": b"dir  /a", "space at the end": b"dir /a ",
    "space first": b" dir /a", "three words of a directory": b"dir /a x", "capital": b"Dir /a", "no name": b"file /a",
    "empty name": b"file /a ", "empty file path": b"file  x", "four words": b"file /a x y",
    "two spaces before a name": b"file /a  x", "name that is not UTF-8": b"file /a \xff", "carriage return in a path": b"dir /a\r",
    "tab": b"dir\t/a", "no parent in a list": b"dir /a/b", "parent that is the file": b"file /d/f/g x", "path twice": b"dir /d",
}.items():
    one_list(name, b"dir /d\nfile /d/f x\n" + line + b"\ndir /z\n")
for name, path in WRONG.items():
    if b"\n" not in path:
        one_list(f"listed {name}", b"dir /d\ndir " + path + b"\n")
for count in (MOST_NODES - 1, MOST_NODES):
    one_list(f"list of {count} directories", b"".join(b"dir /%05d\n" % number for number in range(count)), f"{b'dir /'.hex()}%{count}%0a")
SUITE.write()
