#!/usr/bin/env python3
"""Writes the script of the tree suite, data/tree.txt, and the lines that are expected of it, stdout.

    python3 make_cases.py

The answers come from the rules of paths and of the file tree, which stand here as a model of their own: a
dictionary of nodes, each with its parent, its holders, and bytes or a dictionary of names. Where the rules follow
POSIX.1-2017 (4.13, and rename, mkdir, rmdir and unlink of 3) the error numbers are those of WASI preview 1.
Nothing here knows of the project's code.
"""
import sys
from urllib.parse import unquote_to_bytes

sys.path.insert(1, sys.path[0] + "/../../suites")
from lib.cases import Refused, Suite, refuse

NOENT, EXIST, FBIG, INVAL, ISDIR, NAMETOOLONG = 44, 20, 22, 28, 31, 37
NOSPC, NOTDIR, NOTEMPTY = 51, 54, 55
MOST_NODES, MOST_BYTES, LAST_NUMBER = 16384, 67108864, 4294967295


class Path:
    """What a path says."""

    def __init__(self, path):
        refuse(NOENT, not path)
        pieces = path.split(b"/")
        refuse(NAMETOOLONG, len(path) > 1024 or any(len(piece) > 255 for piece in pieces))
        try:
            path.decode("utf-8")
        except UnicodeDecodeError:
            raise Refused(INVAL)
        refuse(INVAL, 0 in path)
        self.absolute = path.startswith(b"/")
        self.names = [piece for piece in pieces if piece not in (b"", b".")]
        self.must_dir = pieces[-1] in (b"", b".", b"..")
        said = [piece for piece in pieces if piece]
        self.last_dot = bool(said) and said[-1] in (b".", b"..")
        self.no_entry = self.last_dot or not self.names


class Node:
    def __init__(self, parent, content):
        self.parent = parent  # None once it was removed
        self.holds = 0
        self.content = content  # a bytearray or a dictionary

    def is_dir(self):
        return isinstance(self.content, dict)


class Tree:
    def __init__(self):
        self.nodes = {1: Node(1, {})}
        self.next = 2

    def names(self, number):
        node = self.nodes.get(number)
        refuse(NOENT, node is None)
        refuse(NOTDIR, not node.is_dir())
        return node.content

    def walk(self, start, path):
        """The directory of the last component, and the node that the path names or None."""
        here = directory = 1 if path.absolute else start
        for name in path.names:
            refuse(NOENT, here is None)
            names = self.names(here)
            directory = here
            if name == b"..":
                refuse(NOENT, self.nodes[here].parent is None)
                here = directory = self.nodes[here].parent
            else:
                here = names.get(name)
        if path.must_dir and here is not None:
            self.names(here)
        return directory, here

    def lookup(self, start, path):
        node = self.walk(start, path)[1]
        refuse(NOENT, node is None)
        return node

    def find(self, start, path):
        directory, node = self.walk(start, path)
        refuse(NOENT, node is None and self.nodes[directory].parent is None)
        return node

    def make(self, start, path, content, refused):
        directory, node = self.walk(start, path)
        refuse(EXIST, node is not None)
        refuse(NOENT, self.nodes[directory].parent is None)
        refuse(ISDIR, refused)
        refuse(NOSPC, len(self.nodes) >= MOST_NODES or self.next > LAST_NUMBER)
        number, self.next = self.next, self.next + 1
        self.nodes[number] = Node(directory, content)
        self.nodes[directory].content[path.names[-1]] = number
        return number

    def create(self, start, path):
        return self.make(start, path, bytearray(), path.must_dir)

    def mkdir(self, start, path):
        return self.make(start, path, {}, False)

    def settle(self, number):
        node = self.nodes[number]
        if node.parent is None and node.holds == 0:
            del self.nodes[number]

    def take(self, directory, name, number):
        del self.nodes[directory].content[name]
        self.nodes[number].parent = None
        self.settle(number)

    def unlink(self, start, path):
        directory, node = self.walk(start, path)
        refuse(NOENT, node is None)
        refuse(ISDIR, self.nodes[node].is_dir())
        self.take(directory, path.names[-1], node)

    def rmdir(self, start, path):
        directory, node = self.walk(start, path)
        refuse(INVAL, path.no_entry)
        refuse(NOENT, node is None)
        refuse(NOTDIR, not self.nodes[node].is_dir())
        refuse(NOTEMPTY, self.nodes[node].content)
        self.take(directory, path.names[-1], node)

    def rename(self, start, old, to, new):
        old_dir, node = self.walk(start, old)
        new_dir, other = self.walk(to, new)
        refuse(INVAL, old.no_entry or new.no_entry)
        refuse(NOENT, node is None or self.nodes[new_dir].parent is None)
        if node == other:
            return
        above = new_dir
        while above != 1:
            refuse(INVAL, above == node)
            above = self.nodes[above].parent
        if other is not None:
            refuse(NOTDIR, self.nodes[node].is_dir() and not self.nodes[other].is_dir())
            refuse(ISDIR, not self.nodes[node].is_dir() and self.nodes[other].is_dir())
            refuse(NOTEMPTY, self.nodes[other].is_dir() and self.nodes[other].content)
            self.take(new_dir, new.names[-1], other)
        del self.nodes[old_dir].content[old.names[-1]]
        self.nodes[new_dir].content[new.names[-1]] = node
        self.nodes[node].parent = new_dir

    def file(self, number, error):
        node = self.nodes.get(number)
        refuse(NOENT, node is None)
        refuse(error, node.is_dir())
        return node.content

    def check_room(self, content, end, after):
        total = sum(len(node.content) for node in self.nodes.values() if not node.is_dir())
        refuse(FBIG, end > MOST_BYTES)
        refuse(NOSPC, total - len(content) + after > MOST_BYTES)

    def write(self, number, offset, new):
        content = self.file(number, ISDIR)
        if not new:
            return
        end = offset + len(new)
        self.check_room(content, end, max(end, len(content)))
        if len(content) < end:
            content.extend(bytes(end - len(content)))
        content[offset:end] = new

    def size(self, number, size):
        content = self.file(number, INVAL)
        self.check_room(content, size, size)
        if size < len(content):
            del content[size:]
        else:
            content.extend(bytes(size - len(content)))

    def path(self, number):
        refuse(NOENT, number not in self.nodes or self.nodes[number].parent is None)
        names = []
        while number != 1:
            above = self.nodes[number].parent
            names.append(next(name for name, node in self.nodes[above].content.items() if node == number))
            number = above
        return "/" + b"/".join(reversed(names)).decode()


def spelled(word):
    """The bytes of a word, as the suite's program reads it."""
    if word == "-":
        return b""
    out = b""
    for part in word.split("|"):
        count = 1
        if part.startswith("@"):
            number, part = part[1:].split(":", 1)
            count = int(number)
        out += unquote_to_bytes(part) * count
    return out


def kind(node):
    return "dir" if node.is_dir() else "file"


def split(tree, path):
    return " ".join(["/"] * path.absolute + [piece.decode() for piece in path.names] + ["!"] * path.must_dir + ["."] * path.last_dot + ["end"])


def find(tree, start, path):
    node = tree.find(start, path)
    return "free" if node is None else node


def read(tree, number, offset, length):
    return "".join(f"{byte:02x} " for byte in tree.file(number, ISDIR)[offset:offset + length]) + "end"


def listed(tree, number):
    return "".join(f"{name.decode()} {node} {kind(tree.nodes[node])}, " for name, node in sorted(tree.names(number).items())) + "end"


def stat(tree, number):
    node = tree.nodes.get(number)
    if node is None:
        return "none"
    return f"{kind(node)} {0 if node.is_dir() else len(node.content)} {'false' if node.parent is None else 'true'}"


def hold(tree, number):
    if number not in tree.nodes:
        return "free"
    tree.nodes[number].holds += 1
    return tree.nodes[number].holds


def release(tree, number):
    node = tree.nodes.get(number)
    if node is None or node.holds == 0:
        return "free"
    node.holds -= 1
    tree.settle(number)
    return node.holds


def fill(tree, directory, count):
    for index in range(count):
        try:
            tree.create(directory, Path(f"f{index}".encode()))
        except Refused as refused:
            return f"{index}, then errno {refused}"
    return count


def deep(tree, directory, count):
    for _ in range(count):
        directory = tree.mkdir(directory, Path(b"d"))
    return directory


# What a row calls, and its words: a number, a path or bytes.
CALLS = {"split": (split, "p"), "lookup": (Tree.lookup, "np"), "find": (find, "np"), "create": (Tree.create, "np"), "mkdir": (Tree.mkdir, "np"),
         "unlink": (Tree.unlink, "np"), "rmdir": (Tree.rmdir, "np"), "rename": (Tree.rename, "npnp"), "write": (Tree.write, "nnb"),
         "size": (Tree.size, "nn"), "read": (read, "nnn"), "list": (listed, "n"), "stat": (stat, "n"), "path": (Tree.path, "n"),
         "hold": (hold, "n"), "release": (release, "n"), "fill": (fill, "nn"), "deep": (deep, "nn")}
READERS = {"n": int, "p": lambda word: Path(spelled(word)), "b": spelled}
SUITE = Suite("tree.txt", "# The script of the tree suite, written by make_cases.py, which says what it is. The answers are in the file", "# stdout.")
tree = Tree()


def do(row):
    global tree
    name, *words = row.split(" ")
    if name == "new":
        tree = Tree()
        SUITE.rows.append("new")
        SUITE.lines.append("new")
        return
    call, kinds = CALLS[name]
    try:
        given = call(tree, *(READERS[kind](word) for kind, word in zip(kinds, words, strict=True)))
        SUITE.row(row, "done" if given is None else given)
    except Refused as refused:
        SUITE.row(row, f"errno {refused}")


SUITE.script("""
# Paths, split: what they say
split a; split /; split /a; split a/; split a/b; split a//b; split /a/b/; split .; split ..; split ./; split ../; split /.;
split /..; split a/.; split a/..; split a/./; split a/../; split ./a; split ../a; split a/./b; split a/../b; split //;
split ///a///; split ...; split .a; split ..a; split a.; split a..; split /./.; split /../..; split a/./.;
split %c3%a9/%e6%97%a5; split a%20b
# Paths, split: the refusals, and those that meet
split -; split @1024:/; split @1025:/; split @512:a/; split @512:a/|a; split @256:a/./|b; split @255:a; split @256:a;
split x/|@255:a|/x; split x/|@256:a|/x; split %ff; split a/%c3; split %c3%28; split a%00; split %00; split %ed%a0%80
## too long and no text: too long; a long component and no text: too long
split @1025:%ff; split @256:%ff; split %00/|@256:a; split @1025:%00; split @255:%ff; split @1024:%00/
# The walk
new; mkdir 1 a; mkdir 1 a/b; create 1 a/f; create 2 b/g; mkdir 1 /c; lookup 1 a; lookup 1 a/b; lookup 1 a/f; lookup 1 /a/b/g;
lookup 3 /a/f; lookup 3 g; lookup 1 /; lookup 1 .; lookup 3 .; lookup 3 ..; lookup 3 ../..; lookup 3 ../../..; lookup 1 ..;
lookup 1 /..; lookup 1 /../../a; lookup 3 ../f; lookup 1 a/../c; lookup 1 a/b/../../c; lookup 1 a/./b/.; lookup 1 c/..;
lookup 1 x; lookup 1 a/x; lookup 1 x/y; lookup 1 a/x/y; lookup 1 x/..; lookup 1 a/f/x; lookup 1 a/f/..; lookup 1 a/f/;
lookup 1 a/f/.; lookup 1 a/; lookup 1 x/; lookup 1 a/f/../b; lookup 1 A; lookup 4 x; lookup 4 .; lookup 4 /a; lookup 9 x;
lookup 9 .; lookup 9 /a; lookup 1 a/x/../b; lookup 1 a/f/x/y; find 1 a; find 1 x; find 1 a/x; find 1 x/y; find 1 a/f/x;
find 1 x/; find 1 a/f/
# Making files and directories: the refusals, and those that meet
new; mkdir 1 d; create 1 f; create 1 d; create 1 f; mkdir 1 d; mkdir 1 f; mkdir 1 /; create 1 /; mkdir 1 .; create 1 .;
mkdir 1 ..; create 1 ..; mkdir 1 d/.; create 1 d/.; mkdir 1 d/..; create 1 d/; create 1 f/; mkdir 1 f/; create 1 x/;
create 1 x/.; mkdir 1 x/; mkdir 1 y/.; create 1 z/y; mkdir 1 z/y; create 1 f/y; mkdir 1 f/y; create 1 z/..; mkdir 1 z/..;
create 2 g; mkdir 2 h; list 1; list 2; create 1 z/y/; create 1 f/y/; create 9 x; mkdir 9 x; create 9 x/; create 3 x; mkdir 3 x;
create 3 x/; mkdir 1 f/..; create 1 f/..
# Removed directories
new; mkdir 1 a; mkdir 1 a/b; hold 3; rmdir 1 a/b; stat 3; lookup 3 .; lookup 3 ..; lookup 3 /; lookup 3 x; find 3 x; create 3 x;
mkdir 3 x; create 3 x/; create 3 .; mkdir 3 .; mkdir 3 ..; unlink 3 x; rmdir 3 x; rmdir 3 .; rmdir 3 ..; unlink 3 .; list 3;
path 3; create 1 f; rename 1 f 3 f; rename 3 x 1 y; rename 3 x 3 y; rename 1 f 3 .; rename 1 f 3 ..; rename 3 . 1 y;
rename 3 .. 1 y; rename 3 .. 3 x/y; rename 1 x 3 y; rename 1 a 3 a; mkdir 3 x/y; create 3 ../x; lookup 3 ../f; release 3;
stat 3; lookup 3 .; path 3; list 3; mkdir 1 c
# Unlinking
new; mkdir 1 d; create 1 f; create 1 d/g; unlink 1 x; unlink 1 d; unlink 1 d/; unlink 1 f/; unlink 1 x/; unlink 1 /; unlink 1 .;
unlink 1 ..; unlink 1 d/..; unlink 1 d/.; unlink 1 x/f; unlink 1 f/x; unlink 1 d/g; unlink 1 d/g; unlink 1 f; lookup 1 f;
stat 3; create 1 f; list 1; unlink 1 x/.; unlink 1 x/..
# Removing directories
new; mkdir 1 d; create 1 d/f; create 1 f; mkdir 1 e; rmdir 1 /; rmdir 1 .; rmdir 1 ..; rmdir 1 d/.; rmdir 1 d/..; rmdir 1 e/.;
rmdir 1 e/..; rmdir 1 x; rmdir 1 x/; rmdir 1 x/.; rmdir 1 x/..; rmdir 1 f; rmdir 1 f/; rmdir 1 f/.; rmdir 1 d; rmdir 1 x/y;
rmdir 1 f/y; rmdir 1 e/; rmdir 1 e; unlink 1 d/f; rmdir 1 d; list 1; mkdir 1 d; list 1
# Renaming: each of the eight cases, and those that meet
new; mkdir 1 a; mkdir 1 b; create 1 f; create 1 g; mkdir 1 a/c; create 1 b/h; mkdir 1 e
## 1: a last component that is one of the dots, or the root
rename 1 . 1 x; rename 1 a/. 1 x; rename 1 a/.. 1 x; rename 1 / 1 x; rename 1 a 1 .; rename 1 a 1 b/..; rename 1 a 1 /;
rename 1 x 1 /; rename 1 x 1 .; rename 1 / 1 y; rename 1 x/. 1 y; rename 1 . 1 .; rename 1 a/c 1 a/c/.; rename 1 f 1 e/.
## 2: nothing there
rename 1 x 1 y; rename 1 x 1 f; rename 1 x 1 x; rename 1 x 1 a/c; rename 1 a/x 1 a/x
## the walks, the old one first
rename 1 x/y 1 f/z; rename 1 f/y 1 x/z; rename 1 a 1 x/z; rename 1 a 1 f/z; rename 1 x 1 f/z; rename 1 x/y 1 /; rename 1 f/ 1 /;
rename 1 a 1 f/; rename 1 f 1 g/; rename 1 f/ 1 x; rename 1 / 1 x/y; rename 1 . 1 f/z
## 3: one node
rename 1 f 1 f; rename 1 a 1 a; rename 1 a/ 1 b/../a; rename 1 f 2 ../f; rename 1 a/c 2 c
## 4: into itself or below
rename 1 a 1 a/x; rename 1 a 1 a/c/x; rename 1 a 1 a/c; rename 1 a/c 1 a/c/x; rename 1 a 2 x; rename 1 a/ 6 x/
## 5, 6, 7: kinds that differ, a directory with entries
create 1 a/k; create 1 a/c/l; rename 1 a 1 a/k; rename 1 a 1 a/c; rename 1 a 1 a/k/; rename 1 a 1 a/k/x; unlink 1 a/c/l;
unlink 1 a/k; rename 1 a 1 f; rename 1 f 1 a; rename 1 f 1 b; rename 1 f 1 e; rename 1 a 1 b; rename 1 e 1 b; rename 1 a/c 1 a;
rename 1 b/h 1 b
## 8: it moves, and what was there is replaced
list 1; rename 1 f 1 g; list 1; stat 5; rename 1 a 1 e; list 1; list 2; path 6; lookup 6 ..; rename 1 g 1 b/k; list 3; path 4;
rename 1 e/c 1 c2/; path 6; rename 1 b/k 1 m/; path 4; rename 3 h 6 h2; path 7; list 1; list 3; list 6; rename 1 m 1 m2; list 1
# Holders
new; create 1 f; hold 2; hold 2; unlink 1 f; stat 2; write 2 0 abc; read 2 0 9; path 2; release 2; stat 2; release 2; stat 2;
release 2; hold 2; create 1 f; hold 3; release 3; stat 3; release 3; create 1 g; hold 4; rename 1 f 1 g; stat 4; stat 3;
release 4; stat 4; hold 1; release 1; stat 1; mkdir 1 d; hold 5; hold 5; rmdir 1 d; mkdir 1 d; release 5; stat 5; release 5;
stat 5
# Bytes of files
new; create 1 f; write 2 2 x; stat 2; size 2 5; read 2 1 8; read 2 0 0; read 2 5 8; read 2 6 8; read 2 18446744073709551615 8;
write 2 0 -; write 2 99 -; stat 2; write 2 1 yz; read 2 0 9; write 2 5 end; read 2 0 9; size 2 3; read 2 0 9; size 2 6;
read 2 0 9; write 2 8 %ff; read 2 0 20; size 2 0; stat 2; read 2 0 1; size 2 0; read 1 0 8; write 1 0 x; write 1 0 -; size 1 0;
size 1 67108865; write 1 67108864 x; read 9 0 8; write 9 0 x; size 9 0; list 2; list 9; stat 9; path 9
# Limits of bytes: of one file, and of all
new; create 1 f; size 2 67108864; stat 2; size 2 67108865; write 2 67108864 x; write 2 67108863 x; write 2 67108863 xy;
read 2 67108862 9; write 2 18446744073709551615 x; write 2 9223372036854775807 xy; size 2 18446744073709551615; stat 2;
create 1 g; write 3 0 x; size 3 1; size 3 0; write 3 67108864 x; size 3 67108865; write 3 0 -; size 2 67108863; write 3 0 x;
write 3 1 x; size 3 2
## a directory and a node that isn't there, where no byte is left
write 3 0 x; mkdir 1 d; write 4 0 x; size 4 1; write 9 0 x; size 9 1; read 4 0 1; rmdir 1 d; write 3 0 -
## an unlinked file counts while it is held
hold 2; unlink 1 f; write 3 1 x; release 2; write 3 1 x; stat 3; size 3 67108864; size 3 0; create 1 h; write 5 0 @16777216:ab;
stat 5; read 5 33554430 4; write 5 33554432 @16777216:cd; stat 5; write 5 67108864 x; write 3 0 x
# Limits of names
new; create 1 @255:a; create 1 @256:a; mkdir 1 @255:b; lookup 1 @255:b|/|@255:a; create 1 @255:b|/|@255:c;
lookup 1 /|@255:b|/|@255:c; deep 1 512; lookup 1 @512:d/; lookup 1 @511:d/|d; lookup 1 @512:d/|d; lookup 1 @511:d/|x;
lookup 516 @512:../; path 6
## a directory that moves takes what lies in it along, beyond the paths that a call takes
mkdir 1 e; rename 1 d 1 e/d; path 516; lookup 1 e/|@511:d/|d; lookup 1 e/|@510:d/|d; lookup 515 d; lookup 516 ..; mkdir 516 e;
rename 1 e/d 1 d; rmdir 516 e; rmdir 1 @512:d/; rmdir 1 @511:d/
# Limit of nodes
new; mkdir 1 d; fill 2 16382; fill 2 1; create 1 x; mkdir 1 x; create 1 d; create 1 d/; create 1 x/; stat 16384;
lookup 1 d/f16381
## the other refusals come before
mkdir 1 d; mkdir 1 d/f0; mkdir 1 .; create 1 z/y; mkdir 1 z/y; create 1 d/f0/y; mkdir 1 d/f0/y; create 1 d/f0/; mkdir 1 d/f0/;
create 1 .; hold 3; unlink 2 f0; create 1 x; release 3; create 1 x; mkdir 1 y; unlink 1 x; mkdir 1 y; create 1 z; lookup 1 y;
rename 2 f9 1 f9; list 1; new; mkdir 1 r; hold 2; rmdir 1 r; fill 1 16383; create 2 x; mkdir 2 x; create 2 x/; create 2 .;
mkdir 2 ..; create 1 x; create 1 f0; release 2; create 1 x; create 1 y
# Names in the order of their bytes
new; mkdir 1 b; create 1 a; create 1 B; mkdir 1 aa; create 1 %c3%a9; create 1 ..a; create 1 a.; create 1 %7f; create 1 10;
create 1 9; list 1; unlink 1 a; list 1; create 1 a; list 1; path 4; path 6
""", do)
SUITE.write()
