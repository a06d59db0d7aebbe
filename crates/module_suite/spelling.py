"""How a case writes its bytes, the cases so far, and parts of modules. src/notation.rt says what the words mean."""

from lib.numbers import leb

def words(data):
    return " ".join(f"{byte:02x}" for byte in data)

FRAGMENTS = {}

def bytes_of(text, front=None, long=None):
    """The bytes of words, the count of their numbers, and of the bytes in braces."""
    state = {"numbers": 0, "bracketed": 0}

    def number(place, value):
        return leb(value, long[1] if long and long[0] == place else 1)

    def place():
        state["numbers"] += 1
        return state["numbers"] - 1

    stack = []
    out = bytearray()
    for word in text.split():
        if word in "[({":
            stack.append((word, place() if word == "[" else None, out))
            out = bytearray()
        elif word == "]":
            _, at, before = stack.pop()
            out = before + number(at, len(out)) + out
        elif word.startswith(")*"):
            _, _, before = stack.pop()
            out = before + out * int(word[2:])
        elif word == "}":
            _, _, before = stack.pop()
            state["bracketed"] = len(out)
            out = before + (out if front is None else out[:front])
        elif word[0] == "+":
            out += number(place(), int(word[1:]))
        elif word[0] == '"':
            out += word[1:-1].encode("ascii")
        elif word[0] == "$":
            out += FRAGMENTS[word]
        else:
            out += bytes([int(word[:2], 16)]) * (int(word[3:]) if "*" in word else 1)
    assert not stack, text
    return bytes(out), state["numbers"], state["bracketed"]

LINES = []     # of data/modules.txt
EXPECTED = []  # of stdout
CHECKED = []   # name, bytes, the standard's verdict
NAMES = set()

SAME = "same bytes"
STATED = "written as stated"

def title(text):
    LINES.append("")
    LINES.append(f"# {text}")

def fragment(name, text):
    FRAGMENTS["$" + name] = bytes_of(text)[0]
    LINES.append(f"${name} = {text}")

def answer(verdict, written):
    if verdict in ("valid", "invalid"):
        return f"{verdict}, {STATED if written else SAME}"
    if verdict == "float" and written:
        return f"float, {STATED}"
    return verdict

def case(name, text, verdict, written=None, standard=None):
    """A case. `standard` is what the standard says where the verdict is the project's own."""
    assert name not in NAMES and not any(mark in name for mark in (": ", " = ", " -> ")), name
    NAMES.add(name)
    LINES.append(f"{name}: {text}" + (f" -> {written}" if written else ""))
    EXPECTED.append(f"{name}: {answer(verdict, written)}")
    if standard is None and verdict in ("valid", "invalid", "malformed"):
        standard = verdict
    if standard in ("valid", "invalid", "malformed"):
        CHECKED.append((name, bytes_of(text)[0], standard))

def each(name, kind, text, verdicts, written=None, standard=True):
    """A case that is varied again and again: the verdict of each variation, in their order."""
    assert name not in NAMES, name
    NAMES.add(name)
    LINES.append(f"{name}: each {kind} {text}" + (f" -> {written}" if written else ""))
    _, numbers, bracketed = bytes_of(text)
    count = bracketed if kind == "front" else numbers
    if not isinstance(verdicts, list):
        verdicts = [verdicts] * count
    assert len(verdicts) == count, (name, len(verdicts), count)
    runs = []
    for index, verdict in enumerate(verdicts):
        if runs and runs[-1][1] == answer(verdict, written):
            runs[-1][0] += 1
        else:
            runs.append([1, answer(verdict, written)])
        if kind == "front":
            data = bytes_of(text, front=index)[0]
        else:
            data = bytes_of(text, long=(index, int(kind.split()[2])))[0]
        if standard and verdict in ("valid", "invalid", "malformed"):
            CHECKED.append((f"{name}, variation {index}", data, verdict))
    EXPECTED.append(f"{name}:" + ";".join(f" {times} {of}" for times, of in runs))

def bad(name, text):
    case(name, text, "malformed")

def counted(items):
    """A vector (5.1.3)."""
    return " ".join([f"+{len(items)}", *items])

def section(number, *parts):
    """A section (5.5.2)."""
    return f"{number:02x} [ {' '.join(parts)} ]"

I32, I64, F32, F64 = "7f", "7e", "7d", "7c"
LETTERS = {"i": I32, "l": I64, "f": F32, "d": F64}
CONST = {"i": "41 00", "l": "42 00", "f": "43 00 00 80 3f", "d": "44 00 00 00 00 00 00 f0 3f"}

def function_type(params, results):
    """A function type (5.3.3), of letters: i, l, f, d."""
    of = lambda letters: counted([LETTERS[letter] for letter in letters])
    return f"60 {of(params)} {of(results)}"

def code(body, locals_=""):
    """The code of a function (5.5.13): groups of locals, and instructions without their end."""
    return " ".join(f"[ {locals_ or '+0'} {body} 0b ]".split())

def module(types=(), imports=(), functions=(), tables=(), memories=(), globals_=(), exports=(), start=None, elements=(), segments=()):
    """A module (5.5.15). A function is the index of its type, and its code."""
    lists = [[function_type(*of) for of in types], imports, [f"+{of}" for of, _ in functions], tables, memories, globals_, exports,
             [], elements, [of for _, of in functions], segments]
    parts = [section(number, counted(items)) if items else "" for number, items in enumerate(lists, 1)]
    parts[7] = "" if start is None else section(8, f"+{start}")
    return " ".join(["$head", *filter(None, parts)])

def body_of(instructions, locals_=""):
    """A module of one function that takes and gives nothing."""
    return module(types=[("", "")], functions=[(0, code(instructions, locals_))])
