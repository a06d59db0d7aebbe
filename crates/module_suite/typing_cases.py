"""Cases of validation (chapter 3)."""
from lib.instructions import *
from lib.numbers import leb
from spelling import *

title("Each instruction: what it gives, with a wrong operand, with one too few, with its immediates (3.3)")
fragment("types", section(1, counted([function_type("i", ""), function_type("i", "i"), function_type("i", "l")])))
fragment("room", section(5, "+1 00 01") + " " + section(6, "+2 7f 01 41 00 0b 7e 01 42 00 0b"))
GIVING = {"": 0, "i": 1, "l": 2}
RESULTS = {0: "nothing", 1: "i32", 2: "i64"}

def in_function(of, instructions):
    """A function whose local 0 is an i32 and local 1 an i64, and that gives nothing, an i32 or an i64."""
    return " ".join(f"$head $types 03 [ +1 +{of} ] $room 0a [ +1 [ +1 +1 7e {instructions} 0b ] ]".split())

def operands(letters, wrong=None):
    return " ".join(CONST["l" if (letter == "i") == (place == wrong) and place == wrong or
                          (letter == "l" and place != wrong) else "i"]
                    for place, letter in enumerate(letters))

def instruction(name, opcode, takes, gives):
    for of in range(3):
        case(f"{name} gives {RESULTS[of]}", in_function(of, f"{operands(takes)} {opcode}"),
             "valid" if of == GIVING[gives] else "invalid")
    of = GIVING[gives]
    for wrong in range(len(takes)):
        case(f"{name}, its operand {wrong} of another type", in_function(of, f"{operands(takes, wrong)} {opcode}"), "invalid")
    if takes:
        case(f"{name}, an operand missing", in_function(of, f"{operands(takes[1:])} {opcode}"), "invalid")

for name, opcode, takes, gives in OTHERS + NUMERIC:
    if not has_floats(name, takes, gives):
        instruction(name, opcode, takes, gives)
for table, rule in ((ACCESSES, lambda align, most: align <= most), (ATOMICS, lambda align, most: align == most)):
    for name, opcode, takes, gives, exponent in table:
        if has_floats(name, takes, gives):
            continue
        instruction(name, f"{opcode} {exponent:02x} 00", takes, gives)
        for align in range(5):
            case(f"{name}, the alignment {align}", in_function(GIVING[gives], f"{operands(takes)} {opcode} {align:02x} 07"),
                 "valid" if rule(align, exponent) else "invalid")
for align in (31, 32, 33, 63, 64, 2 ** 32 - 1):
    case(f"i32.load, the alignment {align}", in_function(1, f"41 00 28 {words(leb(align))} 00"), "invalid", standard="skip")
    case(f"i32.atomic.load, the alignment {align}", in_function(1, f"41 00 fe 10 {words(leb(align))} 00"), "invalid", standard="skip")
for name, opcode, takes, gives in (("local.get", "20", "", 1), ("local.set", "21", "41 00", 0),
                                   ("local.tee", "22", "41 00", 1), ("global.get", "23", "", 1), ("global.set", "24", "41 00", 0)):
    for index in (2, 128, 2 ** 32 - 1):
        case(f"{name} {index}, which isn't there", in_function(gives, f"{takes} {opcode} {words(leb(index))}"), "invalid")

WORDS = {
    "i32": "41 00", "i64": "42 00", "add": "6a", "eqz64": "50", "drop": "1a", "select": "1b", "br0": "0c 00",
    "br1": "0c 01", "br2": "0c 02", "br256": "0c 80 02", "br257": "0c 81 02", "br_if0": "0d 00", "br_if1": "0d 01",
    "br_table0-0": "0e 01 00 00", "br_table0-1": "0e 01 00 01", "br_table1-0": "0e 01 01 00",
    "br_table-0": "0e 00 00", "br_table9-0": "0e 01 09 00", "return": "0f",
    "unreachable": "00", "call0": "10 00", "call1": "10 01", "call_indirect0": "11 00 00",
    "call_indirect1": "11 01 00", "get0": "20 00", "global0": "23 00", "size": "3f 00", "grow": "40 00",
    "load": "28 02 00", "load-align3": "28 03 00", "atomic-load": "fe 10 02 00", "atomic-load-align1": "fe 10 01 00",
    "fence": "fe 03 00", "nop": "01", "block": "02 40", "block-i32": "02 7f", "loop": "03 40", "loop-i32": "03 7f",
    "if": "04 40", "if-i32": "04 7f", "else": "05", "end": "0b",
}

def assembled(text):
    return " ".join(WORDS.get(word, word) for word in text.split())

def typed(text, is_typed, gives="", name=None):
    """A body of a function that gives nothing, or an i32, in a module with a memory."""
    name = name or f"body of a function that gives {RESULTS[GIVING[gives]]}, {text or 'empty'}"
    case(name, module(types=[("", gives)], functions=[(0, code(assembled(text)))], memories=["00 01"]),
         "valid" if is_typed else "invalid")

title("Bodies without blocks (3.3.7, and the appendix on dead code)")
for text, is_typed in [
    ("", True), ("i32 drop", True), ("i32", False), ("drop", False), ("i32 i32 add drop", True), ("add drop", False),
    ("i32 i64 add drop", False), ("i64 eqz64 drop", True), ("i32 eqz64 drop", False),
    ("i32 i32 i32 select drop", True), ("i32 i64 i32 select drop", False), ("i64 i64 i32 select drop", True),
    ("i32 i32 i64 select drop", False), ("i32 i32 select drop", False), ("i32 select i32 drop", False),
    ("i64 i64 i32 select eqz64 drop", True), ("i64 i64 i32 select i32 add drop", False),
    ("unreachable add", False), ("unreachable add drop", True), ("unreachable select", False),
    ("unreachable select drop drop", True), ("unreachable i64 i32 select eqz64 drop", True),
    ("unreachable i32 i32 select eqz64 drop", False), ("unreachable select add drop", True),
    ("unreachable i64 i32 i32 select drop", False), ("unreachable i32 i64 select drop", False),
    ("br0 i64 add drop", False), ("br0 i32 add drop", True), ("br0", True), ("br1", False), ("i32 br_if0", True),
    ("br_if0", False), ("i64 br_if0", False), ("i32 br_table0-0", True), ("br_table0-0", False),
    ("i32 br_table-0", True), ("i32 br_table0-1", False), ("i32 br_table1-0", False), ("i32 br_table9-0", False),
    ("call0", True), ("call1", False), ("i32 call_indirect0", False), ("get0", False), ("global0", False),
    ("return", True), ("return return", True), ("i32 return", True), ("unreachable i32", False),
    ("unreachable drop drop drop", True), ("unreachable i32 eqz64 drop", False),
    ("i32 load drop", True), ("i32 load-align3 drop", False), ("i32 atomic-load drop", True),
    ("i32 atomic-load-align1 drop", False), ("i64 load drop", False), ("size drop", True), ("i32 grow drop", True),
    ("i64 grow drop", False), ("fence", True), ("nop nop", True),
]:
    typed(text, is_typed)
for text, is_typed in [
    ("i32", True), ("i64", False), ("", False), ("i32 i32", False), ("i32 return", True), ("return", False),
    ("i64 return", False), ("i64 i32 return", True), ("i32 br0", True), ("br0", False), ("i32 i32 br_if0", True),
    ("i32 br_if0", False), ("i32 i32 br_table0-0", True), ("i32 br_table0-0", False), ("unreachable", True),
    ("i32 br0 i64", False), ("i32 br0 i32 i32", False), ("i32 br0 add", True),
]:
    typed(text, is_typed, gives="i")

title("Blocks (3.3.5): the value that a block leaves; operands before it; branches to it")
for text, is_typed in [
    ("block-i32 i32 end drop", True), ("block-i32 end drop", False), ("block-i32 i64 end drop", False),
    ("block-i32 i32 i32 end drop", False), ("block-i32 i32 end", False), ("block i32 end drop", False),
    ("i32 block drop end", False), ("i32 block end drop", True), ("i32 loop drop end", False),
    ("block-i32 i32 br0 end drop", True), ("block-i32 br0 end drop", False),
    ("block-i32 i32 i32 br_if0 end drop", True), ("block-i32 i32 i32 br_if0 drop end drop", False),
    ("block-i32 i32 br_if0 end drop", False), ("loop-i32 i32 end drop", True), ("loop-i32 br0 end drop", True),
    ("loop-i32 end drop", False), ("loop-i32 i64 end drop", False),
    ("loop-i32 i32 br_if0 i32 end drop", True), ("loop-i32 i32 i32 br_if0 end drop", True),
    ("loop-i32 i32 br_if0 end drop", False), ("block-i32 br1 end drop", True), ("block-i32 br2 end drop", False),
    ("block-i32 i32 i32 br_table0-0 end drop", True), ("block-i32 i32 i32 br_table0-1 end drop", False),
    ("block-i32 i32 i32 br_table1-0 end drop", False), ("block i32 br_table0-1 end", True),
    ("loop-i32 i32 br_table0-1 end drop", True), ("block loop i32 br_if1 end end", True),
    ("block-i32 loop i32 i32 br_if1 drop end i32 end drop", True), ("block-i32 loop i32 br_if1 end i32 end drop", False),
    ("i32 if end", True), ("if end", False), ("i64 if end", False), ("i32 if-i32 i32 else i32 end drop", True),
    ("i32 if-i32 i32 end drop", False), ("i32 if-i32 else i32 end drop", False),
    ("i32 if-i32 i32 else i64 end drop", False), ("i32 if-i32 i64 else i32 end drop", False),
    ("i32 if-i32 i32 else add end drop", False), ("i32 if-i32 i32 br0 else i32 i32 br_if0 drop end drop", False),
    ("i32 if-i32 i32 br0 else i32 i32 br_if0 end drop", True), ("i32 i32 if drop else drop end", False),
    ("i32 if i32 drop else add drop end", False), ("i32 if unreachable add drop else add drop end", False),
    ("i32 if unreachable else nop end add drop", False), ("block br0 end add drop", False),
    ("block br0 add drop end", True), ("i32 if-i32 unreachable else unreachable end drop", True),
    ("i32 if unreachable end i32 drop", True), ("unreachable block add drop end", False),
    ("unreachable block-i32 unreachable end add drop", True), ("block-i32 unreachable end i32 add drop", True),
]:
    typed(text, is_typed)

title("Code that isn't reached, in each kind of block")
PLACES_OF_CODE = [("a function", "", ""), ("a block", "block ", " end"), ("a loop", "loop ", " end"),
                  ("a first arm", "i32 if ", " end"), ("a first arm with a second", "i32 if ", " else nop end"),
                  ("a second arm", "i32 if else ", " end"), ("a block in a loop", "loop block ", " end end")]
for place, before, behind in PLACES_OF_CODE:
    for ends in ("unreachable", "br0", "i32 br_table0-0", "return"):
        for then, is_typed in (("", True), ("add drop", True), ("i32 add drop", True), ("add", False),
                               ("i64 add drop", False), ("i32 i64 drop add drop", True), ("i32", False),
                               ("block add drop end", False), ("block i32 drop end add drop", True),
                               ("br_if0", True), ("i64 br_if0", False)):
            text = " ".join(f"{before}{ends} {then}{behind}".split())
            typed(text, is_typed, name=f"{ends}, {then or 'nothing'}, in {place}")

title("A nest of 256 blocks and loops that each leave an i32, and bodies of 100,000 instructions")
for inner, is_typed in [("i32", True), ("i64", False), ("i32 br256", True), ("br256", False), ("i32 br257", False),
                        ("unreachable add", True), ("", False)]:
    case(f"nest of 256 around {inner or 'nothing'}",
         module(types=[("", "i")], functions=[(0, code(f"( 02 7f 03 7f )*128 {assembled(inner)} 0b*256"))]),
         "valid" if is_typed else "invalid")
for name, text, is_typed in [
    ("flat", "( 41 00 1a )*50000", True), ("flat, with an operand left", "( 41 00 1a )*50000 41 00", False),
    ("flat, with an operand missing", "( 41 00 1a )*50000 1a", False), ("deep", "( 41 00 )*50000 6a*49999 1a", True),
    ("deep, with an operand missing", "( 41 00 )*50000 6a*50000", False),
    ("deep, with a wrong operand at the bottom", "42 00 ( 41 00 )*50000 6a*50000 1a", False),
    ("deep, with branches", "( 41 00 )*30000 ( 41 00 0d 00 )*20000 1a*30000", True),
    ("deep, with branches and an operand left", "( 41 00 )*30000 ( 41 00 0d 00 )*20000 1a*29999", False),
    ("neighbouring blocks", "( 02 40 0b )*50000", True), ("a table of 100,000 branches", "41 00 0e +100000 00*100000 00", True),
    ("a table of 100,000 branches, the last one wrong", "41 00 0e +100000 00*99999 01 00", False),
]:
    case(f"long body, {name}", body_of(text), "valid" if is_typed else "invalid")

ANY = ("", "")
TWO = ("il", "l")
ONE = "00 01"
UNORDERED = "01 02 01"
IN = "00 00"  # the names of an import
FUNC = lambda index: f"{IN} 00 +{index}"
FIXED, SETTABLE, FIXED64 = f"{IN} 03 7f 00", f"{IN} 03 7f 01", f"{IN} 03 7e 00"
GLOBAL = lambda of, mutable, init: f"{of} {mutable} {assembled(init)} 0b"
EXPORT = lambda name, kind, index: f'[ {name} ] {kind:02x} +{index}'
RUN = lambda text="", of=0: (of, code(assembled(text)))
ELEMENT = lambda init, function: f"00 {assembled(init)} 0b +1 +{function}"
SEGMENT = lambda memory, init: f"+{memory} {assembled(init)} 0b +0"

title("Types, imports, functions, tables, memories and the start (3.2, 3.4)")
for name, is_typed, parts in [
    ("a result", True, dict(types=[("ii", "i")])), ("two results", False, dict(types=[("", "ii")])),
    ("function import", True, dict(types=[ANY], imports=[FUNC(0)])),
    ("function import of no type", False, dict(types=[ANY], imports=[FUNC(1)])),
    ("table import", True, dict(imports=[f"{IN} 01 70 {ONE}"])),
    ("table import past its greatest", False, dict(imports=[f"{IN} 01 70 {UNORDERED}"])),
    ("memory import", True, dict(imports=[f"{IN} 02 {ONE}"])),
    ("memory import past its greatest", False, dict(imports=[f"{IN} 02 {UNORDERED}"])),
    ("memory import with too great a bound", False, dict(imports=[f"{IN} 02 01 00 +65537"])),
    ("memory import shared", True, dict(imports=[f"{IN} 02 03 01 01"])), ("global import", True, dict(imports=[SETTABLE])),
    ("function", True, dict(types=[ANY], functions=[RUN()])), ("function of no type", False, dict(types=[ANY], functions=[RUN(of=1)])),
    ("function of no type at all", False, dict(functions=[RUN()])),
    ("function of a wrong result", False, dict(types=[ANY], functions=[RUN("i32")])),
    ("second function of a wrong result", False, dict(types=[ANY], functions=[RUN(), RUN("i32")])),
    ("table", True, dict(tables=[f"70 {ONE}"])), ("table of the greatest bound", True, dict(tables=["70 01 00 ff ff ff ff 0f"])),
    ("table past its greatest", False, dict(tables=[f"70 {UNORDERED}"])), ("two tables", False, dict(tables=[f"70 {ONE}"] * 2)),
    ("two tables, one imported", False, dict(imports=[f"{IN} 01 70 {ONE}"], tables=[f"70 {ONE}"])),
    ("two tables, both imported", False, dict(imports=[f"{IN} 01 70 {ONE}"] * 2)), ("memory", True, dict(memories=[ONE])),
    ("memory past its greatest", False, dict(memories=[UNORDERED])),
    ("memory of all pages allowed", True, dict(memories=["01 00 +65536"])),
    ("memory of too great a bound", False, dict(memories=["01 00 +65537"])), ("memory shared", True, dict(memories=["03 01 01"])),
    ("memory shared past its greatest", False, dict(memories=["03 02 01"])), ("two memories", False, dict(memories=[ONE, ONE])),
    ("two memories, one imported", False, dict(imports=[f"{IN} 02 {ONE}"], memories=[ONE])),
    ("start", True, dict(types=[ANY], functions=[RUN()], start=0)),
    ("start imported", True, dict(types=[ANY], imports=[FUNC(0)], start=0)),
    ("start of no function", False, dict(types=[ANY], functions=[RUN()], start=1)),
    ("start that takes", False, dict(types=[("i", "")], functions=[RUN()], start=0)),
    ("start that gives", False, dict(types=[("", "i")], functions=[RUN("i32")], start=0)),
    ("no start that gives", True, dict(types=[("", "i")], functions=[RUN("i32")])),
    ("second function of its own type", True, dict(types=[ANY, ("", "i")], functions=[RUN(), RUN("i32", 1)])),
]:
    case(name, module(**parts), "valid" if is_typed else "invalid")

title("Exports (3.4.9, 3.4.10)")
for name, is_typed, parts in [
    ("function", True, dict(types=[ANY], functions=[RUN()], exports=[EXPORT('"a"', 0, 0)])),
    ("no function", False, dict(types=[ANY], functions=[RUN()], exports=[EXPORT('"a"', 0, 1)])),
    ("an imported function", True, dict(types=[ANY], imports=[FUNC(0)], exports=[EXPORT('"a"', 0, 0)])),
    ("table", True, dict(tables=[f"70 {ONE}"], exports=[EXPORT('"a"', 1, 0)])),
    ("no table", False, dict(tables=[f"70 {ONE}"], exports=[EXPORT('"a"', 1, 1)])),
    ("memory", True, dict(memories=[ONE], exports=[EXPORT('"a"', 2, 0)])),
    ("no memory", False, dict(memories=[ONE], exports=[EXPORT('"a"', 2, 1)])),
    ("global", True, dict(imports=[SETTABLE], exports=[EXPORT('"a"', 3, 0)])),
    ("own global", True, dict(imports=[SETTABLE], globals_=[GLOBAL(I32, "00", "i32")], exports=[EXPORT('"a"', 3, 1)])),
    ("no global", False, dict(imports=[SETTABLE], exports=[EXPORT('"a"', 3, 1)])),
    ("an index of 2^32 - 1", False, dict(imports=[SETTABLE], exports=['[ "a" ] 03 ff ff ff ff 0f'])),
    ("no name", True, dict(imports=[SETTABLE], exports=[EXPORT("", 3, 0)])),
    ("two names", True, dict(imports=[SETTABLE], exports=[EXPORT('"a"', 3, 0), EXPORT('"ab"', 3, 0)])),
    ("one name twice", False, dict(imports=[SETTABLE], exports=[EXPORT('"a"', 3, 0)] * 2)),
    ("no name twice", False, dict(imports=[SETTABLE], exports=[EXPORT("", 3, 0)] * 2)),
    ("one name for two kinds", False, dict(imports=[SETTABLE], memories=[ONE], exports=[EXPORT('"a"', 3, 0), EXPORT('"a"', 2, 0)])),
    ("one name around another", False, dict(imports=[SETTABLE], exports=[EXPORT('"a"', 3, 0), EXPORT('"b"', 3, 0), EXPORT('"a"', 3, 0)])),
    ("names that differ in a byte alone", True,
     dict(imports=[SETTABLE], exports=[EXPORT("c3 a9", 3, 0), EXPORT("c3 a8", 3, 0), EXPORT('"e" cc 81', 3, 0)])),
]:
    case(f"export of {name}", module(**parts), "valid" if is_typed else "invalid")

title("Constant expressions (3.3.7): the first values of globals, and the offsets of segments (3.4.4 to 3.4.6)")
ELEMENTS = dict(types=[ANY], functions=[RUN()], tables=[f"70 {ONE}"])
for name, is_typed, parts in [
    ("a constant", True, dict(globals_=[GLOBAL(I32, "00", "i32")])),
    ("a constant that can be set", True, dict(globals_=[GLOBAL(I64, "01", "i64")])),
    ("a constant of another type", False, dict(globals_=[GLOBAL(I32, "00", "i64")])),
    ("no value", False, dict(globals_=[GLOBAL(I32, "00", "")])), ("two values", False, dict(globals_=[GLOBAL(I32, "00", "i32 i32")])),
    ("a nop", False, dict(globals_=[GLOBAL(I32, "00", "i32 nop")])),
    ("a sum", False, dict(globals_=[GLOBAL(I32, "00", "i32 i32 add")])),
    ("a block", False, dict(globals_=[GLOBAL(I32, "00", "block-i32 i32 end")])),
    ("unreachable", False, dict(globals_=[GLOBAL(I32, "00", "unreachable")])),
    ("an imported global", True, dict(imports=[FIXED], globals_=[GLOBAL(I32, "00", "global0")])),
    ("an imported global of another type", False, dict(imports=[FIXED64], globals_=[GLOBAL(I32, "00", "global0")])),
    ("an imported global that can be set", False, dict(imports=[SETTABLE], globals_=[GLOBAL(I32, "00", "global0")])),
    ("a global of its own", False, dict(globals_=[GLOBAL(I32, "00", "i32"), GLOBAL(I32, "00", "global0")])),
    ("itself", False, dict(globals_=[GLOBAL(I32, "00", "global0")])),
    ("elements at a constant", True, dict(ELEMENTS, elements=[ELEMENT("i32", 0)])),
    ("elements of no table", False, dict(types=[ANY], functions=[RUN()], elements=[ELEMENT("i32", 0)])),
    ("elements of no function", False, dict(ELEMENTS, elements=[ELEMENT("i32", 1)])),
    ("elements at another type", False, dict(ELEMENTS, elements=[ELEMENT("i64", 0)])),
    ("elements at a sum", False, dict(ELEMENTS, elements=[ELEMENT("i32 i32 add", 0)])),
    ("elements at a constant and a nop", False, dict(ELEMENTS, elements=[ELEMENT("i32 nop", 0)])),
    ("elements at a global", True, dict(ELEMENTS, imports=[FIXED], elements=[ELEMENT("global0", 0)])),
    ("elements at a global that can be set", False, dict(ELEMENTS, imports=[SETTABLE], elements=[ELEMENT("global0", 0)])),
    ("elements of a second table", False, dict(ELEMENTS, elements=["01 41 00 0b +1 +0"])),
    ("a segment at a constant", True, dict(memories=[ONE], segments=[SEGMENT(0, "i32")])),
    ("a segment of no memory", False, dict(segments=[SEGMENT(0, "i32")])),
    ("a segment of a second memory", False, dict(memories=[ONE], segments=[SEGMENT(1, "i32")])),
    ("a segment at another type", False, dict(memories=[ONE], segments=[SEGMENT(0, "i64")])),
    ("a segment at a global", True, dict(memories=[ONE], imports=[FIXED], segments=[SEGMENT(0, "global0")])),
    ("a segment at a global that can be set", False, dict(memories=[ONE], imports=[SETTABLE], segments=[SEGMENT(0, "global0")])),
    ("a second segment at another type", False, dict(memories=[ONE], segments=[SEGMENT(0, "i32"), SEGMENT(0, "i64")])),
]:
    case(f"{name} as a constant expression", module(**parts), "valid" if is_typed else "invalid")
case("a segment at a global of its own as a constant expression",
     module(memories=[ONE], globals_=[GLOBAL(I32, "00", "i32")], segments=[SEGMENT(0, "global0")]), "valid", standard="skip")

title("What instructions need of the module (3.3.3 to 3.3.5)")
TABLE, MEMORY = dict(tables=[f"70 {ONE}"]), dict(memories=[ONE])
for name, is_typed, parts in [
    ("size", True, dict(MEMORY, functions=[RUN("size drop")])), ("size of no memory", False, dict(functions=[RUN("size drop")])),
    ("growth", True, dict(MEMORY, functions=[RUN("i32 grow drop")])),
    ("growth of no memory", False, dict(functions=[RUN("i32 grow drop")])),
    ("load", True, dict(MEMORY, functions=[RUN("i32 load drop")])),
    ("load from an imported memory", True, dict(imports=[f"{IN} 02 {ONE}"], functions=[RUN("i32 load drop")])),
    ("load from no memory", False, dict(functions=[RUN("i32 load drop")])),
    ("store to no memory", False, dict(functions=[RUN("i32 i32 36 02 00")])),
    ("atomic load", True, dict(memories=["03 01 01"], functions=[RUN("i32 atomic-load drop")])),
    ("atomic load from a memory that isn't shared", True, dict(MEMORY, functions=[RUN("i32 atomic-load drop")])),
    ("atomic load from no memory", False, dict(functions=[RUN("i32 atomic-load drop")])),
    ("fence without memory", True, dict(functions=[RUN("fence")])),
    ("indirect call", True, dict(TABLE, functions=[RUN("i32 call_indirect0")])),
    ("indirect call through an imported table", True, dict(imports=[f"{IN} 01 70 {ONE}"], functions=[RUN("i32 call_indirect0")])),
    ("indirect call without table", False, dict(functions=[RUN("i32 call_indirect0")])),
    ("indirect call of no type", False, dict(TABLE, functions=[RUN("i32 call_indirect1")])),
    ("indirect call without operand", False, dict(TABLE, functions=[RUN("call_indirect0")])),
    ("call of the second function", True, dict(imports=[FUNC(0)], functions=[RUN("call1")])),
    ("call of no function", False, dict(functions=[RUN("call1")])),
    ("call of a function behind", True, dict(functions=[RUN("call1"), RUN()])),
    ("global that is there", True, dict(imports=[FIXED], functions=[RUN("global0 drop")])),
    ("global that is set", True, dict(imports=[SETTABLE], functions=[RUN("i32 24 00")])),
    ("global that can't be set", False, dict(imports=[FIXED], functions=[RUN("i32 24 00")])),
    ("own global that can't be set", False, dict(globals_=[GLOBAL(I32, "00", "i32")], functions=[RUN("i32 24 00")])),
]:
    case(f"{name} in a function", module(**{"types": [ANY], **parts}), "valid" if is_typed else "invalid")
for name, is_typed, text in [
    ("call with operands", True, "i32 i64 call0 drop"), ("call with a wrong operand", False, "i64 i64 call0 drop"),
    ("call with a wrong last operand", False, "i32 i32 call0 drop"),
    ("call with too few operands", False, "i64 call0 drop"), ("call with its result", True, "i32 i64 call0 eqz64 drop"),
    ("call whose result is left", False, "i32 i64 call0"),
    ("indirect call with operands", True, "i32 i64 i32 call_indirect1 eqz64 drop"),
    ("indirect call with a wrong operand", False, "i32 i32 i32 call_indirect1 eqz64 drop"),
    ("indirect call with a wrong index", False, "i32 i64 i64 call_indirect1 eqz64 drop"),
    ("indirect call with too few operands", False, "i64 i32 call_indirect1 eqz64 drop"),
]:
    case(f"{name} in a function", module(types=[ANY, TWO], imports=[FUNC(1)], tables=[f"70 {ONE}"],
                                         functions=[RUN(text)]), "valid" if is_typed else "invalid")
for name, is_typed, results, text in [
    ("a parameter", True, "l", "20 01"), ("a parameter of another type", False, "i", "20 01"),
    ("a local behind the parameters", True, "l", "20 02"), ("a second group of locals", True, "i", "20 04"),
    ("the last local of a group", True, "l", "20 03"), ("no local", False, "i", "20 05"),
    ("a local that is set", True, "", "i64 21 03"), ("a local that is set to another type", False, "", "i32 21 03"),
]:
    case(f"{name} in a function of two parameters and two groups of locals",
         module(types=[("il", results)], functions=[(0, code(assembled(text), "+2 +2 7e +1 7f"))]), "valid" if is_typed else "invalid")

title("Small programs")
SEVEN = '$head 01 [ +2 60 01 7f 00 60 00 00 ] 02 [ +1 [ "wasi_snapshot_preview1" ] [ "proc_exit" ] 00 00 ]'
START = '07 [ +1 [ "_start" ] 00 01 ]'
case("a program that ends with 7", f"{SEVEN} 03 [ +1 01 ] {START} 0a [ +1 [ 00 41 07 10 00 0b ] ]", "valid")
bad("a program that ends with 7, its last byte missing", f"{SEVEN} 03 [ +1 01 ] {START} 0a 08 01 06 00 41 07 10 00")
case("a program that ends with 7 in five bytes", f"{SEVEN} 03 [ +1 01 ] {START} 0a [ +1 [ 00 41 87 80 80 80 00 10 00 0b ] ]", "valid",
     written=f"{SEVEN} 03 [ +1 01 ] {START} 0a [ +1 [ 00 41 07 10 00 0b ] ]")
case("a program with a further function of floats",
     f"{SEVEN} 03 [ +2 01 01 ] {START} 0a [ +2 [ 00 41 07 10 00 0b ] [ 00 44 00*8 1a 0b ] ]", "float", standard="valid")
bad("a program with a further function of floats, its last byte missing",
    f"{SEVEN} 03 [ +2 01 01 ] {START} 0a 15 02 [ 00 41 07 10 00 0b ] 0c 00 44 00*8 1a")
case("a program that writes hi",
     '$head 01 [ +2 60 04 7f 7f 7f 7f 01 7f 60 00 00 ] 02 [ +1 [ "wasi_snapshot_preview1" ] [ "fd_write" ] 00 00 ] '
     f'03 [ +1 01 ] 05 [ +1 00 01 ] {START} 0a [ +1 [ 00 41 01 41 00 41 01 41 10 10 00 1a 0b ] ] '
     '0b [ +1 00 41 00 0b [ 08 00 00 00 03 00 00 00 "hi" 0a ] ]', "valid")
