"""What the instructions of WebAssembly are in C: for each opcode the types and the text."""
from typing import Dict, NamedTuple, Optional

C_TYPES = {"i32": "u32", "i64": "u64"}


class Operator(NamedTuple):
    """An instruction in C: the type of its result, and the text, in which {0} and {1} are its operands. A text that is `is_call` calls a
    function of runtime.h; what `is_test` is an int of C, 0 or 1."""

    gives: str
    text: str
    is_call: bool = False
    is_test: bool = False


def binary_operators() -> Dict[int, Operator]:
    """Opcodes with two operands."""
    found: Dict[int, Operator] = {}
    tests = ("{0} == {1}", "{0} != {1}", "(%s){0} < (%s){1}", "{0} < {1}", "(%s){0} > (%s){1}", "{0} > {1}",
             "(%s){0} <= (%s){1}", "{0} <= {1}", "(%s){0} >= (%s){1}", "{0} >= {1}")
    for base, signed in ((0x46, "i32"), (0x51, "i64")):
        for place, text in enumerate(tests):
            found[base + place] = Operator("u32", text.replace("%s", signed), is_test=True)
    for base, bits in ((0x6A, 32), (0x7C, 64)):
        kind, signed, last = f"u{bits}", f"i{bits}", bits - 1
        texts = ("{0} + {1}", "{0} - {1}", "{0} * {1}", f"divide_signed{bits}({{0}}, {{1}})", f"divide{bits}({{0}}, {{1}})",
                 f"remainder_signed{bits}({{0}}, {{1}})", f"remainder{bits}({{0}}, {{1}})", "{0} & {1}", "{0} | {1}", "{0} ^ {1}",
                 f"{{0}} << ({{1}} & {last})", f"({kind})(({signed}){{0}} >> ({{1}} & {last}))", f"{{0}} >> ({{1}} & {last})",
                 f"rotate_left{bits}({{0}}, {{1}})", f"rotate_right{bits}({{0}}, {{1}})")
        for place, text in enumerate(texts):
            found[base + place] = Operator(kind, text, is_call=text[0] in "dr")
    return found


def unary_operators() -> Dict[int, Operator]:
    """Opcodes with one operand."""
    found = {0x45: Operator("u32", "!{0}", is_test=True), 0x50: Operator("u32", "!{0}", is_test=True),
             0xA7: Operator("u32", "(u32){0}"), 0xAC: Operator("u64", "(u64)(i64)(i32){0}"), 0xAD: Operator("u64", "(u64){0}"),
             0xC0: Operator("u32", "(u32)(i8){0}"), 0xC1: Operator("u32", "(u32)(i16){0}"), 0xC2: Operator("u64", "(u64)(i8){0}"),
             0xC3: Operator("u64", "(u64)(i16){0}"), 0xC4: Operator("u64", "(u64)(i32){0}")}
    for base, bits in ((0x67, 32), (0x79, 64)):
        for place, name in enumerate(("leading_zeros", "trailing_zeros", "ones")):
            found[base + place] = Operator(f"u{bits}", f"{name}{bits}({{0}})", is_call=True)
    return found


BINARY = binary_operators()
UNARY = unary_operators()


class Access(NamedTuple):
    """A load or store: the result's type (a store has none), the function of runtime.h, and a cast of the value."""

    gives: Optional[str]
    name: str
    cast: str


LOADS = {0x28: Access("u32", "load32", ""), 0x29: Access("u64", "load64", ""), 0x2C: Access("u32", "load8", "(u32)(i8)"),
         0x2D: Access("u32", "load8", ""), 0x2E: Access("u32", "load16", "(u32)(i16)"), 0x2F: Access("u32", "load16", ""),
         0x30: Access("u64", "load8", "(u64)(i8)"), 0x31: Access("u64", "load8", "(u64)"), 0x32: Access("u64", "load16", "(u64)(i16)"),
         0x33: Access("u64", "load16", "(u64)"), 0x34: Access("u64", "load32", "(u64)(i32)"), 0x35: Access("u64", "load32", "(u64)")}
STORES = {0x36: Access(None, "store32", ""), 0x37: Access(None, "store64", ""), 0x3A: Access(None, "store8", "(u8)"),
          0x3B: Access(None, "store16", "(u16)"), 0x3C: Access(None, "store8", "(u8)"), 0x3D: Access(None, "store16", "(u16)"),
          0x3E: Access(None, "store32", "(u32)")}


def number(value: int, kind: str) -> str:
    """A constant in C."""
    bits = 32 if kind == "u32" else 64
    value &= (1 << bits) - 1
    suffix = "u" if kind == "u32" else "ull"
    return f"{value:#x}{suffix}" if value > 4096 else f"{value}{suffix}"
