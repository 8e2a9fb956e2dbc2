"""The 32-bit form of a module: the same functions over a memory of 32-bit addresses, for every engine.

The module computes addresses as 64-bit numbers, which stay below 4 GiB, as its memory does. In the 32-bit form each address is truncated when it
is used (`i32.wrap_i64`), and nothing else changes: functions take and give the same numbers. What the given exports don't reach is left out, and
so are names.
"""
from typing import Dict, List, Sequence, Tuple

from .operators import BINARY, LOADS, STORES, UNARY
from .wasm import BLOCKS, COPY, FILL, MAGIC, Instruction, Module, WasmError, signed_bytes, sized, unsigned_bytes

WRAP, EXTEND_SIGNED, EXTEND = 0xA7, 0xAC, 0xAD
# How many operands an instruction takes, and gives; those of jumps, blocks and calls depend on their place.
EFFECTS: Dict[int, Tuple[int, int]] = {
    0x01: (0, 0), 0x1A: (1, 0), 0x1B: (3, 1), 0x20: (0, 1), 0x21: (1, 0), 0x22: (1, 1), 0x23: (0, 1), 0x24: (1, 0), 0x3F: (0, 1), 0x40: (1, 1),
    0x41: (0, 1), 0x42: (0, 1), COPY: (3, 0), FILL: (3, 0), **dict.fromkeys(LOADS, (1, 1)), **dict.fromkeys(STORES, (2, 0)),
    **dict.fromkeys(BINARY, (2, 1)), **dict.fromkeys(UNARY, (1, 1))}
# The operands that are addresses or sizes of memory, counted from the last one.
ADDRESSES: Dict[int, Tuple[int, ...]] = {**dict.fromkeys(LOADS, (0,)), **dict.fromkeys(STORES, (1,)), 0x40: (0,), COPY: (0, 1, 2), FILL: (0, 2)}
VALUE_TYPES = {"i32": 0x7F, "i64": 0x7E}
EMPTY = 0x40
MOST_PAGES = 65535


class Lowering:
    """A function on its way into the 32-bit form: its instructions as bytes, in which truncations follow what makes the operands."""

    def __init__(self, module: Module, numbers: Dict[int, int], place: int) -> None:
        self.module, self.numbers, self.place = module, numbers, place
        self.out: List[bytes] = []
        self.stack: List[int] = []                # for each operand, the place in `out` of what made it
        self.frames: List[Tuple[int, int]] = []   # for each open block, the height of the stack and how many results it has
        self.is_dead = False

    def code(self) -> bytes:
        """The function's body."""
        skipped = 0
        for it in self.module.code(self.place):
            if not self.is_dead:
                self.step(it)
            elif it.code in BLOCKS:
                skipped += 1
            elif skipped == 0 and it.code in (0x05, 0x0B):
                self.step(it)
            else:
                skipped -= it.code == 0x0B
        return locals_bytes(self.module.body(self.place).locals) + b"".join(self.out)

    def step(self, it: Instruction) -> None:
        """Takes over an instruction."""
        if it.code in BLOCKS:
            self.pop(1 if it.code == 0x04 else 0)
            self.frames.append((len(self.stack), 0 if it.given[0] == EMPTY else 1))
            self.put(it)
        elif it.code in (0x05, 0x0B):
            self.leave(it)
        elif it.code in (0x00, 0x0C, 0x0E, 0x0F):
            self.put(it)
            self.is_dead = True
        elif it.code == 0x0D:
            self.pop(1)
            self.put(it)
        elif it.code in (0x10, 0x11):
            self.call(it)
        elif it.code in EFFECTS:
            self.plain(it)
        else:
            raise WasmError(f"an unknown instruction {it.code:#x}")

    def put(self, it: Instruction) -> None:
        """Writes an instruction."""
        self.out.append(self.bytes_of(it))

    def pop(self, count: int) -> None:
        """Takes operands from the stack."""
        del self.stack[len(self.stack) - count:]

    def push(self, count: int) -> None:
        """The last instruction made `count` operands."""
        self.stack += [len(self.out) - 1] * count

    def truncate(self, operand: int) -> None:
        """Truncates an operand, counted from the last one, right after it is made."""
        made = self.stack[-1 - operand]
        self.out[made] += bytes([WRAP])

    def plain(self, it: Instruction) -> None:
        """An instruction whose operands are known by its opcode."""
        for operand in ADDRESSES.get(it.code, ()):
            self.truncate(operand)
        takes, gives = EFFECTS[it.code]
        self.pop(takes)
        self.put(it)
        if it.code in (0x3F, 0x40):
            self.out[-1] += bytes([EXTEND if it.code == 0x3F else EXTEND_SIGNED])
        self.push(gives)

    def call(self, it: Instruction) -> None:
        """A call, by number or through the table."""
        if it.code == 0x10:
            takes, gives = self.module.signature(it.given[0])
        else:
            takes, gives = self.module.types[it.given[0]]
            if self.module.has_long_table:
                self.truncate(0)
            self.pop(1)
        self.pop(len(takes))
        self.put(it)
        self.push(len(gives))

    def leave(self, it: Instruction) -> None:
        """`else` or `end`."""
        self.is_dead = False
        self.put(it)
        if not self.frames:
            return
        height, results = self.frames[-1]
        del self.stack[height:]
        if it.code == 0x0B:
            self.frames.pop()
            self.push(results)

    def bytes_of(self, it: Instruction) -> bytes:
        """An instruction's bytes, with functions by their new numbers."""
        given = it.given
        if it.code == 0x10:
            return b"\x10" + unsigned_bytes(self.numbers[given[0]])
        if it.code in (0x41, 0x42):
            return bytes([it.code]) + signed_bytes(given[0])
        if it.code in (COPY, FILL):
            return b"\xfc" + unsigned_bytes(it.code - 0xFC00) + bytes(given)
        if it.code == 0x0E:
            return b"\x0e" + unsigned_bytes(len(given) - 1) + b"".join(map(unsigned_bytes, given))
        if it.code in BLOCKS:
            return bytes([it.code, given[0]])
        if (it.code in LOADS or it.code in STORES) and given[1] >= 1 << 32:
            raise WasmError("an offset that has more than 32 bits")
        return bytes([it.code]) + b"".join(map(unsigned_bytes, given))


def locals_bytes(kinds: Sequence[str]) -> bytes:
    """The declaration of local variables."""
    groups: List[Tuple[int, str]] = []
    for kind in kinds:
        if groups and groups[-1][1] == kind:
            groups[-1] = groups[-1][0] + 1, kind
        else:
            groups.append((1, kind))
    return unsigned_bytes(len(groups)) + b"".join(unsigned_bytes(count) + bytes([VALUE_TYPES[kind]]) for count, kind in groups)


def vector(parts: Sequence[bytes]) -> bytes:
    """Parts with their count in front."""
    return unsigned_bytes(len(parts)) + b"".join(parts)


def section(kind: int, parts: Sequence[bytes]) -> bytes:
    """A section; nothing if it has no parts."""
    return bytes([kind]) + sized(vector(parts)) if parts else b""


def name_bytes(name: str) -> bytes:
    """A text with its length in front."""
    return sized(name.encode())


def types_bytes(kinds: Sequence[str]) -> bytes:
    """Types of values."""
    return vector([bytes([VALUE_TYPES[kind]]) for kind in kinds])


def start_bytes(code: int, value: int) -> bytes:
    """A constant expression."""
    return bytes([code]) + signed_bytes(value) + b"\x0b"


def lowered(data: bytes, roots: Sequence[str]) -> bytes:
    """The 32-bit form of what these exports of a module reach."""
    module = Module(data)
    if not module.is_long:
        raise WasmError("the module's memory is not of 64 bits")
    places = module.reached([module.exports[name] for name in roots])
    imported = [place for place in places if place < len(module.imports)]
    own = [place for place in places if place >= len(module.imports)]
    numbers = {place: number for number, place in enumerate([*imported, *own])}
    kinds = [module.imports[place].type for place in imported], [module.functions[place - len(module.imports)] for place in own]
    imports = [name_bytes(module.imports[place].module) + name_bytes(module.imports[place].name) + b"\0" + unsigned_bytes(kind)
               for place, kind in zip(imported, kinds[0])]
    exports = [name_bytes("memory") + b"\2\0", *(name_bytes(name) + b"\0" + unsigned_bytes(numbers[module.exports[name]]) for name in roots)]
    globals_ = [bytes([VALUE_TYPES[kind], 1]) + start_bytes(0x41 if kind == "i32" else 0x42, value) for kind, value in module.globals]
    parts = [section(1, [b"\x60" + types_bytes(takes) + types_bytes(gives) for takes, gives in module.types]), section(2, imports),
             section(3, [unsigned_bytes(kind) for kind in kinds[1]]), table_section(module),
             section(5, [b"\1" + unsigned_bytes(module.pages) + unsigned_bytes(MOST_PAGES)]), section(6, globals_), section(7, exports),
             elements_section(module, numbers), section(10, [sized(Lowering(module, numbers, place).code()) for place in own]),
             section(11, [b"\0" + start_bytes(0x41, start) + sized(content) for start, content in module.data])]
    return MAGIC + b"".join(parts)


def table_section(module: Module) -> bytes:
    """The table of functions, if there is one."""
    return section(4, [b"\x70\0" + unsigned_bytes(max(module.table) + 1)] if module.table else [])


def elements_section(module: Module, numbers: Dict[int, int]) -> bytes:
    """The table's functions that are reached, each at its place."""
    return section(9, [b"\0" + start_bytes(0x41, at) + vector([unsigned_bytes(numbers[place])])
                       for at, place in sorted(module.table.items()) if place in numbers])
