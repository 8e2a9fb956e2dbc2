"""WebAssembly modules: reading their sections and instructions.

Only what clang writes for `-mcpu=lime1` without floating point is known: one memory, integers, bulk copy and fill, function tables.
Anything else raises a WasmError that names it.
"""
from typing import Dict, Iterator, List, NamedTuple, Set, Tuple

MAGIC = b"\0asm\1\0\0\0"
PAGE = 65536


class WasmError(Exception):
    """What the module has that isn't known here, or why it isn't a module."""


class Reader:
    """Bytes that are read in order."""

    def __init__(self, data: bytes, at: int = 0) -> None:
        self.data, self.at = data, at

    @property
    def is_at_end(self) -> bool:
        """Whether nothing is left."""
        return self.at >= len(self.data)

    def byte(self) -> int:
        """The next byte."""
        if self.is_at_end:
            raise WasmError("the module ends too early")
        self.at += 1
        return self.data[self.at - 1]

    def unsigned(self) -> int:
        """A LEB128 number without a sign."""
        value = shift = 0
        while True:
            byte = self.byte()
            value |= (byte & 127) << shift
            shift += 7
            if byte < 128:
                return value

    def signed(self) -> int:
        """A LEB128 number with a sign."""
        value = shift = 0
        while True:
            byte = self.byte()
            value |= (byte & 127) << shift
            shift += 7
            if byte < 128:
                return value - (1 << shift) if byte & 64 else value

    def take(self, count: int) -> bytes:
        """The next `count` bytes."""
        if self.at + count > len(self.data):
            raise WasmError("the module ends too early")
        self.at += count
        return self.data[self.at - count:self.at]

    def name(self) -> str:
        """A text with its length in front."""
        return self.take(self.unsigned()).decode()


def unsigned_bytes(value: int) -> bytes:
    """A number as LEB128 without a sign."""
    out = bytearray()
    while value > 127:
        out.append(value & 127 | 128)
        value >>= 7
    out.append(value)
    return bytes(out)


def signed_bytes(value: int) -> bytes:
    """A number as LEB128 with a sign."""
    out = bytearray()
    while not -64 <= value < 64:
        out.append(value & 127 | 128)
        value >>= 7
    out.append(value & 127)
    return bytes(out)


def sized(data: bytes) -> bytes:
    """Bytes with their count in front."""
    return unsigned_bytes(len(data)) + data


class Instruction(NamedTuple):
    """An instruction: its opcode, its immediates, and its place in its function's body."""

    code: int
    given: Tuple[int, ...]
    start: int
    end: int


# Opcodes by the form of their immediates.
BLOCKS = {0x02, 0x03, 0x04}
ONE_NUMBER = {0x0C, 0x0D, 0x10, 0x20, 0x21, 0x22, 0x23, 0x24}
TWO_NUMBERS = {0x11, *range(0x28, 0x3F)}
PLAIN = {0x00, 0x01, 0x05, 0x0B, 0x0F, 0x1A, 0x1B, *range(0x45, 0x5B), *range(0x67, 0x8B), 0xA7, 0xAC, 0xAD, *range(0xC0, 0xC5)}
COPY, FILL = 0xFC0A, 0xFC0B


def instruction(its: Reader) -> Instruction:
    """The next instruction. Those behind the byte 0xfc have opcodes from 0xfc00 on."""
    start, code = its.at, its.byte()
    given: Tuple[int, ...] = ()
    if code in BLOCKS:
        given = (its.byte(),)
    elif code in ONE_NUMBER:
        given = (its.unsigned(),)
    elif code in TWO_NUMBERS:
        given = (its.unsigned(), its.unsigned())
    elif code == 0x0E:
        given = tuple(its.unsigned() for _ in range(its.unsigned() + 1))
    elif code in (0x3F, 0x40):
        given = (its.byte(),)
    elif code in (0x41, 0x42):
        given = (its.signed(),)
    elif code == 0xFC:
        code = 0xFC00 + its.unsigned()
        if code not in (COPY, FILL):
            raise WasmError(f"an unknown instruction {code:#x}")
        given = tuple(its.byte() for _ in range(2 if code == COPY else 1))
    elif code not in PLAIN:
        raise WasmError(f"an unknown instruction {code:#x}")
    return Instruction(code, given, start, its.at)


TYPES = {0x7F: "i32", 0x7E: "i64"}


class Signature(NamedTuple):
    """What a function takes and gives: i32 and i64."""

    takes: Tuple[str, ...]
    gives: Tuple[str, ...]


class Import(NamedTuple):
    """A function that the module asks for."""

    module: str
    name: str
    type: int


class Section(NamedTuple):
    """A section: its number, and its bytes without number and size."""

    kind: int
    data: bytes


def sections(data: bytes) -> Iterator[Section]:
    """The sections of a module in order."""
    if data[:8] != MAGIC:
        raise WasmError("this is not a WebAssembly module of version 1")
    its = Reader(data, 8)
    while not its.is_at_end:
        kind = its.byte()
        yield Section(kind, its.take(its.unsigned()))


def type_of(its: Reader) -> str:
    """A value's type."""
    byte = its.byte()
    if byte not in TYPES:
        raise WasmError(f"an unknown type {byte:#x}")
    return TYPES[byte]


def constant(its: Reader) -> int:
    """A constant expression: i32.const or i64.const, and end."""
    code = its.byte()
    if code not in (0x41, 0x42):
        raise WasmError("a start value that is not a constant")
    value = its.signed()
    if its.byte() != 0x0B:
        raise WasmError("a start value that is not a constant")
    return value


class Body(NamedTuple):
    """A function's code: the types of its locals, and the bytes of its instructions."""

    locals: Tuple[str, ...]
    code: bytes

    def instructions(self) -> Iterator[Instruction]:
        """Its instructions in order."""
        its = Reader(self.code)
        while not its.is_at_end:
            yield instruction(its)


def body_of(data: bytes) -> Body:
    """A body in the code section."""
    its = Reader(data)
    kinds: List[str] = []
    for _ in range(its.unsigned()):
        count = its.unsigned()
        kinds += [type_of(its)] * count
    return Body(tuple(kinds), its.take(len(data) - its.at))


class Module:
    """A module's parts. Functions are numbered as WebAssembly does: first those that are imported."""

    def __init__(self, data: bytes) -> None:
        self.types: List[Signature] = []
        self.imports: List[Import] = []
        self.functions: List[int] = []
        self.globals: List[Tuple[str, int]] = []
        self.exports: Dict[str, int] = {}
        self.table: Dict[int, int] = {}
        self.data: List[Tuple[int, bytes]] = []
        self.bodies: List[Body] = []
        self.names: Dict[int, str] = {}
        self.customs: Dict[str, bytes] = {}
        self.pages, self.is_long, self.has_long_table = 0, False, False
        self.codes: Dict[int, List[Instruction]] = {}
        for section in sections(data):
            its = Reader(section.data)
            if section.kind == 0:
                name = its.name()
                self.customs[name] = its.take(len(its.data) - its.at)
            elif section.kind != 12:
                self.read(section.kind, its)
        self.read_names()

    def read(self, kind: int, its: Reader) -> None:
        """Reads a section."""
        readers = {1: self.read_type, 2: self.read_import, 3: self.read_function, 4: self.read_table, 5: self.read_memory,
                   6: self.read_global, 7: self.read_export, 9: self.read_elements, 10: self.read_body, 11: self.read_data}
        if kind not in readers:
            raise WasmError(f"an unknown section {kind}")
        for _ in range(its.unsigned()):
            readers[kind](its)

    def read_type(self, its: Reader) -> None:
        """A signature."""
        if its.byte() != 0x60:
            raise WasmError("a type that is not a function's")
        takes, gives = [tuple(type_of(its) for _ in range(its.unsigned())) for _ in range(2)]
        if len(gives) > 1:
            raise WasmError("a function with several results")
        self.types.append(Signature(takes, gives))

    def read_import(self, its: Reader) -> None:
        """An imported function."""
        module, name, what = its.name(), its.name(), its.byte()
        if what != 0:
            raise WasmError(f"an import {module}.{name} that is not a function")
        self.imports.append(Import(module, name, its.unsigned()))

    def read_function(self, its: Reader) -> None:
        """A function's signature."""
        self.functions.append(its.unsigned())

    def read_table(self, its: Reader) -> None:
        """A table's limits, which its elements give as well."""
        its.byte()
        self.has_long_table = self.read_limits(its)[0] & 4 != 0

    @staticmethod
    def read_limits(its: Reader) -> Tuple[int, int]:
        """Flags and the least size."""
        flags, least = its.byte(), its.unsigned()
        if flags & 1:
            its.unsigned()
        return flags, least

    def read_memory(self, its: Reader) -> None:
        """The memory."""
        flags, self.pages = self.read_limits(its)
        self.is_long = flags & 4 != 0

    def read_global(self, its: Reader) -> None:
        """A global and its start value."""
        kind = type_of(its)
        its.byte()
        self.globals.append((kind, constant(its)))

    def read_export(self, its: Reader) -> None:
        """An export; only functions are kept."""
        name, what, place = its.name(), its.byte(), its.unsigned()
        if what == 0:
            self.exports[name] = place

    def read_elements(self, its: Reader) -> None:
        """Functions of the table."""
        if its.unsigned() != 0:
            raise WasmError("an unknown form of table elements")
        start = constant(its)
        for place in range(its.unsigned()):
            self.table[start + place] = its.unsigned()

    def read_body(self, its: Reader) -> None:
        """A function's code."""
        self.bodies.append(body_of(its.take(its.unsigned())))

    def read_data(self, its: Reader) -> None:
        """Bytes that the memory begins with."""
        if its.unsigned() != 0:
            raise WasmError("an unknown form of data")
        start = constant(its)
        self.data.append((start, its.take(its.unsigned())))

    def read_names(self) -> None:
        """The names of functions, if the module has them."""
        its = Reader(self.customs.get("name", b""))
        while not its.is_at_end:
            kind, part = its.byte(), Reader(its.take(its.unsigned()))
            if kind == 1:
                for _ in range(part.unsigned()):
                    place = part.unsigned()
                    self.names[place] = part.name()

    def signature(self, place: int) -> Signature:
        """The signature of a function."""
        first = len(self.imports)
        return self.types[self.imports[place].type if place < first else self.functions[place - first]]

    def body(self, place: int) -> Body:
        """The code of a function that isn't imported."""
        return self.bodies[place - len(self.imports)]

    def code(self, place: int) -> List[Instruction]:
        """The instructions of a function that isn't imported."""
        if place not in self.codes:
            self.codes[place] = list(self.body(place).instructions())
        return self.codes[place]

    def callees(self, place: int) -> Set[int]:
        """The functions that a function may call: by number, or through the table by signature."""
        if place < len(self.imports):
            return set()
        found: Set[int] = set()
        for it in self.code(place):
            if it.code == 0x10:
                found.add(it.given[0])
            elif it.code == 0x11:
                wanted = self.types[it.given[0]]
                found |= {other for other in self.table.values() if self.signature(other) == wanted}
        return found

    def reached(self, roots: List[int]) -> List[int]:
        """The functions that these functions call, directly or not, and they themselves; in the module's order."""
        found, waiting = set(roots), list(roots)
        while waiting:
            more = self.callees(waiting.pop()) - found
            found |= more
            waiting += sorted(more)
        return sorted(found)
