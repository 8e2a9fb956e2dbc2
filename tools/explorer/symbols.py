"""The other program's own names for lines of memory: addresses from a trace's comments, symbols from an ELF file."""
import bisect
import re
import struct
from dataclasses import dataclass
from typing import List, Optional, Sequence, Tuple

from .errors import ExploreError
from .package import LINE_BYTES
from .trace import Trace, read_bytes, shown_name

LINES_AT = re.compile(rb"# lines? ([0-9]{1,9})(?: to ([0-9]{1,9}))? (?:is|are) at (0x[0-9a-f]{1,16})")

# Names of C++ are longer than those of C.
LONGEST_NAME = 300
LARGEST_ELF = 1 << 31
# How a file of 64 bits, lowest byte first, begins.
ELF_HEAD = b"\x7fELF\x02\x01"
SYMBOL_TABLE = 2
OBJECT = 1
SECTION, SYMBOL = struct.Struct("<IIQQQQIIQQ"), struct.Struct("<IBBHQQ")


@dataclass(frozen=True)
class Symbol:
    """A variable of the other program."""

    address: int
    size: int
    name: str


def lines_at(number: int, count: int, address: int) -> str:
    """The comment that says where lines of memory come from; `Names` reads it."""
    return f"# line {number} is at {address:#x}" if count == 1 else \
        f"# lines {number} to {number + count - 1} are at {address:#x}"


class Names:
    """Where lines of memory lie in the other program's."""

    def __init__(self, trace: Trace, symbols: Sequence[Symbol] = ()) -> None:
        # Each comment as it is: it may name more lines than there is memory for.
        self.ranges = [found for found in map(read_lines_at, trace.data.split(b"\n")) if found[1] >= found[0]]
        self.ranges.sort()
        self.firsts = [first for first, _, _ in self.ranges]
        self.longest = max((last - first for first, last, _ in self.ranges), default=0)
        self.symbols = sorted(symbols, key=lambda symbol: symbol.address)
        self.starts = [symbol.address for symbol in self.symbols]

    def addresses_of(self, line: int) -> List[int]:
        """The addresses of a line of memory: several if several lines were folded onto it."""
        low, high = bisect.bisect_left(self.firsts, line - self.longest), bisect.bisect_right(self.firsts, line)
        return [address + LINE_BYTES * (line - first) for first, last, address in self.ranges[low:high] if line <= last]

    def address_text(self, line: int) -> str:
        """The addresses of a line of memory, `-` for none."""
        return ",".join(f"{address:#x}" for address in self.addresses_of(line)) or "-"

    def symbol_text(self, line: int) -> str:
        """The variables that lie in a line of memory, each with the place in it at which the line begins."""
        return ",".join(text for address in self.addresses_of(line) for text in self.symbols_at(address)) or "-"

    def symbols_at(self, address: int) -> List[str]:
        """The variables that lie in the line at an address."""
        end = bisect.bisect_left(self.starts, address + LINE_BYTES)
        return [f"{symbol.name}{address - symbol.address:+d}" if symbol.address < address else
                symbol.name if symbol.address == address else f"{symbol.name}@{symbol.address - address}"
                for symbol in self.symbols[max(0, end - LINE_BYTES):end] if symbol.address + symbol.size > address]


def read_lines_at(text: bytes) -> Tuple[int, int, int]:
    """The first and the last line that a comment states, and the address; no line if it states none."""
    match = LINES_AT.fullmatch(text.strip())
    if match is None:
        return 0, -1, 0
    first = int(match.group(1))
    return first, int(match.group(2) or first), int(match.group(3), 16)


def elf_symbols(name: str, base: int) -> List[Symbol]:
    """The variables that an ELF file's symbol table lists, `base` being its address in memory."""
    data = read_bytes(name, LARGEST_ELF, ELF_HEAD)
    if not data.startswith(ELF_HEAD):
        raise ExploreError(f"{shown_name(name)} is not a little-endian ELF file of 64 bits")
    try:
        return list(symbols_in(data, base))
    except (struct.error, ValueError, IndexError, OverflowError) as error:
        raise ExploreError(f"{shown_name(name)}: its symbol table cannot be read") from error


def symbols_in(data: bytes, base: int) -> List[Symbol]:
    """The same, of the file's bytes."""
    (start,) = struct.unpack_from("<Q", data, 0x28)
    size, count = struct.unpack_from("<HH", data, 0x3A)
    if count and size < SECTION.size:
        raise ValueError("the headers of sections overlap")
    sections = [SECTION.unpack_from(data, start + size * number) for number in range(count)]
    symbols, left = [], len(data)
    for _, kind, _, _, offset, length, link, _, _, entry in sections:
        if kind != SYMBOL_TABLE or not length:
            continue
        # Tables that overlap, and symbols that do, could name a small file's bytes any number of times.
        left -= length
        if entry < SYMBOL.size or left < 0:
            raise ValueError("the symbols overlap")
        names = sections[link][4]
        for place in range(offset, offset + length, entry):
            name, info, _, _, value, extent = SYMBOL.unpack_from(data, place)
            if info & 15 == OBJECT and extent and value:
                symbols.append(Symbol(base + value, extent, name_at(data, names + name)))
    return symbols


def name_at(data: bytes, place: int) -> str:
    """The name that begins at a place of a file, up to its zero byte: the first letters of a long one, and none that would end a row or
    that a terminal would act on."""
    text = data[place:place + LONGEST_NAME + 1].split(b"\0", 1)[0][:LONGEST_NAME]
    if place >= len(data):
        raise ValueError("a name is not in the file")
    return "".join(letter if letter.isprintable() and letter != "," else "?" for letter in text.decode("utf-8", "replace"))


def symbols_of(name: Optional[str], base: int) -> List[Symbol]:
    """The variables of the ELF file, if one is named."""
    return elf_symbols(name, base) if name else []
