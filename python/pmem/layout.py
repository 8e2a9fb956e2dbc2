"""The layouts of both devices: their parts, and the lines of each part (docs/MACHINE.md, docs/TREE.md)."""
from dataclasses import dataclass
from typing import Dict, List, Tuple

from .settings import default_number

LINE_BYTES = 64
LINES_OF_PAGE = 64
TAGS_OF_LINE = 4
ENTRIES_OF_SHADOW_LINE = 16

DATA, TAGS, NODES, COUNTERS = "data lines", "tag lines", "tree nodes", "counter blocks"
COUNTER_SHADOW, NODE_SHADOW = "shadow lines of counter blocks", "shadow lines of tree nodes"
SLOTS = "slot lines"


def _lines(count: int, of_line: int) -> int:
    """How many lines this many take, with `of_line` on each."""
    return -(-count // of_line)


def _in_a_row(sizes: List[Tuple[str, int]]) -> Dict[str, range]:
    """The device lines of parts of these sizes, one behind the other."""
    found, start = {}, 0
    for name, size in sizes:
        found[name] = range(start, start + size)
        start += size
    return found


class _Device:
    """What both layouts have."""

    @property
    def parts(self) -> Dict[str, range]:
        """The device lines of each part."""
        raise NotImplementedError

    @property
    def lines(self) -> int:
        """How many lines the device has."""
        return sum(map(len, self.parts.values()))

    def part_of(self, place: int) -> str:
        """The part that a device line is of.

        Raises:
            IndexError: there is no such line.
        """
        for name, places in self.parts.items():
            if place in places:
                return name
        raise IndexError(f"the device has no line {place}")


@dataclass(frozen=True)
class Layout(_Device):
    """The parts of the device of a hash tree: that of `run`, `wear` and `txn` (docs/MACHINE.md, The geometry)."""

    levels: int = default_number("levels")
    sets: int = default_number("sets")
    ways: int = default_number("ways")
    shadow: bool = True

    @property
    def pages(self) -> int:
        """How many pages of 64 data lines there are."""
        return int(4**self.levels)

    @property
    def parts(self) -> Dict[str, range]:
        """The device lines of each part. Without shadow tables those have none."""
        slots = self.sets * self.ways if self.shadow else 0
        return _in_a_row([
            (DATA, LINES_OF_PAGE * self.pages), (TAGS, LINES_OF_PAGE * self.pages // TAGS_OF_LINE), (NODES, (self.pages - 1) // 3),
            (COUNTERS, self.pages), (COUNTER_SHADOW, _lines(slots, ENTRIES_OF_SHADOW_LINE)),
            (NODE_SHADOW, _lines(self.levels * slots, ENTRIES_OF_SHADOW_LINE))])

    def tag_line_of(self, line: int) -> int:
        """The device line that has the tag of a data line, in its bytes from 16 * (line % 4) on."""
        return LINES_OF_PAGE * self.pages + line // TAGS_OF_LINE


@dataclass(frozen=True)
class TreeLayout(_Device):
    """The parts of the device of a counter tree: that of `tree` (docs/TREE.md, The device)."""

    levels: int = default_number("levels")
    sets: int = default_number("sets")

    @property
    def parts(self) -> Dict[str, range]:
        """The device lines of each part."""
        lines = int(4**(self.levels + 1))
        return _in_a_row([(DATA, lines), (TAGS, lines), (NODES, (lines - 1) // 3), (SLOTS, 1 + self.levels * self.sets)])

    def tag_line_of(self, line: int) -> int:
        """The device line that has the tag of a data line."""
        return int(4**(self.levels + 1)) + line
