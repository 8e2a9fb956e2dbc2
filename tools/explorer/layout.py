"""The names of the device's lines, from the layouts that docs/MACHINE.md and docs/TREE.md list."""
from bisect import bisect_right
from dataclasses import dataclass
from typing import Dict, List, Sequence, Tuple, Union

from . import package
from .package import COUNTER_SHADOW, COUNTERS, DATA, LINES_OF_PAGE, NODE_SHADOW, NODES, SLOTS, TAGS, TAGS_OF_LINE
from .settings import Settings

CHIP = "chip"
SHADOWS = "shadow tables"
PARTS = (DATA, TAGS, COUNTERS, NODES, SHADOWS)

Named = Dict[str, Tuple[int, int]]


@dataclass(frozen=True)
class Place:
    """A device line, the part of the device that it belongs to, and what it is."""

    line: int
    part: str
    name: str

    @property
    def text(self) -> str:
        """Its number and its name."""
        return f"line {self.line}: {self.name}"


class Layout:
    """The names of the lines of the device of `run`, `wear` and `txn`. Without shadow tables there is nothing behind the counter blocks."""

    def __init__(self, settings: Settings) -> None:
        self.parts = PARTS if settings.has_tables else PARTS[:-1]
        self.machine_name = settings.machine_name
        self.own_lines = settings.data_lines
        self.levels = settings.levels
        layout = package.Layout(settings.levels, settings.sets, settings.ways, settings.has_tables)
        places = layout.parts
        self.pages = layout.pages
        self.data_lines = len(places[DATA])
        self.first_tag = places[TAGS].start
        self.first_meta = places[NODES].start
        self.nodes = len(places[NODES])
        self.meta_lines = self.nodes + len(places[COUNTERS])
        self.first_counter_shadow = places[COUNTER_SHADOW].start
        self.first_node_shadow = places[NODE_SHADOW].start
        self.size = places[NODE_SHADOW].stop

    def place(self, line: int) -> Place:
        """What device line `line` is."""
        if line < self.first_tag:
            return Place(line, DATA, self.data_name(line))
        if line < self.first_meta:
            first = TAGS_OF_LINE * (line - self.first_tag)
            return Place(line, TAGS, f"tag line of {first} to {first + TAGS_OF_LINE - 1}")
        if line < self.first_meta + self.nodes:
            return Place(line, NODES, f"node {line - self.first_meta}")
        if line < self.first_counter_shadow:
            page = line - self.first_meta - self.nodes
            return Place(line, COUNTERS, f"counter block of page {page}")
        if line < self.first_node_shadow:
            number = line - self.first_counter_shadow
            return Place(line, SHADOWS, f"line {number} of the shadow table of counter blocks")
        return Place(line, SHADOWS, f"line {line - self.first_node_shadow} of the shadow table of tree nodes")

    def data_name(self, line: int) -> str:
        """What a data line is: of `wear` a place or the record (docs/WEAR.md), of `txn` a line, the header or a body of the
        log (docs/TXN.md)."""
        if self.machine_name == "wear":
            return "the record" if line > self.own_lines else f"place {line}"
        if self.machine_name == "txn" and line >= self.own_lines:
            return "the header" if line == self.own_lines else f"body {line - self.own_lines - 1}"
        return f"data line {line}"

    def tag_line(self, data_line: int) -> int:
        """The device line that has the tag of a data line."""
        return self.first_tag + data_line // TAGS_OF_LINE

    def path(self, page: int) -> List[int]:
        """The device lines of a page's counter block and of the nodes above it."""
        position = self.nodes + page
        lines = [self.first_meta + position]
        while position:
            position = (position - 1) // 4
            lines.append(self.first_meta + position)
        return lines

    def page_lines(self, page: int) -> List[int]:
        """The data lines of a page and their tag lines."""
        first = LINES_OF_PAGE * page
        data = range(first, first + LINES_OF_PAGE)
        return [*data, *range(self.tag_line(first), self.tag_line(first) + LINES_OF_PAGE // TAGS_OF_LINE)]

    def shadow_lines(self) -> List[int]:
        """The device lines of both shadow tables."""
        return list(range(self.first_counter_shadow, self.size))

    def named(self) -> Named:
        """The first device line of each part, and how many lines have a number in it."""
        return {"data": (0, self.data_lines), "counter": (self.first_meta + self.nodes, self.pages),
                "node": (self.first_meta, self.nodes),
                "shadow counters": (self.first_counter_shadow, self.first_node_shadow - self.first_counter_shadow),
                "shadow nodes": (self.first_node_shadow, self.size - self.first_node_shadow)}


class TreeLayout:
    """The names of the lines of the device of `tree`. Its counters are those of its nodes."""

    parts = (DATA, TAGS, NODES, SHADOWS)

    def __init__(self, settings: Settings) -> None:
        places = package.TreeLayout(settings.levels, settings.sets).parts
        self.data_lines = len(places[DATA])
        self.first_node = places[NODES].start
        self.nodes = len(places[NODES])
        self.first_slot = places[SLOTS].start
        self.slots = len(places[SLOTS])
        self.size = places[SLOTS].stop

    def place(self, line: int) -> Place:
        """What device line `line` is."""
        if line < self.data_lines:
            return Place(line, DATA, f"data line {line}")
        if line < self.first_node:
            return Place(line, TAGS, f"tag line of {line - self.data_lines}")
        if line < self.first_slot:
            return Place(line, NODES, f"node {line - self.first_node}")
        return Place(line, SHADOWS, f"slot line {line - self.first_slot}")

    def tag_line(self, data_line: int) -> int:
        """The device line that has the tag of a data line."""
        return self.data_lines + data_line

    def named(self) -> Named:
        """The first device line of each part, and how many lines have a number in it."""
        return {"data": (0, self.data_lines), "node": (self.first_node, self.nodes), "slot": (self.first_slot, self.slots)}


AnyLayout = Union[Layout, TreeLayout]


class Parts:
    """Which part of the device a line belongs to, as its number among `PARTS`, if no name is asked for."""

    def __init__(self, layout: AnyLayout) -> None:
        edges: Sequence[Tuple[int, str]] = (
            ((layout.data_lines, TAGS), (layout.first_node, NODES), (layout.first_slot, SHADOWS))
            if isinstance(layout, TreeLayout) else
            ((layout.first_tag, TAGS), (layout.first_meta, NODES), (layout.first_meta + layout.nodes, COUNTERS),
             (layout.first_counter_shadow, SHADOWS)))
        self.first = [first for first, _ in edges]
        self.parts = [0, *(PARTS.index(part) for _, part in edges)]

    def of(self, line: int) -> int:
        """The part of a line."""
        return self.parts[bisect_right(self.first, line)]


def layout_of(settings: Settings) -> AnyLayout:
    """The layout of the device that a machine with these settings has."""
    return TreeLayout(settings) if settings.machine_name == "tree" else Layout(settings)
