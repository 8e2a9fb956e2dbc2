"""What a recovery takes at most on a memory of any size, by the bounds of docs/RECOVERY.md and TREE_MACHINE.md, and what a workload
takes there if the means that were measured on small memories go on from level to level."""
import argparse
import re
import statistics
from collections import Counter
from dataclasses import dataclass, field
from typing import Any, Dict, List, Optional, Sequence, Tuple

from .accounts import DATA_PART, Account
from .chip import chip_bytes, group_lines, position_bytes
from .costs import Costs
from .designs import machine_of, policy_words, with_design
from .errors import WRONG_WORDS, ExploreError
from .output import csv_text, json_text, table_text
from .package import POLICY
from .settings import LEVELS, Settings

LINE = 64
# What is shown unless other designs are named: `osiris` is `run` without shadow tables, whose recovery takes all of memory.
DESIGNS = ("run", "tree", "osiris")
UNITS = {"": 1, "K": 1 << 10, "M": 1 << 20, "G": 1 << 30, "T": 1 << 40, "P": 1 << 50}
MOST_BYTES = 1 << 60
SLOTS_IN_A_LINE = 16
# The latch that empties the group of `run` that a recovery may find armed.
GROUP_LATCHES = 1
# How far measured means may lie off a straight line that is followed, of the greatest of them.
CLOSE = 0.02
# The means that are extrapolated: the names of `compare`, and what they are called.
MEANS: Tuple[Tuple[str, str], ...] = (
    ("write_steps", "persist steps, a line written"), ("write_line_writes", "line writes, a line written"),
    ("write_line_reads", "line reads, a line written"), ("write_tags", "tags, a line written"),
    ("write_digests", "digests, a line written"), ("read_line_reads", "line reads, a line read"),
    ("read_digests", "digests, a line read"), ("recovery_tags_mean", "tags, a recovery"),
    ("recovery_digests_mean", "digests, a recovery"), ("recovery_line_reads_mean", "line reads, a recovery"),
    ("recovery_steps_mean", "persist steps, a recovery"), ("write_ns", "ns, a line written"), ("recovery_ns_mean", "ns, a recovery"))

Row = Dict[str, Any]


def memory_bytes(text: str) -> int:
    """Reads a size, such as `1T`, `64G`, `16MiB` or `4096` (bytes)."""
    match = re.fullmatch(r"([0-9]{1,18})([KMGTP]?)(?:i?B)?", text)
    size = int(match.group(1)) * UNITS[match.group(2)] if match else 0
    if not LINE <= size <= MOST_BYTES:
        raise argparse.ArgumentTypeError(f"{text!r} is not a size of memory such as 1T, 64G or 16M, 64 bytes to 1,024 P")
    return size


def size_text(size: int) -> str:
    """A size in the largest unit that it is a whole number of."""
    unit = max((each for each in UNITS if size % UNITS[each] == 0), key=lambda each: UNITS[each])
    return f"{size // UNITS[unit]:,} {unit}{'iB' if unit else 'bytes'}"


def bytes_of(machine_name: str, levels: int) -> int:
    """How many bytes of data a memory has."""
    return LINE * Settings(machine_name=machine_name).machine.data_lines(levels)


def levels_for(machine_name: str, size: int) -> int:
    """The fewest levels by which a memory has at least that many bytes."""
    levels = LEVELS[0]
    while bytes_of(machine_name, levels) < size:
        levels += 1
    return levels


@dataclass(frozen=True)
class Bounds:
    """What a design has, and what its recovery takes at most."""

    design: str
    settings: Settings

    @property
    def machine_name(self) -> str:
        """The machine that runs it."""
        return self.settings.machine_name

    @property
    def pages(self) -> int:
        """The counter blocks of `run`."""
        return 1 << 2 * self.settings.levels

    @property
    def doubted_blocks(self) -> int:
        """How many counter blocks of `run` a recovery makes at most: none if they are persisted with each write, otherwise those in the
        cache, which the tables name, or all."""
        if self.settings.persist:
            return 0
        return self.slots if self.settings.has_tables else self.pages

    @property
    def doubted_nodes(self) -> int:
        """The same for its nodes: those in the cache, or those of all levels that are persisted later."""
        levels, lazy = self.settings.levels, self.settings.lazy_levels
        if not lazy:
            return 0
        return levels * self.slots if self.settings.has_tables else ((1 << 2 * min(lazy, levels)) - 1) // 3

    @property
    def nodes(self) -> int:
        """The nodes of the tree: of `run` those over its counter blocks, of `tree` all."""
        return ((1 if self.machine_name == "run" else 4) * self.pages - 1) // 3

    @property
    def slots(self) -> int:
        """The slots of the cache: of `run` those of a bank, of `tree` all."""
        settings = self.settings
        return settings.sets * settings.ways if self.machine_name == "run" else 1 + settings.levels * settings.sets

    @property
    def shadow_lines(self) -> int:
        """The lines of the device that name or copy what is cached."""
        if self.machine_name == "tree":
            return self.slots
        if not self.settings.has_tables:
            return 0
        return -(-self.slots // SLOTS_IN_A_LINE) - (-self.settings.levels * self.slots // SLOTS_IN_A_LINE)

    @property
    def device_lines(self) -> int:
        """All lines of the device."""
        data = self.settings.data_lines
        tags, blocks = (data, 0) if self.machine_name == "tree" else (data // 4, self.pages)
        return data + tags + blocks + self.nodes + self.shadow_lines

    @property
    def is_in_range(self) -> bool:
        """Whether the program has such a memory, so that its contracts state these bounds."""
        return self.settings.levels in LEVELS

    def recovery(self) -> Account:
        """The most that a recovery takes."""
        return self.recovery_of_tree() if self.machine_name == "tree" else self.recovery_of_run()

    def recovery_of_run(self) -> Account:
        """For `run`: by what it may have to make."""
        blocks, nodes, shadow = self.doubted_blocks, self.doubted_nodes, self.shadow_lines
        return account_of(shadow + 129 * blocks + 5 * nodes + 1, group_lines(self.settings) + blocks + nodes + shadow, GROUP_LATCHES,
                          LINE * self.settings.loss * blocks, 4 * nodes + 1)

    def recovery_of_tree(self) -> Account:
        """For `tree`: its slot lines are read, and the shadow tree over them is made."""
        height = 1
        while 4 ** height < self.slots:
            height += 1
        return account_of(self.slots, self.settings.levels + 3, 1, 0, (4 ** (height + 1) - 1) // 3)

    def write_steps(self) -> int:
        """The most persist steps of a write of one line that begins no page: in each level that is persisted later a line is evicted and,
        with tables, one is named; then come the group's lines and two latches."""
        settings = self.settings
        if self.machine_name == "tree":
            return 2 * settings.levels + 5
        return (1 + settings.has_tables) * settings.lazy_levels + group_lines(settings) + 2

    def row(self, costs: Optional[Costs]) -> Row:
        """It by name."""
        account, chip = self.recovery(), chip_bytes(self.settings)
        row: Row = {"design": self.design, "levels": self.settings.levels, "memory_bytes": LINE * self.settings.data_lines,
                    "device_bytes": LINE * self.device_lines, "chip_bytes": sum(chip.values()), "chip_cache": chip["cache"],
                    "write_steps_most": self.write_steps(), "recovery_tags_most": account.tags,
                    "recovery_digests_most": account.digests, "recovery_line_reads_most": sum(account.reads),
                    "recovery_line_writes_most": sum(account.writes), "recovery_steps_most": account.steps}
        if costs is not None:
            spent = costs.spent(account, True)
            row.update(recovery_ns_most=spent.ns, recovery_nj_most=spent.nj, recovery_dominant=spent.dominant)
        return {**row, "stated_by": "contract" if self.is_in_range else "formula"}


def account_of(reads: int, writes: int, latches: int, tags: int, digests: int) -> Account:
    """What a recovery takes if each read and each write comes by itself."""
    account = Account(latches=latches, tags=tags, digests=digests, single_writes=writes, read_runs=Counter({1: reads}))
    account.reads[DATA_PART], account.writes[DATA_PART] = reads, writes
    return account


def bounds_of(designs: Sequence[str], size: int, base: Settings) -> List[Bounds]:
    """These designs for a memory of at least that many bytes, with the sets, ways, stop-loss number and policy of `base`."""
    found = []
    for design in designs:
        settings = Settings(machine_name=machine_of(design))
        own = {name: getattr(base, name) for name in ("sets", "ways", "loss", *POLICY) if name in settings.machine.options}
        settings = with_design(settings.changed(levels=levels_for(settings.machine_name, size), **own), design)
        if settings.lazy_levels < 0:
            raise ExploreError(f"--persist {settings.persist} is more than the {settings.levels + 1} lines of a path in this memory", WRONG_WORDS)
        found.append(Bounds(design, settings))
    return found


@dataclass(frozen=True)
class Extrapolated:
    """A mean that was measured at some levels of a design, and the straight line through them."""

    design: str
    name: str
    levels: Tuple[int, ...]
    values: Tuple[float, ...]

    @property
    def slope(self) -> float:
        """How much it rises with each level, by least squares."""
        middle, mean = statistics.fmean(self.levels), statistics.fmean(self.values)
        spread = sum((level - middle) ** 2 for level in self.levels)
        return sum((level - middle) * (value - mean) for level, value in zip(self.levels, self.values)) / spread

    def at(self, levels: int) -> float:
        """What the line has at that many levels."""
        return statistics.fmean(self.values) + self.slope * (levels - statistics.fmean(self.levels))

    @property
    def off(self) -> float:
        """The greatest distance of a measured mean from the line."""
        return max(abs(value - self.at(level)) for level, value in zip(self.levels, self.values))

    @property
    def is_line(self) -> bool:
        """Whether the measured means lie on it closely enough to follow it."""
        return self.off <= CLOSE * max(self.values)

    def text_at(self, levels: int) -> str:
        """What it has at that many levels, if it can be followed."""
        return f"{self.at(levels):,.2f}" if self.is_line else "no line"

    def number_at(self, levels: int) -> Optional[float]:
        """The same as a number, or None."""
        return round(self.at(levels), 3) if self.is_line else None


def extrapolated(rows: Sequence[Row], designs: Sequence[str]) -> List[Extrapolated]:
    """The means of what `compare` found at several levels of each design."""
    found = []
    for design in designs:
        own = [row for row in rows if row["design"] == design]
        for name, _ in MEANS:
            values = [(row["levels"], row[name]) for row in own if row.get(name) is not None]
            if len(values) > 1:
                found.append(Extrapolated(design, name, tuple(level for level, _ in values), tuple(value for _, value in values)))
    return found


@dataclass
class Answer:
    """What `explore bounds` prints."""

    bounds: List[Bounds]
    asked: int
    costs: Optional[Costs]
    means: List[Extrapolated] = field(default_factory=list)
    of: str = ""

    def levels_of(self, design: str) -> int:
        """The levels of a design in the memory that was asked for."""
        return next(each.settings.levels for each in self.bounds if each.design == design)

    def heads(self) -> List[str]:
        """What stands before the table."""
        heads = [f"memory: at least {size_text(self.asked)}"]
        for each in self.bounds:
            if each.settings.design or each.settings.policy():
                heads.append(f"{each.design}: run {' '.join(policy_words(each.settings))}")
            if not each.is_in_range:
                heads.append(f"{each.design}: {each.settings.levels} levels; the program has at most {LEVELS[-1]} "
                             f"({size_text(bytes_of(each.machine_name, LEVELS[-1]))}): the proved formulas are evaluated beyond their range, with "
                             f"{position_bytes(each.settings)} bytes for the number of a device line")
        return [*heads, *(self.costs.heads() if self.costs else [])]

    def text(self) -> str:
        """It for people."""
        rows = [each.row(self.costs) for each in self.bounds]
        lines = [[what, *(cell(name, row.get(name)) for row in rows)] for name, what in SHOWN if any(name in row for row in rows)]
        text = "".join(f"{head}\n" for head in self.heads()) + "\n"
        return text + table_text([["design", *(row["design"] for row in rows)]], lines, left=(0,)) + self.means_text()

    def means_text(self) -> str:
        """The measured means, and what the line through them has in this memory."""
        text = ""
        for design in dict.fromkeys(each.design for each in self.means):
            own, asked = [each for each in self.means if each.design == design], self.levels_of(design)
            levels = own[0].levels
            heads = ["mean", *(f"{level} levels" for level in levels), f"{asked} levels (extrapolated)", "off by at most"]
            rows = [[dict(MEANS)[each.name], *(f"{value:,.2f}" for value in each.values), each.text_at(asked), f"{each.off:,.2f}"]
                    for each in own]
            text += f"\n{self.of}: {design}, means measured, and a straight line through them\n" + table_text([heads], rows, left=(0,))
        if any(not each.is_line for each in self.means):
            text += f"\nno line: a measured mean is off the straight line by more than {100 * CLOSE:.0f}%, so the line is not followed\n"
        return text

    def records(self) -> Dict[str, Any]:
        """It as plain values."""
        return {"bounds": [each.row(self.costs) for each in self.bounds], "asked_bytes": self.asked, "heads": self.heads(),
                "means": [{"design": each.design, "mean": each.name, "levels": list(each.levels), "values": list(each.values),
                           "at_levels": self.levels_of(each.design), "extrapolated": each.number_at(self.levels_of(each.design)),
                           "off_by_at_most": round(each.off, 3)} for each in self.means]}

    def json(self) -> str:
        """It as JSON."""
        return json_text(self.records())

    def csv(self) -> str:
        """The bounds as CSV, a row for each design."""
        rows = [each.row(self.costs) for each in self.bounds]
        return csv_text(list(rows[0]), [list(row.values()) for row in rows])


# The lines of the table.
SHOWN: Tuple[Tuple[str, str], ...] = (
    ("levels", "levels"), ("memory_bytes", "bytes of memory"), ("device_bytes", "bytes on the device"), ("chip_bytes", "bytes on the chip"),
    ("chip_cache", "  metadata cache"), ("write_steps_most", "persist steps of a write, at most"),
    ("recovery_tags_most", "a recovery, at most: tags"), ("recovery_digests_most", "  digests"),
    ("recovery_line_reads_most", "  line reads"), ("recovery_line_writes_most", "  line writes"), ("recovery_steps_most", "  persist steps"),
    ("recovery_ns_most", "  time"), ("recovery_dominant", "  most of it"), ("recovery_nj_most", "  energy"), ("stated_by", "stated by a"))


def cell(name: str, value: Any) -> str:
    """A number of the table."""
    if isinstance(value, float):
        return amount_text(value, "s" if name.endswith("ns_most") else "J")
    return f"{value:,}" if isinstance(value, int) else str(value)


def amount_text(nanos: float, unit: str) -> str:
    """An amount of nanoseconds or nanojoules in the unit in which it is below 1,000, such as `2.13 ms`."""
    for prefix in ("n", "µ", "m"):
        if nanos < 1000:
            return f"{nanos:.3g} {prefix}{unit}"
        nanos /= 1000
    return f"{nanos:,.3g} {unit}" if nanos < 1000 else f"{nanos:,.0f} {unit}"
