"""Time and energy of what commands take, by the figures of a file (`--cost`). docs/COSTS.md says what the file holds and how
the times are made of it."""
import math
import re
import sys
from dataclasses import dataclass
from pathlib import Path
from typing import Any, Dict, List, Sequence, Tuple

from .accounts import PART_WORDS, Account
from .errors import ExploreError
from .trace import printable, read_bytes, shown_path

FOLDER = Path(__file__).resolve().parent / "costs"
# What takes time, in the order in which it is printed.
RESOURCES = ("line reads", "line writes", "latches", "pads", "tags", "digests")
# The most letters of an unknown key that a message shows.
LONGEST_KEY = 80
# The most bytes of a file of costs.
LARGEST_TOML = 1 << 20
ASSUMED = "assumed"
NOT_MODELLED = ("not modelled: banks, row buffers, queues, refresh, contention, the processor and its caches, power at rest; "
                "commands come one after the other")
# The tables of a file, and the entries of each with their fields: a field is a number, or one that may be left out.
TABLES: Dict[str, Dict[str, Tuple[str, ...]]] = {
    "device": {"read": ("ns", "nj"), "write": ("ns", "nj"), "endurance": ("writes",)},
    "chip": {"latch": ("ns", "nj"), "pad": ("ns", "nj"), "tag": ("ns", "nj"), "digest": ("ns", "nj")},
    "overlap": {"reads": ("at_once",), "group_writes": ("at_once",), "recovery_tags": ("every_ns",),
                "recovery_digests": ("every_ns",), "pad_beside_read": ("holds",)},
}
SOURCE = "source"
# What time and energy are split into: the parts of the device, read and written, and what is done on the chip.
SPLIT = (*PART_WORDS, "chip")


@dataclass(frozen=True)
class Figure:
    """A number of a cost file and its source."""

    value: float
    source: str

    @property
    def is_assumed(self) -> bool:
        """Whether there is no source for it."""
        return re.match(rf"{ASSUMED}\b", self.source) is not None


@dataclass(frozen=True)
class Spent:
    """The time and the energy that something takes, and how the time is made up (`RESOURCES`)."""

    ns: float
    nj: float
    shares: Tuple[float, ...]
    ns_split: Tuple[float, ...] = (0.0,) * len(SPLIT)
    nj_split: Tuple[float, ...] = (0.0,) * len(SPLIT)

    @property
    def dominant(self) -> str:
        """What takes most of the time, with its share."""
        if not self.ns:
            return "-"
        most = max(range(len(self.shares)), key=lambda place: self.shares[place])
        return f"{RESOURCES[most]} {100 * self.shares[most] / self.ns:.0f}%"


class Costs:
    """The figures of a file."""

    def __init__(self, name: str, title: str, figures: Dict[str, Figure]) -> None:
        self.name = name
        self.title = title
        self.figures = figures

    def of(self, figure: str) -> float:
        """A figure by its name, as `device.read.ns`."""
        return self.figures[figure].value

    @property
    def endurance(self) -> float:
        """How many writes a device line takes."""
        return self.of("device.endurance.writes")

    def spent(self, account: Account, is_recovery: bool = False) -> Spent:
        """What a command takes, or some of one kind one after the other."""
        reads_at_once, lines_at_once = self.of("overlap.reads.at_once"), self.of("overlap.group_writes.at_once")
        pad = self.of("chip.pad.ns")
        hidden = min(pad, self.of("device.read.ns")) if self.of("overlap.pad_beside_read.holds") else 0.0
        shares = (
            self.of("device.read.ns") * turns(account.read_runs, reads_at_once),
            self.of("device.write.ns") * (account.single_writes + turns(account.groups, lines_at_once)),
            self.of("chip.latch.ns") * account.latches,
            pad * account.pads - hidden * account.pads_opening,
            self.many("tag", account.tags, is_recovery),
            self.many("digest", account.digests, is_recovery))
        return Spent(sum(shares), sum(self.energies(account)), shares, split_ns(account, shares), self.energies(account))

    def energies(self, account: Account) -> Tuple[float, ...]:
        """The energy, split as `SPLIT` says."""
        read, write = self.of("device.read.nj"), self.of("device.write.nj")
        chip = sum(self.of(f"chip.{unit}.nj") * count for unit, count in (
            ("latch", account.latches), ("pad", account.pads), ("tag", account.tags), ("digest", account.digests)))
        return (*(read * reads + write * writes for reads, writes in zip(account.reads, account.writes)), chip)

    def many(self, what: str, count: int, is_recovery: bool) -> float:
        """The time of `count` tags or digests: one after the other, except in a recovery, which begins them at the unit's pace."""
        latency = self.of(f"chip.{what}.ns")
        if not is_recovery or not count:
            return latency * count
        return latency + (count - 1) * self.of(f"overlap.recovery_{what}s.every_ns")

    def heads(self) -> List[str]:
        """What stands before times: of which device, what isn't modelled, and what the figures rest on."""
        assumed = sum(figure.is_assumed for figure in self.figures.values())
        return [
            f"times and energy: {self.title}",
            f"figures: {self.name}, {assumed} of {len(self.figures)} assumed",
            NOT_MODELLED]


def heads_of(every: Sequence[Costs]) -> List[str]:
    """The same of several files."""
    return [*(head for costs in every for head in costs.heads() if head != NOT_MODELLED), *([NOT_MODELLED] if every else [])]


def split_ns(account: Account, shares: Sequence[float]) -> Tuple[float, ...]:
    """The time of what `shares` has by resource, split as `SPLIT` says. Accesses that go side by side have equal parts of the time."""
    of_read, of_write = (share / (sum(counts) or 1) for share, counts in zip(shares, (account.reads, account.writes)))
    return (*(of_read * reads + of_write * writes for reads, writes in zip(account.reads, account.writes)), sum(shares[2:]))


def turns(runs: Dict[int, int], at_once: float) -> int:
    """How many times as long as one access all runs of accesses take, if `at_once` of a run go side by side."""
    return sum(count * math.ceil(length / at_once) for length, count in runs.items())


def file_of(name: str) -> str:
    """The path of a cost file: one of those that come with the explorer by its name alone, else a path."""
    if "/" not in name and not name.endswith(".toml"):
        path = FOLDER / f"{name}.toml"
        if not path.is_file():
            raise ExploreError(f"there are no figures named {shown_path(name)}: {', '.join(bundled())}, or the path of a file in .toml")
        return str(path)
    return name


def bundled() -> List[str]:
    """The files that come with the explorer."""
    return sorted(path.stem for path in FOLDER.glob("*.toml"))


def load_toml() -> Any:
    """What reads TOML."""
    try:
        import tomllib
    except ImportError as error:
        raise ExploreError("--cost needs Python 3.11 or later, which can read TOML") from error
    return tomllib


def read_costs(name: str) -> Costs:
    """The figures of a file. Each entry is a table with its numbers and its `source`."""
    toml = load_toml()
    path = file_of(name)
    try:
        value = toml.loads(read_bytes(path, LARGEST_TOML).decode("utf-8"))
    except (ValueError, RecursionError) as error:
        raise ExploreError(f"{shown_path(path)} is not valid TOML: {error}") from error
    path = shown_path(path)
    title = value.pop("title", None)
    if not isinstance(title, str) or not title.strip() or not title.isprintable():
        raise ExploreError(f"{path}: title must be one line of text that names the device")
    figures: Dict[str, Figure] = {}
    unknown = sorted(set(value) - set(TABLES))
    if unknown:
        raise ExploreError(f"{path}: there is no table {printable(unknown[0][:LONGEST_KEY])}: {', '.join(TABLES)}")
    for table, entries in TABLES.items():
        found = value.get(table)
        if not isinstance(found, dict):
            raise ExploreError(f"{path}: the table {table} is missing")
        unknown = sorted(set(found) - set(entries))
        if unknown:
            raise ExploreError(f"{path}: {table} has no entry {printable(unknown[0][:LONGEST_KEY])}: {', '.join(entries)}")
        for entry, fields in entries.items():
            figures.update(figures_of(path, f"{table}.{entry}", found.get(entry), fields))
    return Costs(Path(path).name, title.strip(), figures)


def figures_of(path: str, name: str, entry: Any, fields: Sequence[str]) -> Dict[str, Figure]:
    """The figures of one entry."""
    if not isinstance(entry, dict):
        raise ExploreError(f"{path}: {name} is missing: {{ {', '.join(f'{field} = ..' for field in (*fields, SOURCE))} }}")
    own = [f"{field}_{SOURCE}" for field in fields if len(fields) > 1]
    unknown = sorted(set(entry) - {*fields, SOURCE, *own})
    if unknown:
        raise ExploreError(f"{path}: {name} has no field {printable(unknown[0][:LONGEST_KEY])}: {', '.join((*fields, SOURCE, *own))}")
    for key in (SOURCE, *(key for key in own if key in entry)):
        if not isinstance(entry.get(key), str) or not entry[key].strip():
            raise ExploreError(f"{path}: {name} has no source: add {key} = \"..\", or \"{ASSUMED}\"")
    return {f"{name}.{field}": Figure(number_of(path, f"{name}.{field}", field, entry.get(field)), entry.get(f"{field}_{SOURCE}", entry[SOURCE]))
            for field in fields}


def number_of(path: str, name: str, field: str, value: Any) -> float:
    """The number of a field, in its range."""
    if field == "holds":
        if not isinstance(value, bool):
            raise ExploreError(f"{path}: {name} must be true or false")
        return float(value)
    is_count = field in ("at_once", "writes")
    right = isinstance(value, (int,) if is_count else (int, float)) and not isinstance(value, bool)
    if not right or not (1 if is_count else 0) <= value <= sys.float_info.max:
        raise ExploreError(f"{path}: {name} must be a {'whole number from 1 on' if is_count else 'number that is not negative'}")
    return float(value)
