"""What the curves of `explore figure` are made of: designs, the number that varies, and the rows that each curve's table has."""
import csv
import io
import re
from dataclasses import dataclass, replace
from typing import Any, Callable, Dict, Iterator, List, Optional, Sequence, Tuple

from . import compare
from .accounts import PART_WORDS
from .bounds import DESIGNS, LINE, bounds_of
from .costs import Costs
from .designs import policy_named
from .endurance import Endurance, Worn
from .errors import ExploreError
from .output import csv_text
from .settings import LEVELS, SHADOWS, Settings
from .together import Together
from .trace import Trace, trace_of

Row = Dict[str, Any]
# The levels of `run` at which workloads are measured: 4,096 lines, which all of examples/workloads need.
MEASURED_LEVELS = 3
# Those of the bounds: 64 KiB to 1 TiB.
BOUNDED = range(2, 15)
# The most levels of `run` for whose memory `tree` has one as large.
MOST_OF_TREE = 4
SETS = (1, 2, 4, 8, 16, 32, 64)
SETS_OF_TRADE_OFF = (1, 4, 16, 64)
LOSSES = (1, 2, 4, 8, 16)
# The attack on one line: which line, in a memory of 254 lines, and how often the gap moves. Workloads wear the same memory.
ATTACK, ATTACKED, WORN_LEVELS = "attack", 5, 1
MOVES = (1, 2, 4, 8, 16, 32, 64, 100)
MOVES_OF_WORKLOADS = (4, 16, 100)
# The columns of each table of measured curves.
COLUMNS = ("trace", "design", *compare.NUMBERS, "figures", "memory_bytes", "chip_cache", "writes", "write_steps", "write_line_writes",
           *(f"write_writes_{word}" for word in PART_WORDS), "write_digests", "write_ns", "write_nj", "recoveries", "recovery_tags_mean",
           "recovery_digests_mean", "recovery_line_reads_mean", "recovery_steps_mean", "recovery_ns_mean", "recovery_ns_greatest")
# The table of the policies counts what doesn't depend on the figures of time. An operation of a recovery is a tag, a digest, a line
# read or a persist step.
POLICY_COLUMNS = ("trace", "design", "levels", "sets", "ways", "loss", "persist", "shadow", "memory_bytes", "device_bytes", "chip_bytes",
                  "chip_kept", "writes", "write_steps", "write_line_writes", *(f"write_writes_{word}" for word in PART_WORDS), "write_ns",
                  "recoveries", "recovery_tags_mean", "recovery_digests_mean", "recovery_line_reads_mean", "recovery_steps_mean",
                  "recovery_operations_mean", "recovery_ns_mean")
OPERATIONS = ("tags", "digests", "line_reads", "steps")
# The memories of the policies: 16 KiB to 16 MiB. A memory of fewer levels than POLICY_DESIGNS persist lacks that design.
POLICY_LEVELS = range(1, LEVELS[-1] + 1)
POLICY_DESIGNS = ("anubis", "osiris", "counters", "triad-1", "triad-2", "strict")
DEFAULT_POLICY = "anubis"
# Its counts are almost those of aes, and it is fast: recovery without tables makes up to 1,048,576 tags.
POLICY_SUITE = "weak"
BOUND_COLUMNS = ("trace", "design", "memory_bytes", "recovery_ns", "stated_by")
WEAR_COLUMNS = ("trace", "design", "every", "writes", "part", "line", "line_writes")


@dataclass(frozen=True)
class Choice:
    """What all curves are made with: the settings that don't vary, the levels of `run` among them, the figures of time, the workloads,
    after how many cuts recovery is looked at, and how many lines are written for wear."""

    base: Settings
    costs: Costs
    traces: Sequence[Trace]
    cuts: int
    attack_writes: int


@dataclass(frozen=True)
class Family:
    """Designs of one curve: machines, and the values of each number that isn't as in the settings that don't vary."""

    designs: Tuple[str, ...]
    values: Dict[str, Sequence[int]]


# The designs of each measured curve. A new option of the machines is one more family, or one more number here.
FAMILIES: Dict[str, Tuple[Family, ...]] = {
    "recovery-cache": (Family(("run", "tree"), {"sets": SETS}),),
    "stop-loss": (Family(("run",), {"loss": LOSSES}),),
    "trade-off": (Family(("run", "tree"), {"sets": SETS_OF_TRADE_OFF, "loss": (1, 4, 16)}), Family(("wear", "txn"), {})),
    "trees": (Family(("run", "tree"), {}),),
}


def memory_families(levels: int) -> Tuple[Family, ...]:
    """The designs in each memory that the program has, from one of these levels up."""
    return Family(("run",), {"levels": range(levels, LEVELS[-1] + 1)}), Family(("tree",), {"levels": range(levels, MOST_OF_TREE + 1)})


def measured(families: Sequence[Family], choice: Choice, together: Together) -> List[Row]:
    """What the workloads take on these designs: a row for each trace and design, and their means if there are several traces."""
    rows: List[Row] = []
    for family in families:
        values = {name: family.values.get(name, [getattr(choice.base, name)]) for name in compare.NUMBERS}
        comparison = compare.Comparison(compare.designs_of(family.designs, choice.base, values), together, False, choice.cuts)
        found = compare.compare(choice.traces, comparison, [choice.costs])
        rows += [{**row, "trace": trace_text(row["trace"]), "memory_bytes": LINE * row["memory_lines"]} for row in found.every]
    return rows


def policy_rows(designs: Sequence[Tuple[int, Settings]], choice: Choice, together: Together) -> List[Row]:
    """What the workloads take under policies in one memory. In a small one each line is that with its remainder."""
    comparison = compare.Comparison(designs, together, designs[0][0] < MEASURED_LEVELS, choice.cuts)
    found = compare.compare(choice.traces, comparison, [choice.costs])
    return [{**row, "trace": trace_text(row["trace"]), "memory_bytes": LINE * row["memory_lines"],
             "recovery_operations_mean": round(sum(row[f"recovery_{name}_mean"] for name in OPERATIONS), 3)} for row in found.every]


def persist_rows(choice: Choice, together: Together) -> List[Row]:
    """Every policy of `run`, in one memory."""
    values = {"levels": [choice.base.levels], "persist": range(choice.base.levels + 2), "shadow": SHADOWS}
    base = choice.base.changed(suite=POLICY_SUITE)
    return policy_rows(compare.designs_of(["run"], base, values), choice, together)


def design_rows(choice: Choice, together: Together) -> List[Row]:
    """The designs of the literature in each memory."""
    rows: List[Row] = []
    for levels in POLICY_LEVELS:
        base = choice.base.changed(levels=levels, suite=POLICY_SUITE)
        rows += policy_rows(compare.designs_of(designs_within(levels), base, {}), choice, together)
    return rows


def designs_within(levels: int) -> List[str]:
    """The designs of the literature that a memory of these levels can have."""
    return [name for name in POLICY_DESIGNS if policy_named(name).persist(levels) <= levels + 1]


def trace_text(name: str) -> str:
    """A trace's name without its folder and ending."""
    base = name.rsplit("/", 1)[-1]
    return base[:-len(".trace")] if base.endswith(".trace") else base


def is_mean(row: Row) -> bool:
    """Whether a row is the mean over several traces."""
    return str(row["trace"]).startswith("mean of ")


def means(rows: Sequence[Row]) -> List[Row]:
    """The rows that are drawn: the means, or those of the one trace."""
    return [row for row in rows if is_mean(row)] or list(rows)


def bounds(choice: Choice) -> List[Row]:
    """The longest recovery at each size of memory."""
    rows: List[Row] = []
    for levels in BOUNDED:
        for each in bounds_of(DESIGNS, LINE * choice.base.machine.data_lines(levels), choice.base):
            row = each.row(choice.costs)
            rows.append({"trace": None, "design": each.design, "memory_bytes": row["memory_bytes"], "recovery_ns": row["recovery_ns_most"],
                         "stated_by": row["stated_by"]})
    return rows


def memory_rows(choice: Choice, together: Optional[Together]) -> List[Row]:
    """The bounds; if there are workloads, also what they took on each memory that the program has, without tables on the smaller ones."""
    rows = bounds(choice)
    if together is not None:
        without = Family(("osiris",), {"levels": range(choice.base.levels, MOST_OF_TREE + 1)})
        found = measured(memory_families(choice.base.levels), choice, together)
        found += measured([without], replace(choice, base=choice.base.changed(suite=POLICY_SUITE)), together)
        rows += [{"trace": row["trace"], "design": row["design"], "memory_bytes": row["memory_bytes"], "recovery_ns": row["recovery_ns_mean"],
                  "stated_by": "measured"} for row in found]
    return rows


def trade_off_rows(choice: Choice, together: Together) -> List[Row]:
    """The machines, and `run` with each other policy."""
    names = tuple(name for name in designs_within(choice.base.levels) if name != DEFAULT_POLICY)
    policies = replace(choice, base=choice.base.changed(suite=POLICY_SUITE))
    return measured(FAMILIES["trade-off"], choice, together) + measured((Family(names, {"sets": SETS_OF_TRADE_OFF}),), policies, together)


def wear_rows(choice: Choice, together: Together) -> List[Row]:
    """The most written line of each part, without and with start-gap: under an attack that writes one line again and again, and under each
    workload, which is repeated until it has written as many lines."""
    text = "".join(f"post 0 {ATTACKED} {f'{number % 256:02x}' * 64}\ndrain 0\n" for number in range(choice.attack_writes))
    rows = list(worn_rows(trace_of(ATTACK, text.encode()), MOVES, choice, together))
    for trace in choice.traces:
        rows += worn_rows(trace, MOVES_OF_WORKLOADS, choice, together)
    return rows


def worn_rows(trace: Trace, moves: Sequence[int], choice: Choice, together: Together) -> Iterator[Row]:
    """The most written lines under one trace, each of whose lines is put onto that with its remainder."""
    values: Dict[str, Sequence[int]] = {name: [getattr(choice.base, name)] for name in compare.NUMBERS}
    values.update(levels=[WORN_LEVELS], every=moves)
    designs = compare.designs_of(["run", "wear"], choice.base.changed(suite=POLICY_SUITE), values)
    comparison = compare.Comparison(designs, together, True, 0)
    written = comparison.workloads(trace)[0].count_of_units("write")
    for worn in Endurance(comparison, -(-choice.attack_writes // max(1, written))).find([trace])[0]:
        yield from most_worn(worn)


def most_worn(worn: Worn) -> Iterator[Row]:
    """The most written line of each part; the record of start and gap counts as a part."""
    every = worn.settings.every if worn.settings.machine_name == "wear" else None
    for number, part in enumerate(PART_WORDS):
        counts = worn.of_part(number)
        records = {line: count for line, count in counts.items() if worn.name_of(line) == "the record"}
        for some, word in ((records, "record"), ({line: count for line, count in counts.items() if line not in records}, part)):
            if some:
                line = max(sorted(some), key=some.__getitem__)
                yield {"trace": trace_text(worn.trace_name), "design": worn.settings.machine_name, "every": every, "writes": worn.writes,
                       "part": word, "line": worn.name_of(line), "line_writes": some[line]}


# What each figure shows, in the order in which all are made.
FIGURES: Dict[str, str] = {
    "recovery-memory": "recovery against the size of memory, 64 KiB to 1 TiB",
    "recovery-cache": "recovery, and persist steps a line written, against the metadata cache",
    "stop-loss": "persist steps a line written, and recovery, against the stop-loss number",
    "trade-off": "recovery against the time of a line written, a curve for each design",
    "wear": "the most written lines under an attack on one line and by workload, with and without start-gap",
    "trees": "the hash tree and the counter tree, by workload",
    "persist": "recovery, and persist steps a line written, against the levels persisted with each write",
    "designs": "the same of the classical designs, against the size of memory, 16 KiB to 16 MiB",
}


POLICY_ROWS: Dict[str, Callable[[Choice, Together], List[Row]]] = {"persist": persist_rows, "designs": design_rows}
# How the rows of a figure are made, if they aren't those of its families.
MADE: Dict[str, Callable[[Choice, Together], List[Row]]] = {**POLICY_ROWS, "trade-off": trade_off_rows, "wear": wear_rows}


def columns_of(name: str) -> Tuple[str, ...]:
    """The columns of a figure's table."""
    return POLICY_COLUMNS if name in POLICY_ROWS else {"recovery-memory": BOUND_COLUMNS, "wear": WEAR_COLUMNS}.get(name, COLUMNS)


def needs_program(name: str, has_traces: bool) -> bool:
    """Whether a figure is made by running the program."""
    return name != "recovery-memory" or has_traces


def rows_of(name: str, choice: Choice, together: Optional[Together]) -> List[Row]:
    """The rows of a figure. Without workloads recovery-memory has only the bounds."""
    if name == "recovery-memory":
        return memory_rows(choice, together if choice.traces else None)
    assert together is not None
    if not choice.traces:
        raise ExploreError(f"the figure {name} needs workloads, and examples/workloads is not here: name traces")
    return MADE[name](choice, together) if name in MADE else measured(FAMILIES[name], choice, together)


def table_of(name: str, rows: Sequence[Row]) -> str:
    """The table of a figure, as CSV."""
    columns = columns_of(name)
    return csv_text(columns, [[plain_number(row.get(column)) for column in columns] for row in rows])


def rows_in(name: str, text: str) -> List[Row]:
    """The rows of a figure's table."""
    columns = columns_of(name)
    reader = csv.DictReader(io.StringIO(text))
    if tuple(reader.fieldnames or ()) != columns:
        raise ExploreError(f"this is not a table of explore figure {name}: its columns are {', '.join(columns)}")
    return [{column: value_of(cell or "") for column, cell in row.items()} for row in reader]


def value_of(cell: str) -> Any:
    """What a cell of a table holds: a number, a text, or None if it is empty."""
    if re.fullmatch("-?[0-9]+", cell):
        return int(cell)
    return float(cell) if re.fullmatch(r"-?[0-9]+\.[0-9]+", cell) else cell or None


def plain_number(value: Any) -> Any:
    """A number without a fraction of 0."""
    return int(value) if isinstance(value, float) and value.is_integer() else value
