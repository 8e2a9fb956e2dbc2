"""One workload on several designs: what each of them takes for it, and what its recovery takes after a cut."""
import itertools
import statistics
import sys
from collections import Counter
from dataclasses import dataclass, field
from typing import Any, Dict, Iterator, List, Mapping, Optional, Sequence, Tuple

from .accounts import COUNTS, DATA_PART, PART_WORDS, Account, Accountant, added
from .chip import CHIP_PARTS, chip_bytes, kept_bytes
from .convert import Converted, converted, levels_for, outside_text
from .costs import SPLIT, Costs, Spent, heads_of
from .designs import machine_of, with_design
from .errors import WRONG_WORDS, ExploreError
from .layout import layout_of
from .logged import LoggedProgram, LoggedRecording, entries_of
from .output import csv_text, json_text, latex_text, table_text
from .package import LINE_BYTES
from .program import Question, Run, first_word, text_of
from .settings import LATER, Settings
from .together import Together
from .trace import Trace, trace_of

CUTS = 200
COLUMNS = 6
NUMBERS = ("levels", "sets", "ways", "loss", "every")
# What varies: these numbers, and the options of the policy and of the queues, which rows have only if one of them isn't the default.
VARIED = (*NUMBERS, *LATER)
RECOVERY = ("tags", "digests", "steps", "line_reads", "line_writes")
RECOVERY_TEXTS = {"tags": "tags (trials)", "digests": "digests", "steps": "persist steps", "line_reads": "line reads",
                  "line_writes": "line writes"}
# The baseline: a memory without ciphers, tags, counters, trees and logs, which takes one line write a write and one line read a read.
# It isn't a machine of the program: what it takes follows from the workload.
PLAIN = "plain"
# What is shown of each design in units of the baseline, and the row that it is computed from.
OVER_PLAIN = {"over_plain_line_writes": "write_line_writes", "over_plain_ns": "write_ns", "over_plain_nj": "write_nj",
              "over_plain_device_bytes": "device_bytes"}
DONE = ("ok", "line", "on", "off", "already", "stat")
END = (b"off", b"on")

Row = Dict[str, Any]


@dataclass(frozen=True)
class Recovered:
    """A recovery after a cut: how many steps the trace had taken, what `on` answered, and what it took."""

    steps: int
    answer: str
    account: Account

    @property
    def is_done(self) -> bool:
        """Whether it went through."""
        return first_word(self.answer) == "on"


@dataclass
class Found:
    """What a workload took on a design."""

    settings: Settings
    levels: int
    made: Converted
    with_policy: bool = False
    units: List[Tuple[str, int, Account]] = field(default_factory=list)
    total: Account = field(default_factory=Account)
    recoveries: List[Recovered] = field(default_factory=list)
    cuts: int = 0
    odd: Dict[str, int] = field(default_factory=dict)

    def of(self, kind: str) -> List[Account]:
        """What each unit of a kind took."""
        return [account for each, _, account in self.units if each == kind]

    def count_of_units(self, kind: str) -> int:
        """How many lines the workload reads or writes."""
        return sum(unit.lines for unit in self.made.units if unit.kind == kind)

    def count(self, kind: str) -> int:
        """How many lines were read or written."""
        return sum(lines for each, lines, _ in self.units if each == kind)


def designs_of(names: Sequence[str], base: Settings, values: Mapping[str, Sequence[Any]]) -> List[Tuple[int, Settings]]:
    """Each design with each combination of the values that it has, once, and the levels by which `run` has its memory. Names of policies
    (`designs.py`) have their own policy."""
    found: Dict[Settings, int] = {}
    lists = [values.get(name) or [getattr(base, name)] for name in VARIED]
    for name, some in itertools.product(names, itertools.product(*lists)):
        levels, chosen = some[0], dict(zip(VARIED, some))
        settings = Settings(machine_name=machine_of(name))
        options = {option: getattr(base, option) for option in ("suite", "key", "tag_key", "major") if option in settings.machine.options}
        options.update((option, value) for option, value in chosen.items() if option in settings.machine.options)
        settings = with_design(settings.changed(**{**options, "levels": levels_for(settings.machine_name, levels)}), name)
        settings.check()
        found.setdefault(settings, levels)
    return [(levels, settings) for settings, levels in found.items()]


class Comparison:
    """Workloads on designs. `cuts`: how many moments, spread evenly, the recovery is looked at (0: after each step)."""

    def __init__(self, designs: Sequence[Tuple[int, Settings]], together: Together, folded: bool, cuts: int) -> None:
        assert isinstance(together.program, LoggedProgram)
        self.designs = designs
        self.together = together
        self.program = together.program
        self.folded = folded
        self.cuts = cuts
        self.lines = min(settings.data_lines for _, settings in designs)
        self.with_policy = any(settings.design or settings.policy() for _, settings in designs)

    def workloads(self, trace: Trace) -> List[Found]:
        """The workload of a trace in each design's language."""
        return [Found(settings, levels, converted(trace.commands, settings.machine_name, settings.levels, self.lines, self.folded),
                      self.with_policy) for levels, settings in self.designs]

    def notes(self, trace: Trace, workloads: Sequence[Found]) -> List[str]:
        """What of the trace isn't in the workload, or not as it was."""
        made = workloads[0].made
        least = next(found for found in workloads if found.settings.data_lines == self.lines)
        name = f"{least.settings.name} with {least.settings.levels} levels"
        told = []
        if self.folded:
            told.append(f"each line is put onto the line with its remainder modulo {self.lines}, the lines of {name}")
        for note in made.notes:
            if not note.startswith("left out, as run") and not note.startswith(f"left out, as {made.machine_name} "):
                told.append(note)
        if made.outside:
            told.insert(0, f"left out of all, as {name} has only {outside_text(self.lines, made.outside)}")
        split = max(found.made.split for found in workloads)
        if split and not made.split:
            told.append(f"fences of more than 15 lines, which are several transactions of txn each: {split}")
        return [f"{trace.name}: {note}" for note in told]

    def run(self, traces: Sequence[Trace], workloads: Sequence[Sequence[Found]]) -> None:
        """Runs all workloads, and looks at the recoveries."""
        every = [(trace, found) for trace, some in zip(traces, workloads) for found in some]
        runs = [Run(text_of([*found.made.commands, *END]), found.settings) for _, found in every]
        for (trace, found), run, output in zip(every, runs, self.together.runs(runs, "designs")):
            recording = LoggedRecording(self.program, found.settings, trace_of(trace.name, run.script), output)
            self.account(found, recording)
            found.recoveries += self.recoveries(found, recording)

    def account(self, found: Found, recording: LoggedRecording) -> None:
        """Adds up what the units took. The power cycle at the end isn't one of them."""
        accountant = Accountant(found.settings)
        accounts = [accountant.account(command.word, entry) for command, entry in zip(recording.commands, recording.entries)]
        if recording.ends_in_exhibit or len(accounts) != len(recording.commands):
            raise ExploreError(f"{recording.trace.name}: on {found.settings.name} the workload ends with an exhibit: "
                               f"{recording.replies[-1].answer[:60]}")
        found.units = [(unit.kind, unit.lines, added([accounts[place] for place in unit.commands])) for unit in found.made.units]
        found.total = added([account for _, _, account in found.units])
        odd = Counter(first_word(reply.answer) for reply in recording.replies)
        found.odd = {word: count for word, count in odd.items() if word not in DONE}
        found.recoveries.append(Recovered(found.total.steps, recording.replies[-1].answer, accounts[-1]))

    def recoveries(self, found: Found, recording: LoggedRecording) -> Iterator[Recovered]:
        """The recoveries after cuts, spread over the steps of the workload."""
        moments: List[Tuple[int, int, int]] = []
        steps = 0
        for index in range(len(recording.commands) - len(END)):
            count = recording.steps(index) or 0
            moments += [(index, number, steps + number) for number in range(count)]
            steps += count
        found.cuts = len(moments) + 1
        some = spread(moments, self.cuts - 1) if self.cuts else moments
        questions = [Question(index, (b"cut %d" % number, recording.commands[index].text, b"on")) for index, number, _ in some]
        accountant = Accountant(found.settings)
        what = f"recoveries of {found.settings.name}"
        for (index, number, before), (_, data) in zip(some, self.together.answers(recording, questions, len(questions), what)):
            entries = entries_of(data, self.program.path)
            if len(entries) < 3 or not entries[1].reply.is_cut:
                raise ExploreError(f"{recording.trace.name}: {recording.commands[index].short} of {found.settings.name} is not "
                                   f"cut after {number} steps")
            yield Recovered(before, entries[2].reply.answer, accountant.account("on", entries[2]))


def spread(moments: Sequence[Tuple[int, int, int]], count: int) -> List[Tuple[int, int, int]]:
    """So many of these, spread evenly."""
    if count >= len(moments):
        return list(moments)
    return [moments[place * len(moments) // count] for place in range(max(0, count))]


def summary(values: Sequence[float]) -> Dict[str, Optional[float]]:
    """The mean, the median, the 99th percentile (the least value that 99 percent aren't above) and the greatest."""
    if not values:
        return {"mean": None, "median": None, "p99": None, "greatest": None}
    ordered = sorted(values)
    return {"mean": statistics.fmean(ordered), "median": statistics.median(ordered),
            "p99": ordered[-(-99 * len(ordered) // 100) - 1], "greatest": ordered[-1]}


def rounded(value: Any) -> Any:
    """A number to three places."""
    return round(value, 3) if isinstance(value, float) else value


def row_of(found: Found, trace_name: str, costs: Optional[Costs]) -> Row:
    """What a workload took on a design, by name. What a design lacks, or what there is no figure of, is None."""
    settings = found.settings
    row: Row = {"trace": trace_name, "design": settings.name, "figures": costs.name if costs else None}
    shown = VARIED if found.with_policy else NUMBERS
    row.update((name, getattr(settings, name) if name in settings.machine.options else None) for name in shown)
    row.update({"memory_lines": settings.data_lines, "writes": found.count("write"), "reads": found.count("read"),
                "fences": len(found.of("write")), "power_cycles": len(found.of("on"))})
    row.update((f"total_{name}", number) for name, number in found.total.numbers().items())
    for kind in ("write", "read"):
        numbers, count = added(found.of(kind)).numbers(), found.count(kind)
        row.update((f"{kind}_{name}", numbers[name] / count if count else None) for name in COUNTS)
    row.update((f"chip_{name}", number) for name, number in chip_bytes(settings).items())
    row["chip_bytes"] = sum(chip_bytes(settings).values())
    row["chip_same_basis"] = row["chip_bytes"] - row["chip_waiting"]
    if found.with_policy:
        row["chip_kept"] = kept_bytes(settings)
    device = layout_of(settings)
    row.update(device_bytes=LINE_BYTES * device.size, device_bytes_of_line=device.size / device.data_lines * LINE_BYTES)
    done = [each for each in found.recoveries if each.is_done]
    row.update({"recoveries": len(found.recoveries), "recoveries_of": found.cuts,
                "recoveries_refused": len(found.recoveries) - len(done)})
    for name in RECOVERY:
        numbers_of = summary([each.account.numbers()[name] for each in done])
        row.update({f"recovery_{name}_mean": numbers_of["mean"], f"recovery_{name}_greatest": numbers_of["greatest"]})
    if costs is not None:
        row.update(times_of(found, done, costs))
    return {name: rounded(value) for name, value in row.items()}


def times_of(found: Found, done: Sequence[Recovered], costs: Costs) -> Row:
    """The times of each fence, of each read and of each recovery, their energy, and what takes most of the time."""
    row: Row = {}
    for kind, lines, all_spent in (
            ("fence", found.count("write"), [costs.spent(account) for account in found.of("write")]),
            ("read", found.count("read"), [costs.spent(account) for account in found.of("read")]),
            ("recovery", len(done), [costs.spent(each.account, True) for each in done])):
        row.update((f"{kind}_ns_{name}", value) for name, value in summary([spent.ns for spent in all_spent]).items())
        total = together_spent(all_spent)
        line = "write" if kind == "fence" else kind
        row[f"{line}_nj"] = total.nj / lines if lines else None
        for unit, split in (("ns", total.ns_split), ("nj", total.nj_split)):
            row.update((f"{line}_{unit}_{word}", amount / lines if lines else None) for word, amount in zip(SPLIT, split))
        row[f"{kind}_dominant"] = total.dominant if all_spent else None
        row[f"{kind}_shares"] = [rounded(share / total.ns) if total.ns else 0.0 for share in total.shares] if all_spent else None
        if kind == "fence":
            row["write_ns"] = total.ns / lines if lines else None
    everything = together_spent([costs.spent(account, kind == "on") for kind, _, account in found.units])
    row.update({"total_ns": everything.ns, "total_nj": everything.nj})
    return row


def together_spent(all_spent: Sequence[Spent]) -> Spent:
    """What several took, one after the other."""
    if not all_spent:
        return Spent(0.0, 0.0, (0.0,))
    shares, ns_split, nj_split = (tuple(map(sum, zip(*some))) for some in zip(*((each.shares, each.ns_split, each.nj_split) for each in all_spent)))
    return Spent(sum(spent.ns for spent in all_spent), sum(spent.nj for spent in all_spent), shares, ns_split, nj_split)


def plain_of(found: Found, lines: int) -> Found:
    """What the baseline takes for a design's workload, over a memory of that many lines."""
    plain = Found(found.settings, found.levels, found.made, found.with_policy)
    for unit in found.made.units:
        account = Account()
        if unit.kind == "write":
            account.writes[DATA_PART] = account.single_writes = unit.lines
        elif unit.kind == "read":
            account.reads[DATA_PART] = unit.lines
            account.read_runs[unit.lines] += 1
        plain.units.append((unit.kind, unit.lines, account))
    plain.total = added([account for _, _, account in plain.units])
    return plain


def plain_row(found: Found, trace_name: str, costs: Optional[Costs], lines: int) -> Row:
    """The row of the baseline. It has nothing on the chip, and no recovery."""
    row = row_of(plain_of(found, lines), trace_name, costs)
    row.update({name: None for name in VARIED if name in row})
    row.update({name: None for name in ("recoveries", "recoveries_of", "recoveries_refused", "recovery_dominant")})
    row.update({name: 0 for name in row if name.startswith("chip_")})
    row.update(design=PLAIN, memory_lines=lines, device_bytes=LINE_BYTES * lines, device_bytes_of_line=LINE_BYTES)
    return row


def with_baseline(rows: Sequence[Row], plain: Row) -> List[Row]:
    """The baseline, and rows with what they are in units of it."""
    def over(row: Row, name: str) -> Optional[float]:
        return None if row.get(name) is None or not plain.get(name) else rounded(row[name] / plain[name])

    return [{**row, **{name: over(row, of) for name, of in OVER_PLAIN.items()}} for row in [plain, *rows]]


def mean_rows(rows_of_traces: Sequence[Sequence[Row]]) -> List[Row]:
    """The means over the traces, each of which counts as much as any other; of the greatest the greatest."""
    means = []
    for rows in zip(*rows_of_traces):
        mean: Row = {}
        for name, first in rows[0].items():
            values = [row[name] for row in rows if row[name] is not None]
            if name in ("trace", *VARIED, "design", "figures") or not all(isinstance(value, (int, float)) for value in values):
                mean[name] = first if all(value == first for value in values) else None
            elif name.endswith("_greatest"):
                mean[name] = max(values, default=None)
            else:
                mean[name] = rounded(statistics.fmean(values)) if values else None
        means.append({**mean, "trace": f"mean of {len(rows)} traces"})
    return means


SPLIT_TEXTS = {"chip": "latches, pads, tags, digests"}
# The lines of the table: a heading, or a name and what it is called.
SECTIONS: Tuple[Tuple[str, Tuple[Tuple[str, str], ...]], ...] = (
    ("design", (("levels", "levels"), ("sets", "sets"), ("ways", "ways"), ("loss", "stop-loss number"),
                ("every", "writes between moves"), ("persist", "levels persisted with a write"), ("shadow", "shadow tables"),
                ("queue", "write queues"), ("combine", "combining"), ("memory_lines", "lines of memory"), ("figures", "figures"))),
    ("workload", (("writes", "lines written"), ("fences", "drains and fences of them"), ("reads", "lines read"))),
    ("a line written", (("write_steps", "persist steps"), ("write_line_writes", "line writes"),
                        *((f"write_writes_{word}", f"  {word}") for word in PART_WORDS),
                        ("write_latches", "latches"), ("write_line_reads", "line reads"),
                        *((f"write_reads_{word}", f"  {word}") for word in PART_WORDS),
                        ("write_pads", "pads"), ("write_tags", "tags"), ("write_digests", "digests"),
                        ("write_hits", "cache hits"), ("write_misses", "cache misses"))),
    ("a line read", (("read_steps", "persist steps"), ("read_line_reads", "line reads"),
                     *((f"read_reads_{word}", f"  {word}") for word in PART_WORDS),
                     ("read_pads", "pads"), ("read_tags", "tags"), ("read_digests", "digests"),
                     ("read_hits", "cache hits"), ("read_misses", "cache misses"))),
    *((f"a recovery, {of}", tuple((f"recovery_{name}_{of}", RECOVERY_TEXTS[name]) for name in RECOVERY))
      for of in ("mean", "greatest")),
    ("bytes on the chip", (("chip_bytes", "all"), *((f"chip_{name}", f"  {what}") for name, what in zip(
        CHIP_PARTS, ("metadata cache", "copy of the shadow", "registers", "what waits"))),
                           ("chip_same_basis", "all but what waits"), ("chip_kept", "kept without power"))),
    ("bytes on the device", (("device_bytes", "all"), ("device_bytes_of_line", "for a line of 64 bytes"))),
    ("times those of plain", (("over_plain_line_writes", "line writes, a line written"), ("over_plain_ns", "ns, a line written"),
                              ("over_plain_nj", "nJ, a line written"), ("over_plain_device_bytes", "bytes on the device"))),
    ("ns of a drain or fence", (("fence_ns_mean", "mean"), ("fence_ns_median", "median"), ("fence_ns_p99", "99th percentile"),
                                ("fence_ns_greatest", "greatest"), ("fence_dominant", "most of it"),
                                ("write_ns", "a line written"), ("write_nj", "nJ a line written"))),
    ("ns of a read", (("read_ns_mean", "mean"), ("read_ns_median", "median"), ("read_ns_p99", "99th percentile"),
                      ("read_ns_greatest", "greatest"), ("read_dominant", "most of it"), ("read_nj", "nJ"))),
    ("ns of a recovery", (("recovery_ns_mean", "mean"), ("recovery_ns_median", "median"), ("recovery_ns_p99", "99th percentile"),
                          ("recovery_ns_greatest", "greatest"), ("recovery_dominant", "most of it"), ("recovery_nj", "nJ"))),
    *((f"{unit} of {what}, by part", tuple((f"{kind}_{unit.lower()}_{word}", f"  {SPLIT_TEXTS.get(word, word)}") for word in SPLIT))
      for unit in ("ns", "nJ") for kind, what in (("write", "a line written"), ("read", "a line read"), ("recovery", "a recovery"))),
)


def cell(value: Any) -> str:
    """A number of the table."""
    if value is None:
        return "-"
    if isinstance(value, float):
        return f"{value:,.0f}" if value >= 1000 else f"{value:.2f}"
    return f"{value:,}" if isinstance(value, int) else str(value)


def lines_of(rows: Sequence[Row]) -> List[List[str]]:
    """The lines of the table over these designs, with headings. A line is left out if none of the designs has it, and a part
    if it is 0 for all."""
    lines: List[List[str]] = []
    for heading, names in SECTIONS:
        some = [[f"  {text}", *(cell(row.get(name)) for row in rows)] for name, text in names
                if is_shown(rows, name, text)]
        if some and heading == "design":
            lines += some
        elif some:
            lines += [[heading, *("" for _ in rows)], *some]
    return lines


def is_shown(rows: Sequence[Row], name: str, text: str) -> bool:
    """Whether any of the rows has such a number; parts that are 0 for all aren't shown, and neither is the one file of figures, which
    stands above."""
    values = [row.get(name) for row in rows]
    if name == "figures":
        return len(set(values)) > 1
    return any(value is not None for value in values) and (text[0] != " " or any(values))


# Each row that a table may have: its name, as in CSV and JSON, and what it is called by itself.
ROW_TEXTS: Dict[str, str] = {name: f"{heading}: {text.strip()}" for heading, names in SECTIONS for name, text in names}


def chosen_lines(rows: Sequence[Row], names: Sequence[str]) -> List[List[str]]:
    """The lines of these names, in this order. What there is no figure of is an error."""
    missing = [name for name in names if all(row.get(name) is None for row in rows)]
    if missing:
        raise ExploreError(f"--rows: there is nothing named {missing[0]} here", WRONG_WORDS)
    return [[ROW_TEXTS[name], *(cell(row.get(name)) for row in rows)] for name in names]


def table_of(rows: Sequence[Row]) -> str:
    """The table for people, some designs side by side at a time."""
    texts = []
    for first in range(0, len(rows), COLUMNS):
        some = rows[first:first + COLUMNS]
        texts.append(table_text([["design", *(row["design"] for row in some)]], lines_of(some), left=(0,)))
    return "\n".join(texts)


@dataclass(frozen=True)
class Compared:
    """What was found: the rows of each trace, their means if there are several, and the notes to print."""

    rows: List[List[Row]]
    means: List[Row]
    heads: List[str]
    notes: List[str]
    moments: List[List[List[Any]]]

    @property
    def every(self) -> List[Row]:
        """All rows."""
        return [*(row for rows in self.rows for row in rows), *self.means]

    def text(self) -> str:
        """It for people."""
        parts = [f"{head}\n" for head in self.heads]
        tables = [*self.rows, *([self.means] if self.means else [])]
        for rows in tables:
            title = f"{rows[0]['trace']}\n" if len(tables) > 1 else ""
            parts.append(("\n" if parts else "") + title + table_of(rows))
        return "".join(parts) + "\n" + "".join(f"{note}\n" for note in self.notes)

    def latex(self, names: Sequence[str] = ()) -> str:
        """The last table, of the means if there are several traces, for LaTeX, or the rows of these names; heads and notes are
        comments."""
        rows = self.means or self.rows[-1]
        table = latex_text(["", *(row["design"] for row in rows)], [
            [line[0].strip() if line[0][:4] != " " * 4 else f"of them {line[0].strip()}", *line[1:]] for line in
            (chosen_lines(rows, names) if names else lines_of(rows))], left=(0,))
        return table + "".join(f"% {note}\n" for note in [*self.heads, *self.notes])

    def csv(self) -> str:
        """All rows as CSV."""
        names = [name for name in self.every[0] if not name.endswith("_shares")]
        return csv_text(names, [[row[name] for name in names] for row in self.every])

    def json(self) -> str:
        """All of it as JSON, which `explore draw` takes."""
        return json_text({"compare": [rows[0]["trace"] for rows in self.rows], "heads": self.heads, "notes": self.notes,
                          "designs": self.every, "recoveries": self.moments})


def compare(traces: Sequence[Trace], comparison: Comparison, costs: Sequence[Costs], has_plain: bool = False) -> Compared:
    """Compares designs on traces, with the figures of each file, and with the baseline. Notes on standard error
    say before anything runs what isn't in a workload."""
    workloads = [comparison.workloads(trace) for trace in traces]
    notes = [note for trace, some in zip(traces, workloads) for note in comparison.notes(trace, some)]
    for note in notes:
        sys.stderr.write(f"explore: {note}\n")
    for trace, some in zip(traces, workloads):
        if not some[0].made.units:
            raise ExploreError(f"{trace.name} has no write, read or power cycle that all these designs can do", WRONG_WORDS)
    comparison.run(traces, workloads)
    rows = [rows_of(trace, some, costs, comparison.lines if has_plain else 0) for trace, some in zip(traces, workloads)]
    notes += [note for trace, some in zip(traces, workloads) for found in some for note in notes_of(trace, found)]
    notes += cuts_note([found for some in workloads for found in some])
    moments = [moments_of(found, each) for some in workloads for each in each_or_none(costs) for found in some]
    return Compared(rows, mean_rows(rows) if len(rows) > 1 else [], heads_of(costs), notes, moments)


def rows_of(trace: Trace, workloads: Sequence[Found], costs: Sequence[Costs], plain_lines: int) -> List[Row]:
    """The rows of a trace: the designs with the figures of each file, the baseline first if its memory has lines."""
    every: List[Row] = []
    for each in each_or_none(costs):
        rows = [row_of(found, trace.name, each) for found in workloads]
        every += with_baseline(rows, plain_row(workloads[0], trace.name, each, plain_lines)) if plain_lines else rows
    return every


def each_or_none(costs: Sequence[Costs]) -> List[Optional[Costs]]:
    """Each file of figures, or None if there are none."""
    return list(costs) or [None]


def moments_of(found: Found, costs: Optional[Costs]) -> List[List[Any]]:
    """What each recovery took, by the steps before its cut."""
    done = [each for each in sorted(found.recoveries, key=lambda each: each.steps) if each.is_done]
    return [[each.steps, *(each.account.numbers()[name] for name in RECOVERY),
             *([rounded(costs.spent(each.account, True).ns)] if costs else [])] for each in done]


def notes_of(trace: Trace, found: Found) -> List[str]:
    """What a reader should know of a design's run."""
    name = name_of(found.settings)
    notes = [f"{trace.name}, {name}: {count} answers {word}" for word, count in sorted(found.odd.items())]
    refused = sum(not each.is_done for each in found.recoveries)
    if refused:
        notes.append(f"{trace.name}, {name}: {refused} of {len(found.recoveries)} recoveries are refused, and in no mean")
    return notes


def name_of(settings: Settings) -> str:
    """A design with its numbers, and with what isn't the default of its policy if it is named after its machine."""
    policy = {} if settings.design else settings.policy()
    return ", ".join([settings.name, *(f"{number} {getattr(settings, number)}" for number in NUMBERS if number in settings.machine.options),
                      *(f"{option} {value}" for option, value in policy.items())])


def cuts_note(every: Sequence[Found]) -> List[str]:
    """The note that recoveries aren't looked at after every step, if so."""
    some = sorted(found.cuts for found in every if len(found.recoveries) < found.cuts)
    if not some:
        return []
    of = f"{some[0]:,}" if some[0] == some[-1] else f"{some[0]:,} to {some[-1]:,}"
    return [f"recoveries: after {max(len(found.recoveries) for found in every)} cuts of each design, spread evenly, of {of}; "
            "the greatest are the greatest of these"]
