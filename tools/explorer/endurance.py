"""Which device lines a workload wears out: the writes of each line by part, the hottest by name, and how long they last."""
import sys
from collections import Counter
from dataclasses import dataclass
from typing import Any, Dict, List, Optional, Sequence, Tuple

from .accounts import PART_WORDS
from .compare import DONE, NUMBERS, VARIED, Comparison, Found, name_of
from .errors import WRONG_WORDS, ExploreError
from .layout import PARTS, Parts, layout_of
from .logged import counted
from .output import csv_text, json_text, latex_text, table_text
from .program import Output, Run, text_of
from .settings import Settings
from .together import Together
from .trace import Trace

TOP = 8
RATE, LIMIT = 1_000_000, 100_000_000
MOST_COMMANDS = 1_000_000
TIMES: Tuple[Tuple[str, float], ...] = (("years", 365.25 * 86400), ("days", 86400), ("hours", 3600), ("minutes", 60), ("seconds", 1))


@dataclass(frozen=True)
class Worn:
    """The writes of a design's device lines under a workload of `writes` line writes. `counts` has those that were written."""

    settings: Settings
    trace_name: str
    writes: int
    counts: Dict[int, int]
    other_answers: Dict[str, int]
    with_policy: bool = False

    @property
    def name(self) -> str:
        """The design with its numbers."""
        return name_of(self.settings)

    @property
    def design(self) -> Dict[str, Any]:
        """The trace, the design and its numbers, for scripts."""
        shown = VARIED if self.with_policy else NUMBERS
        return {"trace": self.trace_name, "design": self.settings.name,
                **{name: getattr(self.settings, name) if name in self.settings.machine.options else None for name in shown}}

    def of_part(self, part: int) -> Dict[int, int]:
        """The lines of a part."""
        of = Parts(layout_of(self.settings)).of
        return {line: count for line, count in self.counts.items() if of(line) == part}

    def hottest(self, count: int) -> List[Tuple[int, int]]:
        """So many lines, those that are written most first, with their writes."""
        return sorted(self.counts.items(), key=lambda item: (-item[1], item[0]))[:count]

    def name_of(self, line: int) -> str:
        """A line's name."""
        return layout_of(self.settings).place(line).name


def seconds_to(limit: int, writes: int, worn: Worn, rate: float) -> Optional[float]:
    """How long a line lasts that has `writes` writes in the workload, if this is repeated at `rate` line writes per
    second."""
    return limit * worn.writes / (writes * rate) if writes and worn.writes else None


def time_text(seconds: Optional[float]) -> str:
    """A time in the greatest unit of which it has one."""
    if seconds is None:
        return "-"
    name, length = next(((name, length) for name, length in TIMES if seconds >= length), TIMES[-1])
    number = seconds / length
    return f"{number:,.0f} {name}" if number >= 100 else f"{number:.3g} {name}"


def bins_of(counts: Dict[int, int], lines: int) -> Dict[str, int]:
    """How many of a part's lines have 0 writes, 1, 2 to 3, 4 to 7, and so on."""
    found: "Counter[int]" = Counter(count.bit_length() for count in counts.values())
    found[0] += lines - len(counts)
    return {bin_text(length): found[length] for length in range(max(found) + 1)}


def bin_text(length: int) -> str:
    """The numbers of this many bits."""
    low, high = (1 << length) >> 1, (1 << length) - 1
    return str(low) if low == high or not length else f"{low}-{high}"


def part_sizes(settings: Settings) -> List[int]:
    """How many lines each part of the device has."""
    layout = layout_of(settings)
    parts = Parts(layout)
    edges = [0, *parts.first, layout.size]
    sizes = [0] * len(PARTS)
    for part, low, high in zip(parts.parts, edges, edges[1:]):
        sizes[part] += high - low
    return sizes


class Endurance:
    """Counts the writes of each device line, of workloads on designs that `comparison` makes; each workload comes `repeat`
    times over."""

    def __init__(self, comparison: Comparison, repeat: int) -> None:
        self.comparison = comparison
        self.repeat = repeat

    def find(self, traces: Sequence[Trace]) -> Tuple[List[Worn], List[str]]:
        """How often each design's lines are written, and the notes to print. Notes on what isn't in a workload come before it runs."""
        workloads = [self.comparison.workloads(trace) for trace in traces]
        notes = [note for trace, some in zip(traces, workloads) for note in self.comparison.notes(trace, some)]
        for note in notes:
            sys.stderr.write(f"explore: {note}\n")
        every = [(trace, found) for trace, some in zip(traces, workloads) for found in some]
        for trace, found in every:
            self.check(trace, found)
        runs = [Run(text_of(found.made.commands * self.repeat), found.settings) for _, found in every]
        together: Together = self.comparison.together
        worn = [self.worn(trace, found, output) for (trace, found), output in zip(every, together.runs(runs, "designs"))]
        notes += [f"{each.trace_name}, {each.name}: {count} answers {word}" for each in worn
                  for word, count in sorted(each.other_answers.items())]
        return worn, notes

    def check(self, trace: Trace, found: Found) -> None:
        """That a workload has a write, and isn't too long."""
        if not found.count_of_units("write"):
            raise ExploreError(f"{trace.name} has no write that all these designs can do", WRONG_WORDS)
        count = len(found.made.commands) * self.repeat
        if count > MOST_COMMANDS:
            raise ExploreError(f"{trace.name}, {self.repeat} times over, has {count:,} commands for {found.settings.name}: "
                               f"a trace has at most {MOST_COMMANDS:,} lines", WRONG_WORDS)

    def worn(self, trace: Trace, found: Found, output: Output) -> Worn:
        """Counts the writes of a run."""
        written, answers = counted(output.data, self.repeat * len(found.made.commands), self.comparison.program.path)
        return Worn(found.settings, trace.name, self.repeat * found.count_of_units("write"), dict(written),
                    {word: count for word, count in answers.items() if word not in DONE}, found.with_policy)


@dataclass(frozen=True)
class Lifetimes:
    """What was found, with the rate (line writes of the workload a second) and how many writes a line takes."""

    worn: List[Worn]
    notes: List[str]
    rate: float
    limit: int
    top: int

    def rows(self) -> List[Dict[str, Any]]:
        """A row for each part of each design."""
        rows = []
        for worn in self.worn:
            for part, (word, lines) in enumerate(zip(PART_WORDS, part_sizes(worn.settings))):
                if not lines:
                    continue
                counts = worn.of_part(part)
                total, most = sum(counts.values()), max(counts.values(), default=0)
                hottest = min((line for line, count in counts.items() if count == most), default=None)
                rows.append({
                    **worn.design, "workload_writes": worn.writes, "part": word, "lines": lines, "lines_written": len(counts), "writes": total,
                    "mean_of_written": round(total / len(counts), 3) if counts else None, "greatest": most,
                    "hottest": worn.name_of(hottest) if hottest is not None else None,
                    "seconds": seconds_to(self.limit, most, worn, self.rate), "histogram": bins_of(counts, lines)})
        return rows

    def heads(self) -> List[str]:
        """What stands before the tables."""
        return [f"lifetime: of a line that takes {self.limit:,} writes, with the workload again and again at {self.rate:,.0f} line "
                "writes a second; the first writes of formatting aside"]

    def text(self) -> str:
        """It for people."""
        parts = ["".join(f"{head}\n" for head in self.heads())]
        for worn, rows in self.by_design():
            parts.append(f"\n{worn.trace_name}: {worn.name}: {worn.writes:,} lines written\n")
            heads = [["", "", "lines", "", "mean of", "", "", "lifetime of"],
                     ["part", "lines", "written", "writes", "these", "most", "the hottest line", "that line"]]
            parts.append(table_text(heads, [[
                row["part"], f"{row['lines']:,}", f"{row['lines_written']:,}", f"{row['writes']:,}",
                "-" if row["mean_of_written"] is None else f"{row['mean_of_written']:.1f}", f"{row['greatest']:,}", row["hottest"] or "-",
                time_text(row["seconds"])] for row in rows], left=(0, 6)))
            parts.append("\n" + self.histogram(rows))
            parts.append("\nhottest lines\n" + table_text([["line", "writes", "what it is"]], [
                [str(line), f"{count:,}", worn.name_of(line)] for line, count in worn.hottest(self.top)], left=(2,)))
        return "".join(parts) + ("\n" if self.notes else "") + "".join(f"{note}\n" for note in self.notes)

    def histogram(self, rows: Sequence[Dict[str, Any]]) -> str:
        """How many lines of each part have how many writes."""
        names = max((list(row["histogram"]) for row in rows), key=len)
        return table_text([["lines by number of writes", *names]], [
            [row["part"], *(f"{row['histogram'].get(name, 0):,}" for name in names)] for row in rows], left=(0,))

    def by_design(self) -> List[Tuple[Worn, List[Dict[str, Any]]]]:
        """The rows of each design."""
        rows = self.rows()
        found = []
        for worn in self.worn:
            count = sum(lines > 0 for lines in part_sizes(worn.settings))
            found.append((worn, rows[:count]))
            rows = rows[count:]
        return found

    def latex(self) -> str:
        """The rows as a table for LaTeX; heads and notes are comments."""
        table = latex_text(["design", "part", "lines", "writes", "most", "hottest", "lifetime"], [
            [row["design"], row["part"], str(row["lines"]), str(row["writes"]), str(row["greatest"]), row["hottest"] or "-",
             time_text(row["seconds"])] for row in self.rows()], left=(0, 1, 5))
        return table + "".join(f"% {note}\n" for note in [*self.heads(), *self.notes])

    def csv(self) -> str:
        """The rows as CSV, without the histograms."""
        rows = self.rows()
        names = [name for name in rows[0] if name != "histogram"]
        return csv_text(names, [[row[name] for name in names] for row in rows])

    def json(self) -> str:
        """All of it as JSON, which `explore draw` takes."""
        return json_text({"endurance": list(dict.fromkeys(worn.trace_name for worn in self.worn)), "rate": self.rate, "limit": self.limit,
                          "heads": self.heads(), "notes": self.notes, "parts": self.rows(),
                          "hottest": [{**worn.design, "line": line, "writes": count, "name": worn.name_of(line)}
                                      for worn in self.worn for line, count in worn.hottest(self.top)]})
