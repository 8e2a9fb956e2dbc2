"""What a trace costs under different settings."""
import itertools
from dataclasses import dataclass, replace
from typing import Any, Dict, List, Optional, Sequence, Tuple

from .accesses import LINE, LOOK
from .cuts import Recovery
from .errors import ExploreError
from .layout import PARTS, Parts, layout_of
from .logged import Entry, entries_of
from .output import csv_text, json_text, latex_text, table_text
from .package import COUNTERS, NODES
from .program import MOST_LINES, Counts, Output, Recording, Reply, Run, check_length, counts_of, first_word, replies_of, text_of
from .settings import LATER, Settings
from .together import Together
from .trace import Command, Trace
from .waiting import Waiting

NUMBERS = ("levels", "sets", "ways", "loss")
# What a sweep varies: these numbers, and the options of the policy and of the queues, which results have only if one isn't the default.
VARIED = (*NUMBERS, *LATER)
FIELDS = ("levels", "sets", "ways", "loss", "writes", "reads", "out_of_range", "steps_per_write",
          "write_amplification", "metadata_reads_per_write", "digests_per_write", "metadata_reads_per_read",
          "digests_per_read", "recovery", "recovery_trials", "recovery_digests", "recovery_steps", "end")
MORE_FIELDS = ("machine", "commands")
METADATA = frozenset((PARTS.index(COUNTERS), PARTS.index(NODES)))
LATEX_NAMES = {"levels": "levels", "sets": "sets", "ways": "ways", "loss": "stop-loss", "writes": "writes",
               "steps_per_write": "steps/write", "write_amplification": "lines/write",
               "metadata_reads_per_write": "meta reads/write", "digests_per_write": "digests/write",
               "metadata_reads_per_read": "meta reads/read", "digests_per_read": "digests/read",
               "recovery_trials": "trials", "recovery_digests": "digests", "recovery_steps": "steps"}


@dataclass
class Tally:
    """What some commands of one kind cost together."""

    done: int = 0
    steps: int = 0
    metadata_reads: int = 0
    digests: int = 0

    def mean(self, total: int) -> Optional[float]:
        """A total for each one done."""
        return total / self.done if self.done else None


@dataclass(frozen=True)
class Cost:
    """What the trace costs under one setting."""

    settings: Settings
    writes: Tally
    reads: Tally
    line_writes: int
    out_of_range: int
    recovery: Optional[Recovery]
    end: str
    commands: int

    def record(self, with_policy: bool = False) -> Dict[str, Any]:
        """The numbers by name, in the order of `FIELDS` and `MORE_FIELDS`, and with the policy of `LATER`. What a machine lacks is None."""
        writes, reads = self.writes, self.reads
        recovery = {}
        if self.recovery is not None and self.recovery.numbers is not None:
            recovery = dict(zip(self.recovery.names, self.recovery.numbers))
        geometry = self.settings.geometry()
        values: List[Any] = [
            *(geometry.get(name) for name in NUMBERS), writes.done, reads.done, self.out_of_range,
            rounded(writes.mean(writes.steps)),
            *(rounded(value) for value in (
                writes.mean(self.line_writes), writes.mean(writes.metadata_reads), writes.mean(writes.digests),
                reads.mean(reads.metadata_reads), reads.mean(reads.digests))),
            self.recovery.answer if self.recovery else None,
            *(recovery.get(name) for name in ("trials", "digests", "steps")), self.end,
            self.settings.machine_name, self.commands]
        later = {name: getattr(self.settings, name) if name in self.settings.machine.options else None for name in LATER if with_policy}
        return {**dict(zip((*FIELDS, *MORE_FIELDS), values)), **later}


def rounded(value: Optional[float]) -> Optional[float]:
    """A mean, to three places."""
    return None if value is None else round(value, 3)


def writes_put(word: str, reply: Reply) -> Optional[int]:
    """How many writes a drain or a fence that was done has put; None for every other reply."""
    words = reply.answer.split(" ")
    if words[0] != "ok":
        return None
    if word == "drain":
        return 1
    return int(words[1]) if word == "fence" else None


def add_write(tally: Tally, put: int, reply: Reply, cost: Counts) -> None:
    """Adds a drain or fence. Each tag that no seal made was made to open a line, for two reads, its own and its
    tag line's; and each write reads the tag line that it changes. The other reads are of metadata."""
    seals = sum(mark.startswith("seal ") for mark in reply.marks)
    tally.done += put
    tally.steps += reply.steps or 0
    tally.digests += cost.digests
    tally.metadata_reads += cost.reads - 2 * (cost.tags - seals) - put


def add_read(tally: Tally, reply: Reply, cost: Counts) -> None:
    """Adds a read: its tag is made of two reads, of the line and its tag line; the other reads are of metadata."""
    tally.done += 1
    tally.steps += reply.steps or 0
    tally.digests += cost.digests
    tally.metadata_reads += cost.reads - 2 * cost.tags


def cost_of(settings: Settings, commands: Sequence[Command], replies: Sequence[Reply],
            counts: Sequence[Counts]) -> Cost:
    """The costs of a run; `counts` are those before each command, and at the end."""
    writes, reads, line_writes = Tally(), Tally(), 0
    for number, (command, reply) in enumerate(zip(commands, replies)):
        if number + 1 >= len(counts):
            break
        cost = counts[number + 1].since(counts[number])
        put = writes_put(command.word, reply)
        if put is not None:
            add_write(writes, put, reply, cost)
        elif command.word == "read" and first_word(reply.answer) == "line":
            add_read(reads, reply, cost)
        if command.word != "on" and not reply.is_cut:
            line_writes += cost.writes
    return Cost(settings, writes, reads, line_writes, 0, None, "", len(commands))


def cost_by_log(settings: Settings, commands: Sequence[Command], log: Sequence[Entry]) -> Cost:
    """The costs of a run of a machine that doesn't show its counts, from its log. A transaction's costs are those of all its lines."""
    writes, reads, waiting, line_writes = Tally(), Tally(), Waiting(), 0
    parts = Parts(layout_of(settings))
    for command, entry in zip(commands, log):
        reply = entry.reply
        word = first_word(reply.answer)
        tally: Optional[Tally] = None
        if command.word in settings.machine.writes and word in ("ok", "held"):
            writes.done += len(waiting.all()) if command.word == "commit" else 1
            tally = writes
        elif command.word == "read" and word == "line":
            reads.done += 1
            tally = reads
        if tally is not None:
            tally.steps += reply.steps or 0
            tally.digests += entry.digests
            tally.metadata_reads += sum(word == LOOK and parts.of(line) in METADATA for word, line in entry.accesses)
        if command.word != "on" and not reply.is_cut:
            line_writes += sum(word == LINE for word, _ in entry.accesses)
        waiting.go_on(command, reply)
    return Cost(settings, writes, reads, line_writes, 0, None, "", len(commands))


def script_of(settings: Settings, commands: Sequence[Command]) -> List[bytes]:
    """The trace, with `stat` before and after each command if the machine has it, and a cut at its end."""
    script = [command.text for command in commands]
    if settings.machine.has_counts:
        script = [line for text in script for line in (b"stat", text)] + [b"stat"]
    return [*script, b"off", b"on"]


def cost_in(output: Output, settings: Settings, commands: Sequence[Command], path: str) -> Cost:
    """What a trace costs, as the output of its script shows: with the log of a machine that doesn't show its counts."""
    count = len(script_of(settings, commands)) - 2
    if settings.machine.has_counts:
        replies = replies_of(output.lines)
        answered = replies[1:count:2]
        cost = cost_of(settings, commands, answered, [counts_of(reply.answer) for reply in replies[:count:2]])
    else:
        log = entries_of(output.data, path)
        replies = [entry.reply for entry in log]
        answered = replies[:count]
        cost = cost_by_log(settings, commands, log[:count])
    out_of_range = sum(reply.answer == "range" for reply in answered)
    recovery = Recovery(replies[-1].answer, settings.machine.recovery) if len(replies) == count + 2 else None
    end = first_word(replies[-1].answer) if replies and replies[-1].is_exhibit else "end"
    return replace(cost, out_of_range=out_of_range, recovery=recovery, end=end)


def settings_of(base: Settings, values: Dict[str, Sequence[Any]]) -> List[Settings]:
    """All settings with these values, the last one turning fastest."""
    lists = [list(dict.fromkeys(values.get(name) or [getattr(base, name)])) for name in VARIED]
    return [base.changed(**dict(zip(VARIED, chosen))) for chosen in itertools.product(*lists)]


def trace_sweep(trace: Trace, settings: Sequence[Settings], together: Together) -> List[Cost]:
    """What a trace costs under each setting. The first run stands alone: it reports what is wrong with the trace."""
    for each in settings:
        each.check()
    check_length(trace)
    count = len(script_of(settings[0], trace.commands))
    if count > MOST_LINES:
        raise ExploreError(f"{trace.name} has {len(trace.commands)} commands: with what a sweep asks besides that is {count} lines, and "
                           f"a trace has at most {MOST_LINES:,}")
    commands = Recording(together.program, settings[0], trace).commands
    runs = [Run(text_of(script_of(each, commands)), each) for each in settings]
    if not settings[0].machine.has_counts:
        together = together.with_log()
    return [cost_in(output, each, commands, together.program.path) for output, each in zip(together.runs(runs, "settings"), settings)]


def cell(value: Any) -> str:
    """A number of the table."""
    if value is None:
        return "-"
    return f"{value:.2f}" if isinstance(value, float) else str(value)


def records_of(costs: Sequence[Cost]) -> List[Dict[str, Any]]:
    """The numbers of each setting, with the policy and the queues if one of them isn't the default."""
    with_policy = any(cost.settings.policy() for cost in costs)
    return [cost.record(with_policy) for cost in costs]


def sweep_text(costs: Sequence[Cost]) -> str:
    """The sweep for people."""
    records = records_of(costs)
    later = [name for name in LATER if len({record.get(name) for record in records}) > 1 or any(name in cost.settings.policy() for cost in costs)]
    heads = [["", "", "", "", *("" for _ in later), "", "steps", "lines", "a write:", "", "a read:", "", "recovery:", "", ""],
             ["levels", "sets", "ways", "loss", *later, "writes", "a write", "a write", "meta reads", "digests", "meta reads",
              "digests", "trials", "digests", "steps"]]
    names = ("levels", "sets", "ways", "loss", *later, "writes", "steps_per_write", "write_amplification",
             "metadata_reads_per_write", "digests_per_write", "metadata_reads_per_read", "digests_per_read",
             "recovery_trials", "recovery_digests", "recovery_steps")
    table = table_text(heads, [[cell(record[name]) for name in names] for record in records], left=())
    return table + "".join(f"{note}\n" for note in notes_of(costs))


def sweep_latex(costs: Sequence[Cost]) -> str:
    """The sweep as a table for LaTeX; its notes stand behind it as comments."""
    records = records_of(costs)
    latex_names = {**{name: name for name in LATER if name in records[0]}, **LATEX_NAMES}
    names = [name for name in latex_names if any(record[name] is not None for record in records)]
    table = latex_text([latex_names[name] for name in names], [[cell(record[name]) for name in names] for record in records])
    return table + "".join(f"% {note}\n" for note in notes_of(costs))


def notes_of(costs: Sequence[Cost]) -> List[str]:
    """What a reader of the table should know of single settings."""
    notes: List[str] = []
    for cost in costs:
        numbers = ", ".join(f"{name} {value}" for name, value in {**cost.settings.geometry(), **cost.settings.policy()}.items())
        if cost.out_of_range:
            notes.append(f"{numbers}: {cost.out_of_range} commands name a place that is not there (range)")
        if cost.end != "end":
            notes.append(f"{numbers}: the run ends with an exhibit ({cost.end})")
        elif cost.recovery is not None and cost.recovery.numbers is None:
            notes.append(f"{numbers}: recovery at the end answers {cost.recovery.answer}")
    return notes


def sweep_csv(costs: Sequence[Cost]) -> str:
    """The sweep as CSV."""
    records = records_of(costs)
    return csv_text(list(records[0]), [list(record.values()) for record in records])


def sweep_json(costs: Sequence[Cost], trace: Trace) -> str:
    """The sweep as JSON, which `explore draw` takes."""
    return json_text({"sweep": trace.name, "settings": records_of(costs)})


def points_of(value: Any) -> Optional[Tuple[str, List[Dict[str, Any]]]]:
    """The name and the records of a sweep that was written as JSON; None for any other value."""
    if not isinstance(value, dict) or not isinstance(value.get("settings"), list):
        return None
    records = value["settings"]
    if not records or not all(isinstance(record, dict) and set(FIELDS) <= set(record) for record in records):
        return None
    return str(value.get("sweep", "")), records
