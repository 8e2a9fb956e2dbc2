"""What the cuts of a trace leave, each outcome once, and one's own question about it."""
import hashlib
import os
from pathlib import Path
from typing import Any, Dict, List, Optional, Sequence, Tuple

from .cuts import Cut, Readings, Stored, all_cuts, cut_record, flat_record, heads_of, row_of
from .checks import reasons
from .output import csv_text, plural, table_text
from .package import LINE_BYTES
from .program import Recording
from .rows import Event
from .symbols import Names
from .trace import short_text, shown_path, told_line
from .verdicts import ERROR, WRONG, Outcome, Verdict

MOST_CHANGED = 64
MOST_EVENTS = 8


class Outcomes:
    """The outcomes of a trace's cuts, gathered as these are found."""

    def __init__(self, recording: Recording, lines: Sequence[int], names: Optional[Names] = None,
                 addresses: Optional[Tuple[int, int]] = None) -> None:
        self.recording = recording
        self.lines = lines
        self.names = names or Names(recording.trace)
        self.addresses = addresses
        self.base: Readings = []
        self.by_memory: Dict[bytes, Outcome] = {}
        self.by_cut: Dict[Any, Outcome] = {}

    @property
    def all(self) -> List[Outcome]:
        """All of them, in the order of their first cuts."""
        return list(self.by_memory.values())

    def add(self, cut: Cut, readings: Readings) -> None:
        """Notes what a cut leaves."""
        refused = b"" if cut.recovery.numbers else cut.recovery.answer.encode()
        key = hashlib.blake2b(b"\n".join((refused, *readings)), digest_size=32).digest()
        outcome = self.by_memory.get(key)
        if outcome is None:
            outcome = self.by_memory[key] = self.outcome(readings)
        outcome.cuts.append(cut)
        self.by_cut[cut.key] = outcome

    def outcome(self, readings: Readings) -> Outcome:
        """A new outcome, told by what differs from another one's."""
        changed = {place: new for place, (old, new) in enumerate(zip(self.base, readings)) if old != new}
        if len(self.base) != len(readings) or len(changed) > MOST_CHANGED:
            self.base, changed = readings, {}
        return Outcome(len(self.by_memory) + 1, self.base, changed)

    def of(self, cut: Cut) -> Outcome:
        """The outcome of a cut."""
        return self.by_cut[cut.key]

    def verdict_of(self, cut: Cut) -> str:
        """The verdict of a cut in a word."""
        return verdict_text(self.of(cut))

    def number_and_verdict(self, cut: Cut) -> Tuple[int, str]:
        """The number of a cut's outcome, and its verdict in a word."""
        outcome = self.of(cut)
        return outcome.number, verdict_text(outcome)

    def verdict_record_of(self, cut: Cut) -> Dict[str, Any]:
        """The verdict of a cut for scripts, if there is one."""
        outcome = self.by_cut.get(cut.key)
        return verdict_record(outcome) if outcome else {}

    def row_of(self, cut: Cut) -> Dict[str, Any]:
        """The number of a cut's outcome and its verdict, for a CSV."""
        outcome = self.by_cut.get(cut.key)
        return {"outcome": outcome.number, **verdict_record(outcome)} if outcome else {}

    def memory_of(self, outcome: Outcome) -> bytes:
        """The recovered memory, line by line from line 0 on, or the bytes of the other program's `addresses`; what wasn't read is
        zero."""
        low, high = self.addresses or (0, LINE_BYTES * self.recording.settings.data_lines - 1)
        memory = bytearray(high - low + 1)
        for line, reading in zip(self.lines, outcome.readings):
            data = bytes.fromhex(reading.split(b" ")[1].decode())
            for address in self.names.addresses_of(line) if self.addresses else [LINE_BYTES * line]:
                start = address - low
                if -LINE_BYTES < start < len(memory):
                    part = data[max(0, -start):len(memory) - start]
                    memory[max(0, start):max(0, start) + len(part)] = part
        return bytes(memory)

    def lines_text(self, outcome: Outcome, names: Names) -> str:
        """A row for each line that was read: its number, its addresses, the variables in it, and its bytes."""
        return "".join(f"{line}\t{names.address_text(line)}\t{names.symbol_text(line)}\t{reading.split(b' ')[1].decode()}\n"
                       for line, reading in zip(self.lines, outcome.readings))

    def write_files(self, outcome: Outcome, image: Path, lines: Path) -> None:
        """Writes the two files that a check is given."""
        image.write_bytes(self.memory_of(outcome))
        lines.write_text(self.lines_text(outcome, self.names), encoding="utf-8")

    def unchecked(self) -> List[Outcome]:
        """The outcomes that have no verdict and can be asked about. Those without a memory get theirs here."""
        for outcome in self.all:
            if outcome.verdict is None and not outcome.is_recovered:
                outcome.verdict = Verdict(False, f"on answers {short_text(outcome.first.recovery.answer)}")
        return [outcome for outcome in self.all if outcome.verdict is None]

    def wrong(self) -> List[Outcome]:
        """Those that aren't all right."""
        return [outcome for outcome in self.all if outcome.verdict is not None and outcome.verdict.text == WRONG]

    def broken(self) -> List[Outcome]:
        """Those that couldn't be checked."""
        return [outcome for outcome in self.all if outcome.verdict is not None and outcome.verdict.is_error]

    def shortest_wrong(self) -> Optional[Outcome]:
        """The one that the fewest commands lead to."""
        wrong = sorted(self.wrong(), key=lambda outcome: outcome.first.key[:3])
        return wrong[0] if wrong else None


def outcomes_text(outcomes: Outcomes) -> str:
    """The outcomes for people: each once, with its first cut and how many cuts lead to it."""
    names = outcomes.recording.settings.machine.recovery
    heads = [["outcome", "cuts", *row] for row in heads_of(names)]
    heads[0][:2], heads[1][:2] = ["", ""], ["outcome", "cuts"]
    checked = any(outcome.verdict for outcome in outcomes.all)
    if checked:
        heads[1][2:2], heads[0][2:2] = ["check"], [""]
    rows = [[str(outcome.number), str(len(outcome.cuts)), *([verdict_text(outcome)] if checked else []),
             *row_of(outcome.first)] for outcome in outcomes.all]
    left = [place + checked for place in (4, 5, 7 + len(names))] + ([2] if checked else [])
    return table_text(heads, rows, left=left) + "\n" + "".join(f"{line}\n" for line in notes_of(outcomes))


def verdict_text(outcome: Outcome) -> str:
    """An outcome's verdict in a word."""
    return outcome.verdict.text if outcome.verdict else "-"


def notes_of(outcomes: Outcomes) -> List[str]:
    """How many outcomes there are, and which aren't all right."""
    count = sum(len(outcome.cuts) for outcome in outcomes.all)
    notes = [f"{plural(count, 'cut')}, {plural(len(outcomes.all), 'outcome')}"]
    wrong = outcomes.wrong()
    broken = outcomes.broken()
    if any(outcome.verdict for outcome in outcomes.all):
        cuts = sum(len(outcome.cuts) for outcome in wrong)
        left = sum(outcome.verdict is None for outcome in outcomes.all)
        notes.append(f"{plural(len(wrong), 'outcome')} of {plural(cuts, 'cut')} fail{'s' * (len(wrong) == 1)} the check" if wrong else
                     "all pass the check" if not (broken or left) else "none fails the check")
        if left:
            notes.append(f"{plural(left, 'outcome')} not checked: the budget is exhausted")
        notes += [f"{plural(count, 'outcome')} could not be checked: {reason}" for reason, count in reasons(broken).items()]
    shortest = outcomes.shortest_wrong()
    if shortest is not None and shortest.verdict is not None:
        notes.append(f"the first: {moment_text(shortest.first)}: {shortest.verdict.reason}")
    return notes


def moment_text(cut: Cut) -> str:
    """A cut in words, with the row and the source that it comes in."""
    if cut.stored is not None:
        return stored_text(cut.stored)
    row = f"{cut.row.place}: " if cut.row else ""
    if cut.script:
        lines = ", ".join(str(number) for _, _, number in cut.written) or "none"
        place = f"before line {cut.command.number}" if cut.command else "at the end of the trace"
        return f"{row}{place}, of the writes that wait those of the trace's lines {lines} alone written"
    if cut.command is None:
        return "power off after the trace"
    again = "" if cut.recovery_steps is None else f", and the recovery cut after {cut.recovery_steps}"
    return f"{row}line {cut.command.number}, {cut.command.short}, cut after {cut.number} of its steps{again}"


def stored_text(stored: Stored) -> str:
    """Which stores memory has, in words."""
    place = f"before {stored.before.place} ({stored.before.word})" if stored.before else "at the end"
    texts = [f"{what} {events_text(events)}" for what, events in
             (("memory has", stored.kept), ("has in part", stored.partly), ("misses", stored.missing)) if events]
    return f"{place}: " + ", ".join(texts or ["every store is sure"])


def events_text(events: Sequence[Event]) -> str:
    """Rows in words, each once."""
    found = list(dict.fromkeys(event.short for event in events))
    more = len(found) - MOST_EVENTS
    return ", ".join(found[:MOST_EVENTS]) + (f" and {more} more" if more > 0 else "")


def outcome_records(outcomes: Outcomes) -> List[Dict[str, Any]]:
    """The outcomes with their first cuts."""
    return [{"outcome": outcome.number, "cuts": len(outcome.cuts), **verdict_record(outcome), "first": cut_record(outcome.first)}
            for outcome in outcomes.all]


def outcomes_csv(outcomes: Outcomes, names: Sequence[str]) -> str:
    """The outcomes as CSV, each with its first cut."""
    columns = ["outcome", "cuts", "check", "reason", "steps_before", "trace_line", "row", "source", "section", "command", "answer", "recovery",
               *names, "read_otherwise", "writes_lost", "in_memory", "missing"]
    rows = [{**flat_record(outcome.first, verdict_record(outcome)), "outcome": outcome.number, "cuts": len(outcome.cuts)}
            for outcome in outcomes.all]
    return csv_text(columns, [[row.get(name) for name in columns] for row in rows])


def verdict_record(outcome: Outcome) -> Dict[str, Any]:
    """A verdict for scripts, if there is one."""
    return {"check": outcome.verdict.text, "reason": outcome.verdict.reason} if outcome.verdict else {}


def failing_trace(outcomes: Outcomes, outcome: Outcome, check: str) -> str:
    """The trace that leads to an outcome, and reads the lines that were asked about."""
    recording, cut = outcomes.recording, outcome.first
    commands = [command.text.decode("ascii", "replace") for command in recording.commands[:cut.index]]
    if cut.script:
        commands += [text.decode("ascii", "replace") for text in cut.script]
    elif cut.command is None:
        commands += ["off", "on"]
    else:
        commands += [f"cut {cut.number}", cut.command.text.decode("ascii", "replace")]
        commands += [f"cut {cut.recovery_steps}", "on", "on"] if cut.recovery_steps is not None else ["on"]
    commands += [recording.settings.machine.read(line).decode() for line in outcomes.lines]
    reason = outcome.verdict.reason if outcome.verdict else ""
    return "\n".join([f"# Of {shown_path(recording.trace.name)[:200]}: {moment_text(cut)}.",
                      f"# {told_line(os.fsencode(check))} says: {reason}",
                      f"# To run it: pmem {' '.join(recording.settings.words())}", *commands]) + "\n"


def attribute(text: str) -> str:
    """A text as an attribute of XML, with its quotes."""
    from xml.sax.saxutils import quoteattr  # Here, as it brings much along.
    return quoteattr(text)


def junit_text(cuts: Sequence[Cut], outcomes: Outcomes) -> str:
    """A test for each command that was cut, and for each moment whose stores or writes were put in other orders, as JUnit writes
    them. A check that failed itself is an error and not a failure."""
    tests: Dict[Tuple[int, int], List[Cut]] = {}
    for cut in all_cuts(cuts):
        row = -1 if cut.stored is None else cut.stored.before.row if cut.stored.before else 0
        tests.setdefault((cut.command.number if cut.command else -1, row if cut.stored else -2 if cut.script else -3), []).append(cut)
    name = attribute(shown_path(os.path.basename(outcomes.recording.trace.name)))
    cases = [junit_case(some, outcomes, name) for some in tests.values()]
    failures, errors = sum("<failure" in case for case in cases), sum("<error" in case for case in cases)
    return ('<?xml version="1.0" encoding="UTF-8"?>\n'
            f'<testsuite name={name} tests="{len(cases)}" failures="{failures}" errors="{errors}" skipped="0">\n'
            + "".join(cases) + "</testsuite>\n")


def junit_case(cuts: Sequence[Cut], outcomes: Outcomes, name: str) -> str:
    """The test of a command."""
    case = attribute(junit_name(cuts[0]))
    parts = []
    for kind, word in (("failure", WRONG), ("error", ERROR)):
        told = [f"{moment_text(cut)}: {verdict.reason}" for cut in cuts for verdict in [outcomes.of(cut).verdict]
                if verdict is not None and verdict.text == word]
        if told:
            parts.append(f"    <{kind} message={attribute(chr(10).join(dict.fromkeys(told)))}/>\n")
    if not parts:
        return f"  <testcase classname={name} name={case}/>\n"
    return f"  <testcase classname={name} name={case}>\n" + "".join(parts) + "  </testcase>\n"


def junit_name(cut: Cut) -> str:
    """The name of the test that a cut belongs to."""
    if cut.stored is not None:
        before = cut.stored.before
        return f"{before.place}: {before.word}: any state of the stores before" if before else "the end: any state of the stores before"
    place = f"line {cut.command.number}: {cut.command.short}" if cut.command else "the end of the trace"
    if cut.row is not None and cut.command is not None:
        place = f"{place} ({cut.row.place})"
    return f"{place}: other orders" if cut.script else place
