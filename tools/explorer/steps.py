"""Each persist step of a trace, as the program's log reports it."""
from collections import deque
from dataclasses import replace
from typing import Any, Dict, Iterator, List, Optional, Sequence

from .accesses import told_last, told_steps
from .errors import WRONG_WORDS, ExploreError
from .layout import Layout
from .output import csv_text, plural
from .program import Recording
from .same_bytes import SameBytes
from .together import Together
from .trace import number_of, short_text
from .traced import Step, Traced, Work


def mentioned_lines(recording: Recording) -> List[int]:
    """The lines of memory that the trace's writes and reads name."""
    lines = set()
    names = recording.settings.machine.names
    for command in recording.commands[:len(recording.replies)]:
        if command.word in names:
            number = number_of(command.words[names[command.word]])
            if number is not None and number < recording.settings.data_lines:
                lines.add(number)
    return sorted(lines)


def tampered_lines(recording: Recording, size: int) -> List[int]:
    """The device lines that the trace's attacker changes."""
    lines = set()
    tampers = recording.settings.machine.tampers
    for command in recording.commands[:len(recording.replies)]:
        if command.word in tampers:
            number = number_of(command.words[tampers[command.word]])
            if number is not None and number < size:
                lines.add(number)
    return sorted(lines)


class Totals:
    """How many persist steps each command takes."""

    def __init__(self, recording: Recording) -> None:
        self.recording = recording
        self.before_exhibit: Dict[int, int] = {}

    def of(self, index: int) -> int:
        """The steps of a command, as its answer reports them or as they were counted."""
        return self.before_exhibit.get(index, self.recording.steps(index) or 0)

    def count(self, indexes: Sequence[int]) -> None:
        """Counts, in the log, the steps of a command among these that ends the run with an exhibit."""
        for index in indexes:
            if self.recording.steps(index) is None:
                self.before_exhibit[index] = told_last(self.recording)


def check_layout(recording: Recording) -> None:
    """Checks that the device has the size that the layout says. Errors: ExploreError."""
    size = Layout(recording.settings).size
    replies = recording.ask(0, [b"peek %d" % (size - 1), b"peek %d" % size])
    if [reply.answer.split(" ")[0] for reply in replies] != ["raw", "range"]:
        raise ExploreError(f"{recording.program.path} does not answer as pmem does: its device does not have the {size} lines that "
                           "docs/MACHINE.md lists")


def stepping_indexes(recording: Recording, lines: Optional[range]) -> List[int]:
    """The commands that took steps, or may have, among those on these lines of the trace."""
    if lines is not None and lines.start > recording.trace.line_count:
        raise ExploreError(f"there is no line {lines.start} in {recording.trace.name}: it has "
                           f"{recording.trace.line_count} lines", WRONG_WORDS)
    return [index for index in range(len(recording.replies))
            if recording.commands[index].word in recording.settings.machine.stepping and recording.steps(index) != 0
            and (lines is None or recording.commands[index].number in lines)]


def trace_steps(recording: Recording, together: Together, lines: Optional[range] = None,
                with_work: bool = False) -> List[Traced]:
    """The commands on these lines of the trace with their replies and steps, and if it is asked for with their work."""
    indexes = stepping_indexes(recording, lines)
    if recording.settings.machine.has_counts:
        check_layout(recording)
        traced = SameBytes(recording, together, told_steps(recording, with_work), set(indexes)).told()
    else:
        traced = [with_unknown_bytes(each) for each in told_steps(recording, with_work)]
    return [each for each in traced if lines is None or each.command.number in lines]


def with_unknown_bytes(traced: Traced) -> Traced:
    """A command of a machine that doesn't show its device, so that it isn't told whether a line had its bytes already."""
    return replace(traced, steps=tuple(step if step.place is None else replace(step, again=None) for step in traced.steps))


def steps_text(traced: Sequence[Traced], whole: bool) -> str:
    """The steps for people: each command, its reply, and under it each step."""
    lines: List[str] = []
    width = len(str(max((entry.command.number for entry in traced), default=0)))
    count = max((step.number for entry in traced for step in entry.steps), default=0)
    places = len(str(count))
    indent = " " * (width + 2)
    for entry in traced:
        command = " ".join(entry.command.words) if whole else entry.command.short
        lines.append(f"{entry.command.number:>{width}}  {command}")
        for text in entry.reply.lines:
            lines.append(f"{indent}> {text if whole else short_text(text)}")
        lines += [f"{indent}  {text}" for text in access_texts(entry, places)]
    taken = sum(len(entry.steps) for entry in traced)
    lines.append(f"{plural(len(traced), 'command')}, {plural(taken, 'persist step')}{work_text(traced)}")
    return "\n".join(lines) + "\n"


def access_texts(entry: Traced, places: int) -> Iterator[str]:
    """The steps of a command; if they are known, also what it read between, and how much work it was."""
    reads = deque(entry.work.reads if entry.work else ())
    for step in entry.steps:
        while reads and reads[0][0] < step.number:
            yield f"{'read':{places + 7}}{reads.popleft()[1].text}"
        yield f"step {step.number:>{places}}  {step.text}"
    for _, place in reads:
        yield f"{'read':{places + 7}}{place.text}"
    if entry.work and (entry.work.reads or entry.work.tags or entry.work.digests):
        yield entry.work.text


def work_text(traced: Sequence[Traced]) -> str:
    """The sum of the work of these commands, if it is known."""
    works = [entry.work for entry in traced if entry.work]
    if not works:
        return ""
    total = Work(tuple(read for work in works for read in work.reads), sum(work.tags for work in works),
                 sum(work.digests for work in works))
    return f", {total.text}"


def step_record(step: Step) -> Dict[str, Any]:
    """A step for scripts."""
    place = step.place
    return {"step": step.number, "kind": step.kind, "device_line": place.line if place else None,
            "part": step.part, "name": place.name if place else None,
            "same_bytes": step.again,
            **({"latch": step.does, "group_lines": step.group} if step.does else {})}


def work_record(work: Work) -> Dict[str, Any]:
    """The work of a command, for scripts."""
    return {"reads": [{"steps_before": before, "device_line": place.line, "part": place.part, "name": place.name}
                      for before, place in work.reads], "tags": work.tags, "digests": work.digests}


def steps_records(traced: Sequence[Traced]) -> List[Dict[str, Any]]:
    """The steps for scripts."""
    return [{"trace_line": entry.command.number, "command": " ".join(entry.command.words),
             "marks": list(entry.reply.marks), "answer": entry.reply.answer,
             "steps": [step_record(step) for step in entry.steps],
             **(work_record(entry.work) if entry.work else {})}
            for entry in traced]


STEP_COLUMNS = ("trace_line", "command", "answer", "step", "kind", "device_line", "part", "name", "same_bytes", "latch", "group_lines")


def steps_csv(traced: Sequence[Traced]) -> str:
    """The steps as CSV: a row for each; a command without steps has a row without one, and a read one of the kind `read`."""
    rows: List[List[Any]] = []
    for record in steps_records(traced):
        reads = [{"step": read["steps_before"], "kind": "read", **{name: read[name] for name in ("device_line", "part", "name")}}
                 for read in record.get("reads", [])]
        for each in sorted([*record["steps"], *reads], key=lambda one: (one["step"], one["kind"] == "read")) or [{}]:
            rows.append([{**record, **each}.get(name) for name in STEP_COLUMNS])
    return csv_text(STEP_COLUMNS, rows)
