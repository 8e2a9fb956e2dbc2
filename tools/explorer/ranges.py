"""Cuts in a row that leave the same, told together: what a command is worth at each of its steps."""
from dataclasses import dataclass
from typing import Any, Callable, Dict, List, Optional, Sequence, Tuple

from .accesses import told_steps
from .cuts import Cut
from .output import json_text, markdown_text, plural, table_text
from .program import Recording
from .trace import short_text
from .traced import ARMS, LATCH, Step, Traced

# What recovery costs, besides what it finds.
WORK = frozenset(("trials", "digests", "steps"))
START = "its beginning"


@dataclass(frozen=True)
class Range:
    """Cuts in a row in one command, or power off after the trace. `since` is the step from which on they leave this, if
    that is known."""

    cuts: Tuple[Cut, ...]
    since: str
    verdict: str

    @property
    def first(self) -> Cut:
        """The first of them."""
        return self.cuts[0]

    @property
    def steps_text(self) -> str:
        """After how many of the command's steps they come."""
        return span_text([cut.number for cut in self.cuts]) if self.first.command else ""

    @property
    def answer(self) -> str:
        """What the command answers, without its steps."""
        return without_last_number(self.first.answer) if self.first.command else "off"

    def numbers(self, place: int) -> str:
        """One of recovery's numbers, from its least to its greatest."""
        found = [numbers[place] for cut in self.cuts for numbers in [cut.recovery.numbers] if numbers]
        return span_text([min(found), max(found)]) if found else ""


def span_text(numbers: Sequence[int]) -> str:
    """Numbers in a row, as the first and the last one."""
    return str(numbers[0]) if numbers[0] == numbers[-1] else f"{numbers[0]} to {numbers[-1]}"


def without_last_number(answer: str) -> str:
    """An answer without the number of its steps."""
    words = answer.split(" ")
    return " ".join(words[:-1]) if len(words) > 1 and words[-1].isdigit() else answer


def left_by(cut: Cut) -> Tuple[Any, ...]:
    """What a cut leaves, without what it takes to recover it."""
    numbers = cut.recovery.numbers
    found = cut.recovery.answer if numbers is None else \
        [number for name, number in zip(cut.recovery.names, numbers) if name not in WORK]
    return (cut.index, cut.command is None, without_last_number(cut.answer), found, cut.others, cut.lost, cut.unread)


def ranges_of(cuts: Sequence[Cut], recording: Recording, verdict_of: Optional[Callable[[Cut], str]] = None) -> List[Range]:
    """The ranges of a trace's cuts, with what the log reports of the steps that they begin at."""
    groups: List[List[Cut]] = []
    last: Any = None
    for cut in cuts:
        left = (left_by(cut), verdict_of(cut) if verdict_of else "")
        if left != last:
            groups.append([])
        groups[-1].append(cut)
        last = left
    told = told_steps(recording, False)
    return [Range(tuple(group), since(group[0], told), verdict_of(group[0]) if verdict_of else "") for group in groups]


def since(cut: Cut, told: Sequence[Traced]) -> str:
    """The step that comes just before a cut; nothing at the end of the trace."""
    if cut.command is None:
        return ""
    return step_text(told[cut.index].steps, cut.number - 1) if cut.number else START


def step_text(steps: Sequence[Step], number: int) -> str:
    """A step in words: the line that it writes, and of a latch that arms a group the lines of the group, if they are
    written."""
    step = steps[number]
    if step.kind != LATCH or step.does != ARMS:
        return step.text if step.place is None else f"write of {step.place.name}"
    lines = [each.place.name for each in steps[number + 1:number + 1 + step.group] if each.place is not None]
    return f"latch: arms {', '.join(lines)}" if len(lines) == step.group else step.text


def has(found: Sequence[Range], what: str) -> bool:
    """Whether a column has anything in it."""
    return any(getattr(each, what) for each in found)


def others_text(cut: Cut) -> str:
    """The lines that read otherwise, and the answer of a recovery that didn't go through."""
    return cut.others_text if cut.recovery.numbers else f"{cut.others_text}; on answers {short_text(cut.recovery.answer)}"


def columns_of(found: Sequence[Range], names: Sequence[str]) -> List[Tuple[str, bool, Callable[[Range], str]]]:
    """The columns: the head of each, whether it begins at the left, and its cell."""
    columns: List[Tuple[str, bool, Callable[[Range], str]]] = [
        ("trace line", False, lambda each: str(each.first.command.number) if each.first.command else ""),
        ("command", True, lambda each: each.first.command.short if each.first.command else "end of the trace"),
        ("cut after", True, lambda each: each.steps_text)]
    if has(found, "since"):
        columns.append(("since", True, lambda each: each.since))
    columns += [("answer", True, lambda each: each.answer), ("writes lost", False, lambda each: str(len(each.first.lost)))]
    columns += [(f"recovery: {name}" if not place else name, False, lambda each, place=place: each.numbers(place))  # type: ignore[misc]
                for place, name in enumerate(names)]
    columns.append(("lines that read otherwise", True, lambda each: others_text(each.first)))
    if has(found, "verdict"):
        columns.append(("check", True, lambda each: each.verdict))
    return columns


def ranges_text(found: Sequence[Range], names: Sequence[str], is_markdown: bool) -> str:
    """The ranges for people, or as a table in Markdown."""
    columns = columns_of(found, names)
    heads = [head for head, _, _ in columns]
    rows = [[cell(each) for _, _, cell in columns] for each in found]
    left = [place for place, (_, is_left, _) in enumerate(columns) if is_left]
    if is_markdown:
        return markdown_text(heads, rows, left)
    count = sum(len(each.cuts) for each in found)
    return table_text([heads], rows, left) + f"\n{plural(count, 'cut')} in {plural(len(found), 'range')} that leave the same\n"


def ranges_json(found: Sequence[Range]) -> str:
    """The ranges for scripts."""
    return json_text([range_record(each) for each in found])


def range_record(each: Range) -> Dict[str, Any]:
    """A range for scripts."""
    first = each.first
    numbers = [cut.recovery.numbers for cut in each.cuts if cut.recovery.numbers]
    return {"trace_line": first.command.number if first.command else None,
            "command": " ".join(first.command.words) if first.command else "off",
            "first": first.number, "last": each.cuts[-1].number, "since": each.since or None, "answer": each.answer,
            "recovery": first.recovery.answer if not numbers else None,
            **{name: [min(row[place] for row in numbers), max(row[place] for row in numbers)] if numbers else None
               for place, name in enumerate(first.recovery.names)},
            "read_otherwise": [{"line": other.line, "before": other.before, "after": other.after} for other in first.others],
            "writes_lost": [{"port": port, "line": line, "trace_line": number} for port, line, number in first.lost],
            "unread": list(first.unread), **({"check": each.verdict} if each.verdict else {})}
