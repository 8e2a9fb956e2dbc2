"""Which line writes give a line the bytes that it had. The log names only the lines, so they are shown (`peek`) before and
after each command that writes them, and, if it writes one more than once, by a cut in between."""
from dataclasses import dataclass, replace
from typing import Dict, Iterator, List, Sequence, Set, Tuple

from .errors import ExploreError
from .program import MOST_LINES, Question, Recording, Run, text_of
from .together import Together
from .trace import TAMPERING_WORDS
from .traced import Step, Traced

MOST_SHOWN, LEAST_SHOWN = 200_000, 10_000
SHOWN_BYTES = len("raw ") + 128 + len("\n")


@dataclass(frozen=True)
class Showing:
    """The lines that are shown before a command, and after it: not before it if they are known, since they were shown and
    nothing has written them, and not after an exhibit, which ends the run."""

    index: int
    before: Tuple[int, ...]
    after: Tuple[int, ...]


@dataclass(frozen=True)
class Unsettled:
    """A line as a step of a command writes it: cuts show that from the one just after the step up to one after `last` steps."""

    number: int
    line: int
    last: int


def cuts_within(unsettled: Sequence[Unsettled]) -> Iterator[Tuple[int, List[Tuple[int, int]]]]:
    """The fewest cuts of a command that show all of these, each after how many steps, with the steps that it shows and their
    lines."""
    cut = -1
    shown: List[Tuple[int, int]] = []
    for each in sorted(unsettled, key=lambda each: each.last):
        if each.number > cut:
            if shown:
                yield cut, shown
            cut, shown = each.last, []
        shown.append((each.number, each.line))
    if shown:
        yield cut, shown


def written_lines(traced: Traced) -> List[int]:
    """The lines that a command writes, each once."""
    return list(dict.fromkeys(step.place.line for step in traced.steps if step.place is not None))


def showings(traced: Sequence[Traced], chosen: Set[int]) -> Iterator[Showing]:
    """What is shown at these commands of a trace that write."""
    known: Set[int] = set()
    for index, each in enumerate(traced):
        lines = written_lines(each)
        if each.command.word in TAMPERING_WORDS:
            known.clear()
        if index not in chosen:
            known.difference_update(lines)
        elif lines:
            before = tuple(line for line in lines if line not in known)
            yield Showing(index, before, () if each.reply.is_exhibit else tuple(lines))
            known.update(lines)


def in_parts(shown: Iterator[Showing], most: int) -> List[List[Showing]]:
    """The same in parts in which no more lines are shown, except for a part that is one command."""
    parts: List[List[Showing]] = []
    room = 0
    for each in shown:
        count = len(each.before) + len(each.after)
        if not parts or room < count:
            parts.append([])
            room = most
        parts[-1].append(each)
        room -= count
    return parts


def peeks(lines: Sequence[int]) -> List[bytes]:
    """The commands that show lines."""
    return [b"peek %d" % line for line in lines]


def shown_in(data: bytes, at: int, count: int) -> List[bytes]:
    """So many lines that are shown from a place in the output on."""
    lines = [data[start:start + SHOWN_BYTES] for start in range(at, at + SHOWN_BYTES * count, SHOWN_BYTES)]
    if any(len(line) != SHOWN_BYTES or not line.startswith(b"raw ") or line.find(b"\n") != SHOWN_BYTES - 1 for line in lines):
        raise ExploreError("the program does not show each device line that it writes")
    return lines


class SameBytes:
    """Looks at the line writes of one trace."""

    def __init__(self, recording: Recording, together: Together, traced: Sequence[Traced], chosen: Set[int]) -> None:
        self.recording = recording
        self.together = together
        self.traced = traced
        room = MOST_LINES - len(recording.commands)
        self.parts = in_parts(showings(traced, chosen), max(LEAST_SHOWN, min(MOST_SHOWN, room)))
        self.known: Dict[int, bytes] = {}

    def run_of(self, part: Sequence[Showing]) -> Run:
        """The run in which lines are shown at the commands of a part."""
        script, ends, done = self.recording.script, self.recording.script_ends, 0
        pieces: List[bytes] = []
        for each in part:
            pieces += [script[ends[done]:ends[each.index]], text_of(peeks(each.before)),
                       script[ends[each.index]:ends[each.index + 1]], text_of(peeks(each.after))]
            done = each.index + 1
        return Run(b"".join(pieces), self.recording.settings)

    def states(self) -> Iterator[Tuple[int, Dict[int, bytes], Dict[int, bytes]]]:
        """Each command that is looked at, with the lines that it writes as they were before it and as they are after it."""
        runs = [self.run_of(part) for part in self.parts]
        for part, output in zip(self.parts, self.together.runs(runs, "bytes of lines")):
            data, at, done = output.data, 0, 0
            for each in part:
                at = self.behind(data, at, done, each.index)
                self.known.update(zip(each.before, shown_in(data, at, len(each.before))))
                at = self.behind(data, at + SHOWN_BYTES * len(each.before), each.index, each.index + 1)
                new = dict(zip(each.after, shown_in(data, at, len(each.after))))
                at += SHOWN_BYTES * len(each.after)
                yield each.index, {line: self.known[line] for line in written_lines(self.traced[each.index])}, new
                self.known.update(new)
                done = each.index + 1

    def behind(self, data: bytes, at: int, first: int, last: int) -> int:
        """The end of the replies to these commands, which begin at `at` in the output."""
        ends = self.recording.output_ends
        replies = self.recording.output[ends[first]:ends[last]]
        if not data.startswith(replies, at):
            raise ExploreError(f"{self.recording.program.path} does not answer the same when lines are shown in between")
        return at + len(replies)

    def between(self) -> Dict[Tuple[int, int], Dict[int, bytes]]:
        """The lines that a command writes again later, or that can't be shown after it, as they are after a step of it, by
        the command and the step's number in it."""
        wanted = [(each.index, cut, shown) for part in self.parts for each in part
                  for cut, shown in cuts_within(self.unsettled(each.index))]
        questions = [Question(index, (b"cut %d" % cut, self.recording.commands[index].text),
                              text_of(peeks([line for _, line in shown]))) for index, cut, shown in wanted]
        if not questions:
            return {}
        answers = self.together.answers(self.recording, questions, len(questions), "bytes of lines written twice")
        return {(index, number): {line: data}
                for (index, _, shown), (_, told) in zip(wanted, answers)
                for (number, line), data in zip(shown, shown_in(told, len(told) - SHOWN_BYTES * len(shown), len(shown)))}

    def unsettled(self, index: int) -> List[Unsettled]:
        """The steps of a command after which the line that they write has to be shown by a cut."""
        each = self.traced[index]
        writes = [(number, step.place.line) for number, step in enumerate(each.steps, 1) if step.place is not None]
        found: List[Unsettled] = []
        next_of: Dict[int, int] = {line: len(each.steps) for _, line in writes} if each.reply.is_exhibit else {}
        for number, line in reversed(writes):
            if number < next_of.get(line, 0):
                found.append(Unsettled(number, line, next_of[line] - 1))
            next_of[line] = number
        return found

    def told(self) -> List[Traced]:
        """All commands, and of each write that was looked at whether its line had these bytes."""
        between = self.between()
        told = list(self.traced)
        for index, lines, after in self.states():
            steps: List[Step] = []
            for number, step in enumerate(told[index].steps, 1):
                if step.place is not None:
                    line = step.place.line
                    new = between.get((index, number), after).get(line)
                    step = replace(step, again=None if new is None else new == lines[line])
                    lines[line] = new or b""
                steps.append(step)
            told[index] = replace(told[index], steps=tuple(steps))
        return told
