"""Cuts of recoveries (`cuts --twice`) of which one shows what others leave. If a recovery stands for those after several cuts
(`shared.py`), a cut of it stands for the cuts of those, and the log of both recoveries shows which:

For cuts during a group's lines, a recovery that is cut leaves the same chip, and the same lines except those that it didn't write. So
neither it nor the recovery after it may have looked at a line that it hadn't written.

For a cut behind the group's end, a recovery that is cut after some steps leaves the same as the recovery that finishes the group, if
that is cut after as many more steps as it needs for this."""
from dataclasses import dataclass
from typing import Dict, Iterator, List, Optional, Sequence, Tuple

from .moments import Moment
from .program import Question
from .shared import EXHIBITED, Known, Others, Shared, Stretch, finished, replies_of
from .together import Progress

# The commands of such a question: `cut`, the one that is cut, `cut`, `on` and `on`.
FIRST_RECOVERY, SECOND_RECOVERY = 3, 4


class Second:
    """What is printed to the question of a cut of the recovery after a stretch's first cut, in which these lines are read, and what
    that shows of others. `count`: that many lines of the stretch may have been written before; `is_finished`: whether the recovery
    began by finishing the group."""

    def __init__(self, moment: Moment, stretch: Stretch, lines: Sequence[int], data: bytes, path: str) -> None:
        found = list(replies_of(data, path))
        self.moment = moment
        self.lines = lines
        self.replies = [reply for reply, _ in found]
        self.readings = self.replies[SECOND_RECOVERY + 1:]
        self.is_whole = len(self.readings) == len(lines) and not any(each.startswith(EXHIBITED) for each in self.readings)
        self.count, self.is_finished = -1, False
        if self.is_whole and self.replies[FIRST_RECOVERY] == b"cut %d\n" % (moment.recovery_steps or 0):
            cut_log = b"\n" + data[found[FIRST_RECOVERY - 1][1]:found[FIRST_RECOVERY][1]]
            self.count = unknown_lines(stretch.lines, cut_log, b"\n" + data[found[FIRST_RECOVERY][1]:])
            self.is_finished = stretch.is_emptied and cut_log.startswith(finished(stretch.lines))

    def data(self, lines: Sequence[int]) -> Optional[bytes]:
        """All that is printed to its own question, in which these lines are read, without the log; None if that isn't known."""
        if lines == self.lines or not self.readings:
            return b"".join(self.replies)
        return b"".join([*self.replies[:SECOND_RECOVERY + 1], self.read(lines)]) if self.is_whole else None

    def read(self, lines: Sequence[int]) -> bytes:
        """What is printed to reads of these lines."""
        if lines == self.lines:
            return b"".join(self.readings)
        known = dict(zip(self.lines, self.readings))
        return b"".join([known[line] for line in lines])

    def told(self, cut: "Told", steps: int, lines: Sequence[int]) -> bytes:
        """What is printed to the question of another cut whose recovery is cut after that many steps."""
        return b"ok\n%b\nok\ncut %d\n" % (cut.answer, steps) + self.replies[SECOND_RECOVERY] + self.read(lines)


@dataclass(frozen=True)
class Told:
    """A cut of which another one told: that one's moment and stretch, and what answers the command that is cut."""

    first: Moment
    stretch: Stretch
    answer: bytes
    ahead: int

    @property
    def is_behind(self) -> bool:
        """Whether it comes behind the latch that empties the group."""
        return self.ahead < 0

    @property
    def more(self) -> int:
        """How many steps more the first one's recovery takes to the same state."""
        return len(self.stretch.lines) + 1 if self.is_behind else 0

    def is_told(self, second: Second) -> bool:
        """Whether a cut of the first one's recovery stands for that of this one."""
        return second.is_finished if self.is_behind else self.ahead <= second.count


def unknown_lines(lines: Sequence[int], cut_log: bytes, log: bytes) -> int:
    """How many of these lines, in their order, may have been written before a recovery that is cut, by its log and by that of all
    that follows: neither looks at one that wasn't written since."""
    for count, line in enumerate(lines):
        for part in (cut_log, log):
            look, write = part.find(b"\nlook %d\n" % line), part.find(b"\nline %d\n" % line)
            if look >= 0 and not 0 <= write < look:
                return count
            if write >= 0:
                break
    return len(lines)


class Seconds:
    """The cuts of recoveries of one trace, after its cuts with these answers."""

    def __init__(self, shared: Shared, answers: Dict[Tuple[int, int], bytes]) -> None:
        self.shared = shared
        self.cuts: Dict[Tuple[int, int], Told] = {}
        for (index, number), (first, stretch) in shared.told_by.items():
            is_behind = index > first.index or number > stretch.last
            self.cuts[index, number] = Told(first, stretch, answers[index, number], -1 if is_behind else number - first.number)
        self.stretches = {(cut.first.index, cut.first.number): cut.stretch for cut in self.cuts.values()}
        self.told: List[Moment] = []

    def first_of(self, moment: Moment) -> Optional[Moment]:
        """The cut of a stretch's first recovery that may stand for a moment: the moment itself if it is one."""
        if moment.recovery_steps is None:
            return None
        if (moment.index, moment.number) in self.stretches:
            return moment
        cut = self.cuts.get((moment.index, moment.number))
        if cut is None:
            return None
        return Moment("cut", cut.first.index, cut.first.number, cut.first.steps, moment.recovery_steps + cut.more)

    def asked(self, moments: Sequence[Moment]) -> Iterator[Second]:
        """What is printed to the questions of those that stand for others."""
        shared = self.shared
        stretches = [self.stretches[moment.index, moment.number] for moment in moments]
        questions = (shared.finder.question(moment, shared.lines_asked(moment, stretch)) for moment, stretch in zip(moments, stretches))
        answers = shared.together.with_log().answers(shared.logged, questions, len(moments), "")
        for moment, stretch, (_, data) in zip(moments, stretches, answers):
            yield Second(moment, stretch, shared.lines_asked(moment, stretch), data, shared.recording.program.path)

    def told_in(self, moment: Moment, first: Optional[Moment], known: Known[Second]) -> Optional[bytes]:
        """What is printed to a moment's question, if another one shows it."""
        if first is None or moment.recovery_steps is None:
            return None
        second, lines = known.first(first), self.shared.finder.lines_at(moment)
        if first is moment:
            return second.data(lines)
        cut = self.cuts[moment.index, moment.number]
        return second.told(cut, moment.recovery_steps, lines) if cut.is_told(second) else None

    def answers(self, moments: Sequence[Moment], what: str) -> Iterator[Tuple[Moment, bytes]]:
        """Each of these moments with what is printed to its question, in their order."""
        there = set(moments)
        firsts = [first if first in there else None for first in map(self.first_of, moments)]
        known = Known(self.asked([moment for moment, first in zip(moments, firsts) if first is moment]))
        total = sum(first is None for first in firsts)

        def questions() -> Iterator[Question]:
            for moment, first in zip(moments, firsts):
                if first is not moment and self.told_in(moment, first, known) is None:
                    yield self.shared.finder.question(moment)

        others = Others(self.shared.together.answers(self.shared.recording, questions(), total, ""))
        progress = Progress(what, len(moments))
        try:
            progress.reach(0)
            for done, (moment, first) in enumerate(zip(moments, firsts), 1):
                found = self.told_in(moment, first, known)
                if first is moment and moment.recovery_steps == 0:
                    known.forget_before(moment)
                elif found is not None and first is not moment:
                    self.told.append(moment)
                if found is None:
                    found = self.shared.from_start(moment) if first is moment else others.take()
                progress.reach(done)
                yield moment, found
        finally:
            progress.end()
