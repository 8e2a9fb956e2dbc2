"""Cuts of which one recovery shows what all of them leave; the log shows which.

During a group: with the commit group armed, the command writes only lines that recovery writes again before it looks at
them. Recovery can't know how far the command came, since the chip was the same and it looked at no line that differs.
Once it has written them, no line differs any more.

Behind a group: the cut after the latch that empties the group. If that was the command's last step, it is the cut before
the first step of a later command, if nothing else reached the device. The recovery that began by finishing the group, with
the same lines and the same latch, has the same chip and device from there on. It made that many more steps."""
import re
from dataclasses import dataclass
from typing import Dict, Generic, Iterator, List, Optional, Protocol, Sequence, Tuple, TypeVar

from .accesses import LATCHED, LINE, LOOK, WORK, logs_of
from .logged import logged_again, wrong
from .moments import Moment
from .program import EXHIBITS, MARKS, Question, Recording
from .together import Progress, Together
from .trace import TAMPERING_WORDS

EMPTIED = (LATCHED, 0)
OK, OFF = b"ok\n", b"off"
# The commands of a question before its `on`: `cut`, and the one that is cut; or before a command `off` and `cut`.
TO_THE_CUT = 2
OFF_REPLIES = (b"ok\nok\n", b"off\nok\n")
MARKED = tuple(f"{mark} ".encode() for mark in MARKS)
RECOVERED = re.compile(rb"on(?: [0-9]+)* ([0-9]+)\n")
EXHIBITED = tuple(f"{word} ".encode() for word in EXHIBITS)


class Finder(Protocol):
    """Who has the questions of moments (`CutFinder`)."""

    before_script: List[bytes]

    def lines_at(self, moment: Moment) -> Sequence[int]:
        """The lines that are read at a moment."""

    def question(self, moment: Moment, lines: Optional[Sequence[int]] = None) -> Question:
        """The question that shows what a moment leaves; with `lines` it reads those."""


@dataclass(frozen=True)
class Stretch:
    """Cuts of a command in a row, the first after that many of its steps, between which these lines are written, one in each
    step, while the commit group is armed. `is_emptied`: the command's next step empties the group."""

    first: int
    lines: Tuple[int, ...]
    is_emptied: bool = False

    @property
    def last(self) -> int:
        """After how many steps the last of them comes."""
        return self.first + len(self.lines)

    def has(self, number: int) -> bool:
        """Whether the cut after that many steps is one of them, or the one behind the latch that empties the group."""
        return 0 <= number - self.first <= len(self.lines) + self.is_emptied


def stretches_of(accesses: Sequence[Tuple[bytes, int]], is_armed: bool) -> Tuple[List[Stretch], bool]:
    """Those of a command that made these accesses, if the group was armed before it or wasn't; and whether it is then."""
    stretches: List[Stretch] = []
    lines: List[int] = []
    first = number = 0
    for word, value in [*((word, value) for word, value in accesses if word != LOOK), (b"", 0)]:
        number += 1
        if word == LINE:
            lines.append(value)
            continue
        if is_armed and lines:
            stretches.append(Stretch(first, tuple(lines), (word, value) == EMPTIED))
        if word == LATCHED:
            is_armed = value > 0
        first, lines = number, []
    return stretches, is_armed


class First:
    """What is printed to the question of a stretch's first cut, in which these lines are read, and what that shows of others."""

    def __init__(self, moment: Moment, stretch: Stretch, lines: Sequence[int], data: bytes, path: str) -> None:
        replies: List[bytes] = []
        behind = 0
        for reply, end in replies_of(data, path):
            replies.append(reply)
            if len(replies) == TO_THE_CUT:
                behind = end
        self.moment = moment
        self.stretch = stretch
        self.lines = lines
        self.to_the_cut = b"".join(replies[:TO_THE_CUT])
        self.recovery = b"".join(replies[TO_THE_CUT:TO_THE_CUT + 1])
        self.readings = replies[TO_THE_CUT + 1:]
        self.is_whole = len(self.readings) == len(lines) and not any(each.startswith(EXHIBITED) for each in self.readings)
        self.count, self.fewer = 0, 0
        if is_cut(self.to_the_cut):
            log = b"\n" + data[behind:]
            self.count = written_first(stretch.lines, log)
            if stretch.is_emptied and self.is_whole and log.startswith(finished(stretch.lines)):
                self.fewer = len(stretch.lines) + 1

    def read(self, lines: Sequence[int]) -> Optional[bytes]:
        """What is printed to reads of only these lines; None if that isn't known."""
        if lines == self.lines:
            return b"".join(self.readings)
        if not self.is_whole:
            return None if self.readings else b""
        known = dict(zip(self.lines, self.readings))
        return b"".join([known[line] for line in lines])

    def data(self, lines: Sequence[int]) -> Optional[bytes]:
        """All that is printed to its own question, in which these lines are read, without the log."""
        return self.all(self.to_the_cut, self.recovery, lines)

    def all(self, to_the_cut: bytes, recovery: bytes, lines: Sequence[int]) -> Optional[bytes]:
        """These replies with those to reads."""
        read = self.read(lines)
        return None if read is None else to_the_cut + recovery + read

    def is_behind(self, moment: Moment) -> bool:
        """Whether a cut that this one stands for comes behind the latch that empties the group."""
        return moment.index > self.moment.index or moment.number > self.stretch.last

    def tells(self, moment: Moment) -> bool:
        """Whether it stands for another cut, if the trace's log shows that it may."""
        if self.is_behind(moment):
            return self.fewer > 0 and RECOVERED.fullmatch(self.recovery) is not None
        return moment.number - self.moment.number <= self.count

    def is_between(self, moment: Moment) -> bool:
        """Whether a cut comes between the first and the last of its stretch, which stand for all of it: what is printed up to it
        is known from both."""
        return self.stretch.is_emptied and self.count == len(self.stretch.lines) and moment.index == self.moment.index \
            and self.moment.number < moment.number < self.stretch.last

    def between(self, moment: Moment, last: bytes) -> Optional[bytes]:
        """What is printed up to a cut between the first and the last one of its stretch, to which this is printed: the same as to
        both, except for the number of steps. None if they differ otherwise."""
        start, end = b" %d\n" % self.moment.number, b" %d\n" % self.stretch.last
        if not self.to_the_cut.endswith(start) or self.to_the_cut[:-len(start)] + end != last:
            return None
        return self.to_the_cut[:-len(start)] + b" %d\n" % moment.number

    def same_at(self, moment: Moment, to_the_cut: bytes, marks: bytes, lines: Sequence[int]) -> Optional[bytes]:
        """What is printed to the question of a cut that it stands for, to which this is printed up to the cut; None if that
        isn't as it should be. `marks` are the replies up to the cut, without the last answer, that it should have had to be one
        of its command."""
        if not (to_the_cut in OFF_REPLIES if moment.kind == "before" else is_cut(to_the_cut)) \
                or marks != without_answer(self.to_the_cut):
            return None
        recovery = self.recovery
        if self.is_behind(moment):
            found = RECOVERED.fullmatch(recovery)
            if found is None or int(found[1]) < self.fewer:
                return None
            recovery = recovery[:found.start(1)] + b"%d\n" % (int(found[1]) - self.fewer)
        return self.all(to_the_cut, recovery, lines)


def replies_of(data: bytes, path: str) -> Iterator[Tuple[bytes, int]]:
    """Each reply in what was printed with a log, without its log, and its end."""
    at = 0
    while at < len(data):
        start = data.find(b"\n", data.find(WORK, at)) + 1
        if not start or not data.startswith(WORK, data.rfind(b"\n", at, start - 1) + 1 or at):
            raise wrong(path)
        at, is_mark = start, True
        while is_mark:
            is_mark = data.startswith(MARKED, at)
            at = data.find(b"\n", at) + 1
            if not at:
                raise wrong(path)
        yield data[start:at], at


def finished(lines: Sequence[int]) -> bytes:
    """The beginning of a log in which a group of these lines is written and emptied."""
    return b"".join([b"\nline %d" % line for line in lines]) + b"\nlatch 0\n"


def written_first(lines: Sequence[int], log: bytes) -> int:
    """How many of these lines, in their order, are written in a log before they are looked at, or are never looked at."""
    for count, line in enumerate(lines):
        look, write = log.find(b"\nlook %d\n" % line), log.find(b"\nline %d\n" % line)
        if look >= 0 and not 0 <= write < look:
            return count
    return len(lines)


def without_answer(replies: bytes) -> bytes:
    """These replies without the last answer."""
    return replies[:replies[:-1].rfind(b"\n") + 1]


def is_cut(replies: bytes) -> bool:
    """Whether the last answer of these replies is that of a cut."""
    return replies.startswith(b"cut ", len(without_answer(replies)))


class HasMoment(Protocol):
    """What is known of a moment."""

    moment: Moment


Teller = TypeVar("Teller", bound=HasMoment)


class Known(Generic[Teller]):
    """The first cuts whose output is known, for as long as it stands for others."""

    def __init__(self, asked: Iterator[Teller]) -> None:
        self.asked = asked
        self.known: Dict[Moment, Teller] = {}

    def first(self, moment: Moment) -> Teller:
        """The first cut at a moment; those up to it are asked for."""
        while True:
            found = self.known.get(moment)
            if found is not None:
                return found
            found = next(self.asked)
            self.known[found.moment] = found

    def forget_before(self, moment: Moment) -> None:
        """Forgets those before a moment."""
        while next(iter(self.known)) is not moment:
            del self.known[next(iter(self.known))]


class Others:
    """What is printed to the questions of the other cuts, in their order."""

    def __init__(self, answers: Iterator[Tuple[Question, bytes]]) -> None:
        self.answers = answers
        self.seen: Optional[bytes] = None

    def next(self) -> bytes:
        """What is printed to the next one."""
        if self.seen is None:
            _, self.seen = next(self.answers)
        return self.seen

    def take(self) -> bytes:
        """The same, and the next one is the one after it."""
        found, self.seen = self.next(), None
        return found


class Shared:
    """The cuts of one trace, of which the log is `data`. `behind`: those that come behind a group's end and that another one told
    of. `told_by` notes all those that another one told of, with its moment and its stretch."""

    def __init__(self, recording: Recording, together: Together, data: bytes, finder: Finder, are_noted: bool = False) -> None:
        self.recording = recording
        self.together = together
        self.finder = finder
        self.stretches: Dict[int, List[Stretch]] = {}
        self.later: Dict[int, int] = {}
        self.earlier: Dict[int, int] = {}
        self.behind: List[Moment] = []
        self.are_noted = are_noted
        self.told_by: Dict[Tuple[int, int], Tuple[Moment, Stretch]] = {}
        sizes: List[int] = []
        is_armed = False
        ended: Optional[int] = None
        for index, log in enumerate(logs_of(recording, data)):
            sizes.append(log.size + recording.output_ends[index + 1] - recording.output_ends[index])
            stretches, is_armed = stretches_of(log.accesses, is_armed)
            if stretches:
                self.stretches[index] = stretches
            ended = self.go_on(index, sum(word != LOOK for word, _ in log.accesses), ended)
        self.logged = logged_again(recording, data, sizes)

    def go_on(self, index: int, steps: int, ended: Optional[int]) -> Optional[int]:
        """Notes whether a command, which made that many steps, finds the chip and the device as `ended` left them, a command that
        ended by emptying its group; and answers which command left them so after it."""
        command, reply = self.recording.commands[index], self.recording.replies[index]
        is_cut_here = steps > 0 or reply.is_cut
        if ended is not None and is_cut_here:
            self.earlier[index] = ended
            self.later[ended] = index
        if is_cut_here:
            stretches = self.stretches.get(index)
            return index if stretches and stretches[-1].is_emptied and stretches[-1].last + 1 == steps else None
        return None if command.word in TAMPERING_WORDS or reply.marks else ended

    def firsts_of(self, moments: Sequence[Moment]) -> List[Optional[Moment]]:
        """For each of these moments the first cut of the stretch that may stand for it, if that is among them."""
        firsts: List[Optional[Moment]] = []
        first: Optional[Moment] = None
        for moment in moments:
            place = self.first_of(moment)
            if place == (moment.index, moment.number):
                first = moment
            firsts.append(first if first is not None and place == (first.index, first.number) else None)
        return firsts

    def first_of(self, moment: Moment) -> Optional[Tuple[int, int]]:
        """The first cut of the stretch that may stand for a moment: its command, and after how many of its steps."""
        if moment.kind == "cut" and moment.recovery_steps is None:
            for stretch in self.stretches.get(moment.index, ()):
                if stretch.has(moment.number):
                    return moment.index, stretch.first
        elif moment.kind != "before" or not self.is_recovered(moment):
            return None
        earlier = self.earlier.get(moment.index)
        return None if earlier is None or moment.number else (earlier, self.stretches[earlier][-1].first)

    def is_recovered(self, moment: Moment) -> bool:
        """Whether memory is looked at before a command as at a cut before its first step: with power off and on, and the same
        lines."""
        if self.finder.before_script[0] != OFF:
            return False
        return self.finder.lines_at(moment) is self.finder.lines_at(Moment("cut", moment.index))

    def lines_asked(self, first: Moment, stretch: Stretch) -> Sequence[int]:
        """The lines that are read at the first cut of a stretch: those of the later command's cut that it stands for are too."""
        lines = self.finder.lines_at(first)
        later = self.later.get(first.index)
        if later is None or stretch is not self.stretches[first.index][-1]:
            return lines
        others = self.finder.lines_at(Moment("cut", later))
        return lines if others is lines or set(others) <= set(lines) else sorted({*lines, *others})

    def asked(self, moments: Sequence[Moment]) -> Iterator[First]:
        """What is printed to the questions of the first cuts of stretches."""
        stretches = [next(each for each in self.stretches[moment.index] if each.first == moment.number) for moment in moments]
        questions = (self.finder.question(moment, self.lines_asked(moment, stretch)) for moment, stretch in zip(moments, stretches))
        answers = self.together.with_log().answers(self.logged, questions, len(moments), "")
        for moment, stretch, (_, data) in zip(moments, stretches, answers):
            yield First(moment, stretch, self.lines_asked(moment, stretch), data, self.recording.program.path)

    def questions(self, moments: Sequence[Moment], firsts: Sequence[Optional[Moment]], known: Known[First]) -> Iterator[Question]:
        """The questions of all but the first cuts, up to the cut from which a first one stands for the rest."""
        for moment, first in zip(moments, firsts):
            if first is moment:
                continue
            teller = None if first is None else known.first(first)
            if teller is None or not teller.tells(moment):
                yield self.finder.question(moment)
            elif not teller.is_between(moment):
                yield Question(moment.index, self.finder.question(moment, ()).script[:TO_THE_CUT])

    def answers(self, moments: Sequence[Moment], what: str) -> Iterator[Tuple[Moment, bytes]]:
        """Each of these moments with what is printed to its question, in their order. The first cuts are asked ahead of the
        others, whose questions depend on them."""
        firsts = self.firsts_of(moments)
        known = Known(self.asked([moment for moment, first in zip(moments, firsts) if first is moment]))
        total = sum(first is not moment for moment, first in zip(moments, firsts))
        others = Others(self.together.answers(self.recording, self.questions(moments, firsts, known), total, ""))
        progress = Progress(what, len(moments))
        try:
            progress.reach(0)
            for done, (moment, first) in enumerate(zip(moments, firsts), 1):
                teller = None if first is None else known.first(first)
                if teller is not None and first is moment:
                    known.forget_before(moment)
                    found = teller.data(self.finder.lines_at(moment))
                else:
                    found = self.other(moment, teller, others)
                progress.reach(done)
                yield moment, self.from_start(moment) if found is None else found
        finally:
            progress.end()

    def other(self, moment: Moment, teller: Optional[First], others: Others) -> Optional[bytes]:
        """What is printed to the question of a moment that isn't a first cut; None if that isn't known."""
        if teller is None or not teller.tells(moment):
            return others.take()
        to_the_cut = teller.between(moment, others.next()) if teller.is_between(moment) else others.take()
        return None if to_the_cut is None else self.told(teller, moment, to_the_cut)

    def told(self, first: First, moment: Moment, to_the_cut: bytes) -> Optional[bytes]:
        """What is printed to the question of a cut that a first one stands for, to which this is printed up to the cut."""
        marks = without_answer(to_the_cut) if moment.kind == "cut" else OK
        if moment.index > first.moment.index:
            ends = self.recording.output_ends
            reply = self.recording.output[ends[first.moment.index]:ends[first.moment.index + 1]]
            marks += without_answer(reply)
        found = first.same_at(moment, to_the_cut, marks, self.finder.lines_at(moment))
        if found is not None and moment.kind == "cut":
            if self.are_noted:
                self.told_by[moment.index, moment.number] = first.moment, first.stretch
            if first.is_behind(moment):
                self.behind.append(moment)
        return found

    def from_start(self, moment: Moment) -> bytes:
        """What is printed to a moment's question, by a run from the trace's start."""
        question = self.finder.question(moment)
        return self.recording.answer(question, self.recording.program.output(self.recording.run_of(question)))
