"""What the program's log (`--log`) reports of a trace: which device lines each command read and wrote, each latch, and the
tags and digests made. docs/FORMATS.md has its lines."""
from collections import deque
from dataclasses import dataclass
from typing import Dict, Iterator, List, Tuple

from .errors import ExploreError
from .layout import Place, layout_of
from .program import Recording
from .traced import ARMS, EMPTIES, LATCH, SETS, WRITE, Step, Traced, Work

LOOK, LINE, LATCHED, WORK = b"look", b"line", b"latch", b"work "


@dataclass(frozen=True)
class Log:
    """The log of one command: its accesses in order; the tags and digests that it made; and the log's length in bytes. An
    access has the device line, or for a latch the number of lines in the commit group after it."""

    accesses: Tuple[Tuple[bytes, int], ...]
    tags: int
    digests: int
    size: int


def logs_of(recording: Recording, data: bytes) -> Iterator[Log]:
    """The log of each command that was answered, of what the program printed with `--log`. The replies in it have to be
    those of the run without."""
    at = 0
    for index in range(len(recording.replies)):
        end = data.find(WORK, at)
        stop = data.find(b"\n", end) + 1
        reply = recording.output[recording.output_ends[index]:recording.output_ends[index + 1]]
        if end < 0 or not stop or not data.startswith(reply, stop):
            raise ExploreError(f"{recording.program.path} does not answer the same with --log and without")
        yield log_of(recording, data[at:end], data[end:stop - 1])
        at = stop + len(reply)
    if at != len(data):
        raise ExploreError(f"{recording.program.path} answers more with --log than without")


def log_of(recording: Recording, accesses: bytes, work: bytes) -> Log:
    """The log that these lines are."""
    try:
        words = [line.split(b" ") for line in accesses.split(b"\n")[:-1]]
        found = tuple((word, int(number)) for word, number in words)
        _, tags, digests = work.split(b" ")
        log = Log(found, int(tags), int(digests), len(accesses) + len(work) + 1)
    except ValueError as error:
        raise ExploreError(f"{recording.program.path} does not tell its accesses as docs/FORMATS.md says") from error
    if any(word not in (LOOK, LINE, LATCHED) for word, _ in found):
        raise ExploreError(f"{recording.program.path} does not tell its accesses as docs/FORMATS.md says")
    return log


class Teller:
    """Tells the steps of each command from its log."""

    def __init__(self, recording: Recording, with_work: bool) -> None:
        self.recording = recording
        self.with_work = with_work
        self.layout = layout_of(recording.settings)
        self.places: Dict[int, Place] = {}

    def traced(self, data: bytes) -> List[Traced]:
        """All commands that were answered, with their steps, of what the program printed with `--log`."""
        found, number = [], 1
        for index, log in enumerate(logs_of(self.recording, data)):
            steps = self.steps(index, log, number)
            told = self.recording.steps(index)
            if told is not None and told != len(steps):
                command = self.recording.commands[index]
                raise ExploreError(f"{self.recording.trace.name}, line {command.number}: the answer tells {told} steps, "
                                   f"and the log {len(steps)}")
            found.append(Traced(self.recording.commands[index], self.recording.replies[index], steps,
                                self.work(log, number - 1) if self.with_work else None))
            number += len(steps)
        return found

    def steps(self, index: int, log: Log, first: int) -> Tuple[Step, ...]:
        """The steps of a command, the first of which has this number."""
        steps: List[Step] = []
        for word, number in log.accesses:
            if word == LINE:
                steps.append(Step(first + len(steps), WRITE, self.place(number)))
            elif word == LATCHED:
                steps.append(Step(first + len(steps), LATCH, does=self.latch_does(index, number), group=number))
        return tuple(steps)

    def latch_does(self, index: int, group: int) -> str:
        """What a latch does after which the group has that many lines. None but `loss` sets the stop-loss number."""
        if group:
            return ARMS
        return SETS if self.recording.commands[index].word == "loss" else EMPTIES

    def work(self, log: Log, steps: int) -> Work:
        """What a command took besides its steps, before which the trace had that many."""
        reads: List[Tuple[int, Place]] = []
        for word, number in log.accesses:
            if word == LOOK:
                reads.append((steps, self.place(number)))
            else:
                steps += 1
        return Work(tuple(reads), log.tags, log.digests)

    def place(self, line: int) -> Place:
        """A device line's name, made once."""
        if line not in self.places:
            if line >= self.layout.size:
                raise ExploreError(f"{self.recording.program.path} names line {line}: its device does not have the "
                                   f"{self.layout.size} lines that docs/MACHINE.md lists")
            self.places[line] = self.layout.place(line)
        return self.places[line]


def told_steps(recording: Recording, with_work: bool) -> List[Traced]:
    """All commands that were answered, with their steps, by one run with `--log`."""
    return Teller(recording, with_work).traced(recording.program.logged(recording.script, recording.settings))


def told_last(recording: Recording) -> int:
    """The steps of the last command that was answered, by one run with `--log`."""
    data = recording.program.logged(recording.script, recording.settings)
    (log,) = deque(logs_of(recording, data), 1)
    return sum(word != LOOK for word, _ in log.accesses)
