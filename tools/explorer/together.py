"""Runs of the program side by side on all processors, with progress if standard error is a terminal."""
import copy
import os
import selectors
import subprocess
import sys
import time
from collections import deque
from typing import Callable, Deque, Dict, Generic, Iterable, Iterator, List, Optional, Sequence, Tuple, TypeVar

from . import fork_server
from .errors import ExploreError
from .logged import LoggedProgram
from .processes import Channel, new_selector, serve
from .program import Output, Program, Question, Recording, Run

Task = TypeVar("Task")

CLEAR = "\r\x1b[K"
BETWEEN_TOLD = 0.1
AT_ONCE = 32
WINDOW = 256
LONGEST_REST = 0.01
SECONDS_TO_ANSWER = 30.0
COMMANDS_TRIED = 3
LONG = 1_000_000

# What fork_server.c adds to the program's output.
BEGUN, FORKED, ENDED = b"\1H\n", b"\1F\n", b"\1E"
# If this is in the environment, it answers only by forks.
FORKS = "FORK_SERVER_FORKS"


class Progress:
    """A line on standard error that says how far long work is, and how long it will yet take; nothing if that isn't a
    terminal, or the work has no name."""

    def __init__(self, what: str, total: Optional[int] = None) -> None:
        self.what = what
        self.total = total
        self.shown = bool(what) and sys.stderr.isatty()
        self.begun = self.told = time.monotonic()

    def reach(self, done: int) -> None:
        """Writes the line again, not too often."""
        now = time.monotonic()
        if self.shown and (now - self.told >= BETWEEN_TOLD or done in (0, self.total)):
            self.told = now
            of = "" if self.total is None else f" of {self.total}"
            sys.stderr.write(f"{CLEAR}{self.what}: {done}{of}{self.left(done, now - self.begun)}")
            sys.stderr.flush()

    def left(self, done: int, seconds: float) -> str:
        """The time left, once it can be estimated."""
        if self.total is None or not done or seconds < 1 or done >= self.total:
            return ""
        return f", {time_text(seconds / done * (self.total - done))} left"

    def end(self) -> None:
        """Takes the line away."""
        if self.shown:
            sys.stderr.write(CLEAR)
            sys.stderr.flush()


def time_text(seconds: float) -> str:
    """A time in words."""
    if seconds < 100:
        return f"{max(1, round(seconds))} s"
    return f"{round(seconds / 60)} min" if seconds < 6000 else f"{seconds / 3600:.1f} h"


def processors() -> int:
    """How many processors this process may use."""
    if hasattr(os, "sched_getaffinity"):
        return max(1, len(os.sched_getaffinity(0)))
    return os.cpu_count() or 1


class Worker(Generic[Task]):
    """Does tasks by a process, and notes the output of each under its number."""

    def __init__(self, done: Dict[int, Output], room: int) -> None:
        self.done = done
        self.load = 0
        self.room = room

    def give(self, number: int, task: Task) -> None:
        """Begins a task."""
        raise NotImplementedError

    def push(self) -> None:
        """Hands its process what it was given."""

    def told(self, channel: Channel, data: bytes) -> None:
        """What its process told: nothing (`b""`) at its end."""
        raise NotImplementedError

    def rest(self) -> float:
        """The seconds in which it has enough to do."""
        return 0.0

    def close(self) -> None:
        """Ends its process."""


class FromStart(Worker[Task]):
    """Does each task by a new process, one after the other. `begin` starts it, and answers its input."""

    def __init__(self, selector: selectors.BaseSelector, done: Dict[int, Output],
                 begin: Callable[[Task], Tuple["subprocess.Popen[bytes]", bytes]]) -> None:
        super().__init__(done, 1)
        self.selector = selector
        self.begin = begin
        self.number = 0
        self.pieces: List[bytes] = []

    def give(self, number: int, task: Task) -> None:
        self.load, self.number, self.pieces = 1, number, []
        process, given = self.begin(task)
        Channel(self.selector, process, self).send(given, last=True)

    def told(self, channel: Channel, data: bytes) -> None:
        if data:
            self.pieces.append(data)
            return
        self.done[self.number] = Output(b"".join(self.pieces), channel.finish())
        self.load = 0


class NotForked(ExploreError):
    """A program can't be asked from where it stands."""


class Forked(Worker[Question]):
    """Asks a process that goes along the trace, and answers each question from where it stands (fork_server.c): in place, or by
    a fork of itself if a question ends it or changes its answers."""

    def __init__(self, selector: selectors.BaseSelector, recording: Recording, library: str,
                 done: Dict[int, Output]) -> None:
        super().__init__(done, AT_ONCE)
        self.selector = selector
        self.recording = recording
        # What the program calls is found before it is forked, and not by each fork again.
        self.environment = {**os.environ, "LD_PRELOAD": library, "LD_BIND_NOW": "1"}
        self.is_by_forks = FORKS in self.environment
        self.waiting: Deque[Tuple[int, Question, bytes]] = deque()
        self.begun, self.answered = time.monotonic(), 0
        self.begin()

    def begin(self) -> None:
        """Starts the process."""
        self.channel = Channel(self.selector, self.recording.program.start(self.recording.settings, self.environment), self)
        self.position = 0
        self.frames: List[bytes] = []
        self.received = bytearray()
        self.has_begun = False

    def begin_anew(self, why: str) -> None:
        """Starts it again, to answer the rest by forks. If it did so already, it can't be asked: NotForked."""
        if self.is_by_forks:
            raise NotForked(why)
        self.is_by_forks = True
        self.environment[FORKS] = "1"
        self.channel.close()
        self.begin()
        asked = [(number, question) for number, question, _ in self.waiting]
        self.waiting.clear()
        for number, question in asked:
            self.ask(number, question)
        self.push()

    def rest(self) -> float:
        """About the time that half of its questions take, if it has many: each look at it would be for one of them."""
        if not self.answered or 2 * self.load < self.room:
            return 0.0
        return min(LONGEST_REST, (time.monotonic() - self.begun) / self.answered * self.load / 2)

    def give(self, number: int, task: Question) -> None:
        self.load += 1
        self.ask(number, task)

    def ask(self, number: int, question: Question) -> None:
        """Has a question for it, with what it is given before."""
        recording = self.recording
        if question.index > self.position:
            commands = recording.script[recording.script_ends[self.position]:recording.script_ends[question.index]]
            self.frames.append(b"L%d\n%b" % (len(commands), commands))
        before = recording.output[recording.output_ends[self.position]:recording.output_ends[question.index]]
        self.position = question.index
        self.waiting.append((number, question, before))
        script = question.text
        self.frames.append(b"F%d\n%b" % (len(script), script))

    def push(self) -> None:
        if self.frames:
            self.channel.send(b"".join(self.frames))
            self.frames.clear()

    def told(self, channel: Channel, data: bytes) -> None:
        if channel is not self.channel:
            return
        self.received += data
        if not self.has_begun and self.received.startswith(BEGUN):
            del self.received[:len(BEGUN)]
            self.has_begun = True
        if not self.take():
            self.begin_anew(f"{self.recording.program.path} does not answer the same in two runs of {self.recording.trace.name}")
        elif not data:
            status = channel.finish()
            self.begin_anew(f"{self.recording.program.path} ended with status {status} while it was asked")

    def take(self) -> bool:
        """Takes the answers that are there whole; answers whether what is printed before each is what was printed before."""
        received, at = self.received, 0
        while self.waiting:
            number, _, before = self.waiting[0]
            first = received.find(FORKED, at)
            if first < 0:
                break
            if not self.has_begun or first - at != len(before) or not received.startswith(before, at):
                return False
            last = received.find(ENDED, first)
            end = received.find(b"\n", last) if last >= 0 else -1
            if end < 0:
                break
            status = int(received[last + len(ENDED):end])
            self.done[number] = Output(bytes(received[first + len(FORKED):last]),
                                       os.WEXITSTATUS(status) if os.WIFEXITED(status) else -os.WTERMSIG(status))
            at = end + 1
            self.waiting.popleft()
            self.load -= 1
            self.answered += 1
        del received[:at]
        return True

    def close(self) -> None:
        self.channel.close()


def in_order(selector: selectors.BaseSelector, tasks: Iterable[Task], workers: Sequence[Worker[Task]],
             done: Dict[int, Output], progress: Progress) -> Iterator[Tuple[Task, Output]]:
    """The tasks with their outputs, in their order. Only as many are begun as are soon needed."""
    source = iter(tasks)
    under_way: Deque[Task] = deque()
    given = taken = 0
    is_over = False
    try:
        progress.reach(0)
        while True:
            while not is_over and given - taken < WINDOW:
                worker = min(workers, key=lambda each: each.load / each.room)
                if worker.load == worker.room:
                    break
                try:
                    task = next(source)
                except StopIteration:
                    is_over = True
                    break
                under_way.append(task)
                worker.give(given, task)
                given += 1
            while taken in done:
                taken += 1
                progress.reach(taken)
                yield under_way.popleft(), done.pop(taken - 1)
            if is_over and taken == given:
                return
            for worker in workers:
                worker.push()
            if taken < given and taken not in done:
                serve(selector, rest=min(worker.rest() for worker in workers))
    finally:
        progress.end()
        for worker in workers:
            worker.close()


def in_order_from_start(program: Program, tasks: Sequence[Run], jobs: int, progress: Optional[Progress] = None) -> Iterator[Output]:
    """The outputs of runs, in their order."""
    done: Dict[int, Output] = {}
    with new_selector() as selector:
        workers = [FromStart[Run](selector, done, program.begin) for _ in range(min(jobs, max(1, len(tasks))))]
        for _, output in in_order(selector, tasks, workers, done, progress or Progress("", len(tasks))):
            yield output


class Together:
    """Runs of one program, several at a time. A failure or an interrupt ends them all (`processes.end_all`)."""

    def __init__(self, program: Program, jobs: Optional[int] = None, from_start: bool = False) -> None:
        self.program = program
        self.jobs = jobs or processors()
        self.why_from_start = "it is so chosen" if from_start else ""
        self.library: Optional[str] = None
        self.is_told = from_start

    def with_log(self) -> "Together":
        """The same, of the program that prints its log in all runs."""
        other = copy.copy(self)
        other.program = LoggedProgram(self.program.path)
        return other

    def runs(self, tasks: Sequence[Run], what: str) -> Iterator[Output]:
        """The outputs of runs, in their order."""
        for run, output in zip(tasks, in_order_from_start(self.program, tasks, self.jobs, Progress(what, len(tasks)))):
            self.program.check(output, run.settings)
            yield output

    def answers(self, recording: Recording, questions: Iterable[Question], total: int,
                what: str) -> Iterator[Tuple[Question, bytes]]:
        """Each of the questions with what the program prints to it, in their order: each goes on from the state after so
        many commands of the trace, and those numbers don't fall. `total` is how many questions there are."""
        done: Dict[int, Output] = {}
        jobs = min(self.jobs, max(1, total))
        library = self.library_for(recording, total)
        with new_selector() as selector:
            workers: List[Worker[Question]]
            if library is None:
                workers = [FromStart(selector, done, recording.begin) for _ in range(jobs)]
            else:
                workers = [Forked(selector, recording, library, done) for _ in range(jobs)]
            for question, output in in_order(selector, questions, workers, done, Progress(what, total)):
                yield question, recording.answer(question, output, library is None)

    def library_for(self, recording: Recording, total: int) -> Optional[str]:
        """The library by which the program is asked, once it is seen to work; None if each question is a run from
        the trace's start, which a note says if that takes long."""
        if self.library is None and not self.why_from_start:
            self.library, self.why_from_start = fork_server.library()
            if self.library is not None:
                self.why_from_start = trial(recording, self.library)
        if not self.why_from_start:
            return self.library
        if not self.is_told and total * len(recording.commands) >= LONG:
            self.is_told = True
            sys.stderr.write("explore: each state is reached from the trace's start, which takes long: "
                             f"{self.why_from_start}\n")
        return None


def trial(recording: Recording, library: str) -> str:
    """Tries whether a program can be asked by forks; answers why not, or nothing if it can."""
    done: Dict[int, Output] = {}
    end = time.monotonic() + SECONDS_TO_ANSWER
    with new_selector() as selector:
        worker = Forked(selector, recording, library, done)
        try:
            count = len(recording.replies) - recording.ends_in_exhibit
            worker.give(0, Question(min(count, COMMANDS_TRIED), (b"cut 0",)))
            worker.push()
            while not done and time.monotonic() < end:
                serve(selector, 1.0)
        except NotForked as error:
            return str(error)
        finally:
            worker.close()
    if not done:
        return f"{recording.program.path} is not asked so within {SECONDS_TO_ANSWER:.0f} s"
    return "" if done[0] == Output(recording.plain_ok, 0) else f"{recording.program.path} does not answer a fork of it"
