"""Running the program and reading what it answers."""
import signal
import subprocess
from dataclasses import dataclass, fields
from typing import Dict, List, Optional, Sequence, Tuple

from .errors import INTERRUPTED, WRONG_WORDS, ExploreError, reason_of
from .processes import start, talk
from .settings import Settings
from .stops import line_text
from .trace import Trace, number_of, shown_line

MARKS = ("seal", "begin")
EXHIBITS = ("clash", "forged", "twin")
WITHOUT_STEPS = ("off", "range", "empty", "idle", "clean", "already", "closed")

STATUS_EXHIBIT = 6
MOST_LINES = 1_000_000
REFUSED = (2, b"stop words\n")
LOG = "--log"


@dataclass(frozen=True)
class Output:
    """What a run printed, and its status: 0, or 6 if it ended in an exhibit."""

    data: bytes
    status: int

    @property
    def lines(self) -> List[str]:
        """The lines printed."""
        return self.data.decode("ascii", "replace").split("\n")[:-1]


@dataclass(frozen=True)
class Reply:
    """A command's marks and its answer."""

    marks: Tuple[str, ...]
    answer: str

    @property
    def is_exhibit(self) -> bool:
        """Whether evidence of a break stands in the answer's place."""
        return first_word(self.answer) in EXHIBITS

    @property
    def is_cut(self) -> bool:
        """Whether power was cut in this command."""
        return first_word(self.answer) == "cut"

    @property
    def steps(self) -> Optional[int]:
        """The persist steps of the answer to a command that may take some; None with an exhibit."""
        if self.is_exhibit:
            return None
        return 0 if first_word(self.answer) in WITHOUT_STEPS else int(self.answer.rsplit(" ", 1)[-1])

    @property
    def has_steps(self) -> bool:
        """Whether the answer is one to a command that may take steps."""
        return self.is_exhibit or first_word(self.answer) in WITHOUT_STEPS or number_of(self.answer.rsplit(" ", 1)[-1]) is not None

    @property
    def has_marks(self) -> bool:
        """Whether each mark names a line or a page."""
        return all(number_of(mark.partition(" ")[2].partition(" ")[0]) is not None for mark in self.marks)

    @property
    def lines(self) -> List[str]:
        """Marks and answer."""
        return [*self.marks, self.answer]


@dataclass(frozen=True)
class Counts:
    """The five counts that `stat` prints."""

    reads: int = 0
    writes: int = 0
    latches: int = 0
    tags: int = 0
    digests: int = 0

    def since(self, earlier: "Counts") -> "Counts":
        """How far each count rose."""
        return Counts(self.reads - earlier.reads, self.writes - earlier.writes,
                      self.latches - earlier.latches, self.tags - earlier.tags,
                      self.digests - earlier.digests)


class StopLine(Exception):
    """The program stopped at a line that is not in the grammar."""

    def __init__(self, number: int, kind: str) -> None:
        super().__init__(f"stop line {number} {kind}")
        self.number = number
        self.kind = kind


def first_word(text: str) -> str:
    """The first word of a line."""
    return text.split(" ", 1)[0]


def counts_of(answer: str) -> Counts:
    """The counts that the answer to `stat` reports."""
    counts = [count for count in map(number_of, answer.split(" ")[1:]) if count is not None]
    if first_word(answer) != "stat" or len(counts) != len(fields(Counts)) or answer.count(" ") != len(counts):
        raise ExploreError(f"the program does not answer as pmem does: {shown_line(answer.encode())!r} to 'stat'")
    return Counts(*counts)


def replies_in(data: bytes) -> List[Reply]:
    """The replies in what the program printed."""
    return replies_of(Output(data, 0).lines)


def replies_of(lines: Sequence[str]) -> List[Reply]:
    """The replies that these lines are: an answer ends each."""
    replies: List[Reply] = []
    marks: List[str] = []
    for line in lines:
        if first_word(line) in MARKS:
            marks.append(line)
        else:
            replies.append(Reply(tuple(marks), line))
            marks = []
    return replies


@dataclass(frozen=True)
class Run:
    """A script that is run from its start."""

    script: bytes
    settings: Settings


@dataclass(frozen=True)
class Question:
    """Commands that go on from the state after the first `index` commands of a trace. `tail` is the text of the last ones,
    which many questions share."""

    index: int
    script: Tuple[bytes, ...]
    tail: bytes = b""

    @property
    def text(self) -> bytes:
        """The commands as a trace."""
        return text_of(self.script) + self.tail


def text_of(script: Sequence[bytes]) -> bytes:
    """Commands as a trace."""
    return b"".join(line + b"\n" for line in script)


class Program:
    """The program's file."""

    def __init__(self, path: str) -> None:
        self.path = path

    def start(self, settings: Settings, environment: Optional[Dict[str, str]] = None,
              *more: str) -> "subprocess.Popen[bytes]":
        """Begins a run, with more words behind those of the settings."""
        try:
            return start([self.path, *settings.words(), *more], environment)
        except OSError as error:
            raise ExploreError(f"cannot run the program {self.path}: {reason_of(error)}") from error

    def begin(self, run: Run) -> Tuple["subprocess.Popen[bytes]", bytes]:
        """Begins a run, and answers what it is to be given."""
        return self.start(run.settings), run.script

    def output(self, run: Run) -> Output:
        """What the program prints in a run, and how it ends."""
        return Output(*talk(self.start(run.settings), run.script))

    def run(self, script: bytes, settings: Settings) -> Output:
        """What the program prints on this trace."""
        output = self.output(Run(script, settings))
        self.check(output, settings)
        return output

    def logged(self, script: bytes, settings: Settings) -> bytes:
        """What the program prints on this trace with the log of each command."""
        output = Output(*talk(self.start(settings, None, LOG), script))
        self.check_logged(output, settings)
        return output.data

    def check_logged(self, output: Output, settings: Settings) -> None:
        """Reports what is wrong if a run with the log didn't answer to its end."""
        if (output.status, output.data) == REFUSED:
            raise ExploreError(f"{self.path} does not tell what the commands of {settings.machine_name} do to the device: it "
                               f"refuses {' '.join([*settings.words(), LOG])}")
        Program.check(self, output, settings)

    def check(self, output: Output, settings: Settings) -> None:
        """Reports what is wrong if a run didn't answer to its end."""
        status, data = output.status, output.data
        if status in (0, STATUS_EXHIBIT):
            return
        if status in (-signal.SIGINT, INTERRUPTED):
            raise KeyboardInterrupt
        last = data.rstrip(b"\n").rsplit(b"\n", 1)[-1].decode("ascii", "replace")
        words = last.split(" ")
        if status == 1 and last == "stop memory":
            raise ExploreError("the program ran out of memory")
        if status == 2 and last == "stop words":
            raise ExploreError(f"the program refuses its options: {' '.join(settings.words())}", WRONG_WORDS)
        number = number_of(words[2]) if status == 5 and words[:2] == ["stop", "line"] and len(words) == 4 else None
        if number is not None:
            raise StopLine(number, words[3])
        if status == 7:
            raise ExploreError("a trace has more than 1,000,000 lines, with what is asked after it")
        if status < 0:
            raise ExploreError(f"the program {self.path} was ended by signal {-status}")
        raise ExploreError(f"the program {self.path} ended with status {status}"
                           + (f", its last line: {shown_line(last.encode())}" if last else ""))


def check_length(trace: Trace) -> None:
    """That the program takes that many lines."""
    if trace.line_count > MOST_LINES:
        raise ExploreError(f"{trace.name} has {trace.line_count} lines, and a trace at most {MOST_LINES:,}")


class Recording:
    """A trace with the program's replies to it, which can be run again up to any command and then asked."""

    plain_ok = b"ok\n"

    def __init__(self, program: Program, settings: Settings, trace: Trace, known: Optional[Output] = None) -> None:
        self.program = program
        self.settings = settings
        self.trace = trace
        output = known or self.first_run()
        self.commands = trace.commands
        self.replies = replies_of(output.lines)
        self.check_replies(output)
        self.script = b"".join(command.text + b"\n" for command in self.commands)
        self.script_ends = ends_of([len(command.text) + 1 for command in self.commands])
        self.output, self.status = output.data, output.status
        self.output_ends = ends_of([sum(len(line) + 1 for line in reply.lines) for reply in self.replies])

    def first_run(self) -> Output:
        """The run of the trace as it stands."""
        check_length(self.trace)
        try:
            return self.program.run(self.trace.data, self.settings)
        except StopLine as stop:
            line = self.trace.line(stop.number)
            told = line_text(stop.kind, line.decode("ascii", "replace"), shown_line(line))
            raise ExploreError(f"{self.trace.name}, line {stop.number}: {told}") from stop

    def check_replies(self, output: Output) -> None:
        """That there is a reply to each command, up to the exhibit if there is one."""
        shown = output.status == STATUS_EXHIBIT
        whole = len(self.replies) == len(self.commands) or shown and len(self.replies) <= len(self.commands)
        if not whole or shown != bool(self.replies and self.replies[-1].is_exhibit):
            raise ExploreError(f"{self.program.path} does not answer as pmem does: "
                               f"{len(self.replies)} answers to {len(self.commands)} commands")
        for index, command in enumerate(self.commands[:len(self.replies)]):
            reply = self.replies[index]
            if not reply.has_marks or command.word in self.settings.machine.stepping and not reply.has_steps:
                raise ExploreError(f"{self.program.path} does not answer as pmem does: "
                                   f"{shown_line(' '.join(reply.lines).encode())!r} to {command.short!r}")

    def run_of(self, question: Question) -> Run:
        """The run from the trace's start that comes to a question's answer."""
        return Run(self.script[:self.script_ends[question.index]] + question.text, self.settings)

    def begin(self, question: Question) -> Tuple["subprocess.Popen[bytes]", bytes]:
        """Begins that run, and answers what it is to be given."""
        return self.program.begin(self.run_of(question))

    def answer(self, question: Question, output: Output, is_whole: bool = True) -> bytes:
        """What is printed to a question, of an output that `is_whole` if it begins with the replies to the trace."""
        try:
            self.program.check(output, self.settings)
        except StopLine as stop:
            raise ExploreError(f"{self.program.path} does not take a command that it should: {stop}") from stop
        if not is_whole:
            return output.data
        before = self.output[:self.output_ends[question.index]]
        if not output.data.startswith(before):
            raise ExploreError(f"{self.program.path} does not answer the same in two runs of {self.trace.name}")
        return output.data[len(before):]

    def ask(self, index: int, script: Sequence[bytes]) -> List[Reply]:
        """The replies to further commands after the first `index` ones of the trace, by a run from its start."""
        question = Question(index, tuple(script))
        return replies_in(self.answer(question, self.program.output(self.run_of(question))))

    @property
    def ends_in_exhibit(self) -> bool:
        """Whether the trace ends in an exhibit, after which nothing can be asked."""
        return bool(self.replies) and self.replies[-1].is_exhibit

    def steps(self, index: int) -> Optional[int]:
        """The persist steps of a command, as its answer reports them; None with an exhibit."""
        if self.commands[index].word not in self.settings.machine.stepping:
            return 0
        return self.replies[index].steps


def ends_of(lengths: Sequence[int]) -> List[int]:
    """The end of each of several pieces in a row, the start first."""
    ends = [0]
    for length in lengths:
        ends.append(ends[-1] + length)
    return ends
