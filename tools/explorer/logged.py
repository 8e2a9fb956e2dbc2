"""Traces that the program runs with its log (`--log`): what each command did to the device before its reply."""
import copy
import re
import subprocess
from collections import Counter
from dataclasses import dataclass
from typing import Dict, List, Optional, Sequence, Tuple

from .accesses import LATCHED, LINE, LOOK
from .errors import ExploreError
from .program import LOG, MARKS, Output, Program, Recording, Reply, ends_of
from .settings import Settings
from .trace import Trace

WORK = b"work"
WORKS = re.compile(rb"^work [0-9]+ [0-9]+$", re.M)
WRITTEN = re.compile(rb"^line ([0-9]+)$", re.M)
ANSWERED = re.compile(rb"^(?!look |line [0-9]+$|latch |work |seal |begin )([a-z]+)", re.M)
MARK_WORDS = tuple(mark.encode() for mark in MARKS)


@dataclass(frozen=True)
class Entry:
    """What is printed of a command: its accesses in order, the tags and digests that it made, its reply, and how many bytes
    all that is."""

    accesses: Tuple[Tuple[bytes, int], ...]
    tags: int
    digests: int
    reply: Reply
    size: int


class LoggedProgram(Program):
    """The program, always asked for its log."""

    def start(self, settings: Settings, environment: Optional[Dict[str, str]] = None,
              *more: str) -> "subprocess.Popen[bytes]":
        return super().start(settings, environment, *more, LOG)

    def check(self, output: Output, settings: Settings) -> None:
        self.check_logged(output, settings)


def entries_of(data: bytes, path: str) -> List[Entry]:
    """What was printed with a log, command by command."""
    entries: List[Entry] = []
    accesses: List[Tuple[bytes, int]] = []
    marks: List[str] = []
    work: Optional[Tuple[int, int]] = None
    size = 0
    try:
        for line in data.split(b"\n")[:-1]:
            size += len(line) + 1
            word, _, rest = line.partition(b" ")
            if work is None:
                if word == WORK:
                    tags, digests = rest.split(b" ")
                    work = int(tags), int(digests)
                else:
                    accesses.append((word, int(rest)))
            elif word in MARK_WORDS:
                marks.append(line.decode("ascii"))
            else:
                entries.append(Entry(tuple(accesses), *work, Reply(tuple(marks), line.decode("ascii")), size))
                accesses, marks, work, size = [], [], None, 0
    except ValueError as error:
        raise wrong(path) from error
    words = {word for entry in entries for word, _ in entry.accesses}
    if accesses or marks or work is not None or not words <= {LOOK, LINE, LATCHED}:
        raise wrong(path)
    return entries


def counted(data: bytes, count: int, path: str) -> Tuple["Counter[int]", "Counter[str]"]:
    """How often each device line was written in what was printed of `count` commands with a log, and how many answers have
    which first word: without a list of the commands, as that may be long."""
    if len(WORKS.findall(data)) != count:
        raise wrong(path)
    written = Counter(int(found[1]) for found in WRITTEN.finditer(data))
    answers = Counter(found[1].decode("ascii") for found in ANSWERED.finditer(data))
    if sum(answers.values()) != count:
        raise wrong(path)
    return written, answers


def wrong(path: str) -> ExploreError:
    """The error if a log isn't as it should be."""
    return ExploreError(f"{path} does not tell its accesses as docs/FORMATS.md says")


class LoggedRecording(Recording):
    """A trace with the replies and the log of each command, which can be asked as any recording: a question's answer has logs
    too."""

    plain_ok = b"work 0 0\nok\n"

    def __init__(self, program: LoggedProgram, settings: Settings, trace: Trace, known: Optional[Output] = None) -> None:
        self.program = program
        self.settings = settings
        self.trace = trace
        output = known or self.first_run()
        self.commands = trace.commands
        program.check(output, settings)
        self.entries = entries_of(output.data, program.path)
        self.replies = [entry.reply for entry in self.entries]
        self.check_replies(output)
        self.script = b"".join(command.text + b"\n" for command in self.commands)
        self.script_ends = ends_of([len(command.text) + 1 for command in self.commands])
        self.output, self.status = output.data, output.status
        self.output_ends = ends_of([entry.size for entry in self.entries])


def logged_again(recording: Recording, data: bytes, sizes: Sequence[int]) -> Recording:
    """The same trace by the program with its log, which printed `data`; `sizes` has the length of each reply with its log. It
    can be asked like any recording, and the answers have logs too."""
    logged = copy.copy(recording)
    logged.program = LoggedProgram(recording.program.path)
    logged.plain_ok = LoggedRecording.plain_ok
    logged.output, logged.output_ends = data, ends_of(sizes)
    return logged
