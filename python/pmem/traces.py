"""Whole traces: what a trace says, and what the program answers to all of it."""
import os
from dataclasses import dataclass, field
from enum import IntEnum
from html import escape
from typing import Iterable, List, Optional, Sequence, Tuple, Union

from .answers import FORMS, Answer, Exhibit, ReplyLines, read_reply, short_text
from .errors import BadWords, NoMemory, ProgramFailed
from .grammar import is_skipped, words_of
from .settings import OPTIONS
from .ways import Through, way_of

SHOWN_ROWS = 200


class Status(IntEnum):
    """How a run ended (docs/FORMATS.md, Statuses)."""

    OK = 0
    NO_MEMORY = 1
    BAD_WORDS = 2
    READ_FAILED = 3
    REPLY_LOST = 4
    BAD_LINE = 5
    SHOWN = 6
    TOO_MANY_LINES = 7
    HOLDS_NOT = 8


@dataclass(frozen=True)
class Command:
    """A line of a trace that asks something: `number` counts all lines, from 1."""

    number: int
    words: Tuple[str, ...]

    @property
    def name(self) -> str:
        """Its first word."""
        return self.words[0]

    def __str__(self) -> str:
        return " ".join(self.words)


@dataclass(frozen=True)
class Trace:
    """The bytes of a trace. Traces can be added: each part ends its last line."""

    data: bytes = field(repr=False)

    @classmethod
    def of(cls, trace: Union[str, bytes, Iterable[str], "Trace"]) -> "Trace":
        """A trace of a text, of bytes, or of lines."""
        if isinstance(trace, Trace):
            return trace
        if isinstance(trace, bytes):
            return cls(trace)
        return cls((trace if isinstance(trace, str) else "".join(f"{line}\n" for line in trace)).encode())

    @classmethod
    def load(cls, path: Union[str, "os.PathLike[str]"]) -> "Trace":
        """A trace of a file."""
        with open(path, "rb") as file:
            return cls(file.read())

    @classmethod
    def sample(cls, seed: int, count: int, through: Through = None) -> "Trace":
        """The sample trace of `count` commands that the program makes of `seed`."""
        status, output = way_of(through).run(["make", str(seed), str(count)], b"")
        if status == Status.BAD_WORDS:
            raise BadWords(f"no sample trace has the seed {seed} and {count} commands")
        if status:
            raise ProgramFailed(f"make ended with status {status}")
        return cls(output)

    @property
    def lines(self) -> List[bytes]:
        """All its lines, without their LF."""
        lines = self.data.split(b"\n")
        return lines if lines[-1] else lines[:-1]

    @property
    def commands(self) -> List[Command]:
        """Its lines except blank ones and comments."""
        found = []
        for number, line in enumerate(self.lines, 1):
            words = words_of(line)
            if not is_skipped(words):
                found.append(Command(number, tuple(word.decode("utf-8", "replace") for word in words)))
        return found

    def __add__(self, other: "Trace") -> "Trace":
        ended = self.data if not self.data or self.data.endswith(b"\n") else self.data + b"\n"
        return Trace(ended + other.data)

    def __str__(self) -> str:
        return self.data.decode("utf-8", "replace")

    def _repr_html_(self) -> str:
        return table(("line", "command"), [(str(command.number), code(str(command))) for command in self.commands])


def code(text: str) -> str:
    """A line as HTML, with long hex shortened, and the whole as its title."""
    return f'<code title="{escape(text, quote=True)}">{escape(short_text(text))}</code>'


def table(heads: Sequence[str], rows: Sequence[Sequence[str]]) -> str:
    """A table as HTML, of cells in HTML; what is more than 200 rows is counted only."""
    head = "".join(f"<th>{escape(text)}</th>" for text in heads)
    body = "".join("<tr>" + "".join(f"<td style='text-align:left'>{cell}</td>" for cell in row) + "</tr>" for row in rows[:SHOWN_ROWS])
    more = f"<p>and {len(rows) - SHOWN_ROWS} more</p>" if len(rows) > SHOWN_ROWS else ""
    return f"<table><thead><tr>{head}</tr></thead><tbody>{body}</tbody></table>{more}"


@dataclass(frozen=True)
class Output:
    """What the program prints for a trace, and its status."""

    words: Tuple[str, ...]
    trace: Trace = field(repr=False)
    status: Status
    data: bytes = field(repr=False)

    @property
    def text(self) -> str:
        """What is printed."""
        return self.data.decode("utf-8", "replace")

    @property
    def replies(self) -> List[Tuple[Command, Answer]]:
        """Each command that was answered, with its answer. Empty for words that name no session.

        Raises:
            ProgramFailed: the output is not one of pmem.
        """
        session = self.words[0] if self.words else ""
        if session not in FORMS:
            return []
        found: List[Tuple[Command, Answer]] = []
        asked = self.trace.commands
        reply = ReplyLines("--log" in self.words)
        for line in self.text.splitlines():
            whole = None if line.startswith("stop ") else reply.add(line)
            if whole is None:
                continue
            if len(found) == len(asked):
                raise ProgramFailed(f"more answers than commands: {line[:80]!r}")
            command = asked[len(found)]
            found.append((command, read_reply(session, command.name, whole, reply.has_log)))
        if reply.lines and self.status not in (Status.NO_MEMORY, Status.REPLY_LOST):
            raise ProgramFailed(f"the last reply has no answer: {reply.lines[0][:80]!r}")
        return found

    @property
    def answers(self) -> List[Answer]:
        """The answers, without the commands."""
        return [answer for _, answer in self.replies]

    @property
    def exhibit(self) -> Optional[Exhibit]:
        """The exhibit that ended the run, if one did."""
        last = self.answers[-1] if self.status == Status.SHOWN else None
        return last if isinstance(last, Exhibit) else None

    @property
    def stop(self) -> Optional[str]:
        """The last line if the run stopped early, as `stop line 3 1`."""
        last = self.text.splitlines()[-1:]
        return last[0] if last and last[0].startswith("stop ") else None

    def _repr_html_(self) -> str:
        rows = [(str(command.number), code(str(command)), "".join(f"{code(str(mark))}<br>" for mark in answer.marks) + code(str(answer)))
                for command, answer in self.replies]
        ended = escape(f"status {int(self.status)}" + (f": {self.stop}" if self.stop else ""))
        return f"<p><code>{escape(' '.join(self.words))}</code>, {ended}</p>" + table(("line", "command", "reply"), rows)


def answer(words: Union[str, Sequence[str]], trace: Union[str, bytes, Iterable[str], Trace] = b"", through: Through = None) -> Output:
    """Runs the whole program over a trace, as `pmem WORD ..` does over standard input: byte for byte the same.

    Words are a sequence, or a text that is split at spaces. How the run ended is in the output's `status`; no ending is raised.
    """
    split = tuple(words.split() if isinstance(words, str) else words)
    given = Trace.of(trace)
    status, output = way_of(through).run(split, given.data)
    return Output(split, given, Status(status), output)


def suite_words(suite: Optional[str], key: Optional[bytes], tag_key: Optional[bytes]) -> List[str]:
    """The words of a suite and its keys; None is the program's default."""
    words = [] if suite is None else ["--suite", suite]
    for name, value in (("--key", key), ("--tag-key", tag_key)):
        if value is not None:
            words += [name, bytes(value).hex()]
    return words


def check(exhibit: Exhibit, *, suite: Optional[str] = None, key: Optional[bytes] = None, tag_key: Optional[bytes] = None,
          through: Through = None) -> bool:
    """Whether an exhibit holds under a suite with its keys: checked by the proved code, without the run that showed it.

    Raises:
        BadWords: there is no such suite, or a key has the wrong length.
    """
    status, _ = way_of(through).run(["check", *suite_words(suite, key, tag_key)], f"{exhibit}\n".encode())
    if status == Status.BAD_WORDS:
        raise BadWords(f"the suite is {OPTIONS['suite'].text}, its key {OPTIONS['key'].text} bytes, its tag key {OPTIONS['tag-key'].text}")
    if status == Status.NO_MEMORY:
        raise NoMemory("no memory to check an exhibit")
    if status not in (Status.OK, Status.HOLDS_NOT):
        raise ProgramFailed(f"check ended with status {status}")
    return status == Status.OK
