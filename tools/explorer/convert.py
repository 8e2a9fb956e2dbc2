"""One workload in each machine's language: the writes, reads and power cycles of a trace of `pmem run`, for the memory of
another machine.

Each machine has the same memory after each `drain` and `fence`: what one of them makes sure of is written just then, as a
whole line. `wear` and `tree` write it line by line; for `txn` it is one transaction, or several if it has more lines
than one holds. `run` itself takes the commands as they are. What isn't part of a workload is left out: the attacker,
what is only shown, cuts (their steps are those of one machine), and upkeep that another machine lacks."""
import os
import re
from collections import Counter
from dataclasses import dataclass, field
from typing import Callable, Dict, List, Optional, Sequence, Tuple

from .errors import WRONG_WORDS, ExploreError
from .machines import MACHINES
from .package import LINE_BYTES, PORTS
from .settings import LEVELS
from .trace import Command, Trace, number_of, shown_line

QUEUE = 16
LINES_OF_TRANSACTION = 15
LEVELS_OF_TREE = 2
POSTING = ("post", "part")
# How many words each command of `run` has.
WORDS = {"post": 4, "part": 5, "drain": 2, "fence": 2, "read": 3, "turn": 1, "flush": 1, "cut": 2, "off": 1, "on": 1, "poke": 3,
         "flip": 3, "move": 3, "snap": 1, "back": 2, "peek": 2, "stat": 1, "loss": 2}
HEX = re.compile("(?:[0-9a-fA-F]{2}){1,64}")
LARGEST = 1 << 64

# A write that waits: its line, its first byte, its bytes, and the command that posted it.
Waiting = Tuple[int, int, bytes, bytes]


def levels_for(machine_name: str, levels: int) -> int:
    """The levels with which a machine has the memory that `run` has with `levels`, except for the machine's own lines."""
    wanted = levels + LEVELS_OF_TREE if machine_name == "tree" else levels
    if wanted not in LEVELS:
        most = MACHINES[machine_name].data_lines(LEVELS[-1])
        raise ExploreError(f"{machine_name} has no memory as large as that of run with {levels} levels: at most {most:,} lines, as run with "
                           f"{LEVELS[-1] - LEVELS_OF_TREE} levels (explore bounds prints what larger ones would take)", WRONG_WORDS)
    return wanted


@dataclass(frozen=True)
class Unit:
    """A part of a workload: a `read`, a `write` (of the lines that a drain or a fence makes durable), `off` or `on`; and
    which commands it is in a machine's language."""

    kind: str
    commands: range
    lines: int


@dataclass
class Converted:
    """A workload in a machine's language, and what became of the trace's commands that aren't in it as they were. Its units
    are only those of whole lines."""

    machine_name: str
    data_lines: int
    commands: List[bytes] = field(default_factory=list)
    units: List[Unit] = field(default_factory=list)
    left_out: Dict[str, int] = field(default_factory=dict)
    outside: Dict[int, int] = field(default_factory=dict)
    whole: int = 0
    split: int = 0
    read_past_queue: int = 0
    never_written: int = 0

    @property
    def notes(self) -> List[str]:
        """What a reader should know before it is run."""
        told = []
        if self.outside:
            told.append(f"left out, as {self.machine_name} has only {outside_text(self.data_lines, self.outside)}")
        if self.left_out:
            told.append("left out: " + ", ".join(f"{count} {word}" for word, count in sorted(self.left_out.items())))
        if self.whole:
            told.append(f"writes of a part of a line, which write the whole line here: {self.whole}")
        if self.split:
            told.append(f"fences of more than {LINES_OF_TRANSACTION} lines, which are several transactions each: {self.split}")
        if self.read_past_queue:
            told.append(f"reads of a line that waits, which read what is in memory here: {self.read_past_queue}")
        if self.never_written:
            told.append(f"left out, as no drain or fence makes sure of them: writes: {self.never_written}")
        return told


def outside_text(data_lines: int, outside: Dict[int, int]) -> str:
    """Which lines there are, and how many others the trace names."""
    return f"the lines 0 to {data_lines - 1}: other lines: {len(outside)}, writes and reads of them: {sum(outside.values())}"


def wrong(command: Command, why: str) -> ExploreError:
    """The error for a line that is not a command."""
    return ExploreError(f"line {command.number} of the trace {why}: {shown_line(command.text)}")


class Converter:
    """Goes along a trace, with what waits at its ports and what is in memory. With `whole_of` each machine, `run` too, writes
    whole lines, just when they are made durable, and the memory has `whole_of` lines; `folded`: a line past them is the one
    with its remainder."""

    def __init__(self, machine_name: str, levels: int, whole_of: Optional[int] = None, folded: bool = False) -> None:
        self.machine = MACHINES[machine_name]
        self.made = Converted(machine_name, self.machine.data_lines(levels) if whole_of is None else whole_of)
        self.as_they_are = self.machine.has_ports and whole_of is None
        self.folded = folded
        self.memory: Dict[int, bytes] = {}
        self.queues: List[List[Waiting]] = [[] for _ in range(PORTS)]
        self.left_out: "Counter[str]" = Counter()
        self.outside: "Counter[int]" = Counter()
        self.has_power = True
        self.written: Callable[[List[Tuple[int, bytes]]], List[bytes]] = \
            {"txn": self.transactions, "run": self.posts}.get(machine_name, self.single_writes)

    def convert(self, commands: Sequence[Command]) -> Converted:
        """The workload of these commands."""
        for command in commands:
            if len(command.words) != WORDS.get(command.word):
                raise wrong(command, "is not a command of pmem run")
            self.add(command)
        self.made.never_written += sum(map(len, self.queues)) if not self.as_they_are else 0
        self.made.left_out, self.made.outside = dict(self.left_out), dict(self.outside)
        return self.made

    def add(self, command: Command) -> None:
        """Goes on with a command."""
        words = command.words
        if command.word in ("off", "on"):
            self.power(command.word)
        elif command.word not in (*POSTING, "drain", "fence", "read"):
            self.left_out[command.word] += 1
        elif not self.has_power:
            self.left_out[f"{command.word} without power"] += 1
        elif command.word in ("drain", "fence"):
            self.sure(command, self.number(command, words[1], PORTS))
        else:
            line = self.number(command, words[2], LARGEST)
            if self.folded:
                line %= self.made.data_lines
            if line >= self.made.data_lines:
                self.outside[line] += 1
            elif command.word == "read":
                self.read(command, self.number(command, words[1], PORTS), line)
            else:
                self.post(command, self.number(command, words[1], PORTS), line)

    def number(self, command: Command, word: str, above: int) -> int:
        """A number of a command."""
        number = number_of(word)
        if number is None or number >= above:
            raise wrong(command, f"has {word} instead of a number below {above}")
        return number

    def power(self, word: str) -> None:
        """Power goes off, and what waits is lost, or comes on."""
        self.put(word, [word.encode()], 0)
        if word == "off":
            self.made.never_written += 0 if self.as_they_are else sum(map(len, self.queues))
            self.queues = [[] for _ in range(PORTS)]
        self.has_power = word == "on"

    def post(self, command: Command, port: int, line: int) -> None:
        """A write waits, if there is room."""
        words = command.words
        start = 0 if command.word == "post" else self.number(command, words[3], LINE_BYTES)
        if not HEX.fullmatch(words[-1]) or command.word == "post" and len(words[-1]) != 2 * LINE_BYTES:
            raise wrong(command, "has no such hex digits as docs/FORMATS.md says")
        data = bytes.fromhex(words[-1])
        if start + len(data) > LINE_BYTES:
            self.left_out[f"{command.word} past the line's end"] += 1
            return
        if len(self.queues[port]) == QUEUE:
            self.left_out[f"{command.word} to a full queue"] += 1
            return
        self.queues[port].append((line, start, data, command.text))
        if self.as_they_are:
            self.made.commands.append(command.text)

    def read(self, command: Command, port: int, line: int) -> None:
        """A read of memory."""
        if self.as_they_are:
            self.made.commands.append(command.text)
            return
        self.made.read_past_queue += any(write[0] == line for write in self.queues[port])
        self.put("read", [self.machine.read(line)], 1)

    def sure(self, command: Command, port: int) -> None:
        """The oldest write of a port, or all of them, are in memory now."""
        queue = self.queues[port]
        count = len(queue) if command.word == "fence" else min(1, len(queue))
        writes = queue[:count]
        del queue[:count]
        if self.as_they_are:
            self.made.commands.append(command.text)
            return
        lines = []
        for line, start, data, _ in writes:
            old = self.memory.get(line, bytes(LINE_BYTES))
            self.memory[line] = old[:start] + data + old[start + len(data):]
            self.made.whole += len(data) < LINE_BYTES
            lines.append((line, self.memory[line]))
        if lines:
            self.put("write", self.written(lines), len(lines))

    def put(self, kind: str, commands: List[bytes], lines: int) -> None:
        """Adds a unit."""
        first = len(self.made.commands)
        self.made.commands += commands
        self.made.units.append(Unit(kind, range(first, len(self.made.commands)), lines))

    def posts(self, lines: List[Tuple[int, bytes]]) -> List[bytes]:
        """Writes that are posted and made sure of at once."""
        return [*(b"post 0 %d %s" % (line, data.hex().encode()) for line, data in lines),
                b"drain 0" if len(lines) == 1 else b"fence 0"]

    def single_writes(self, lines: List[Tuple[int, bytes]]) -> List[bytes]:
        """Writes one after the other."""
        return [b"write %d %s" % (line, data.hex().encode()) for line, data in lines]

    def transactions(self, lines: List[Tuple[int, bytes]]) -> List[bytes]:
        """Writes in a transaction, which holds each line once, or in several."""
        commands: List[bytes] = []
        held: Dict[int, bytes] = {}
        groups = [held]
        for line, data in lines:
            if line not in held and len(held) == LINES_OF_TRANSACTION:
                held = {}
                groups.append(held)
            held[line] = data
        self.made.split += len(groups) > 1
        for group in groups:
            if group:
                commands += [b"begin", *(b"put %d %s" % (line, data.hex().encode()) for line, data in group.items()), b"commit"]
        return commands


def converted(commands: Sequence[Command], machine_name: str, levels: int, whole_of: Optional[int] = None,
              folded: bool = False) -> Converted:
    """The workload of a trace of `run` in the language of a machine with `levels` levels; `whole_of` and `folded` are those
    of `Converter`."""
    return Converter(machine_name, levels, whole_of, folded).convert(commands)


def converted_text(trace: Trace, made: Converted) -> str:
    """The workload as a trace. Comments say what became of the other one's commands. Comments with the addresses of an
    imported program's lines are kept."""
    kept = [text for text in trace.data.decode("ascii", "replace").split("\n") if text.startswith("# line")]
    name = ascii(os.path.basename(trace.name))[1:-1][:200]
    head = [f"# The workload of {name} for pmem {made.machine_name}.", *(f"# {note}." for note in made.notes)]
    return "\n".join([*head, *kept, *(command.decode("ascii", "replace") for command in made.commands)]) + "\n"
