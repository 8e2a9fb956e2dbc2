"""Reading a trace: which of its lines are commands. Only the program judges what they say."""
import sys
from dataclasses import dataclass
from functools import cached_property, lru_cache
from typing import BinaryIO, List, Optional, Tuple

from .errors import ExploreError, reason_of

TAMPERING_WORDS = frozenset(("poke", "flip", "move", "back"))
LONGEST_WORD = 16
# What the program reads of a trace: 1,000,000 lines of at most 1,025 bytes.
LARGEST_FILE = 1_000_000 * 1_025
PIECE = 1 << 20


@dataclass(frozen=True)
class Command:
    """A line of the trace that holds a command; `word` is its first word."""

    number: int
    text: bytes
    word: str

    @property
    def words(self) -> List[str]:
        """All its words."""
        return [word.decode("ascii", "replace") for word in words_of(self.text)]

    def word_at(self, place: int) -> str:
        """One of its words."""
        return words_of(self.text)[place].decode("ascii", "replace")

    @property
    def short(self) -> str:
        """The command with long hex shortened, as in `post 0 0 11..11`."""
        return short_command(self.text)


@dataclass(frozen=True)
class Trace:
    """A trace: its name, its bytes, and the commands among its lines, which are found once they are asked for."""

    name: str
    data: bytes

    @cached_property
    def commands(self) -> Tuple[Command, ...]:
        """Its commands, in their order."""
        return tuple(commands_of(self.data))

    @property
    def line_count(self) -> int:
        """How many lines it has."""
        return self.data.count(b"\n") + (not self.data.endswith(b"\n") and bool(self.data))

    def line(self, number: int) -> bytes:
        """The text of a line, counted from 1."""
        lines = self.data.split(b"\n")
        return lines[number - 1] if number <= len(lines) else b""


def words_of(line: bytes) -> List[bytes]:
    """The words of a line: only spaces and tabs stand between them."""
    words = (line.replace(b"\t", b" ") if b"\t" in line else line).split(b" ")
    return [word for word in words if word] if b"" in words else words


def shown_line(line: bytes) -> str:
    """A line of a file as messages show it: shortened, and without what a terminal would act on."""
    return printable(short_text(line.decode("ascii", "replace").strip())[:100])


def told_line(line: bytes) -> str:
    """A line of another program's words as messages show it: up to 200 characters of it, its words whole."""
    return printable(line.decode("ascii", "replace").strip()[:200])


def printable(text: str) -> str:
    """A text without what a terminal would act on."""
    return "".join(letter if letter.isascii() and letter.isprintable() else "?" for letter in text)


def short_text(text: str) -> str:
    """A text whose long words are shortened to both ends."""
    return " ".join(short_word(word) for word in text.split(" "))


@lru_cache(maxsize=64)
def short_command(line: bytes) -> str:
    """The words of a line, shortened: found once for the cuts of a command, which come in a row."""
    return short_text(" ".join(word.decode("ascii", "replace") for word in words_of(line)))


def short_word(word: str) -> str:
    """A word of more than sixteen characters as its first and last ones."""
    if len(word) <= LONGEST_WORD or word.isdigit() and len(word) <= 20:
        return word
    ends = 2 if len(word) == 128 and word == word[:2] * 64 else 4
    return f"{word[:ends]}..{word[-ends:]}"


def commands_of(data: bytes) -> List[Command]:
    """The commands of a trace: its lines except for blank ones and comments."""
    commands = []
    for number, line in enumerate(data.split(b"\n"), 1):
        if line.endswith(b"\r"):
            line = line[:-1]
        words = words_of(line)
        if words and not words[0].startswith(b"#"):
            commands.append(Command(number, line, words[0].decode("ascii", "replace")))
    return commands


def read_bytes(name: str, most: int = LARGEST_FILE, head: bytes = b"") -> bytes:
    """The bytes of a file, or of standard input if the name is `-`; an error if there are more than `most`. If the file doesn't begin with
    `head`, only the first ones."""
    try:
        if name == "-":
            return read_whole(sys.stdin.buffer, name, most, head)
        with open(name, "rb") as file:
            return read_whole(file, name, most, head)
    except OSError as error:
        raise ExploreError(f"cannot read {shown_name(name)}: {reason_of(error)}") from error


def read_whole(file: BinaryIO, name: str, most: int = LARGEST_FILE, head: bytes = b"") -> bytes:
    """The same, for a file that is open. It is read in pieces, since it may have no end."""
    parts, left = [file.read(PIECE)], most
    while parts[-1] and parts[0].startswith(head):
        left -= len(parts[-1])
        if left < 0:
            raise ExploreError(f"{shown_name(name)} has more than {most} bytes")
        parts.append(file.read(PIECE))
    return b"".join(parts)


def shown_name(name: str) -> str:
    """A file's name in messages, without what a terminal would act on."""
    return "standard input" if name == "-" else shown_path(name)


def shown_path(name: str) -> str:
    """A path with letters that a terminal would act on, and bytes that aren't text, as in a string of Python."""
    return "".join(letter if letter.isprintable() else ascii(letter)[1:-1] for letter in name)


def trace_of(name: str, data: bytes) -> Trace:
    """The trace that these bytes spell."""
    return Trace(shown_name(name), data)


def read_trace(name: str) -> Trace:
    """The trace in a file, or on standard input if the name is `-`."""
    return trace_of(name, read_bytes(name))


def number_of(text: str) -> Optional[int]:
    """The number that a word of a trace spells, or None."""
    return int(text) if text.isascii() and text.isdigit() and len(text) <= 20 else None
