"""What an imported program did, row by row, as the comments of its trace say: which stores came when, from which place of the
program's source, and what was flushed and fenced. docs/EXPLORE.md has the comments' grammar."""
import re
from dataclasses import dataclass, replace
from typing import Dict, List, Optional, Set

from .package import LINE_BYTES
from .symbols import Names
from .trace import Trace, printable

STORES = ("store", "ntstore", "changed")
FLUSHES = ("clwb", "clflushopt", "clflush")
FENCES = ("fence", "sfence", "mfence", "persist")
CHANGED = "changed"
ROW = re.compile(rb"# row ([0-9]{1,9})(?:, ([^\n]{1,300}?))?: "
                 rb"(?:(store|ntstore|changed) ([0-9]{1,9}) ([0-9]{1,2}) ((?:[0-9a-f]{2}){1,64})"
                 rb"|(clwb|clflushopt|clflush) ([0-9]{1,9})|(mark) ([^\n]{1,200})|(store|load|fence|sfence|mfence|persist))")
LONGEST_SOURCE = 200


@dataclass(frozen=True)
class Event:
    """A row: its number in the file that was imported, its place in the program's source (or nothing), the section that a mark
    began, and its word. A store or a flush has the line of memory; a store also has the first byte, the bytes and the program's address.
    `index` commands of the trace come before it. `has_bytes`: it says what is stored; else the commands behind it do."""

    index: int
    row: int
    source: str
    section: str
    word: str
    line: int = 0
    start: int = 0
    data: bytes = b""
    address: Optional[int] = None

    @property
    def has_bytes(self) -> bool:
        """Whether it says what is stored or flushed."""
        return bool(self.data) or self.word in FLUSHES

    @property
    def place(self) -> str:
        """Its place, in words."""
        return ", ".join(text for text in (f"row {self.row}", self.source, self.section) if text)

    @property
    def short(self) -> str:
        """The same in brackets behind the row, without the section. What was only found changed has its address: its source is where
        that was seen."""
        source = self.source
        if self.word == CHANGED and self.address is not None:
            source = f"{self.address:#x}" + (f" seen at {source}" if source else "")
        return f"row {self.row}" + (f" ({source})" if source else "")


def row_text(row: int, source: str, event: str) -> str:
    """The comment that says what a row did; `Rows` reads it."""
    told = f", {clean(source)}" if source else ""
    return f"# row {row}{told}: {event}"


def clean(source: str) -> str:
    """A place in a source as it can stand in a comment."""
    return printable(source).replace(": ", ":")[:LONGEST_SOURCE]


class Rows:
    """The rows of a trace that was imported; none of another one. `knows_stores`: they say what is stored and flushed when, apart
    from the commands that it became."""

    def __init__(self, trace: Trace) -> None:
        self.events: List[Event] = []
        self.by_command: Dict[int, Event] = {}
        if b"# row " in trace.data:
            self.read(trace)
        self.knows_stores = any(event.has_bytes for event in self.events)

    def read(self, trace: Trace) -> None:
        """Reads the comments."""
        numbers = [command.number for command in trace.commands]
        names = Names(trace)
        index, section = 0, ""
        last: Optional[Event] = None
        for number, line in enumerate(trace.data.split(b"\n"), 1):
            if index < len(numbers) and numbers[index] == number:
                if last is not None:
                    self.by_command[index] = last
                index += 1
                continue
            found = ROW.fullmatch(line.rstrip(b"\r"))
            if found is None:
                continue
            if found[9]:
                section = printable(found[10].decode("utf-8", "replace"))
            last = event_of(found, index, section)
            if last.data:
                address = next(iter(names.addresses_of(last.line)), None)
                last = last if address is None else replace(last, address=address + last.start)
            self.events.append(last)

    @property
    def lines(self) -> Set[int]:
        """The lines of memory that are stored to."""
        return {event.line for event in self.events if event.data}


def event_of(found: "re.Match[bytes]", index: int, section: str) -> Event:
    """The event that a comment states."""
    source = printable((found[2] or b"").decode("utf-8", "replace"))
    word = next(each for each in (found[3], found[7], found[9], found[11]) if each).decode()
    if found[3]:
        start, data = int(found[5]), bytes.fromhex(found[6].decode())
        return Event(index, int(found[1]), source, section, word, int(found[4]), start, data[:max(0, LINE_BYTES - start)])
    return Event(index, int(found[1]), source, section, word, int(found[8] or 0))
