"""What a program's stores may have left in memory when power fails, by the rules of x86 processors.

A store waits in the cache. The processor may write its line back at any time, flushed or not; a line is then as it was after one
of the stores to it, in program order. `clwb` and `clflushopt` are sure after the next fence, `clflush` before any later store. A
non-temporal store waits in a buffer: each of its words of 8 bytes may reach memory in any order with all else until the next fence,
and only those of one word keep theirs. Nobody knows the order in which bytes were stored that were only found changed."""
from dataclasses import dataclass, field, replace
from typing import Dict, Generic, Iterator, List, Optional, Sequence, Set, Tuple, TypeVar

from .errors import ExploreError
from .package import LINE_BYTES, PORTS
from .program import Recording, Reply
from .rows import FENCES, FLUSHES, STORES, Event, Rows
from .trace import TAMPERING_WORDS, Command
from .waiting import port_of, write_of

WORD_BYTES = 8

Item = TypeVar("Item")


@dataclass(frozen=True)
class Chain(Generic[Item]):
    """Things that happen in the order of their groups, those of a group in any order. An option is one of the states that lead
    through it: option 0 has none of them, the last one all."""

    groups: Tuple[Tuple[Item, ...], ...]

    @property
    def options(self) -> int:
        """How many options there are."""
        return 1 + sum((1 << len(group)) - 1 for group in self.groups)

    def chosen(self, option: int) -> List[Item]:
        """What has happened in an option."""
        found: List[Item] = []
        for group in self.groups:
            if option <= 0:
                break
            every = (1 << len(group)) - 1
            found += [each for place, each in enumerate(group) if option >= every or option >> place & 1]
            option -= every
        return found


@dataclass(eq=False)
class Part:
    """Bytes of a store that reach memory together. `store` is its number in the program's order."""

    store: int
    event: Event
    start: int
    data: bytes


@dataclass(eq=False)
class Store:
    """A store that memory need not have yet. `is_flushed`: the next fence makes it sure. `is_sure`: memory has it."""

    number: int
    event: Event
    parts: Tuple[Part, ...]
    is_flushed: bool = False
    is_sure: bool = False

    @property
    def is_buffered(self) -> bool:
        """Whether it goes past the cache."""
        return self.event.word == "ntstore"


def words_of_store(event: Event) -> Iterator[Tuple[int, bytes]]:
    """The bytes of a store, cut at multiples of 8 bytes."""
    at = 0
    while at < len(event.data):
        count = min(WORD_BYTES - (event.start + at) % WORD_BYTES, len(event.data) - at)
        yield event.start + at, event.data[at:at + count]
        at += count


@dataclass
class Line:
    """A line of memory: the bytes that it has for sure, and the stores to it since."""

    sure: bytes = bytes(LINE_BYTES)
    stores: List[Store] = field(default_factory=list)

    def settle(self) -> None:
        """Puts the first stores, up to one that isn't sure, into the bytes."""
        while self.stores and self.stores[0].is_sure:
            self.sure = with_parts(self.sure, self.stores.pop(0).parts)

    def may_change(self, start: int, data: bytes) -> bool:
        """Whether bytes that are stored may differ from what is there: from the sure ones, or from those of a store that isn't sure."""
        return self.sure[start:start + len(data)] != data or any(
            part.start < start + len(data) and start < part.start + len(part.data) for store in self.stores for part in store.parts)

    def copy(self) -> "Line":
        """The line as it is now, which later fences don't change."""
        return Line(self.sure, [replace(store) for store in self.stores])

    def chains(self) -> List[Chain[Part]]:
        """What may happen to it: its stores through the cache in order, and those of each word past the cache."""
        cached = tuple(store.parts for store in self.stores if not (store.is_buffered or store.is_sure))
        words: Dict[int, List[Tuple[Part, ...]]] = {}
        for store in self.stores:
            if store.is_buffered and not store.is_sure:
                for part in store.parts:
                    words.setdefault(part.start // WORD_BYTES, []).append((part,))
        return ([Chain(cached)] if cached else []) + [Chain(tuple(groups)) for _, groups in sorted(words.items())]

    def with_parts(self, chosen: Set[Part]) -> bytes:
        """Its bytes in a state."""
        return with_parts(self.sure, [part for store in self.stores for part in store.parts if store.is_sure or part in chosen])


def with_parts(data: bytes, parts: Sequence[Part]) -> bytes:
    """Bytes of a line with these parts written over them, in their order."""
    found = bytearray(data)
    for part in parts:
        found[part.start:part.start + len(part.data)] = part.data
    return bytes(found)


@dataclass(frozen=True)
class Moment:
    """The last moment before more of the stores become sure: `event` does that (None: the trace ends), and `index` commands of the trace
    come before it. `lines` has each line in play: its number, its bytes on the device, and what it may have. `is_changed`: the
    attacker has come."""

    index: int
    event: Optional[Event]
    lines: Tuple[Tuple[int, bytes, Line], ...]
    is_changed: bool
    has_power: bool

    @property
    def stores(self) -> List[Store]:
        """The stores that aren't sure, in program order."""
        found = [store for _, _, line in self.lines for store in line.stores if not store.is_sure]
        return sorted(found, key=lambda store: store.number)


class Device:
    """The memory of the trace's own commands, which is what a state begins with: lines that were drained, and what waits."""

    def __init__(self) -> None:
        self.lines: Dict[int, bytes] = {}
        self.queues: Dict[int, List[Tuple[int, int, bytes]]] = {port: [] for port in range(PORTS)}

    def line(self, number: int) -> bytes:
        """The bytes of a line."""
        return self.lines.get(number, bytes(LINE_BYTES))

    def go_on(self, command: Command, reply: Reply) -> Set[int]:
        """What a command and its answer do; answers the lines that it may have changed."""
        words = reply.answer.split(" ")
        if command.word in ("post", "part"):
            if words[0] == "ok":
                start = int(command.word_at(3)) if command.word == "part" else 0
                port, line, _ = write_of(command)
                self.queues[port].append((line, start, bytes.fromhex(command.word_at(-1))))
        elif command.word in ("drain", "fence"):
            return self.written(port_of(command), command.word, words)
        return set()

    def written(self, port: int, word: str, words: Sequence[str]) -> Set[int]:
        """A drain or a fence of a port that was answered so."""
        queue = self.queues[port]
        if words[0] == "empty":
            return set()
        done = (len(queue) if word == "fence" else 1) if words[0] == "ok" else int(words[1]) if word == "fence" and len(words) > 2 else 0
        for line, start, data in queue[:done]:
            old = self.line(line)
            self.lines[line] = old[:start] + data + old[start + len(data):]
        lines = {line for line, _, _ in queue[:done]}
        del queue[:done + (words[0] != "ok")]
        return lines

    def lose(self) -> None:
        """Power is off."""
        for queue in self.queues.values():
            queue.clear()


class Moments:
    """Goes along a trace with its rows, and finds the moments that have all states between them."""

    def __init__(self, recording: Recording, rows: Rows, torn: bool) -> None:
        self.recording = recording
        self.rows = rows
        self.torn = torn
        self.device = Device()
        self.lines: Dict[int, Line] = {}
        self.in_play: Dict[int, None] = {}
        self.has_more = False
        self.is_changed = False
        self.has_power = True
        self.count = 0

    def found(self) -> Iterator[Moment]:
        """The moments, in the order of the trace."""
        at = 0
        for index in range(len(self.recording.replies) + 1):
            while at < len(self.rows.events) and self.rows.events[at].index == index:
                yield from self.add(self.rows.events[at], index)
                at += 1
            if index < len(self.recording.replies):
                yield from self.go_on(index)
        if self.has_more:
            yield self.moment(len(self.recording.replies), None)

    def add(self, event: Event, index: int) -> Iterator[Moment]:
        """A row."""
        if event.word in STORES and event.data:
            self.store(event)
        elif event.word in FLUSHES or event.word in FENCES:
            sure = [] if event.word in ("clwb", "clflushopt") else self.made_sure(event)
            if sure and self.has_more:
                yield self.moment(index, event)
            if event.word in FLUSHES:
                self.flush(event.line)
            for store in sure:
                store.is_sure = True
            for line in {store.event.line for store in sure}:
                self.lines[line].settle()

    def store(self, event: Event) -> None:
        """A store: it may be in memory from now on."""
        if event.line >= self.recording.settings.data_lines:
            raise ExploreError(f"{self.recording.trace.name}: row {event.row} stores to line {event.line}, and memory has "
                               f"{self.recording.settings.data_lines}: use the --levels of the import")
        self.count += 1
        line = self.known(event.line)
        pieces = words_of_store(event) if self.torn or event.word != "store" else iter([(event.start, event.data)])
        parts = tuple(Part(self.count, event, start, data) for start, data in pieces if line.may_change(start, data))
        if parts:
            line.stores.append(Store(self.count, event, parts))
            self.has_more = True

    def known(self, number: int) -> Line:
        """A line of memory: at first it has the device's bytes."""
        self.in_play[number] = None
        if number not in self.lines:
            self.lines[number] = Line(self.device.line(number))
        return self.lines[number]

    def flush(self, number: int) -> None:
        """The stores to a line through the cache will be sure."""
        for store in self.lines[number].stores if number in self.lines else ():
            store.is_flushed = store.is_flushed or not store.is_buffered

    def made_sure(self, event: Event) -> List[Store]:
        """The stores that a fence or a `clflush` makes sure."""
        if event.word in FLUSHES:
            return [store for store in self.known(event.line).stores if not (store.is_buffered or store.is_sure)]
        return [store for number in self.in_play if number in self.lines for store in self.lines[number].stores
                if (store.is_flushed or store.is_buffered or event.word == "persist") and not store.is_sure]

    def go_on(self, index: int) -> Iterator[Moment]:
        """A command of the trace."""
        command, reply = self.recording.commands[index], self.recording.replies[index]
        ends = reply.is_cut or command.word == "off"
        if self.has_more and (ends or command.word in TAMPERING_WORDS):
            yield self.moment(index, None)
        for line in self.device.go_on(command, reply):
            self.in_play[line] = None
        self.is_changed = self.is_changed or command.word in TAMPERING_WORDS
        if ends:
            self.has_power = False
            self.device.lose()
            self.lines.clear()
        elif command.word == "on":
            self.has_power = True

    def moment(self, index: int, event: Optional[Event]) -> Moment:
        """The moment before a row or a command. Lines that are settled on the device aren't in play any more."""
        self.has_more = False
        lines = []
        for number in sorted(self.in_play):
            line = self.lines.get(number)
            if line is None or not line.stores and line.sure == self.device.line(number):
                del self.in_play[number]
            else:
                lines.append((number, self.device.line(number), line.copy()))
        return Moment(index, event, tuple(lines), self.is_changed, self.has_power)
