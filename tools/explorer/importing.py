"""Traces of pmem from what other programs wrote down: valgrind's lackey, pmemcheck's log of stores, or a plain CSV."""
import io
import os
import re
import sys
from collections import Counter
from dataclasses import dataclass, field
from typing import BinaryIO, Dict, Iterable, Iterator, List, Optional, Sequence, Set, Tuple

from .convert import converted
from .errors import ExploreError, reason_of
from .front import Combining, Front, Reaching, Straight, WriteBackCache
from .output import plural, table_text
from .package import LINE_BYTES
from .readers import (CHANGED, CHUNK_BYTES, FENCE, FLUSH, INSTRUCTION, KINDS, LOAD, MARK, NTSTORE, STORE, WRITES, Access, Chunks, Wanted,
                      check_lackey_file, lackey_head, lackey_pages)
from .rows import clean, row_text
from .settings import LEVELS
from .symbols import lines_at
from .together import Progress
from .trace import commands_of, read_whole, shown_name

QUEUE = 16
PAGE_LINES = 64
PAGE_BYTES = LINE_BYTES * PAGE_LINES
MOST_LINES = 900_000
MOST_NAMED = 5
TOP_BYTES = 4096
DECIMAL = "(an address that does not begin with 0x is decimal)"
# A fence after which all stores are sure, of a file that has no flushes.
PERSIST = "persist"
X86_FENCES = ("sfence", "mfence")


@dataclass(frozen=True)
class Image:
    """What memory holds before the program runs: the bytes of a file from an address on."""

    address: int
    data: bytes

    def line(self, number: int) -> bytes:
        """Its bytes in a line, zero if it has none."""
        start = LINE_BYTES * number - self.address
        found = self.data[max(0, start):max(0, start + LINE_BYTES)]
        return (bytes(max(0, -start)) + found).ljust(LINE_BYTES, b"\0")[:LINE_BYTES]

    def has(self, number: int) -> bool:
        """Whether some of a line's bytes are its own."""
        return self.address < LINE_BYTES * (number + 1) and LINE_BYTES * number < self.address + len(self.data)


@dataclass(frozen=True)
class Rules:
    """How accesses become commands."""

    data_lines: int
    port: int = 0
    fence_every: Optional[int] = None
    fence_at: Tuple[int, ...] = ()
    within: Optional[Tuple[int, int]] = None
    skip: int = 0
    commands: int = 1000
    combine: bool = False
    cache: Optional[Tuple[int, int]] = None
    machine_name: str = "run"
    levels: int = 2
    fold: bool = False
    image: Tuple[Image, ...] = ()


def made_bytes(number: int, size: int) -> bytes:
    """The bytes of a store whose data nobody wrote down: its number, over and over."""
    text = (number % (1 << 32)).to_bytes(4, "big")
    return (text * (size // 4 + 1))[:size]


def pieces(address: int, size: int) -> Iterator[Tuple[int, int, int]]:
    """An access as pieces of one line each: the line's number, the first byte in it, and how many."""
    while size:
        start = address % LINE_BYTES
        count = min(size, LINE_BYTES - start)
        yield address // LINE_BYTES, start, count
        address += count
        size -= count


class Pages:
    """Which page of memory each page of the other program is: the one with its remainder, or if another one has that the next free
    one. Once none is free, `fold` puts it onto the one with its remainder."""

    def __init__(self, rules: Rules) -> None:
        self.rules = rules
        self.lines = min(PAGE_LINES, rules.data_lines)
        self.count = rules.data_lines // self.lines
        self.places: Dict[int, int] = {}
        self.taken: Set[int] = set()
        self.folded = 0

    def line(self, number: int) -> int:
        """The data line of a line of the other program."""
        page, line = divmod(number, self.lines)
        place = self.places.get(page)
        if place is None:
            place = self.places[page] = self.free(page)
        return self.lines * place + line

    def free(self, page: int) -> int:
        """The page of memory for one more page."""
        first = page % self.count
        if len(self.taken) < self.count:
            place = next(each % self.count for each in range(first, first + self.count) if each % self.count not in self.taken)
            self.taken.add(place)
            return place
        if not self.rules.fold:
            more = self.rules.levels + 1
            levels = f"--levels {more} (four times as much), " if more in LEVELS else ""
            raise ExploreError(f"the program uses more than the {self.count} pages of {LINE_BYTES * self.lines} bytes that memory has with "
                               f"--levels {self.rules.levels}: use {levels}--within, or --fold to put several onto one")
        self.folded += 1
        return first


@dataclass
class Findings:
    """What is wrong with the program's flushes and fences, by row: lines stored to and never flushed, lines flushed with no fence behind,
    flushes of what has no store, fences of what has no flush. Lines are those of the other program."""

    unflushed: Dict[int, Access] = field(default_factory=dict)
    unfenced: Dict[int, Access] = field(default_factory=dict)
    flushes: List[Access] = field(default_factory=list)
    fences: List[Access] = field(default_factory=list)
    is_fenced: bool = True

    def notes(self) -> List[str]:
        """What a programmer should look at."""
        told = []
        for what, found in (("never flushed", self.unflushed), ("flushed, but with no fence after that", self.unfenced)):
            if found:
                texts = [f"{LINE_BYTES * line:#x} ({place_of(access)})" for line, access in found.items()]
                told.append(f"{what}: {plural(len(texts), 'line')}: {some(texts)}")
        if self.flushes:
            texts = [f"{access.address:#x} ({place_of(access)})" for access in self.flushes]
            told.append(f"redundant: {plural(len(texts), 'flush', 'flushes')} of lines with no store since their last flush: {some(texts)}")
        if self.fences:
            told.append(f"redundant: {plural(len(self.fences), 'fence')} with nothing to wait for: {some(list(map(place_of, self.fences)))}")
        return told


def place_of(access: Access) -> str:
    """The row of an access, with its place in the source."""
    return f"row {access.row}" + (f", {clean(access.source)}" if access.source else "")


def some(texts: Sequence[str]) -> str:
    """The first ones, and how many more there are."""
    more = len(texts) - MOST_NAMED
    return ", ".join(texts[:MOST_NAMED]) + (f" and {more} more" if more > 0 else "")


class Maker:
    """Makes commands of accesses, and counts what waits at the port. What stands in front of memory (`front`) says which
    loads and stores reach it, and when. Comments say which row each command comes from, except of lackey (`has_rows`)."""

    def __init__(self, rules: Rules, has_flushes: bool, has_rows: bool = True) -> None:
        self.rules = rules
        self.has_flushes = has_flushes
        self.has_rows = has_rows
        self.fence_every = rules.fence_every if rules.fence_every is not None else 0 if has_flushes else QUEUE
        self.is_cut_off = False
        self.waiting = 0
        self.unfenced = 0
        self.stores = 0
        self.fences_at: Set[int] = set(rules.fence_at)
        self.unmet: Set[int] = set(rules.fence_at)
        self.folded: Dict[int, Set[int]] = {}
        self.pages = Pages(rules)
        self.findings = Findings()
        self.front: Front = Straight()
        if rules.cache is not None:
            self.front = WriteBackCache(*rules.cache, has_flushes, self.before)
        elif rules.combine or has_flushes:
            self.front = Combining(has_flushes, self.before)
        self.tells_stores = has_rows and not isinstance(self.front, Straight)

    def before(self, line: int) -> bytes:
        """The bytes of a line of the other program before it runs."""
        found = bytes(LINE_BYTES)
        for image in self.rules.image:
            if image.has(line):
                found = image.line(line)
        return found

    def place(self, line: int) -> int:
        """The data line that a line of the other program's memory is on."""
        data_line = self.pages.line(line)
        self.folded.setdefault(data_line, set()).add(line)
        return data_line

    def write(self, line: int, start: int, data: bytes) -> List[str]:
        """A write that reaches memory. If the queue is full its oldest write is drained first."""
        commands = []
        if self.waiting == QUEUE:
            commands.append(f"drain {self.rules.port}")
            self.waiting -= 1
        word = f"post {self.rules.port} {self.place(line)}" if len(data) == LINE_BYTES else \
            f"part {self.rules.port} {self.place(line)} {start}"
        self.waiting += 1
        return [*commands, f"{word} {data.hex()}"]

    def read(self, line: int) -> List[str]:
        """A read that reaches memory."""
        return [f"read {self.rules.port} {self.place(line)}"]

    def reaching(self, found: Iterable[Reaching]) -> List[str]:
        """The commands of what reaches memory: a line, the first byte and the bytes of a write, or none of a read."""
        return [command for line, start, data in found
                for command in (self.read(line) if data is None else self.write(line, start, data))]

    def row(self, access: Access, event: str) -> List[str]:
        """The comment of a row."""
        return [row_text(access.row, access.source, event)] if self.has_rows and access.row else []

    def fence(self) -> List[str]:
        """A fence: what has to be in memory by then is written, and if a write waits all are made sure of."""
        commands = self.reaching(self.front.fence())
        if not self.waiting:
            return commands
        self.waiting = self.unfenced = 0
        return [*commands, f"fence {self.rules.port}"]

    def fence_of(self, access: Access) -> List[str]:
        """What a fence of the program makes."""
        if self.has_flushes:
            if self.findings.is_fenced:
                self.findings.fences.append(access)
            self.findings.is_fenced = True
            self.findings.unfenced.clear()
            return [*self.row(access, access.word), *self.fence()]
        commands = self.fence()
        return [*self.row(access, PERSIST if self.tells_stores else access.word), *commands] if commands else []

    def store(self, access: Access) -> List[str]:
        """What a store makes."""
        data = access.data or made_bytes(self.stores + 1, access.size)
        self.stores += 1
        self.unfenced += 1
        commands = [] if self.tells_stores else self.row(access, "store")
        for line, start, count in pieces(access.address, access.size):
            part, data = data[:count], data[count:]
            if self.tells_stores:
                commands += self.row(access, f"{access.word} {self.place(line)} {start} {part.hex()}")
            if access.kind == NTSTORE:
                self.findings.is_fenced = False
                self.findings.unfenced[line] = access
                commands += self.reaching(self.front.store_past(line, start, part))
            else:
                if self.has_flushes:
                    self.findings.unflushed.setdefault(line, access)
                commands += self.reaching(self.front.store(line, start, part))
        return commands

    def load(self, access: Access) -> List[str]:
        """What a load makes."""
        commands = [command for line, _, _ in pieces(access.address, access.size) for command in self.reaching(self.front.load(line))]
        return [*self.row(access, "load"), *commands] if commands else []

    def flush(self, access: Access) -> List[str]:
        """What a flush of the lines of an access makes. Lines without a store since their last flush make nothing."""
        commands = []
        lines = self.front.held(access.address // LINE_BYTES, (access.address + access.size - 1) // LINE_BYTES)
        for line in lines:
            first = self.findings.unflushed.pop(line, access)
            self.findings.unfenced[line] = first
            commands += [*self.row(access, f"{access.word} {self.place(line)}"), *self.reaching(self.front.flush(line))]
        if lines:
            self.findings.is_fenced = False
        else:
            self.findings.flushes.append(access)
        return commands

    def is_fence_at(self, access: Access) -> bool:
        """Whether a fence was asked for at the address of an access; that address is met then."""
        self.unmet.discard(access.address)
        return access.address in self.fences_at

    def commands(self, access: Access) -> List[str]:
        """The commands of one access."""
        if access.kind == FENCE:
            return self.fence_of(access)
        if access.kind == MARK:
            return self.row(access, f"mark {access.word}") if access.word else []
        commands = self.fence() if access.kind == INSTRUCTION and self.is_fence_at(access) else []
        if access.kind in WRITES:
            commands += self.store(access)
        elif access.kind == LOAD:
            commands += self.load(access)
        elif access.kind == FLUSH:
            commands += self.flush(access)
        if access.kind != INSTRUCTION and self.is_fence_at(access):
            commands += self.fence()
        if self.fence_every and self.unfenced >= self.fence_every:
            commands += self.fence()
        return commands

    def image_commands(self) -> List[str]:
        """The commands that put what memory holds before the program runs: the lines of the pages that it uses."""
        commands: List[str] = []
        waiting = 0
        for page in sorted(self.pages.places):
            for line in range(page * self.pages.lines, (page + 1) * self.pages.lines):
                data = self.before(line)
                if not any(data):
                    continue
                commands.append(f"post {self.rules.port} {self.place(line)} {data.hex()}")
                waiting += 1
                if waiting == QUEUE:
                    commands.append(f"fence {self.rules.port}")
                    waiting = 0
        return [*commands, f"fence {self.rules.port}"] if waiting else commands


def within_text(rules: Rules) -> str:
    """The addresses that are looked at, if not all are."""
    if rules.within is None:
        return ""
    low, high = rules.within
    return f" within {low:#x}-{high:#x} {DECIMAL}"


def unmet_told(maker: Maker) -> List[str]:
    """The addresses at which a fence was asked for and no access begins."""
    end = " up to the trace's end" if maker.is_cut_off else ""
    return [f"no fence at {address:#x}, as nothing that is looked at begins there{end} {DECIMAL}" for address in sorted(maker.unmet)]


def accesses_taken(accesses: Iterable[Access], rules: Rules) -> Iterator[Access]:
    """The accesses that are looked at: all except the first stores and loads skipped."""
    skip = rules.skip
    for access in accesses:
        if skip and access.kind in (STORE, NTSTORE, CHANGED, LOAD):
            skip -= 1
            continue
        yield access


def waiting_after(waiting: int, command: str) -> int:
    """How many writes wait after a command."""
    if command.startswith("p"):
        return waiting + 1
    return 0 if command.startswith("f") else waiting - command.startswith("d")


def made_commands(accesses: Iterable[Access], rules: Rules, maker: Maker) -> Iterator[str]:
    """The commands of the accesses with their comments, up to the number that is wanted, a last fence among them if writes wait;
    if the program says what it flushes it says its fences too, and no other is added."""
    left, waiting, lines = rules.commands, 0, 0
    for access in accesses_taken(accesses, rules):
        for command in maker.commands(access):
            after = waiting_after(waiting, command)
            lines += 1
            if left < (2 if after and not maker.has_flushes else 1) or lines > MOST_LINES:
                maker.is_cut_off = True
                if waiting and not maker.has_flushes:
                    yield f"fence {rules.port}"
                return
            left, waiting = left - (not command.startswith("#")), after
            yield command
    if not maker.has_flushes:
        yield from maker.fence()


def opened(name: str) -> BinaryIO:
    """A file to be read by lines, or standard input if the name is `-`."""
    try:
        return open(0 if name == "-" else name, "rb", closefd=name != "-")
    except OSError as error:
        raise ExploreError(f"cannot read {shown_name(name)}: {reason_of(error)}") from error


def accesses_in(name: str, kind: str, file: BinaryIO, rules: Rules) -> Iterator[Access]:
    """The accesses in a file that are within the addresses, with progress on how much of it was read."""
    progress = Progress(f"bytes of {shown_name(name)}")
    if kind == "lackey" and file.seekable():
        check_lackey_file(file, shown_name(name))
    try:
        yield from KINDS[kind](Chunks(file, progress.reach), shown_name(name), Wanted(rules.within, rules.fence_at))
    finally:
        progress.end()


def has_flushes(name: str, kind: str, file: BinaryIO, rules: Rules) -> bool:
    """Whether the other program speaks as x86 does: with flushes, stores past the cache, `sfence` or `mfence`. A store is then sure only
    after a flush of its line and a fence. Otherwise a `fence` makes all stores before it sure."""
    if kind != "csv":
        return kind == "pmemcheck"
    found = any(access.kind in (FLUSH, NTSTORE) or access.word in X86_FENCES for access in accesses_in(name, kind, file, rules))
    file.seek(0)
    return found


def import_trace(name: str, kind: str, rules: Rules) -> str:
    """The trace of the accesses in a file, `kind` being one of `KINDS`."""
    with opened(name) as file:
        try:
            if kind == "csv" and not file.seekable():
                file = io.BytesIO(read_whole(file, name))
            maker = Maker(rules, has_flushes(name, kind, file, rules), kind != "lackey")
            commands = list(made_commands(accesses_in(name, kind, file, rules), rules, maker))
        except OSError as error:
            raise ExploreError(f"cannot read {shown_name(name)}: {reason_of(error)}") from error
    if not maker.stores and all(command.startswith("#") for command in commands):
        raise ExploreError(f"{shown_name(name)} has no store or load to import"
                           + within_text(rules))
    commands = [*maker.image_commands(), *commands]
    for note in [*unmet_told(maker), *(maker.findings.notes() if maker.has_flushes and not maker.is_cut_off else [])]:
        sys.stderr.write(f"explore: {note}\n")
    notes: List[str] = []
    if rules.machine_name != "run":
        made = converted(commands_of("\n".join(commands).encode()), rules.machine_name, rules.levels)
        commands, notes = [command.decode() for command in made.commands], made.notes
    return "\n".join([*heading(name, kind, rules, maker, commands, notes), *commands]) + "\n"


def heading(name: str, kind: str, rules: Rules, maker: Maker, commands: Sequence[str], notes: Sequence[str]) -> List[str]:
    """The comments that say where a trace comes from, and which lines are which."""
    words = Counter(command.split(" ", 1)[0] for command in commands if not command.startswith("#"))
    counts = ", ".join(f"{count} {word}" for word, count in sorted(words.items()))
    lines = sum(len(lines) for lines in maker.folded.values())
    source = ascii(os.path.basename(shown_name(name)))[1:-1][:200]
    folded = f"; {plural(maker.pages.folded, 'page')} folded onto pages that others have" if maker.pages.folded else ""
    told = [f"# Made of {source} ({kind}): {counts or 'no commands'}.",
            f"# {lines} lines of its memory are on {len(maker.folded)} of {rules.data_lines} data lines: page address / {PAGE_BYTES} "
            f"modulo {maker.pages.count}, or the next free one{folded}."]
    if rules.machine_name != "run":
        told.append(f"# For pmem {rules.machine_name} with {rules.levels} levels.")
    told += [f"# Of its commands for pmem run: {note}." for note in notes]
    if maker.is_cut_off:
        told.append(f"# It goes on after these, which are the {rules.commands} commands of pmem run that were asked for."
                    if rules.machine_name != "run" else
                    f"# It goes on after these {sum(words.values())} commands, which are as many as were asked for.")
    if kind == "lackey":
        told.append("# The bytes stored are made up, since lackey does not print them: store n writes its number n.")
    if maker.fence_every and not maker.has_flushes:
        told.append(f"# Fences: the program's own, and one after each {plural(maker.fence_every, 'store')} (--fence-every).")
    told += [f"# {line}" for line in maker.front.told()]
    return [*told, *places_told(maker.folded)]


def places_told(folded: Dict[int, Set[int]]) -> List[str]:
    """The comments that say which addresses the data lines have; lines in a row share a comment."""
    runs: List[List[int]] = []
    for line, place in sorted((line, place) for place, lines in folded.items() for line in lines):
        if runs and (runs[-1][0] + runs[-1][1], runs[-1][2] + runs[-1][1]) == (place, line):
            runs[-1][1] += 1
        else:
            runs.append([place, 1, line])
    return [lines_at(place, count, LINE_BYTES * line) for place, count, line in runs]


def hottest(name: str, kind: str, rules: Rules, count: int) -> str:
    """The ranges of memory that are stored to and loaded from most."""
    stores: Counter[int] = Counter()
    loads: Counter[int] = Counter()
    with opened(name) as file:
        try:
            if kind == "lackey" and file.seekable() and not rules.skip and rules.within is None:
                count_lackey_pages(name, file, stores, loads)
            else:
                for access in accesses_taken(accesses_in(name, kind, file, rules), rules):
                    if access.kind == LOAD:
                        loads[access.address // TOP_BYTES] += 1
                    elif access.kind in WRITES:
                        stores[access.address // TOP_BYTES] += 1
        except OSError as error:
            raise ExploreError(f"cannot read {shown_name(name)}: {reason_of(error)}") from error
    total = stores + loads
    if not total:
        raise ExploreError(f"{shown_name(name)} has no store or load"
                           + within_text(rules))
    rows = [[f"{TOP_BYTES * page:#x}-{TOP_BYTES * (page + 1) - 1:#x}", str(stores[page]), str(loads[page])]
            for page, _ in sorted(total.items(), key=lambda item: (-item[1], item[0]))[:count]]
    return table_text([["addresses", "stores", "loads"]], rows, left=(0,))


def count_lackey_pages(name: str, file: BinaryIO, stores: "Counter[int]", loads: "Counter[int]") -> None:
    """Counts the stores and loads of each page of a whole log of lackey, which takes a third of the time of reading each of them."""
    lackey_head(file.readline(CHUNK_BYTES), shown_name(name), 0)
    check_lackey_file(file, shown_name(name))
    progress = Progress(f"bytes of {shown_name(name)}")
    for (kind, page), number in lackey_pages(Chunks(file, progress.reach)).items():
        for counts, kinds in ((stores, (b"S", b"M")), (loads, (b"L", b"M"))):
            if kind in kinds:
                counts[int(page, 16)] += number
    progress.end()


def cache_size(text: str) -> Tuple[int, int]:
    """Reads the size of a cache and its ways, such as `32k,8`."""
    match = re.fullmatch(r"([0-9]{1,9})([kKmM]?),([0-9]{1,3})", text)
    if match is None:
        raise ValueError(f"{text!r} is not a size and a number of ways such as 32k,8")
    size = int(match.group(1)) << {"": 0, "k": 10, "m": 20}[match.group(2).lower()]
    ways = int(match.group(3))
    if not ways or size < LINE_BYTES * ways or size % (LINE_BYTES * ways):
        raise ValueError(f"{text!r}: the size is that of whole lines of {LINE_BYTES} bytes, as many in each way")
    return size, ways
