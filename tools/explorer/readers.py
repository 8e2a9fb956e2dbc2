"""Reads what other programs wrote down: valgrind's lackey, pmemcheck's log of stores, or a plain CSV."""
import csv
import os
import re
from collections import Counter
from typing import BinaryIO, Callable, Dict, Iterator, List, NamedTuple, Optional, Sequence, Tuple

from .errors import ExploreError
from .trace import printable, shown_line

LARGEST_ACCESS = 4096
CHUNK_BYTES = 1 << 20
LARGEST_FIELD = 1 << 16
TAIL_BYTES = 1 << 18
LAST_ADDRESS = (1 << 64) - 1

STORE = "store"
NTSTORE = "ntstore"
CHANGED = "changed"
LOAD = "load"
FENCE = "fence"
FLUSH = "flush"
MARK = "mark"
INSTRUCTION = "instruction"
WRITES = (STORE, NTSTORE, CHANGED)

LACKEY_LINE = re.compile(rb"^(I | [SLM]) ([0-9a-fA-F]{1,16}),([0-9]{1,9})$")
# With the end of the line before in front, which Python finds fast.
LACKEY_DATA = rb"\n ([SLM]) ([0-9a-fA-F]{1,16}),([0-9]{1,9})(?=[\r\n]|\Z)"
LACKEY_PAGE = re.compile(rb"\n ([SLM]) ([0-9a-fA-F]{1,13})[0-9a-fA-F]{3},[0-9]{1,9}(?=[\r\n]|\Z)")
BANNER = re.compile(rb"^==[0-9]+==", re.M)
BEGUN = re.compile(rb"^(?:I | [SLM]) [0-9a-fA-F]", re.M)
VALGRIND_LINE = re.compile(rb"^(==|--)[0-9]+(==|--)")
# What a lackey that came to the end of its program prints last, and what one that failed itself prints.
LACKEY_END = re.compile(rb"^==[0-9]+== Exit code:", re.M)
LACKEY_FAILED = re.compile(rb"^((?:Lackey|valgrind): [^\n]*(?:Assertion|the 'impossible' happened)[^\n]*)", re.M)
FAILED_WORDS = (b"Lackey: ", b"'impossible' happened")
# Each word of a CSV, and what it does; of a flush and a fence the word that its row has in the trace.
CSV_WORDS = {"store": (STORE, "store"), "s": (STORE, "store"), "write": (STORE, "store"), "w": (STORE, "store"),
             "ntstore": (NTSTORE, "ntstore"), "changed": (CHANGED, "changed"),
             "load": (LOAD, "load"), "l": (LOAD, "load"), "read": (LOAD, "load"), "r": (LOAD, "load"),
             "fence": (FENCE, "fence"), "f": (FENCE, "fence"), "sfence": (FENCE, "sfence"), "mfence": (FENCE, "mfence"),
             "flush": (FLUSH, "clwb"), "clwb": (FLUSH, "clwb"), "clflushopt": (FLUSH, "clflushopt"), "clflush": (FLUSH, "clflush"),
             "mark": (MARK, "mark")}
PMEMCHECK_START = re.compile(rb"^(?:==[0-9]+== ?|--[0-9]+-- ?)?(.*)$", re.DOTALL)


class Access(NamedTuple):
    """One thing that the other program did: a store, load or flush of bytes at an address, a fence, a mark, an instruction. `row` is its
    place in the file, `source` in the program's source; `word` is what its row is called, of a mark its text."""

    kind: str
    address: int = 0
    size: int = 0
    data: Optional[bytes] = None
    row: int = 0
    source: str = ""
    word: str = ""


class Wanted(NamedTuple):
    """What is wanted of a file: stores and loads within these addresses, and instructions at these."""

    within: Optional[Tuple[int, int]] = None
    instructions: Tuple[int, ...] = ()

    def has(self, address: int, size: int) -> bool:
        """Whether an access lies within the addresses."""
        return self.within is None or self.within[0] <= address and address + size - 1 <= self.within[1]


class Chunks:
    """The bytes of a file in pieces that end with whole lines. `reached` is called with how many bytes were read."""

    def __init__(self, file: BinaryIO, reached: Callable[[int], None]) -> None:
        self.file = file
        self.reached = reached
        self.last = b""

    def __iter__(self) -> Iterator[bytes]:
        rest, count = b"", 0
        while True:
            read = self.file.read(CHUNK_BYTES)
            count += len(read)
            self.reached(count)
            if not read:
                break
            self.last = (self.last + read)[-TAIL_BYTES:]
            end = read.rfind(b"\n") + 1
            if end:
                yield rest + read[:end]
                rest = read[end:]
            else:
                rest += read
                if len(rest) > CHUNK_BYTES:
                    raise ExploreError("a line has more than a million characters")
        if rest:
            yield rest


def lackey_accesses(chunks: Chunks, name: str, wanted: Wanted) -> Iterator[Access]:
    """The accesses that lackey's `--trace-mem=yes` printed. A modify is a load and then a store."""
    found = lackey_pattern(wanted.instructions)
    is_begun = has_banner = False
    number = 0
    for chunk in chunks:
        if not is_begun:
            is_begun, is_banner = lackey_head(chunk, name, number)
            has_banner = has_banner or is_banner
        if any(words in chunk for words in FAILED_WORDS):
            check_lackey_failed(chunk, name)
        yield from lackey_chunk(chunk, found, name, number, wanted)
        number += chunk.count(b"\n")
    if has_banner and is_begun:
        check_lackey_end(chunks.last, name)


def lackey_chunk(chunk: bytes, found: "re.Pattern[bytes]", name: str, before: int, wanted: Wanted) -> Iterator[Access]:
    """The accesses in a part of lackey's output, which that many lines come before. Most of a log is not wanted, so that is seen first."""
    low, high = wanted.within or (0, LAST_ADDRESS)
    for kind, digits, size, instruction in found.findall(b"\n" + chunk):
        if not kind:
            yield Access(INSTRUCTION, int(instruction, 16))
            continue
        address = int(digits, 16)
        if address < low or address > high:
            continue
        count = int(size)
        if not 1 <= count <= LARGEST_ACCESS:
            lines = chunk[:chunk.find(b" " + kind + b" " + digits + b"," + size)].count(b"\n")
            check_size(count, name, before + lines + 1)
        if address + count - 1 > high:
            continue
        if kind != b"S":
            yield Access(LOAD, address, count)
        if kind != b"L":
            yield Access(STORE, address, count)


def lackey_pattern(instructions: Sequence[int]) -> "re.Pattern[bytes]":
    """What finds stores and loads, and instructions at these addresses, of a log that has far more others."""
    if not instructions:
        return re.compile(LACKEY_DATA + b"()")
    places = "|".join(f"{address:x}" for address in instructions).encode()
    return re.compile(LACKEY_DATA + rb"|\n[Ii]  0*(" + places + rb"),[0-9]{1,9}(?=[\r\n]|\Z)", re.I)


def lackey_head(chunk: bytes, name: str, before: int) -> Tuple[bool, bool]:
    """Looks at the lines up to the first access: whether there is one, and whether valgrind's own are among them. So many lines came
    before."""
    banner = False
    for number, line in enumerate(chunk.split(b"\n"), before + 1):
        text = line.rstrip(b"\r")
        if LACKEY_LINE.match(text):
            return True, banner
        if VALGRIND_LINE.match(text):
            banner = True
        elif text.strip():
            raise ExploreError(f"{name}, line {number}: this is not what valgrind --tool=lackey --trace-mem=yes prints: {shown_line(text)}")
    return False, banner


def check_lackey_end(tail: bytes, name: str) -> None:
    """That lackey came to the end of its program."""
    check_lackey_failed(tail, name)
    if not LACKEY_END.search(tail):
        raise ExploreError(f"{name}: the log ends early: it has no line \"Exit code:\", which lackey prints when its program ends")


def check_lackey_file(file: BinaryIO, name: str) -> None:
    """The same, of a file before it is read, since often only its first part is."""
    head = file.read(TAIL_BYTES)
    size = file.seek(0, os.SEEK_END)
    file.seek(max(0, size - TAIL_BYTES))
    tail = file.read(TAIL_BYTES)
    file.seek(0)
    if BANNER.search(head) and BEGUN.search(head):
        check_lackey_end(tail, name)


def lackey_pages(chunks: Chunks) -> "Counter[Tuple[bytes, bytes]]":
    """How many lines of lackey's output name each page of 4 KiB, by their kind."""
    found: "Counter[Tuple[bytes, bytes]]" = Counter()
    for chunk in chunks:
        found.update(LACKEY_PAGE.findall(b"\n" + chunk))
    return found


def check_lackey_failed(text: bytes, name: str) -> None:
    """That lackey itself hasn't failed."""
    failed = LACKEY_FAILED.search(text)
    if failed:
        raise ExploreError(f"{name}: the log ends early, as lackey failed: {shown_line(failed[1])} (Debian's lackey does so at clwb and "
                           "clflushopt: record with tools/record or include/pmem_record.h instead)")


def csv_accesses(chunks: Chunks, name: str, wanted: Wanted) -> Iterator[Access]:
    """The accesses in a CSV of (op, address, size, data, source)."""
    number = 0
    for chunk in chunks:
        for line in chunk.split(b"\n")[:None if not chunk.endswith(b"\n") else -1]:
            number += 1
            try:
                text = line.decode("utf-8-sig" if number == 1 else "utf-8").strip()
            except UnicodeDecodeError as error:
                raise ExploreError(f"{name}, line {number}: not text") from error
            if not text or text.startswith("#"):
                continue
            if len(text) > LARGEST_FIELD:
                raise ExploreError(f"{name}, line {number}: a row has at most {LARGEST_FIELD} characters")
            row = csv_fields(text, name, number)
            if number == 1 and row[0].lower() == "op":
                continue
            access = csv_access(row, name, number)
            if access.kind not in (STORE, NTSTORE, CHANGED, LOAD) or wanted.has(access.address, access.size):
                yield access


def csv_fields(text: str, name: str, number: int) -> List[str]:
    """The fields of a row of a CSV."""
    if '"' not in text:
        return [field.strip() for field in text.split(",")]
    try:
        return [field.strip() for field in next(csv.reader([text]))]
    except csv.Error as error:
        raise ExploreError(f"{name}, line {number}: not a row of a CSV: {error}") from error


def csv_access(row: Sequence[str], name: str, number: int) -> Access:
    """The access that a row of a CSV states."""
    kind, word = CSV_WORDS.get(row[0].lower(), ("", ""))
    if not kind:
        raise ExploreError(f"{name}, line {number}: the op is store, load, flush or fence (or ntstore, changed, clwb, clflush, clflushopt, "
                           f"sfence, mfence, mark), not {row[0][:40]!r}")
    fields = [*row[1:], "", "", "", ""]
    source = printable(fields[3])
    if kind == MARK:
        return Access(MARK, row=number, source=source, word=printable(next((field for field in fields[:3] if field), "")))
    if kind == FENCE:
        return Access(FENCE, row=number, source=source, word=word)
    address = whole_number(fields[0])
    if address is None:
        raise ExploreError(f"{name}, line {number}: the address is a number or 0x and hex digits, not {fields[0][:40]!r}")
    data = hex_bytes(fields[2])
    if data is None:
        raise ExploreError(f"{name}, line {number}: the data is an even number of hex digits, not {fields[2][:40]!r}")
    size = whole_number(fields[1]) if fields[1] else len(data)
    if size is None:
        raise ExploreError(f"{name}, line {number}: the size is a number, not {fields[1][:40]!r}")
    if not (kind == FLUSH and size):
        check_size(size, name, number)
    if data and (kind not in WRITES or len(data) != size):
        raise ExploreError(f"{name}, line {number}: a {kind} of {size} bytes with {len(data)} bytes of data")
    return Access(kind, address, size, data or None, number, source, word)


def pmemcheck_accesses(chunks: Chunks, name: str, wanted: Wanted) -> Iterator[Access]:
    """The accesses in the log that pmemcheck writes with `--log-stores=yes`: words between bars, with what belongs to each
    behind semicolons. A store's value is a number, its lowest byte first in memory. An access's row is its place among all words."""
    seen = False
    number = row = 0
    for line in (line for chunk in chunks for line in chunk.split(b"\n")[:None if not chunk.endswith(b"\n") else -1]):
        number += 1
        match = PMEMCHECK_START.match(line.rstrip(b"\r\n"))
        text = match.group(1) if match else b""
        for word in text.split(b"|"):
            row += 1
            fields = word.strip().split(b";")
            if fields[0] in (b"STORE", b"FLUSH", b"FENCE"):
                if not seen:
                    raise ExploreError(f"{name}, line {number}: the log does not begin with START, as valgrind "
                                       "--tool=pmemcheck --log-stores=yes writes it")
                access = pmemcheck_access(fields, name, number, row)
                if access.kind != STORE or wanted.has(access.address, access.size):
                    yield access
            seen = seen or fields[0] == b"START"
    if not seen:
        raise ExploreError(f"{name}: this is not what valgrind --tool=pmemcheck --log-stores=yes writes: there is no START")


def pmemcheck_access(fields: Sequence[bytes], name: str, number: int, row: int) -> Access:
    """The access that a word of pmemcheck's log states."""
    if fields[0] == b"FENCE":
        return Access(FENCE, row=row, word="sfence")
    wanted = 3 if fields[0] == b"FLUSH" else 4
    if len(fields) < wanted or not all(re.fullmatch(rb"0x[0-9a-fA-F]{1,128}", field) for field in fields[1:wanted]) \
            or len(fields[1]) > 18:
        raise ExploreError(f"{name}, line {number}: a flush has an address and a size, and a store an address, a value and "
                           f"a size, in hex after 0x: {shown_line(b';'.join(fields))}")
    values = [int(field, 16) for field in fields[1:wanted]]
    if fields[0] == b"FLUSH":
        return Access(FLUSH, values[0], values[1], row=row, word="clwb")
    check_size(values[2], name, number)
    if values[1] >> 8 * values[2]:
        raise ExploreError(f"{name}, line {number}: {shown_line(fields[2])} does not fit into {values[2]} bytes")
    return Access(STORE, values[0], values[2], values[1].to_bytes(values[2], "little"), row, word="store")


def check_size(size: int, name: str, number: int) -> None:
    """That an access has a size that makes sense."""
    if not 1 <= size <= LARGEST_ACCESS:
        raise ExploreError(f"{name}, line {number}: an access has 1 to {LARGEST_ACCESS} bytes, not {size}")


def whole_number(text: str) -> Optional[int]:
    """A decimal number, or a hex one after 0x."""
    if re.fullmatch(r"0[xX][0-9a-fA-F]{1,16}", text):
        return int(text, 16)
    return int(text) if re.fullmatch(r"[0-9]{1,20}", text) else None


def hex_bytes(text: str) -> Optional[bytes]:
    """The bytes of hex digits, also after 0x; none for an empty text."""
    digits = text[2:] if text[:2] in ("0x", "0X") else text
    if len(digits) % 2 or not re.fullmatch(r"[0-9a-fA-F]*", digits):
        return None
    return bytes.fromhex(digits)


Reader = Callable[[Chunks, str, Wanted], Iterator[Access]]
KINDS: Dict[str, Reader] = {"lackey": lackey_accesses, "pmemcheck": pmemcheck_accesses, "csv": csv_accesses}
