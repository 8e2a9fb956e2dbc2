"""Answers: what a command came to, each a frozen dataclass with the marks of its command.

`str` of an answer is exactly its line as the program prints it. `reply` is that line with the lines of the log and the marks before it.
"""
from dataclasses import dataclass
from enum import Enum
from html import escape
from typing import Callable, Dict, List, Optional, Sequence, Tuple, Type, Union

from .errors import ProgramFailed
from .layout import LINE_BYTES

TAG_BYTES = 16


@dataclass(frozen=True)
class Counter:
    """A counter of a data line: the major of its page, and its own minor, 0 to 127."""

    major: int
    minor: int

    def __str__(self) -> str:
        return f"{self.major}.{self.minor}"


Word = Union[str, int, bytes, Counter, None]


def spelled(*words: Word) -> str:
    """Words with one space between each two, bytes in hex; None is left out."""
    return " ".join(word.hex() if isinstance(word, bytes) else str(word) for word in words if word is not None)


def short_text(text: str) -> str:
    """A line whose long words are shortened to both ends, as `line 1111..11 0`."""
    def short(word: str) -> str:
        if len(word) <= 20:
            return word
        return f"{word[:2]}..{word[-2:]}" if word == word[:2] * (len(word) // 2) else f"{word[:4]}..{word[-4:]}"
    return " ".join(map(short, text.split(" ")))


class Shown:
    """What a notebook shows as a line of code, with long hex shortened; the whole line is its title."""

    def _repr_html_(self) -> str:
        return f'<code title="{escape(str(self), quote=True)}">{escape(short_text(str(self)))}</code>'


# ---- marks

@dataclass(frozen=True)
class Begin(Shown):
    """The re-encryption of a page begins."""

    page: int

    def __str__(self) -> str:
        return spelled("begin", self.page)


@dataclass(frozen=True)
class Seal(Shown):
    """A data line was sealed under a counter, with this tag."""

    line: int
    counter: Counter
    tag: bytes

    def __str__(self) -> str:
        return spelled("seal", self.line, self.counter, self.tag)


Mark = Union[Begin, Seal]
Marks = Tuple[Mark, ...]


# ---- logs

class AccessKind(Enum):
    """What an access of the device was. The value is the word of the log."""

    READ = "look"
    WRITE = "line"
    LATCH = "latch"


@dataclass(frozen=True)
class Access(Shown):
    """An access of the device by the controller: a line read, a line written, or a latch.

    `line` is the device line, whose address is 64 * line. A latch changes all on-chip registers at once: its `line` is how many lines the
    commit group has then. Writes and latches are persist steps.
    """

    kind: AccessKind
    line: int

    def __str__(self) -> str:
        return spelled(self.kind.value, self.line)


@dataclass(frozen=True)
class Log(Shown):
    """What a command did: its accesses of the device in order, and how many tags and digests it computed."""

    accesses: Tuple[Access, ...]
    tags: int
    digests: int

    def __str__(self) -> str:
        return "\n".join([*map(str, self.accesses), spelled("work", self.tags, self.digests)])


# ---- answers

class Answer(Shown):
    """Any answer. `marks` are the marks of its command, in the order made."""

    marks: Marks

    @property
    def log(self) -> Optional[Log]:
        """What the command did, if its session was opened with `log=True` (`--log`). Answers are compared without their logs."""
        found: Optional[Log] = self.__dict__.get("_log")
        return found

    @property
    def reply(self) -> str:
        """The log, the marks and the answer, each line with its LF, as the program prints them."""
        return "".join(f"{line}\n" for line in (*([self.log] if self.log else []), *self.marks, self))


class Done(Answer):
    """A command that was done."""


@dataclass(frozen=True)
class Ok(Done):
    """Done, without persist steps."""

    marks: Marks = ()

    def __str__(self) -> str:
        return "ok"


@dataclass(frozen=True)
class Stepped(Done):
    """`drain`, `loss`, `write` or `commit`: done, in `steps` persist steps."""

    steps: int
    marks: Marks = ()

    def __str__(self) -> str:
        return spelled("ok", self.steps)


@dataclass(frozen=True)
class Fenced(Done):
    """`fence`: `drained` writes were drained."""

    drained: int
    steps: int
    marks: Marks = ()

    def __str__(self) -> str:
        return spelled("ok", self.drained, self.steps)


@dataclass(frozen=True)
class Turned(Done):
    """`turn`: a line was re-encrypted, and `left` lines of its page are left."""

    left: int
    steps: int
    marks: Marks = ()

    def __str__(self) -> str:
        return spelled("ok", self.left, self.steps)


@dataclass(frozen=True)
class Flushed(Done):
    """`flush`: the metadata line at this position was written to its place."""

    position: int
    steps: int
    marks: Marks = ()

    def __str__(self) -> str:
        return spelled("ok", self.position, self.steps)


@dataclass(frozen=True)
class Line(Done):
    """`read`: the 64 bytes of a line, as the reader sees it."""

    data: bytes
    steps: int
    marks: Marks = ()

    def __str__(self) -> str:
        return spelled("line", self.data, self.steps)


@dataclass(frozen=True)
class Raw(Done):
    """`peek`: the 64 bytes of a device line."""

    data: bytes
    marks: Marks = ()

    def __str__(self) -> str:
        return spelled("raw", self.data)


@dataclass(frozen=True)
class Stat(Done):
    """`stat`: the counts since formatting: device lines read and written, latches, tags and digests computed."""

    reads: int
    writes: int
    latches: int
    tags: int
    digests: int
    marks: Marks = ()

    def __str__(self) -> str:
        return spelled("stat", self.reads, self.writes, self.latches, self.tags, self.digests)


@dataclass(frozen=True)
class Recovered(Done):
    """`on` of `Controller`: power is on; recovery tried `trials` counters, and computed `digests` digests."""

    trials: int
    digests: int
    steps: int
    marks: Marks = ()

    def __str__(self) -> str:
        return spelled("on", self.trials, self.digests, self.steps)


@dataclass(frozen=True)
class TreeRecovered(Done):
    """`on` of `TreeController`: power is on; recovery computed `digests` digests."""

    digests: int
    steps: int
    marks: Marks = ()

    def __str__(self) -> str:
        return spelled("on", self.digests, self.steps)


@dataclass(frozen=True)
class WearOpened(Done):
    """`on` of `LevelledMemory`: power is on, and these are the start and the gap of its map."""

    start: int
    gap: int
    steps: int
    marks: Marks = ()

    def __str__(self) -> str:
        return spelled("on", self.start, self.gap, self.steps)


@dataclass(frozen=True)
class LogOpened(Done):
    """`on` of `TransactionMemory`: power is on, and `redone` lines of a transaction were written again."""

    redone: int
    steps: int
    marks: Marks = ()

    def __str__(self) -> str:
        return spelled("on", self.redone, self.steps)


@dataclass(frozen=True)
class Place(Done):
    """`place`: the place of a line."""

    place: int
    marks: Marks = ()

    def __str__(self) -> str:
        return spelled("at", self.place)


@dataclass(frozen=True)
class Held(Done):
    """`write` of `LevelledMemory`: the line is written, and the move after it couldn't be: a counter in this page is exhausted."""

    page: int
    steps: int
    marks: Marks = ()

    def __str__(self) -> str:
        return spelled("held", self.page, self.steps)


@dataclass(frozen=True)
class Cut(Answer):
    """Power was cut after `steps` steps. `kept` says whether the write in flight had reached memory; None if no write was in flight.
    `drained`: for a fence, the number of writes that were drained before."""

    steps: int
    kept: Optional[bool] = None
    drained: Optional[int] = None
    marks: Marks = ()

    def __str__(self) -> str:
        return spelled("cut", None if self.kept is None else "kept" if self.kept else "lost", self.drained, self.steps)


class Refusal(Answer):
    """The device isn't as the controller left it, and that was seen."""


@dataclass(frozen=True)
class RefusedData(Refusal):
    """Data line `line` isn't as it was written. `drained`: of a fence, the writes that were drained before."""

    line: int
    steps: int
    drained: Optional[int] = None
    marks: Marks = ()

    def __str__(self) -> str:
        return spelled("refused", self.drained, "data", self.line, self.steps)


@dataclass(frozen=True)
class RefusedMetadata(Refusal):
    """The counter block or tree node at this position isn't as it was written. `drained`: of a fence, the writes that were drained
    before."""

    position: int
    steps: int
    drained: Optional[int] = None
    marks: Marks = ()

    def __str__(self) -> str:
        return spelled("refused", self.drained, "meta", self.position, self.steps)


@dataclass(frozen=True)
class RefusedNode(Refusal):
    """The node of the counter tree at this position isn't as it was written."""

    position: int
    steps: int
    marks: Marks = ()

    def __str__(self) -> str:
        return spelled("refused node", self.position, self.steps)


@dataclass(frozen=True)
class RefusedCounter(Refusal):
    """`on`: no counter fits this data line; power stays off."""

    line: int
    steps: int
    marks: Marks = ()

    def __str__(self) -> str:
        return spelled("refused counter", self.line, self.steps)


@dataclass(frozen=True)
class RefusedRoot(Refusal):
    """`on`: the root kept on the chip isn't that of the device; power stays off."""

    kept: bytes
    found: bytes
    steps: int
    marks: Marks = ()

    def __str__(self) -> str:
        return spelled("refused root", self.kept, self.found, self.steps)


@dataclass(frozen=True)
class RefusedShadow(Refusal):
    """`on` of `TreeController`: the root kept on the chip isn't that of the device's shadow lines; power stays off."""

    kept: bytes
    found: bytes
    steps: int
    marks: Marks = ()

    def __str__(self) -> str:
        return spelled("refused shadow", self.kept, self.found, self.steps)


@dataclass(frozen=True)
class Spent(Answer):
    """The write wasn't done: a counter in `page` is exhausted; None of `TreeController`, whose counters aren't a page's."""

    page: Optional[int]
    steps: int
    drained: Optional[int] = None
    marks: Marks = ()

    def __str__(self) -> str:
        return spelled("spent", self.drained, self.page, self.steps)


@dataclass(frozen=True)
class Stuck(Answer):
    """A counter in this page is exhausted at a target or the header of the log. After `commit` the transaction is in memory; after `on`
    power is on."""

    page: int
    steps: Optional[int] = None
    marks: Marks = ()

    def __str__(self) -> str:
        return spelled("stuck", self.page, self.steps)


@dataclass(frozen=True)
class Unfit(Answer):
    """The command doesn't fit the state, and did nothing: `why` is full, empty, idle, clean, off, already, range, none, busy or closed."""

    why: str
    marks: Marks = ()

    def __str__(self) -> str:
        return self.why


class Exhibit(Answer):
    """The evidence of a break of the suite, with every byte that it speaks of. It ends its session; `pmem.check` checks it by itself."""


@dataclass(frozen=True)
class Clash(Exhibit):
    """Two lines that differ have one digest at this position."""

    position: int
    first: bytes
    second: bytes
    marks: Marks = ()

    def __str__(self) -> str:
        return spelled("clash", self.position, self.first, self.second)


@dataclass(frozen=True)
class Forged(Exhibit):
    """A tag that was never made fits the cipher of a data line under a counter. From 2^31 on `line` is a node of the counter tree."""

    line: int
    counter: Counter
    cipher: bytes
    tag: bytes
    marks: Marks = ()

    def __str__(self) -> str:
        return spelled("forged", self.line, self.counter, self.cipher, self.tag)


@dataclass(frozen=True)
class Twin(Exhibit):
    """One tag fits one cipher of a data line under two minors of a major."""

    line: int
    major: int
    low: int
    high: int
    cipher: bytes
    tag: bytes
    marks: Marks = ()

    def __str__(self) -> str:
        return spelled("twin", self.line, self.major, self.low, self.high, self.cipher, self.tag)


# ---- reading

Maker = Callable[[Marks, Dict[str, Word]], Answer]


def _whole(kind: Type[Answer]) -> Maker:
    """An answer of this kind with the words that were read as its fields."""
    def make(marks: Marks, fields: Dict[str, Word]) -> Answer:
        return kind(marks=marks, **fields)  # type: ignore[call-arg]
    return make


def _cut(kept: Optional[bool]) -> Maker:
    def make(marks: Marks, fields: Dict[str, Word]) -> Answer:
        return _whole(Cut)(marks, {"kept": kept, **fields})
    return make


def _spent(marks: Marks, fields: Dict[str, Word]) -> Answer:
    return _whole(Spent)(marks, {"page": None, **fields})


def _unfit(why: str) -> Maker:
    def make(marks: Marks, _: Dict[str, Word]) -> Answer:
        return Unfit(why, marks)
    return make


_STEPPED = {"ok N:steps": _whole(Stepped)}
_CUT = {"cut N:steps": _cut(None)}
_CUTS = {"cut kept N:steps": _cut(True), "cut lost N:steps": _cut(False)}
_LINE = {"line L:data N:steps": _whole(Line)}
_OK = {"ok": _whole(Ok)}
_DATA = {"refused data N:line N:steps": _whole(RefusedData)}
_PLACES = {**_DATA, "refused meta N:position N:steps": _whole(RefusedMetadata)}
_NODE = {"refused node N:position N:steps": _whole(RefusedNode)}
_TWIN = {"twin N:line N:major N:low N:high L:cipher T:tag": _whole(Twin)}
_EXHIBITS = {"clash N:position L:first L:second": _whole(Clash), "forged N:line C:counter L:cipher T:tag": _whole(Forged), **_TWIN}
_SPENT = {"spent N:page N:steps": _spent}
_STUCK = {"stuck N:page N:steps": _whole(Stuck)}


def _unfits(words: str) -> Dict[str, Maker]:
    return {word: _unfit(word) for word in words.split()}


# The answers of each command of each session, by their forms. In a form N is a number, L a line, T a tag or a root, C a counter.
FORMS: Dict[str, Dict[str, Dict[str, Maker]]] = {
    "run": {
        "post": {**_OK, **_unfits("full off range")},
        "part": {**_OK, **_unfits("full off range")},
        "drain": {**_STEPPED, **_CUTS, **_PLACES, **_SPENT, **_EXHIBITS, **_unfits("empty off")},
        "fence": {"ok N:drained N:steps": _whole(Fenced), "cut kept N:drained N:steps": _cut(True),
                  "cut lost N:drained N:steps": _cut(False), "refused N:drained data N:line N:steps": _whole(RefusedData),
                  "refused N:drained meta N:position N:steps": _whole(RefusedMetadata), "spent N:drained N:page N:steps": _spent,
                  **_EXHIBITS, **_unfits("off")},
        "read": {**_LINE, **_CUT, **_PLACES, **_EXHIBITS, **_unfits("off range")},
        "turn": {"ok N:left N:steps": _whole(Turned), **_CUT, **_PLACES, **_EXHIBITS, **_unfits("idle off")},
        "flush": {"ok N:position N:steps": _whole(Flushed), **_CUT, **_unfits("clean off")},
        "loss": {**_STEPPED, **_CUT, **_unfits("off range")},
        "cut": _OK,
        "off": {**_OK, **_unfits("off")},
        "on": {"on N:trials N:digests N:steps": _whole(Recovered), **_CUT, "refused counter N:line N:steps": _whole(RefusedCounter),
               "refused root T:kept T:found N:steps": _whole(RefusedRoot), **_EXHIBITS, **_unfits("already")},
        "poke": {**_OK, **_unfits("range")},
        "flip": {**_OK, **_unfits("range")},
        "move": {**_OK, **_unfits("range")},
        "snap": _OK,
        "back": {**_OK, **_unfits("none range")},
        "peek": {"raw L:data": _whole(Raw), **_unfits("range")},
        "stat": {"stat N:reads N:writes N:latches N:tags N:digests": _whole(Stat)},
    },
    "wear": {
        "write": {**_STEPPED, "held N:page N:steps": _whole(Held), **_SPENT, **_CUTS, **_unfits("off range")},
        "read": {**_LINE, **_CUT, **_unfits("off range")},
        "place": {"at N:place": _whole(Place), **_unfits("off range")},
        "cut": _OK,
        "off": {**_OK, **_unfits("off")},
        "on": {"on N:start N:gap N:steps": _whole(WearOpened), **_CUT, **_TWIN, **_unfits("already")},
    },
    "txn": {
        "begin": {**_OK, "stuck N:page": _whole(Stuck), **_unfits("off busy")},
        "put": {**_OK, **_unfits("off closed range full")},
        "commit": {**_STEPPED, **_STUCK, **_SPENT, **_CUTS, **_unfits("off closed")},
        "abort": {**_OK, **_unfits("off closed")},
        "read": {**_LINE, **_CUT, **_unfits("off range")},
        "cut": _OK,
        "off": {**_OK, **_unfits("off")},
        "on": {"on N:redone N:steps": _whole(LogOpened), **_STUCK, **_CUT, **_TWIN, **_unfits("already")},
    },
    "tree": {
        "write": {**_STEPPED, "spent N:steps": _spent, **_NODE, **_CUTS, **_EXHIBITS, **_unfits("off range")},
        "read": {**_LINE, **_CUT, **_DATA, **_NODE, **_EXHIBITS, **_unfits("off range")},
        "on": {"on N:digests N:steps": _whole(TreeRecovered), **_CUT, "refused shadow T:kept T:found N:steps": _whole(RefusedShadow),
               **_EXHIBITS, **_unfits("already")},
        "cut": _OK,
        "off": {**_OK, **_unfits("off")},
        "poke": {**_OK, **_unfits("range")},
        "back": {**_OK, **_unfits("range none")},
        "snap": _OK,
    },
}


def _word_of(kind: str, text: str) -> Word:
    """A word read as what a form asks for there; None if it isn't one."""
    if kind == "N":
        return int(text) if text.isascii() and text.isdigit() and len(text) <= 20 else None
    if kind == "C":
        major, _, minor = text.partition(".")
        parts = _word_of("N", major), _word_of("N", minor)
        return Counter(parts[0], parts[1]) if isinstance(parts[0], int) and isinstance(parts[1], int) else None
    if len(text) != 2 * (LINE_BYTES if kind == "L" else TAG_BYTES):
        return None
    try:
        return bytes.fromhex(text)
    except ValueError:
        return None


def _fields_of(form: str, text: str) -> Optional[Dict[str, Word]]:
    """The fields of a text of this form; None if it doesn't have the form."""
    places, words = form.split(" "), text.split(" ")
    if len(places) != len(words):
        return None
    fields: Dict[str, Word] = {}
    for place, word in zip(places, words):
        kind, _, name = place.partition(":")
        if not name:
            if place != word:
                return None
            continue
        value = _word_of(kind, word)
        if value is None:
            return None
        fields[name] = value
    return fields


def read_mark(text: str) -> Mark:
    """Reads a mark's line, without its LF.

    Raises:
        ProgramFailed: the text is not a mark.
    """
    begin, seal = _fields_of("begin N:page", text), _fields_of("seal N:line C:counter T:tag", text)
    mark: Optional[Mark] = None
    if begin is not None:
        mark = Begin(**begin)  # type: ignore[arg-type]
    elif seal is not None:
        mark = Seal(**seal)  # type: ignore[arg-type]
    if mark is None or str(mark) != text:
        raise ProgramFailed(f"a mark that is not one of pmem: {text[:80]!r}")
    return mark


def read_answer(session: str, command: str, text: str, marks: Marks = ()) -> Answer:
    """Reads an answer's line, without its LF, as one that this command of this session (`run`, `wear`, `txn` or `tree`) can have.

    Raises:
        ProgramFailed: the text isn't the very text of such an answer.
    """
    for form, make in FORMS[session].get(command, {}).items():
        fields = _fields_of(form, text)
        if fields is not None:
            answer = make(marks, fields)
            if str(answer) == text:
                return answer
    raise ProgramFailed(f"an answer to {command!r} that is not one of pmem: {text[:80]!r}")


def is_mark(text: str) -> bool:
    """Whether a line of a reply is a mark."""
    return text.startswith(("seal ", "begin "))


def is_log_end(text: str) -> bool:
    """Whether a line is the last one of a log."""
    return text.startswith("work ")


def read_access(text: str) -> Access:
    """Reads a line of a log, without its LF.

    Raises:
        ProgramFailed: the text is not an access.
    """
    for kind in AccessKind:
        fields = _fields_of(f"{kind.value} N:line", text)
        if fields is not None and isinstance(fields["line"], int) and text == spelled(kind.value, fields["line"]):
            return Access(kind, fields["line"])
    raise ProgramFailed(f"an access that is not one of pmem: {text[:80]!r}")


def read_log(lines: Sequence[str]) -> Log:
    """Reads the lines of a log, the last of which is its `work`.

    Raises:
        ProgramFailed: they are not a log.
    """
    work = _fields_of("work N:tags N:digests", lines[-1]) if lines else None
    if work is None:
        raise ProgramFailed(f"a log that is not one of pmem: {lines[-1:]!r}")
    log = Log(tuple(map(read_access, lines[:-1])), **work)  # type: ignore[arg-type]
    if str(log) != "\n".join(lines):
        raise ProgramFailed(f"a log that is not one of pmem: {lines[-1]!r}")
    return log


def read_reply(session: str, command: str, lines: Sequence[str], has_log: bool = False) -> Answer:
    """Reads the lines of a reply, without their LFs: the log if the session has one, the marks, and the answer.

    Raises:
        ProgramFailed: the lines are not a reply that this command of this session can have.
    """
    log, rest = None, list(lines)
    if has_log:
        end = next((place for place, line in enumerate(rest) if is_log_end(line)), None)
        if end is None:
            raise ProgramFailed(f"a reply without its log: {rest[:1]!r}")
        log, rest = read_log(rest[:end + 1]), rest[end + 1:]
    if not rest or any(not is_mark(line) for line in rest[:-1]):
        raise ProgramFailed(f"a reply that is not one of pmem: {' / '.join(rest)[:80]!r}")
    answer = read_answer(session, command, rest[-1], tuple(map(read_mark, rest[:-1])))
    if log is not None:
        answer.__dict__["_log"] = log
    return answer


class ReplyLines:
    """Puts the lines of replies together, one at a time: the log if the session has one, the marks, and the answer."""

    def __init__(self, has_log: bool) -> None:
        self.has_log = self._is_in_log = has_log
        self.lines: List[str] = []

    def add(self, line: str) -> Optional[List[str]]:
        """Takes a line without its LF. Gives all lines of the reply if this is the last one, and begins the next reply."""
        self.lines.append(line)
        if self._is_in_log:
            self._is_in_log = not is_log_end(line)
            return None
        if is_mark(line):
            return None
        whole, self.lines, self._is_in_log = self.lines, [], self.has_log
        return whole
