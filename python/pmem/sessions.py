"""Sessions: a memory with its controller, told one command after the other."""
import contextlib
import operator
import threading
from collections import deque
from dataclasses import replace
from html import escape
from types import TracebackType
from typing import Any, ClassVar, Deque, Dict, Iterator, List, NoReturn, Optional, Sequence, Tuple, Type, TypeVar, Union

from .answers import (
    Access, Answer, Cut, Done, Exhibit, Fenced, Flushed, Held, Line, LogOpened, Mark, Ok, Place, Raw, Recovered, Refusal, Spent,
    Stat, Stepped, Stuck, TreeRecovered, Turned, Unfit, WearOpened, read_reply,
)
from .device import Device
from .errors import (
    UNSUITED, BadWords, BreakShown, CounterSpent, LineFault, LogStuck, NoMemory, NotDone, PowerCut, ProgramFailed, Refused, SessionClosed,
    SessionOver, TooManyLines,
)
from .grammar import PORTS, WORD, fault_of, is_skipped, words_of
from .layout import LINE_BYTES, Layout
from .settings import MOST_NUMBER, OPTIONS, Option, default_number, most_persisted
from .traces import Trace, check, code, table
from .ways import BAD_WORDS, FAULT, NO_MEMORY, OK, REPLY_LOST, SHOWN, TOO_MANY_LINES, Channel, Through, way_of

Bytes = Union[bytes, bytearray, memoryview]
A = TypeVar("A", bound=Answer)
S = TypeVar("S", bound="Session")


def raise_not_done(answer: Answer) -> NoReturn:
    """Raises the error of an answer that isn't that the command was done."""
    if isinstance(answer, Unfit):
        raise UNSUITED[answer.why](answer)
    for kind, error in ((Cut, PowerCut), (Refusal, Refused), (Spent, CounterSpent), (Stuck, LogStuck), (Exhibit, BreakShown)):
        if isinstance(answer, kind):
            raise error(answer)
    raise NotDone(answer)


def _number(name: str, value: int, most: int = MOST_NUMBER, least: int = 0) -> str:
    try:
        number = operator.index(value)
    except TypeError:
        raise TypeError(f"{name} must be an integer, not {type(value).__name__}") from None
    if not least <= number <= most:
        raise ValueError(f"{name} must be {least} to {most}, not {number}")
    return str(number)


def _bytes(name: str, value: Bytes, least: int, most: int) -> bytes:
    try:
        found = memoryview(value).tobytes()
    except TypeError:
        raise TypeError(f"{name} must be bytes, not {type(value).__name__}") from None
    if not least <= len(found) <= most:
        raise ValueError(f"{name} must have {least if least == most else f'{least} to {most}'} bytes, not {len(found)}")
    return found


def _hex(name: str, value: Bytes, least: int = LINE_BYTES) -> str:
    return _bytes(name, value, least, LINE_BYTES).hex()


class Session:
    """A new, formatted memory with power on, and its controller. What all kinds of sessions have.

    A call that is done answers a frozen dataclass; any other raises a kind of `NotDone`, whose `answer` is the controller's. `tell` takes
    any line of a trace and raises nothing for what the controller answers. A session is a context manager; its end closes it. Threads may
    share it: their calls come one after the other. `through` is `program`, `library` or what `way_of` gave; `way_of` says what None takes.
    `log` keeps the log of each command: `accesses`, and the `log` of each answer.
    """

    WORD: ClassVar[str] = ""

    def __init__(self, options: Sequence[str], suite: Sequence[str], log: bool, through: Through) -> None:
        self._suite, self._words = tuple(suite), (self.WORD, *options, *suite, *(["--log"] if log else []))
        self._has_log = log
        self._cut: Optional[Cut] = None
        self._way = way_of(through)
        self._lock = threading.RLock()
        self._lines: List[bytes] = []
        self._last: Deque[Tuple[str, Answer]] = deque(maxlen=10)
        self._is_over = False
        self._channel: Optional[Channel] = self._way.open(self._words)

    # ---- the session itself

    @property
    def words(self) -> Tuple[str, ...]:
        """The arguments of the program that this session has."""
        return self._words

    @property
    def trace(self) -> Trace:
        """The commands that were answered so far, which `pmem.answer(session.words, session.trace)` answers again."""
        return Trace(b"".join(line + b"\n" for line in self._lines))

    @property
    def is_closed(self) -> bool:
        """Whether the session was closed."""
        return self._channel is None

    @property
    def is_over(self) -> bool:
        """Whether an exhibit ended the session."""
        return self._is_over

    @property
    def marks(self) -> Tuple[Mark, ...]:
        """The marks of the last command."""
        return self._last[-1][1].marks if self._last else ()

    @property
    def accesses(self) -> Tuple[Access, ...]:
        """The accesses of the device that the last command made, in order, if the session has a log: for simulators of timing.

        Raises:
            ValueError: the session has no log.
        """
        if not self._has_log:
            raise ValueError("the session has no log: open it with log=True")
        log = self._last[-1][1].log if self._last else None
        return log.accesses if log else ()

    def close(self) -> None:
        """Ends the session. A closed one may be closed again; all other calls raise `SessionClosed`."""
        with self._lock:
            if self._channel:
                self._channel.close()
                self._channel = None

    def __enter__(self: S) -> S:
        self._open_channel()
        return self

    def __exit__(self, kind: Optional[Type[BaseException]], error: Optional[BaseException], where: Optional[TracebackType]) -> None:
        self.close()

    def copy(self: S) -> S:
        """A second session in the same state, which goes on independently: for example to try a cut at each step (`each_cut`).

        Cost: the portable library copies the session's memory, in about a millisecond. The program and the native library answer all
        commands again, so a copy takes as long as the run so far.
        """
        with self._lock:
            channel = self._open_channel()
            new = object.__new__(type(self))
            new.__dict__.update(self.__dict__)
            new._lock, new._lines, new._last = threading.RLock(), list(self._lines), self._last.copy()
            new._channel = None
            new._channel = channel.copy()
            return new

    __copy__ = copy

    def __deepcopy__(self: S, memo: Dict[int, object]) -> S:
        return self.copy()

    def __reduce__(self) -> NoReturn:
        raise TypeError("a session cannot be pickled: its words and its trace can")

    def check(self, exhibit: Exhibit) -> bool:
        """Whether an exhibit holds under this session's suite and keys."""
        status_words = dict(zip(self._suite[::2], self._suite[1::2]))
        key, tag_key = (status_words.get(name) for name in ("--key", "--tag-key"))
        return check(exhibit, suite=status_words.get("--suite"), key=None if key is None else bytes.fromhex(key),
                     tag_key=None if tag_key is None else bytes.fromhex(tag_key), through=self._way)

    def tell(self, line: Union[str, bytes]) -> Optional[Answer]:
        """Tells one line of a trace, without its LF, and gives its answer; None if the line is blank or a comment.

        Raises:
            LineFault: the line is not in the grammar; nothing was done.
            NoMemory, TooManyLines: nothing was done.
            SessionClosed, SessionOver: the session has ended.
        """
        text = line.encode() if isinstance(line, str) else line
        with self._lock:
            channel = self._open_channel()
            if self._is_over:
                raise SessionOver("an exhibit ended the session")
            fault = fault_of(self.WORD, text)
            if fault is not None or b"\n" in text:
                raise LineFault(fault or WORD)
            words = words_of(text)
            if is_skipped(words):
                return None
            status, reply = channel.tell(text)
            if status not in (OK, SHOWN):
                raise self._error_of(status)
            answer = read_reply(self.WORD, words[0].decode(), reply.decode("latin-1").split("\n")[:-1], self._has_log)
            self._is_over = status == SHOWN
            if isinstance(answer, Cut):
                self._cut = answer
            self._lines.append(text)
            self._last.append((" ".join(word.decode() for word in words), answer))
            return answer

    def _open_channel(self) -> Channel:
        if self._channel is None:
            raise SessionClosed("the session is closed")
        return self._channel

    def _error_of(self, status: int) -> Exception:
        if FAULT < status <= FAULT + 6:
            return LineFault(status - FAULT)
        if status == NO_MEMORY:
            return NoMemory("no memory for this command")
        if status == REPLY_LOST:
            return ProgramFailed("the command was done, but there was no memory for the text of its reply")
        if status == TOO_MANY_LINES:
            return TooManyLines("a session has at most 1,000,000 commands")
        if status == BAD_WORDS:
            return BadWords(f"{self._way.name} refuses the words {' '.join(self._words)}")
        return ProgramFailed(f"the {self._way.name} answered with status {status}")

    def _done(self, kind: Type[A], *words: str) -> A:
        """Tells a command; its answer is of this kind, or raised."""
        answer = self.tell(" ".join(words))
        if isinstance(answer, kind):
            return answer
        assert answer is not None
        raise_not_done(answer)

    def __repr__(self) -> str:
        state = "closed" if self.is_closed else "over" if self._is_over else "open"
        return f"<pmem.{type(self).__name__} {' '.join(self._words)}: {state}, {len(self._lines)} commands>"

    def _repr_html_(self) -> str:
        rows = [(code(command), "".join(f"{code(str(mark))}<br>" for mark in answer.marks) + code(str(answer))) for command, answer in self._last]
        return f"<p><code>{escape(repr(self))}</code></p>" + table(("command", "reply"), rows)

    # ---- what every memory has

    def cut(self, steps: int) -> Ok:
        """Power will fail after `steps` more persist steps: the next one is the cut. Recovery's steps count too."""
        return self._done(Ok, "cut", _number("steps", steps))

    def off(self) -> Ok:
        """Power goes off, and what isn't in memory is lost."""
        return self._done(Ok, "off")


def _or_default(name: str, value: Optional[int]) -> int:
    return default_number(name) if value is None else operator.index(value)


def _options(**given: Any) -> List[str]:
    """The words of the options that aren't None, in this order. Errors: TypeError, ValueError."""
    words: List[str] = []
    for name, value in given.items():
        if value is not None:
            option = OPTIONS[name.replace("_", "-")]
            if name == "persist":
                option = replace(option, numbers=range(most_persisted(_or_default("levels", given["levels"])) + 1))
            words += [f"--{option.name}", _value(name, option, value)]
    return words


def _value(name: str, option: Option, value: Any) -> str:
    """The word of an option's value. Errors: TypeError, ValueError."""
    if option.sizes is not None:
        return _bytes(name, value, option.sizes[0], option.sizes[-1]).hex()
    if option.numbers is not None:
        return _number(name, value, option.numbers.stop - 1, option.numbers.start)
    if set(option.choices) == {"on", "off"}:
        return _switch(name, value)
    word = str(value) if isinstance(option.default, str) else _number(name, value)
    if word not in map(str, option.choices):
        raise ValueError(f"{name} must be {option.text}, not {value!r}")
    return word


def _switch(name: str, value: object) -> str:
    if not isinstance(value, bool):
        raise TypeError(f"{name} must be True or False, not {value!r}")
    return "on" if value else "off"


class Controller(Session):
    """The controller over a hash tree: `pmem run`.

    `levels` is 1 to 6. `sets` is 1 to 64 and `ways` 1 to 8, for each bank of the metadata cache. `loss`, the stop-loss number, is 1, 2, 4,
    8 or 16. `major` is the first major counter. `suite` is `aes`, `weak` or `blur`; its keys have 16 and 1 to 64 bytes. None is the
    program's default: 2, 4, 2, 4, 0, `aes`.

    `persist`, 0 to levels + 1, is the number of levels whose lines are persisted with each write, the counter blocks first; with
    `shadow=False` the device has no shadow tables. `queue` is `volatile` or `durable`: whether what waits at the ports outlives power. With
    `combine=True` a posted line takes the place of the newest one that waits for it. The defaults: 0, True, `volatile`, False.

    >>> with Controller() as controller:
    ...     controller.post(0, 7, b"a" * 64)
    ...     controller.drain(0).steps
    ...     controller.read(0, 7).data[:3]
    Ok(marks=())
    7
    b'aaa'
    """

    WORD = "run"

    def __init__(self, *, levels: Optional[int] = None, sets: Optional[int] = None, ways: Optional[int] = None, loss: Optional[int] = None,
                 major: Optional[int] = None, suite: Optional[str] = None, key: Optional[Bytes] = None, tag_key: Optional[Bytes] = None,
                 persist: Optional[int] = None, shadow: Optional[bool] = None, queue: Optional[str] = None, combine: Optional[bool] = None,
                 log: bool = False, through: Through = None) -> None:
        options = _options(levels=levels, sets=sets, ways=ways, major=major, loss=loss, persist=persist, shadow=shadow, queue=queue,
                           combine=combine)
        self._layout = Layout(_or_default("levels", levels), _or_default("sets", sets), _or_default("ways", ways), shadow is not False)
        super().__init__(options, _options(suite=suite, key=key, tag_key=tag_key), log, through)

    @property
    def layout(self) -> Layout:
        """Where the device keeps what."""
        return self._layout

    @staticmethod
    def _port(port: int) -> str:
        return _number("port", port, PORTS - 1)

    def post(self, port: int, line: int, data: Bytes) -> Ok:
        """A write of a data line, 64 bytes, waits at a port, 0 to 7. It isn't in memory before it is drained."""
        return self._done(Ok, "post", self._port(port), _number("line", line), _hex("data", data))

    def part(self, port: int, line: int, start: int, data: Bytes) -> Ok:
        """A write of 1 to 64 bytes of a data line, from place `start` on, waits at a port."""
        return self._done(Ok, "part", self._port(port), _number("line", line), _number("start", start), _hex("data", data, 1))

    def drain(self, port: int) -> Stepped:
        """The port's oldest waiting write is done."""
        return self._done(Stepped, "drain", self._port(port))

    def fence(self, port: int) -> Fenced:
        """All writes that wait at the port are done, the oldest first, until one isn't put."""
        return self._done(Fenced, "fence", self._port(port))

    def read(self, port: int, line: int) -> Line:
        """A data line as the port sees it: memory's, with the port's waiting bytes over it."""
        return self._done(Line, "read", self._port(port), _number("line", line))

    def turn(self) -> Turned:
        """One more line of the oldest page under re-encryption is encrypted again."""
        return self._done(Turned, "turn")

    def flush(self) -> Flushed:
        """The oldest dirty metadata line is written to its place."""
        return self._done(Flushed, "flush")

    def loss(self, number: int) -> Stepped:
        """The stop-loss number becomes 1, 2, 4, 8 or 16."""
        return self._done(Stepped, "loss", _number("number", number))

    def on(self) -> Recovered:
        """Power comes on, with recovery."""
        return self._done(Recovered, "on")

    def poke(self, place: int, data: Bytes) -> Ok:
        """The attacker's: a device line is overwritten behind the controller's back."""
        return self._done(Ok, "poke", _number("place", place), _hex("data", data))

    def flip(self, place: int, bit: int) -> Ok:
        """The attacker's: one of a device line's 512 bits is turned."""
        return self._done(Ok, "flip", _number("place", place), _number("bit", bit))

    def move(self, place: int, to: int) -> Ok:
        """The attacker's: a device line is copied to another."""
        return self._done(Ok, "move", _number("place", place), _number("to", to))

    def snap(self) -> Ok:
        """The attacker's: a copy of all device lines is kept."""
        return self._done(Ok, "snap")

    def back(self, place: int) -> Ok:
        """The attacker's: a device line is put back as it was in the snapshot."""
        return self._done(Ok, "back", _number("place", place))

    def peek(self, place: int) -> Raw:
        """A device line, as it lies there."""
        return self._done(Raw, "peek", _number("place", place))

    def stat(self) -> Stat:
        """The counts since formatting."""
        return self._done(Stat, "stat")

    def device(self) -> Device:
        """All lines of the device as it is now, by a new run of the commands so far: the session itself is not told anything.

        Raises:
            TooManyLines: the commands so far and the device's lines are together more than 1,000,000.
        """
        with self._lock:
            self._open_channel()
            asked = self.trace.data + b"".join(b"peek %d\n" % place for place in range(self._layout.lines))
        if self._is_over:
            raise SessionOver("an exhibit ended the session")
        status, output = self._way.run([word for word in self._words if word != "--log"], asked)
        if status != OK:
            raise self._error_of(status)
        shown = output.split(b"\n")[-self._layout.lines - 1:-1]
        if any(not line.startswith(b"raw ") for line in shown) or len(shown) != self._layout.lines:
            raise ProgramFailed("the device is not shown whole")
        return Device(self._layout, tuple(bytes.fromhex(line[4:].decode()) for line in shown))


class LevelledMemory(Session):
    """A memory whose lines keep moving over the controller, so that none wears out one place: `pmem wear`.

    After each `every`th write, 1 to 1,000,000 and by default 100, the line next to the gap moves into it. The other options are those of
    `Controller`, without `queue` and `combine`.
    """

    WORD = "wear"

    def __init__(self, *, levels: Optional[int] = None, sets: Optional[int] = None, ways: Optional[int] = None, loss: Optional[int] = None,
                 major: Optional[int] = None, suite: Optional[str] = None, key: Optional[Bytes] = None, tag_key: Optional[Bytes] = None,
                 every: Optional[int] = None, persist: Optional[int] = None, shadow: Optional[bool] = None, log: bool = False,
                 through: Through = None) -> None:
        options = _options(levels=levels, sets=sets, ways=ways, major=major, every=every, loss=loss, persist=persist, shadow=shadow)
        super().__init__(options, _options(suite=suite, key=key, tag_key=tag_key), log, through)

    def write(self, line: int, data: Bytes) -> Union[Stepped, Held]:
        """A line of 64 bytes is written. `Held`: it is, and the move after it couldn't be."""
        answer = self._done(Done, "write", _number("line", line), _hex("data", data))
        assert isinstance(answer, (Stepped, Held))
        return answer

    def read(self, line: int) -> Line:
        """A line of memory."""
        return self._done(Line, "read", _number("line", line))

    def place(self, line: int) -> Place:
        """The place of a line."""
        return self._done(Place, "place", _number("line", line))

    def on(self) -> WearOpened:
        """Power comes on, with recovery."""
        return self._done(WearOpened, "on")


class TransactionMemory(Session):
    """A memory over the controller that is written by transactions of up to 15 lines, each whole or absent after a cut: `pmem txn`.

    The options are those of `Controller`, without `queue` and `combine`.

    >>> with TransactionMemory() as memory:
    ...     with memory.transaction():
    ...         memory.put(1, b"a" * 64)
    ...         memory.put(2, b"b" * 64)
    ...     memory.read(2).data[:3]
    Ok(marks=())
    Ok(marks=())
    b'bbb'
    """

    WORD = "txn"

    def __init__(self, *, levels: Optional[int] = None, sets: Optional[int] = None, ways: Optional[int] = None, loss: Optional[int] = None,
                 major: Optional[int] = None, suite: Optional[str] = None, key: Optional[Bytes] = None, tag_key: Optional[Bytes] = None,
                 persist: Optional[int] = None, shadow: Optional[bool] = None, log: bool = False, through: Through = None) -> None:
        options = _options(levels=levels, sets=sets, ways=ways, major=major, loss=loss, persist=persist, shadow=shadow)
        super().__init__(options, _options(suite=suite, key=key, tag_key=tag_key), log, through)

    def begin(self) -> Ok:
        """A transaction is opened."""
        return self._done(Ok, "begin")

    def put(self, line: int, data: Bytes) -> Ok:
        """The open transaction will write a line of 64 bytes."""
        return self._done(Ok, "put", _number("line", line), _hex("data", data))

    def commit(self) -> Stepped:
        """The open transaction is written. `LogStuck` says that it is, and that no other one can be before power was off and on."""
        return self._done(Stepped, "commit")

    def abort(self) -> Ok:
        """The open transaction is dropped."""
        return self._done(Ok, "abort")

    @contextlib.contextmanager
    def transaction(self) -> Iterator[None]:
        """A transaction that is committed at the end of a `with`, and aborted if an exception leaves the block."""
        self.begin()
        try:
            yield
        except BaseException:
            with contextlib.suppress(NotDone, SessionOver, SessionClosed):
                self.abort()
            raise
        self.commit()

    def read(self, line: int) -> Line:
        """A line of memory, or of the open transaction if that has written it."""
        return self._done(Line, "read", _number("line", line))

    def on(self) -> LogOpened:
        """Power comes on, with recovery. `LogStuck` says that power is on, and the log stuck."""
        return self._done(LogOpened, "on")


class TreeController(Session):
    """The controller over a counter tree: `pmem tree`. levels, sets, suite and keys are as of `Controller`."""

    WORD = "tree"

    def __init__(self, *, levels: Optional[int] = None, sets: Optional[int] = None, suite: Optional[str] = None, key: Optional[Bytes] = None,
                 tag_key: Optional[Bytes] = None, log: bool = False, through: Through = None) -> None:
        super().__init__(_options(levels=levels, sets=sets), _options(suite=suite, key=key, tag_key=tag_key), log, through)

    def write(self, line: int, data: Bytes) -> Stepped:
        """A data line of 64 bytes is written."""
        return self._done(Stepped, "write", _number("line", line), _hex("data", data))

    def read(self, line: int) -> Line:
        """A data line."""
        return self._done(Line, "read", _number("line", line))

    def on(self) -> TreeRecovered:
        """Power comes on, with recovery."""
        return self._done(TreeRecovered, "on")

    def poke(self, place: int, data: Bytes) -> Ok:
        """The attacker's: a device line is overwritten behind the controller's back."""
        return self._done(Ok, "poke", _number("place", place), _hex("data", data))

    def snap(self) -> Ok:
        """The attacker's: a copy of all device lines is kept."""
        return self._done(Ok, "snap")

    def back(self, place: int) -> Ok:
        """The attacker's: a device line is put back as it was in the snapshot."""
        return self._done(Ok, "back", _number("place", place))
