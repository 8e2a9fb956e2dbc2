"""What a cut at each persist step of a trace leaves, and what recovery takes after it."""
import itertools
import re
import time
from dataclasses import dataclass, field, replace
from functools import cached_property
from typing import Any, Callable, Dict, FrozenSet, Iterable, Iterator, List, Optional, Sequence, Tuple, TypeVar

from .errors import ExploreError
from .layout import Layout
from .moments import Moment
from .output import csv_text, plural, table_text
from .package import DATA, PORTS, TAGS
from .program import MARKS, Question, Recording, text_of
from .rows import Event, Rows
from .second_cuts import Seconds
from .shared import Shared
from .steps import Totals, mentioned_lines, stepping_indexes, tampered_lines
from .together import Together
from .trace import TAMPERING_WORDS, Command, short_text
from .waiting import Waiting, Write, port_of

NO_CUT = b"cut 18446744073709551615"
MOST_NAMED = 8
ROWS_CHECKED = 4

MARK_STARTS = tuple(f"{mark} ".encode() for mark in MARKS)
# A reply, its answer apart.
REPLY = re.compile(b"(?:(?:{0}) [^\n]*\n)*(?!(?:{0}) )([^\n]*)\n".replace(b"{0}", "|".join(MARKS).encode()))

OFF = b"off"

Readings = List[bytes]
Seen = Tuple[Readings, Tuple["Other", ...], Tuple[int, ...]]

T = TypeVar("T")


@dataclass(frozen=True)
class Recovery:
    """What `on` answers, and the names of its numbers if recovery goes through."""

    answer: str
    names: Tuple[str, ...] = ("trials", "digests", "steps")

    @cached_property
    def numbers(self) -> Optional[Tuple[int, ...]]:
        """The numbers, if it goes through."""
        words = self.answer.split(" ")
        if words[0] != "on" or len(words) != 1 + len(self.names):
            return None
        return tuple(map(int, words[1:]))

    @property
    def steps(self) -> int:
        """Its steps, if it goes through."""
        return self.numbers[-1] if self.numbers else 0


@dataclass(frozen=True)
class Other:
    """A line of memory that reads otherwise than before the command that was cut."""

    line: int
    before: str
    after: str

    @property
    def text(self) -> str:
        """The line's number, with the refusal if there is one."""
        return str(self.line) if self.after.startswith("line ") else f"{self.line} ({short_text(self.after)})"


@dataclass(frozen=True)
class Stored:
    """Which of a program's stores memory has just before the row `before` (None: at the end of the trace). Among the stores that no
    fence has made durable, `kept` are there, `partly` are there in part, and `missing` are not there."""

    before: Optional[Event]
    kept: Tuple[Event, ...]
    partly: Tuple[Event, ...]
    missing: Tuple[Event, ...]


@dataclass(frozen=True)
class Cut:
    """A cut after `steps` steps of the trace, `number` of them the command's, and what comes of it. `lost` are the writes
    that waited and are lost. With `recovery_steps` the recovery is cut too, after that many steps of recovery. With `script`
    no command is cut: these commands lead to it, by which `written` are the writes that are in memory, or `stored` says which
    of the program's stores are. `row` is what the imported program did by the command."""

    index: int
    number: int
    steps: int
    command: Optional[Command]
    answer: str
    recovery: Recovery
    others: Tuple[Other, ...]
    lost: Tuple[Write, ...] = ()
    unread: Tuple[int, ...] = ()
    recovery_steps: Optional[int] = None
    again: Tuple["Cut", ...] = field(default=())
    written: Tuple[Write, ...] = ()
    script: Tuple[bytes, ...] = ()
    stored: Optional[Stored] = None
    row: Optional[Event] = None

    @property
    def key(self) -> Tuple[int, int, int, Tuple[Write, ...], Tuple[bytes, ...]]:
        """What tells it from other cuts."""
        return (self.index, self.number, -1 if self.recovery_steps is None else self.recovery_steps, self.written,
                self.script)

    @property
    def others_text(self) -> str:
        """The lines that read otherwise."""
        texts = [other.text for other in self.others[:MOST_NAMED]]
        if len(self.others) > MOST_NAMED:
            texts.append(f"and {len(self.others) - MOST_NAMED} more")
        if self.unread:
            texts.append(f"{len(self.unread)} cannot be read")
        return ", ".join(texts) or "none"


class CutFinder:
    """Cuts one trace at each of its steps. `lines` are those that the trace names or tampers with; those that are read at
    a cut are fewer if nobody tampers (`InPlay`)."""

    def __init__(self, recording: Recording, together: Together, every_line: bool, named_lines: bool = False) -> None:
        self.recording = recording
        self.observe: Optional[Callable[[Cut, Readings], None]] = None
        self.texts: Dict[bytes, str] = {}
        self.behind: List[Moment] = []
        self.is_twice = False
        self.shared: Optional[Shared] = None
        self.seconds: Optional[Seconds] = None
        self.last_seen: Optional[Tuple[Readings, Sequence[int], bytes, Seen]] = None
        self.before: Readings = []
        self.plain_before: Readings = []
        self.together = together
        self.machine = recording.settings.machine
        self.rows = Rows(recording.trace)
        self.recovery = Recovery("", self.machine.recovery)
        self.totals = Totals(recording)
        self.drains = drains_of(recording)
        self.lines = list(range(recording.settings.data_lines)) if every_line else self.lines_to_read()
        self.places = {line: place for place, line in enumerate(self.lines)}
        self.reads = text_of([self.machine.read(line) for line in self.lines])
        self.before_script, self.before_port = self.asked_before()
        self.before_reads = self.reads_of(self.lines, self.before_port)
        is_tampered = any(command.word in TAMPERING_WORDS for command in recording.commands)
        self.in_play = None if every_line or named_lines or is_tampered or not self.machine.has_ports \
            else InPlay(recording, self.places)

    def lines_to_read(self) -> List[int]:
        """The lines that the trace names, and those whose line or tag its attacker changes."""
        lines = {*mentioned_lines(self.recording), *(line for line in self.rows.lines if line < self.recording.settings.data_lines)}
        if self.machine.has_counts:
            layout = Layout(self.recording.settings)
            for line in tampered_lines(self.recording, layout.size):
                part = layout.place(line).part
                if part == DATA:
                    lines.add(line)
                elif part == TAGS:
                    first = 4 * (line - layout.first_tag)
                    lines.update(range(first, first + 4))
        return sorted(lines)

    def asked_before(self) -> Tuple[List[bytes], int]:
        """What is run before the reads that show memory before a command, and the port of those reads: one at which no
        write of the trace waits, or else any with power off and on. What waits in durable queues is written first, so that
        each port shows the same."""
        if self.drains:
            return [NO_CUT, b"on", *self.drains], 0
        if self.machine.has_ports:
            used = {command.words[1].lstrip("0") or "0" for command in self.recording.commands
                    if command.word in ("post", "part") and len(command.words) > 1}
            port = next((port for port in range(PORTS) if str(port) not in used), None)
            if port is not None:
                return [NO_CUT, b"on"], port
        elif self.machine.name != "txn":
            return [NO_CUT, b"on"], 0
        return [b"off", NO_CUT, b"on"], 0

    def reads_of(self, lines: Sequence[int], port: int = 0) -> bytes:
        """The commands that read these lines."""
        return text_of([self.machine.read(line, port) for line in lines])

    def lines_at(self, moment: Moment) -> Sequence[int]:
        """The lines that are read at a moment. If cuts are observed all are read before a command, or those that can have
        changed since the last time."""
        if self.in_play is None:
            return self.lines
        if moment.kind != "before" or self.observe is None:
            return self.in_play.at(moment.index)
        return self.lines if moment.since is None else self.in_play.between(moment.since, moment.index)

    def script(self, moment: Moment) -> List[bytes]:
        """The commands that lead to a moment, without the reads."""
        if moment.kind == "before":
            return self.before_script
        if moment.kind == "end":
            return [b"off", b"on", *self.drains]
        cut = [b"cut %d" % moment.number, self.recording.commands[moment.index].text]
        if moment.recovery_steps is None:
            return [*cut, b"on", *self.drains]
        return [*cut, b"cut %d" % moment.recovery_steps, b"on", b"on", *self.drains]

    def question(self, moment: Moment, lines: Optional[Sequence[int]] = None) -> Question:
        """The question that shows what a moment leaves; with `lines` it reads those."""
        lines, is_before = self.lines_at(moment) if lines is None else lines, moment.kind == "before"
        if lines is self.lines:
            reads = self.before_reads if is_before else self.reads
        else:
            reads = self.reads_of(lines, self.before_port if is_before else 0)
        return Question(moment.index, tuple(self.script(moment)), reads)

    def moments(self, indexes: Sequence[int], with_end: bool) -> List[Moment]:
        """Each cut of these commands, with the moment before its command in front."""
        moments = []
        steps = 0
        since: Optional[int] = None
        chosen = set(indexes)
        for index, reply in enumerate(self.recording.replies):
            total = self.totals.of(index)
            if index in chosen:
                moments.append(Moment("before", index, since=since))
                cuts = total + 1 if reply.is_cut else total
                moments += [Moment("cut", index, number, steps + number) for number in range(cuts)]
                since = index
            elif total:
                since = None
            steps += total
        if with_end:
            count = len(self.recording.replies)
            moments += [Moment("before", count, since=since), Moment("end", count, 0, steps)]
        return moments

    def answers(self, moments: Sequence[Moment], what: str) -> Iterator[Tuple[Moment, bytes]]:
        """What is printed of each moment. If a run of the whole trace is worth it, its log reports which cuts one recovery
        stands for."""
        if self.seconds is not None:
            yield from self.seconds.answers(moments, what)
            return
        if not self.drains and sum(moment.kind == "cut" for moment in moments) >= len(self.recording.commands) \
                and self.together.library_for(self.recording, len(moments)):
            log = self.recording.program.logged(self.recording.script, self.recording.settings)
            self.shared = Shared(self.recording, self.together, log, self, self.is_twice)
            self.behind = self.shared.behind
            yield from self.shared.answers(moments, what)
            return
        found = self.together.answers(self.recording, map(self.question, moments), len(moments), what)
        for moment, (_, data) in zip(moments, found):
            yield moment, data

    def cuts(self, moments: Sequence[Moment], what: str) -> Iterator[Cut]:
        """The cuts of these moments."""
        before: Readings = []
        waiting, done = waiting_of(self.recording), 0
        for moment, data in self.answers(moments, what):
            while done < moment.index:
                waiting.go_on(self.recording.commands[done], self.recording.replies[done])
                done += 1
            if moment.kind == "before":
                before = answers_in(data, len(self.before_script))[1]
                self.texts.clear()
                if self.observe is not None:
                    self.note(self.lines_at(moment), before)
            else:
                yield self.cut(moment, data, before, waiting)

    def cut(self, moment: Moment, data: bytes, before: Readings, waiting: Waiting) -> Cut:
        """The cut that the answers to a moment's question show."""
        count = len(self.script(moment)) - len(self.drains)
        answers, printed = answers_before(data, count)
        _, printed = answers_before(printed, len(self.drains))
        if len(answers) < count:
            raise ExploreError(f"{self.recording.trace.name}, line {self.recording.commands[moment.index].number}: "
                               f"a cut after {moment.number} steps ends the run")
        command = None if moment.kind == "end" else self.recording.commands[moment.index]
        lost = waiting.all() if command is None else waiting.lost(command, answers[1])
        if self.recovery.answer != answers[-1]:  # Cuts in a row mostly share one.
            self.recovery = Recovery(answers[-1], self.machine.recovery)
        lines = self.lines_at(moment)
        if self.observe is not None and lines is not self.lines:
            before = [self.before[self.places[line]] for line in lines]
        after, others, unread = self.seen(lines, before, printed)
        cut = Cut(moment.index, moment.number, moment.steps, command, answers[-2], self.recovery, others, tuple(lost),
                  unread, moment.recovery_steps, row=self.rows.by_command.get(moment.index))
        if self.observe is not None:
            self.observe(cut, self.whole(lines, after))
        return cut

    def seen(self, lines: Sequence[int], before: Readings, printed: bytes) -> Seen:
        """What reads of these lines printed, line by line, and what `others` shows of it: found once for cuts in a row in which
        they print the same."""
        if self.last_seen is None or self.last_seen[0] is not before or self.last_seen[1:3] != (lines, printed):
            after = readings_of(printed)
            self.last_seen = before, lines, printed, (after, *self.others(lines, before, after))
        return self.last_seen[3]

    def note(self, lines: Sequence[int], before: Readings) -> None:
        """Notes what lines read as before a command; `off` after an exhibit, which ends the run."""
        before = [*before, *(OFF for _ in range(len(lines) - len(before)))]
        if lines is self.lines:
            self.before, self.plain_before = before, list(map(reading_of, before))
            return
        for line, reading in zip(lines, before):
            place = self.places[line]
            self.before[place], self.plain_before[place] = reading, reading_of(reading)

    def whole(self, lines: Sequence[int], after: Readings) -> Readings:
        """What all lines read as, those that weren't read as before."""
        if len(lines) == len(self.lines) or len(after) < len(lines):
            return list(map(reading_of, after))
        readings = list(self.plain_before)
        for line, reading in zip(lines, after):
            readings[self.places[line]] = reading_of(reading)
        return readings

    def others(self, lines: Sequence[int], before: Readings, after: Readings) -> Tuple[Tuple[Other, ...], Tuple[int, ...]]:
        """The lines that read otherwise, and those that can't be read. What is missing stands after an exhibit, which
        ends the run."""
        if len(after) < len(lines):
            after = [*after, *(OFF for _ in range(len(lines) - len(after)))]
        others, unread = [], []
        for place, (old, new) in enumerate(itertools.zip_longest(before, after, fillvalue=OFF)):
            if new == OFF:
                unread.append(lines[place])
            elif old not in (new, OFF):
                was, is_now = reading_of(old), reading_of(new)
                if was != is_now:
                    others.append(Other(lines[place], self.text(was), self.text(is_now)))
        return tuple(others), self.lines_unread(lines, unread)

    def text(self, reading: bytes) -> str:
        """A reading as text, the same one for all cuts of a command that have it: a long trace has many."""
        return self.texts.setdefault(reading, reading.decode())

    def lines_unread(self, lines: Sequence[int], unread: Sequence[int]) -> Tuple[int, ...]:
        """All lines that can't be read, if those that were read are some of them."""
        return tuple(self.lines) if len(unread) == len(lines) and unread else tuple(unread)

    def prepared(self, lines: Optional[range]) -> List[Moment]:
        """The moments of all cuts of the commands on these lines of the trace, with those before the commands."""
        indexes = stepping_indexes(self.recording, lines)
        self.totals.count(indexes)
        return self.moments(indexes, lines is None and not self.recording.ends_in_exhibit)

    def find(self, lines: Optional[range], twice: bool, rows_checked: int) -> List[Cut]:
        """All cuts of the commands on these lines of the trace. So many of them are compared with those of a run from
        the trace's start."""
        return self.found(self.prepared(lines), twice, rows_checked)

    def found(self, moments: Sequence[Moment], twice: bool, rows_checked: int, deadline: Optional[float] = None) -> List[Cut]:
        """The cuts of these moments, up to the deadline; that many of them are compared."""
        self.is_twice = twice
        cuts = []
        for cut in self.cuts(moments, "cuts"):
            cuts.append(cut)
            if deadline is not None and time.monotonic() >= deadline:
                break
        if self.together.library_for(self.recording, len(cuts)):
            self.check(self.sample(cuts, rows_checked))
        return self.with_second_cuts(cuts, rows_checked) if twice else cuts

    def check(self, cuts: Sequence[Cut]) -> None:
        """Compares these cuts with those of runs from the trace's start that read all lines that it names."""
        finder = CutFinder(self.recording, Together(self.together.program, self.together.jobs, True), False, True)
        finder.lines, finder.places = self.lines, self.places
        finder.reads, finder.before_reads = self.reads, self.before_reads
        finder.totals = self.totals
        moments = [moment for cut in cuts for moment in (
            Moment("before", cut.index), Moment("cut" if cut.command else "end", cut.index, cut.number, cut.steps, cut.recovery_steps))]
        for cut, other in zip(cuts, finder.cuts(moments, "rows compared")):
            if cut != other:
                raise ExploreError(f"{self.recording.trace.name}: a cut after {cut.steps} steps is not answered the same by a "
                                   "run that is asked there and by a run from the start: use --from-start")

    def sample(self, cuts: Sequence[Cut], count: int) -> List[Cut]:
        """So many of the cuts, in their order. Half of them are from those behind a commit group's end, if other cuts show
        of such."""
        behind = {(moment.index, moment.number) for moment in spread(self.behind, count // 2)}
        places = {place for place, cut in enumerate(cuts) if behind and (cut.index, cut.number) in behind}
        places.update(spread(range(len(cuts)), count - len(places)))
        return [cuts[place] for place in sorted(places)]

    def with_second_cuts(self, cuts: Sequence[Cut], rows_checked: int) -> List[Cut]:
        """The cuts with those of each recovery. So many of those that another one told are compared as `check` does."""
        moments: List[Moment] = []
        for cut in cuts:
            if not moments or moments[-1].index != cut.index:
                moments.append(Moment("before", cut.index))
            if cut.command is not None:
                moments += [Moment("cut", cut.index, cut.number, cut.steps, number)
                            for number in range(cut.recovery.steps)]
        if self.shared is not None:
            self.seconds = Seconds(self.shared, {(cut.index, cut.number): cut.answer.encode() for cut in cuts})
        again: Dict[Tuple[int, int], List[Cut]] = {}
        for second in self.cuts(moments, "cuts of recovery"):
            again.setdefault((second.index, second.number), []).append(second)
        if self.seconds is not None:
            self.check([again[moment.index, moment.number][moment.recovery_steps or 0]
                        for moment in spread(self.seconds.told, rows_checked)])
        return [replace(cut, again=tuple(again.get((cut.index, cut.number), ()))) for cut in cuts]


def waiting_of(recording: Recording) -> Waiting:
    """The queues before a trace's first command."""
    settings = recording.settings
    return Waiting(settings.is_durable, settings.combine == "on")


def drains_of(recording: Recording) -> List[bytes]:
    """What writes all that waits in durable queues to memory, a port after the other: nothing if they aren't durable."""
    if not recording.settings.is_durable:
        return []
    ports = {port_of(command) for command in recording.commands if command.word in ("post", "part")}
    return [b"fence %d" % port for port in sorted(ports)]


class InPlay:
    """The lines that a cut of `run` can leave otherwise if nobody tampers: those of the writes that wait, those that
    the command seals, and those that were so before the last command that had such lines."""

    def __init__(self, recording: Recording, places: Dict[int, int]) -> None:
        self.lines: List[Tuple[int, ...]] = []
        waiting = waiting_of(recording)
        last: FrozenSet[int] = frozenset()
        for command, reply in zip(recording.commands, recording.replies):
            now = {line for _, line, _ in waiting.all()}
            now.update(int(mark.split(" ")[1]) for mark in reply.marks if mark.startswith("seal "))
            now.intersection_update(places)
            self.lines.append(tuple(sorted(now | last)))
            if now:
                last = frozenset(now)
            waiting.go_on(command, reply)
        self.lines.append(tuple(sorted(last | {line for _, line, _ in waiting.all()})))

    def at(self, index: int) -> Tuple[int, ...]:
        """Those before and in a command."""
        return self.lines[index]

    def between(self, first: int, last: int) -> List[int]:
        """Those of some commands in a row."""
        return sorted({line for lines in self.lines[first:last + 1] for line in lines})


def some_of(moments: Sequence[Moment], places: Sequence[int]) -> List[Moment]:
    """The cuts at some places among these moments, with the moments before their commands."""
    chosen = set(places)
    found: List[Moment] = []
    before: Optional[Moment] = None
    place = 0
    for moment in moments:
        if moment.kind == "before":
            before = moment
            continue
        if place in chosen:
            if before is not None:
                found.append(replace(before, since=None))
                before = None
            found.append(moment)
        place += 1
    return found


def spread(every: Sequence[T], count: int) -> List[T]:
    """So many of them, from the first to the last."""
    if count >= len(every):
        return list(every)
    return [every[place * (len(every) - 1) // max(1, count - 1)] for place in range(count)]


def answers_before(data: bytes, count: int) -> Tuple[List[str], bytes]:
    """The answers of the first `count` replies of what was printed, and what is printed after them."""
    answers: List[str] = []
    at = 0
    while len(answers) < count:
        found = REPLY.match(data, at)
        if found is None:
            return answers, b""
        answers.append(found[1].decode("ascii", "replace"))
        at = found.end()
    return answers, data[at:]


def readings_of(data: bytes) -> Readings:
    """What reads answer that printed this."""
    readings = data.split(b"\n")
    readings.pop()
    if any(start in data for start in MARK_STARTS):
        readings = [line for line in readings if not line.startswith(MARK_STARTS)]
    return readings


def answers_in(data: bytes, count: int) -> Tuple[List[str], Readings]:
    """The answers of the first `count` replies of what was printed, and what the reads after them answer."""
    answers, rest = answers_before(data, count)
    return answers, readings_of(rest)


def reading_of(line: bytes) -> bytes:
    """What a read answers, without its number of steps."""
    return line.rsplit(b" ", 1)[0] if line.startswith((b"line ", b"refused ")) else line


def all_cuts(cuts: Sequence[Cut]) -> List[Cut]:
    """The cuts with those of their recoveries."""
    return [each for cut in cuts for each in (cut, *cut.again)]


def row_of(cut: Cut) -> List[str]:
    """A cut's row of the table."""
    if cut.script:
        head = ["", str(cut.command.number), f"before {cut.command.short}"] if cut.command else ["", "", "end of the trace"]
        if cut.stored and cut.stored.before:
            head = ["", "", f"before {cut.stored.before.short}"]
        head.append(cut.answer)
    elif cut.recovery_steps is not None:
        head = ["", "", f"  on, cut after {cut.recovery_steps}", cut.answer]
    elif cut.command is None:
        head = [str(cut.steps), "", "end of the trace", "off"]
    else:
        head = [str(cut.steps), str(cut.command.number), cut.command.short, cut.answer]
    head.append(str(len(cut.lost)))
    numbers = cut.recovery.numbers
    if numbers is None:
        return [*head, *("" for _ in cut.recovery.names),
                f"{cut.others_text}; on answers {short_text(cut.recovery.answer)}"]
    return [*head, *map(str, numbers), cut.others_text]


def summary_lines(cuts: Sequence[Cut], names: Sequence[str]) -> List[str]:
    """How many cuts there are, and the greatest and the mean recovery, without the places of lines."""
    every = all_cuts(cuts)
    found = [cut.recovery.numbers for cut in every if cut.recovery.numbers]
    lines = [f"{plural(len(every), 'cut')}, {len(found)} recovered"]
    if found:
        columns = [(name, [numbers[place] for numbers in found]) for place, name in enumerate(names)
                   if name not in ("start", "gap")]
        lines.append("greatest recovery: " + ", ".join(f"{max(column)} {name}" for name, column in columns))
        lines.append("mean recovery: " + ", ".join(f"{sum(column) / len(found):.1f} {name}"
                                                   for name, column in columns))
    most = max((len(cut.lost) for cut in every), default=0)
    if most:
        lines.append(f"most writes lost by a cut: {most}")
    return lines


def heads_of(names: Sequence[str]) -> List[List[str]]:
    """The heads of the table."""
    return [["steps", "trace", "command", "answer", "writes", "recovery:", *("" for _ in names[1:]), "lines that read"],
            ["before", "line", "", "", "lost", *names, "otherwise"]]


def cuts_text(cuts: Sequence[Cut], recording: Recording,
              verdict_of: Optional[Callable[[Cut], str]] = None) -> str:
    """The cuts for people, each with its verdict if it was checked."""
    names = recording.settings.machine.recovery
    heads, rows = heads_of(names), [row_of(cut) for cut in all_cuts(cuts)]
    if verdict_of is not None:
        heads = [[*heads[0], ""], [*heads[1], "check"]]
        rows = [[*row, verdict_of(cut)] for row, cut in zip(rows, all_cuts(cuts))]
    table = table_text(heads, rows, left=(2, 3, 5 + len(names), 6 + len(names)))
    notes = summary_lines(cuts, names)
    last = recording.replies[-1] if recording.replies else None
    if last is not None and last.is_exhibit:
        command = recording.commands[len(recording.replies) - 1]
        notes.append(f"the trace ends with an exhibit, in line {command.number}: {short_text(last.answer)}")
    return table + "\n" + "\n".join(notes) + "\n"


def cut_record(cut: Cut) -> Dict[str, Any]:
    """A cut for scripts."""
    numbers: Sequence[Optional[int]] = cut.recovery.numbers or [None for _ in cut.recovery.names]
    record: Dict[str, Any] = {
        "steps_before": cut.steps, "trace_line": cut.command.number if cut.command else None,
        "command": " ".join(cut.command.words) if cut.command else "off", "answer": cut.answer,
        "recovery": cut.recovery.answer, **dict(zip(cut.recovery.names, numbers)),
        "read_otherwise": [{"line": other.line, "before": other.before, "after": other.after}
                           for other in cut.others],
        "writes_lost": [{"port": port, "line": line, "trace_line": number} for port, line, number in cut.lost],
        "unread": list(cut.unread)}
    if cut.recovery_steps is not None:
        record["recovery_cut_after"] = cut.recovery_steps
    if cut.row:
        record.update(event_record(cut.row))
    if cut.stored:
        record["before"] = event_record(cut.stored.before) if cut.stored.before else None
        for name in ("kept", "partly", "missing"):
            record[name] = [event_record(event) for event in getattr(cut.stored, name)]
    elif cut.script:
        record["written"] = [{"port": port, "line": line, "trace_line": number} for port, line, number in cut.written]
    if cut.again:
        record["cuts_of_recovery"] = [cut_record(each) for each in cut.again]
    return record


def event_record(event: Event) -> Dict[str, Any]:
    """What a program did, for scripts: the row of the file that was imported, the place in its source, the section that a mark began, and
    a store's address."""
    return {"row": event.row, "source": event.source or None, "section": event.section or None, "word": event.word,
            **({} if event.address is None else {"address": f"{event.address:#x}"})}


def cut_records(cuts: Sequence[Cut], more: Callable[[Cut], Dict[str, Any]]) -> List[Dict[str, Any]]:
    """The cuts for scripts; `more` has what else is known of each."""
    return [{**cut_record(cut), **more(cut)} for cut in cuts]


def cuts_csv(cuts: Sequence[Cut], names: Sequence[str], more: Callable[[Cut], Dict[str, Any]]) -> str:
    """The cuts as CSV, those of a recovery behind their own; lists are numbers with spaces between."""
    columns = ["steps_before", "trace_line", "row", "source", "section", "command", "answer", "recovery_cut_after", "recovery", *names,
               "read_otherwise", "writes_lost", "unread", "in_memory", "missing", "outcome", "check", "reason"]
    return csv_text(columns, [[flat_record(cut, more(cut)).get(name) for name in columns] for cut in all_cuts(cuts)])


def flat_record(cut: Cut, more: Dict[str, Any]) -> Dict[str, Any]:
    """A cut as fields of a CSV."""
    record = {**cut_record(cut), **more}
    record.update(read_otherwise=numbers_text(other.line for other in cut.others), unread=numbers_text(cut.unread),
                  writes_lost=numbers_text(number for _, _, number in cut.lost))
    if cut.stored:
        before = cut.stored.before
        record.update(event_record(before) if before else {}, steps_before=None, in_memory=numbers_text(event.row for event in cut.stored.kept),
                      missing=numbers_text(event.row for event in (*cut.stored.partly, *cut.stored.missing)))
    elif cut.script:
        record.update(steps_before=None, in_memory=numbers_text(number for _, _, number in cut.written))
    return record


def numbers_text(numbers: Iterable[int]) -> str:
    """Numbers with spaces between."""
    return " ".join(map(str, numbers))
