"""Single attacks on the device after a trace: bits flipped, lines zeroed, put back from before, copied and swapped, by part of the
device; and what becomes of each: refused, mended, ended with evidence, without effect, or never read."""
import random
from collections import Counter
from dataclasses import dataclass
from typing import Any, Dict, Iterator, List, Sequence, Set, Tuple

from .accesses import LINE, LOOK
from .accounts import PART_WORDS
from .errors import WRONG_WORDS, ExploreError
from .layout import PARTS, Parts, layout_of
from .logged import Entry, LoggedProgram, LoggedRecording, entries_of
from .output import csv_text, json_text, table_text
from .program import Question, first_word
from .settings import Settings
from .together import Together
from .trace import TAMPERING_WORDS, Trace, trace_of

BITS_OF_LINE = 512
MAJOR_BITS = 64
ZEROS = "00" * 64
# The machines that have an attacker's commands.
ATTACKED = ("run", "tree")
STATES = ("on", "off")
# What an attack can end in, in the order of the columns, and what each is called.
ENDINGS: Tuple[Tuple[str, str], ...] = (
    ("read_refused", "refused by a read"), ("recovery_refused", "refused by recovery"), ("evidence", "ended with evidence"),
    ("mended", "mended"), ("no_effect", "read, no effect"), ("never_read", "never read"), ("wrong", "WRONG DATA"))
DEVICE = "device"


@dataclass(frozen=True)
class Attack:
    """An attack: with power on or off, on which part, what it does, to which device lines, by which commands."""

    state: str
    part: str
    what: str
    lines: Tuple[int, ...]
    commands: Tuple[bytes, ...]


@dataclass(frozen=True)
class Ended:
    """What became of an attack, and the reply that decided it if there is one."""

    attack: Attack
    ending: str
    reply: str


@dataclass
class Chosen:
    """How much is tried: lines of each part that the trace used, with as many that it didn't; bits of each class of a line; the lines
    of memory that are read afterwards."""

    lines: int = 4
    bits: int = 2
    reads: int = 64
    seed: int = 0


def spread_of(values: Sequence[int], count: int) -> List[int]:
    """At most that many of these, spread evenly."""
    return list(values) if count >= len(values) else [values[place * len(values) // count] for place in range(count)]


def bit_classes(part: str) -> Dict[str, range]:
    """The bits of a line of a part that stand for one thing."""
    if part == "counters":
        return {"a bit of the major": range(MAJOR_BITS), "a bit of a minor": range(MAJOR_BITS, BITS_OF_LINE)}
    whats = {"data": "a bit of the cipher", "tags": "a bit of a tag", "tree": "a bit of a digest", "shadow": "a bit of a name"}
    return {whats[part]: range(BITS_OF_LINE)}


def poked(line: int, value: str) -> bytes:
    """The command that overwrites a device line."""
    return f"poke {line} {value}".encode()


class Attacks:
    """The attacks on the state after a trace, and what becomes of them."""

    def __init__(self, trace: Trace, settings: Settings, together: Together, chosen: Chosen) -> None:
        self.check(trace, settings)
        assert isinstance(together.program, LoggedProgram)
        self.settings, self.together, self.chosen = settings, together, chosen
        self.random = random.Random(chosen.seed)
        self.layout = layout_of(settings)
        self.recording = LoggedRecording(together.program, settings, with_snapshot(trace))
        if self.recording.ends_in_exhibit:
            raise ExploreError(f"{trace.name} ends with an exhibit, after which nothing can be tried")
        self.lines = self.lines_of_parts()
        self.reads = self.lines_read()
        self.truth = {state: self.truth_in(state) for state in STATES}
        self.now = {state: self.peeked(state, ()) for state in STATES} if self.has_peek else {}
        self.old = self.peeked("off", [b"back %d" % line for line in self.every]) if self.has_peek else {}

    @staticmethod
    def check(trace: Trace, settings: Settings) -> None:
        """That the machine has an attacker, and that the trace leaves the attacks to this search."""
        if settings.machine_name not in ATTACKED:
            raise ExploreError(f"the machine {settings.machine_name} has no attacker's commands: {', '.join(ATTACKED)} have some", WRONG_WORDS)
        for command in trace.commands:
            if command.word in TAMPERING_WORDS or command.word == "snap":
                raise ExploreError(f"{trace.name}, line {command.number}: {command.word} is an attacker's command; attacks begins with a "
                                   "device that nobody changed", WRONG_WORDS)

    @property
    def has_peek(self) -> bool:
        """Whether device lines can be shown, so that bits can be flipped and lines swapped."""
        return self.settings.machine.has_counts

    @property
    def every(self) -> List[int]:
        """All chosen device lines."""
        return [line for lines in self.lines.values() for line in lines]

    def lines_of_parts(self) -> Dict[str, List[int]]:
        """For each part, some device lines that the trace used, and some that it didn't."""
        part_of = Parts(self.layout).of
        used: Dict[int, Set[int]] = {part: set() for part in range(len(PARTS))}
        for entry in self.recording.entries:
            for access, number in entry.accesses:
                if access in (LOOK, LINE):
                    used[part_of(number)].add(number)
        others: Dict[int, List[int]] = {part: [] for part in used}
        for line in range(self.layout.size):
            if line not in used[part_of(line)]:
                others[part_of(line)].append(line)
        count = self.chosen.lines
        found = {PART_WORDS[part]: sorted([*spread_of(sorted(used[part]), count), *spread_of(others[part], count)]) for part in used}
        return {name: lines for name, lines in found.items() if lines}

    def lines_read(self) -> List[int]:
        """The lines of memory that are read after each attack: some that the trace names, and those that are attacked."""
        names = self.settings.machine.names
        named = sorted({int(command.word_at(names[command.word])) for command in self.recording.commands if command.word in names})
        inside = [line for line in named if line < self.settings.data_lines]
        return sorted({*spread_of(inside, self.chosen.reads), *self.lines.get("data", [])})

    def script(self, state: str, commands: Sequence[bytes]) -> List[bytes]:
        """An attack and what comes after it: the reads, with power on also before a power cycle."""
        reads = [self.settings.machine.read(line) for line in self.reads]
        before = [b"on"] if state == "on" else [b"on", b"off"]
        return [*before, *commands, *([*reads, b"off"] if state == "on" else []), b"on", *reads]

    def truth_in(self, state: str) -> List[str]:
        """The answers to the reads and the rest if nothing is attacked."""
        (entries,) = self.answers([self.script(state, ())], "")
        if entries[-1].reply.is_exhibit:
            raise ExploreError(f"{self.recording.trace.name}: what follows it without an attack ends with an exhibit: "
                               f"{entries[-1].reply.answer[:60]}; with --suite aes none is known")
        return [entry.reply.answer for entry in entries]

    def answers(self, scripts: Sequence[Sequence[bytes]], what: str) -> Iterator[List[Entry]]:
        """The replies to scripts, each behind the trace."""
        questions = [Question(len(self.recording.commands), tuple(script)) for script in scripts]
        for _, data in self.together.answers(self.recording, questions, len(questions), what):
            yield entries_of(data, self.together.program.path)

    def peeked(self, state: str, commands: Sequence[bytes]) -> Dict[int, str]:
        """What the chosen device lines hold with power on or off, after these commands."""
        lines = self.every
        before = [b"on"] if state == "on" else [b"on", b"off"]
        (entries,) = self.answers([[*before, *commands, *(b"peek %d" % line for line in lines)]], "")
        return {line: entry.reply.answer.split(" ")[1] for line, entry in zip(lines, entries[-len(lines):])}

    def attacks(self) -> List[Attack]:
        """All attacks, in the order in which they are shown."""
        found: List[Attack] = []
        for state in STATES:
            for part, lines in self.lines.items():
                for place, line in enumerate(lines):
                    found += self.attacks_on(state, part, line, lines[place - 1])
            found.append(Attack(state, DEVICE, "all lines put back", tuple(self.used()), tuple(b"back %d" % line for line in self.used())))
        return found

    def used(self) -> List[int]:
        """All device lines that the trace wrote."""
        return sorted({number for entry in self.recording.entries for access, number in entry.accesses if access == LINE})

    def attacks_on(self, state: str, part: str, line: int, other: int) -> Iterator[Attack]:
        """The attacks on a device line; `other` is one of its part that it is exchanged with."""
        now = self.now.get(state, {})
        if self.has_peek:
            for what, bits in bit_classes(part).items():
                for bit in sorted(self.random.sample(bits, min(self.chosen.bits, len(bits)))):
                    yield Attack(state, part, what, (line,), (b"flip %d %d" % (line, bit),))
        if now.get(line) != ZEROS:
            yield Attack(state, part, "zeros", (line,), (poked(line, ZEROS),))
        if not now or now[line] != self.old[line]:
            yield Attack(state, part, "put back", (line,), (b"back %d" % line,))
            if part == "data":
                tag_line = self.layout.tag_line(line)
                yield Attack(state, part, "put back with its tag line", (line, tag_line), (b"back %d" % line, b"back %d" % tag_line))
        if now and now[line] != now[other]:
            yield Attack(state, part, "copied from another line", (line,), (b"move %d %d" % (other, line),))
            yield Attack(state, part, "swapped with another line", (line, other), (poked(line, now[other]), poked(other, now[line])))

    def find(self) -> List[Ended]:
        """What becomes of each attack."""
        attacks = self.attacks()
        scripts = [self.script(attack.state, attack.commands) for attack in attacks]
        return [self.ended(attack, entries) for attack, entries in zip(attacks, self.answers(scripts, "attacks"))]

    def ended(self, attack: Attack, entries: Sequence[Entry]) -> Ended:
        """What became of an attack to which these are the replies."""
        first = (1 if attack.state == "on" else 2) + len(attack.commands)
        after = entries[first:]
        truth = self.truth[attack.state][first - len(attack.commands):]
        for entry in after:
            if entry.reply.is_exhibit:
                return Ended(attack, "evidence", entry.reply.answer)
        for entry, true in zip(after, truth):
            answer, word = entry.reply.answer, first_word(entry.reply.answer)
            if word == "refused":
                return Ended(attack, "recovery_refused" if first_word(true) == "on" else "read_refused", answer)
            if word == "line" and answer.split(" ")[1] != true.split(" ")[1]:
                return Ended(attack, "wrong", answer)
        if len(after) < len(truth):
            raise ExploreError(f"{self.together.program.path} does not answer all that is asked after an attack")
        return Ended(attack, quiet_ending(attack, after), "")


def quiet_ending(attack: Attack, after: Sequence[Entry]) -> str:
    """How an attack ended that nothing reported: whether the controller wrote its lines again, or read them."""
    accesses = [access for entry in after for access in entry.accesses if access[1] in attack.lines]
    if {line for access, line in accesses if access == LINE} == set(attack.lines):
        return "mended"
    return "no_effect" if any(access == LOOK for access, _ in accesses) else "never_read"


def with_snapshot(trace: Trace) -> Trace:
    """The trace with a snapshot of the device in its middle, which lines are put back from."""
    texts = [command.text for command in trace.commands]
    middle = len(texts) // 2
    return trace_of(trace.name, b"".join(text + b"\n" for text in [*texts[:middle], b"snap", *texts[middle:]]))


@dataclass
class Found:
    """What became of all attacks on a trace."""

    search: Attacks
    ended: List[Ended]

    @property
    def wrong(self) -> List[Ended]:
        """The attacks after which memory answered something else than was written, without evidence."""
        return [each for each in self.ended if each.ending == "wrong"]

    def rows(self) -> List[Dict[str, Any]]:
        """How many attacks of each kind ended in what."""
        counts: Dict[Tuple[str, str, str], "Counter[str]"] = {}
        for each in self.ended:
            attack = each.attack
            counts.setdefault((attack.state, attack.part, attack.what), Counter())[each.ending] += 1
        return [{"power": state, "part": part, "attack": what, "tried": sum(found.values()), **{name: found[name] for name, _ in ENDINGS}}
                for (state, part, what), found in counts.items()]

    def heads(self) -> List[str]:
        """What was tried."""
        chosen, search = self.search.chosen, self.search
        heads = [f"{len(self.ended):,} attacks, each by itself, after the trace; then {len(search.reads):,} lines of memory are read, with "
                 "power on also before a power cycle",
                 f"of each part at most {chosen.lines} device lines that the trace used and {chosen.lines} others; {chosen.bits} bits of "
                 f"each class of a line (--seed {chosen.seed}); lines are put back from the middle of the trace"]
        if not search.has_peek:
            heads.append(f"{search.settings.machine_name} does not show device lines, so no bits are flipped and no lines exchanged; an attack "
                         "that changes nothing counts as without effect")
        return heads

    def text(self) -> str:
        """It for people: the endings that occurred, a row for each kind of attack."""
        rows = self.rows()
        endings = [(name, what) for name, what in ENDINGS if name == "wrong" or any(row[name] for row in rows)]
        lines = [[row["power"], row["part"], row["attack"], str(row["tried"]), *(str(row[name] or "-") for name, _ in endings)] for row in rows]
        total = ["", "all", "", str(len(self.ended)), *(str(sum(row[name] for row in rows) or "-") for name, _ in endings)]
        heads = ["power", "part", "attack", "tried", *(what for _, what in endings)]
        return "".join(f"{head}\n" for head in self.heads()) + "\n" + table_text([heads], [*lines, total], left=(0, 1, 2))

    def csv(self) -> str:
        """The rows as CSV."""
        rows = self.rows()
        return csv_text(list(rows[0]), [list(row.values()) for row in rows])

    def json(self) -> str:
        """Each attack as JSON, with its commands and the reply that decided it."""
        return json_text({"attacks": [{"power": each.attack.state, "part": each.attack.part, "attack": each.attack.what,
                                       "lines": list(each.attack.lines), "commands": [text.decode("ascii") for text in each.attack.commands],
                                       "ending": each.ending, "reply": each.reply} for each in self.ended],
                          "heads": self.heads(), "rows": self.rows()})
