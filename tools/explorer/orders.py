"""Power cuts between two fences, when any of the writes that no fence has made sure of may be in memory. If a trace says which stores
came when (`Rows`), these are the program's stores, flushed or not (`early`). Otherwise they are the writes that wait, each line's in
their order."""
import itertools
import random
from collections import deque
from dataclasses import dataclass, replace
from typing import Any, Callable, Deque, Dict, Generic, Iterator, List, Optional, Sequence, Set, Tuple, TypeVar, Union

from .cuts import NO_CUT, Cut, CutFinder, Readings, Recovery, Stored, answers_in, reading_of
from .early import Chain, Moments, Part
from .early import Moment as StoreMoment
from .errors import WRONG_WORDS, ExploreError
from .output import table_text
from .package import PORTS
from .program import Question, Recording
from .rows import Event
from .trace import TAMPERING_WORDS
from .waiting import Write, port_of, write_of

Item = TypeVar("Item")
NOT_MODELLED = ("not modelled: the order of several processors' stores, and whether a store of more than 8 bytes reaches memory whole "
                "(--torn: it does not)")
# Far apart, so that no two moments have the same numbers under neighbouring seeds.
SEEDS = 1_000_003
MOST_SHOWN = 10 ** 12
LOG10_OF_2 = 0.301029995663981
NOT_MODELLED_TORN = "not modelled: the order of several processors' stores"


@dataclass(frozen=True)
class Epoch:
    """Writes that no fence has made sure of, just before the command `index`. They are the commands `writes`, the first of
    which is `start`; `certain` are the writes after it that a fence has made sure of. `is_changed`: the attacker comes in
    between."""

    start: int
    index: int
    writes: Tuple[int, ...]
    certain: Tuple[int, ...]
    is_changed: bool


class Epochs:
    """The epochs of a trace."""

    def __init__(self, recording: Recording) -> None:
        self.recording = recording
        self.unfenced: List[int] = []
        self.certain: List[int] = []
        self.drained: Dict[int, int] = {}
        self.has_more = False
        self.changed_at = -1

    def found(self) -> Iterator[Epoch]:
        """Each epoch, at the last moment before its writes become fewer."""
        for index, reply in enumerate(self.recording.replies):
            command = self.recording.commands[index]
            ends = reply.is_cut or command.word == "off"
            if self.has_more and (ends or command.word == "fence"):
                yield self.epoch(index)
            words = reply.answer.split(" ")
            if command.word in TAMPERING_WORDS:
                self.changed_at = index
            elif ends:
                self.forget()
            elif command.word in ("post", "part") and words[0] == "ok":
                self.unfenced.append(index)
                self.has_more = True
            elif command.word in ("drain", "fence"):
                self.put(index, words)
        if self.has_more:
            yield self.epoch(len(self.recording.replies))

    def epoch(self, index: int) -> Epoch:
        """The epoch just before a command."""
        self.has_more = False
        start = self.unfenced[0]
        return Epoch(start, index, tuple(self.unfenced), tuple(each for each in self.certain if each > start),
                     self.changed_at > start)

    def forget(self) -> None:
        """Power is off: what isn't written is lost."""
        self.unfenced, self.certain, self.drained, self.has_more = [], [], {}, False

    def put(self, index: int, words: Sequence[str]) -> None:
        """A drain or a fence: a drained write isn't sure yet, one that was refused isn't a write any more."""
        command = self.recording.commands[index]
        port = port_of(command)
        own = [each for each in self.unfenced if port_of(self.recording.commands[each]) == port]
        done = self.drained.get(port, 0)
        if command.word == "drain":
            if words[0] == "ok":
                self.drained[port] = done + 1
            elif words[0] != "empty":
                self.unfenced.remove(own[done])
            return
        sure = own if words[0] == "ok" else own[:done + int(words[1])]
        dropped = [] if words[0] == "ok" else own[len(sure):len(sure) + 1]
        self.drained[port] = 0
        self.certain = sorted([*self.certain, *sure])
        self.unfenced = [each for each in self.unfenced if each not in sure and each not in dropped]
        if not self.unfenced:
            self.certain = []


class States(Generic[Item]):
    """The states that some chains may be in at a moment. A state is an option of each chain."""

    def __init__(self, chains: Sequence[Chain[Item]]) -> None:
        self.chains = chains
        self.options = [chain.options for chain in chains]
        self.total = 1
        for count in self.options:
            self.total *= count

    def tried(self, bound: int, generator: random.Random) -> List[List[Item]]:
        """Up to `bound` of the states, each as what has happened in it. If there are more: none, all, for up to half of them each chain
        alone and all chains except one, and then any, each as likely as another."""
        options = itertools.product(*map(range, self.options)) if self.total <= bound else iter(self.some(bound, generator))
        return [self.chosen(each) for each in options]

    def chosen(self, options: Sequence[int]) -> List[Item]:
        """What has happened in a state."""
        return [each for chain, option in zip(self.chains, options) for each in chain.chosen(option)]

    def some(self, bound: int, generator: random.Random) -> List[Tuple[int, ...]]:
        """That many of the states."""
        full = tuple(count - 1 for count in self.options)
        none = tuple(0 for _ in full)
        found = {none: None, full: None}
        for place in generator.sample(range(len(full)), len(full)):
            if len(found) + 2 > max(bound // 2, 2):
                break
            for base, option in ((none, full[place]), (full, 0)):
                found[(*base[:place], option, *base[place + 1:])] = None
        while len(found) < bound:
            found[tuple(generator.randrange(count) for count in self.options)] = None
        return list(found)


@dataclass(frozen=True)
class Trial:
    """A state that is tried: the cut that it is, without what comes of it, and the question that makes it."""

    cut: Cut
    question: Question


@dataclass(frozen=True)
class Asked:
    """A moment, with its states: `trial` makes one of them. `place` has the row and the source, or the trace's line, of what comes
    next; `writes` is how many aren't sure before it. `is_changed`: the attacker comes in between, so it isn't tried."""

    index: int
    place: Tuple[str, ...]
    writes: int
    states: "States[Any]"
    trial: Callable[[Sequence[Any]], Trial]
    is_changed: bool


@dataclass(frozen=True)
class Tried:
    """What the states that were tried at a moment leave."""

    asked: Asked
    cuts: Tuple[Cut, ...]


class WriteOrders:
    """The states of a trace without rows, or of its flushed lines only: any of the writes that wait."""

    heads = (("trace", "writes before", "outcomes", "of", "that", "that"), ("line", "the fence", "tried", "all", "differ", "fail"))

    def __init__(self, finder: CutFinder, lines: Optional[range]) -> None:
        self.finder = finder
        self.recording = finder.recording
        self.moments = [self.asked(epoch) for epoch in Epochs(self.recording).found()
                        if lines is None or any(self.recording.commands[each].number in lines for each in epoch.writes)]

    def notes(self, tried: int, total: int) -> List[str]:
        """What is printed under the table."""
        return [f"{tried} of {count_text(total)} outcomes tried"]

    def asked(self, epoch: Epoch) -> Asked:
        """An epoch with its states: the writes of one line keep their order."""
        lines: Dict[int, List[Tuple[int, ...]]] = {}
        for each in epoch.writes:
            lines.setdefault(self.write(each)[1], []).append((each,))
        is_end = epoch.index >= len(self.recording.replies)
        place = "end" if is_end else str(self.recording.commands[epoch.index].number)
        return Asked(epoch.index, (place,), len(epoch.writes), States([Chain(tuple(groups)) for groups in lines.values()]),
                     lambda chosen: self.trial(epoch, chosen), epoch.is_changed)

    def write(self, index: int) -> Write:
        """The write that a command posted."""
        return write_of(self.recording.commands[index])

    def trial(self, epoch: Epoch, chosen: Sequence[int]) -> Trial:
        """The cut that leaves these writes and no others."""
        script = [NO_CUT]
        for each in sorted((*epoch.certain, *chosen)):
            command = self.recording.commands[each]
            script += [command.text, b"drain %d" % port_of(command)]
        script += [b"off", b"on"]
        is_end = epoch.index >= len(self.recording.replies)
        lost = tuple(self.write(each) for each in epoch.writes if each not in chosen)
        cut = Cut(epoch.start, 0, 0, None if is_end else self.recording.commands[epoch.index],
                  f"{len(chosen)} of {len(epoch.writes)} written", Recovery(""), (), lost,
                  written=tuple(self.write(each) for each in sorted(chosen)), script=tuple(script))
        return Trial(cut, Question(epoch.start, tuple(script), self.finder.reads))


class StoreOrders:
    """The states of a trace whose rows say which stores came when: any of them may be in memory, flushed or not."""

    heads = (("row", "source", "stores not", "states", "of", "that", "that"), ("", "", "yet sure", "tried", "all", "differ", "fail"))

    def __init__(self, finder: CutFinder, lines: Optional[range], torn: bool) -> None:
        self.finder = finder
        self.recording = finder.recording
        self.torn = torn
        used = {port_of(command) for command in self.recording.commands if command.word in ("post", "part", "drain", "fence")}
        self.port = next((port for port in range(PORTS) if port not in used), None)
        self.moments = [self.asked(moment) for moment in Moments(self.recording, finder.rows, torn).found()
                        if lines is None or self.number(moment) in lines]

    def number(self, moment: StoreMoment) -> int:
        """The line of the trace that comes next."""
        commands = self.recording.commands
        return commands[moment.index].number if moment.index < len(commands) else self.recording.trace.line_count

    def notes(self, tried: int, total: int) -> List[str]:
        """What is printed under the table."""
        left = f"; {count_text(total - tried)} left out" if total > tried else ""
        return [f"{tried} of {count_text(total)} states tried, early evictions included{left}",
                NOT_MODELLED_TORN if self.torn else NOT_MODELLED]

    def asked(self, moment: StoreMoment) -> Asked:
        """A moment with its states."""
        place = ("end", "") if moment.event is None else (str(moment.event.row), moment.event.source)
        states = States([chain for _, _, line in moment.lines for chain in line.chains()])
        return Asked(moment.index, place, len(moment.stores), states, lambda chosen: self.trial(moment, chosen), moment.is_changed)

    def trial(self, moment: StoreMoment, chosen: Sequence[Part]) -> Trial:
        """The cut that leaves these parts of stores, what is sure, and nothing else."""
        parts = set(chosen)
        has_port = self.port is not None and moment.has_power
        script = [NO_CUT] if has_port else [NO_CUT, b"off", b"on"]
        port = self.port if has_port and self.port is not None else 0
        for number, device, line in moment.lines:
            data = line.with_parts(parts)
            if data != device:
                script += [b"post %d %d %s" % (port, number, data.hex().encode()), b"drain %d" % port]
        script += [b"off", b"on"]
        stored = stored_of(moment, parts)
        command = self.recording.commands[moment.index] if moment.index < len(self.recording.replies) else None
        answer = f"{len(stored.kept)} of {len(moment.stores)} stores"
        cut = Cut(moment.index, 0, 0, command, answer, Recovery(""), (), script=tuple(script), stored=stored)
        return Trial(cut, Question(moment.index, tuple(script), self.finder.reads))


def stored_of(moment: StoreMoment, chosen: Set[Part]) -> Stored:
    """Which stores that aren't sure memory has, which it has in part, and which it doesn't have."""
    kept: List[Event] = []
    partly: List[Event] = []
    missing: List[Event] = []
    for store in moment.stores:
        count = sum(part in chosen for part in store.parts)
        (kept if count == len(store.parts) else partly if count else missing).append(store.event)
    return Stored(moment.event, tuple(kept), tuple(partly), tuple(missing))


class Orders:
    """Tries the states at each moment: `bound` at most, which `seed` chooses if there are more. Without `early` only lines that
    were flushed may be in memory. With `torn` a store of more than 8 bytes may be there in part."""

    def __init__(self, finder: CutFinder, bound: int, lines: Optional[range], early: bool = True, torn: bool = False,
                 seed: int = 0) -> None:
        self.finder = finder
        self.bound = bound
        self.seed = seed
        if not finder.machine.has_ports:
            raise ExploreError(f"--orders is for traces of pmem run: {finder.machine.name} has no writes that wait",
                               WRONG_WORDS)
        if finder.recording.settings.is_durable:
            raise ExploreError("--orders needs --queue volatile: its states have all those that a durable queue may leave, in which each write "
                               "that was posted is sure", WRONG_WORDS)
        self.kind: Union[StoreOrders, WriteOrders] = StoreOrders(finder, lines, torn) if early and finder.rows.knows_stores \
            else WriteOrders(finder, lines)
        self.moments = [asked for asked in self.kind.moments if not asked.is_changed]

    @property
    def changed(self) -> int:
        """How many moments aren't tried, because the attacker comes in between."""
        return len(self.kind.moments) - len(self.moments)

    def trials(self, moments: Sequence[Asked]) -> Iterator[Tuple[Asked, Trial]]:
        """The states that are tried at these moments."""
        for asked in moments:
            generator = random.Random(self.seed * SEEDS + asked.index)
            for chosen in asked.states.tried(self.bound, generator):
                yield asked, asked.trial(chosen)

    def find(self, observe: Callable[[Cut, Readings], None], moments: Optional[Sequence[Asked]] = None) -> List[Tried]:
        """What the states at these moments leave, or at all of them; each is observed."""
        chosen = self.moments if moments is None else moments
        waiting: Deque[Tuple[Asked, Trial]] = deque()

        def questions() -> Iterator[Question]:
            for each in self.trials(chosen):
                waiting.append(each)
                yield each[1].question

        total = sum(min(asked.states.total, self.bound) for asked in chosen)
        cuts: Dict[int, List[Cut]] = {id(asked): [] for asked in chosen}
        before: Dict[int, Readings] = {}
        for question, data in self.finder.together.answers(self.finder.recording, questions(), total, "orders"):
            asked, trial = waiting.popleft()
            answers, readings = answers_in(data, len(question.script))
            none = before.setdefault(id(asked), readings)
            cut = replace(trial.cut, recovery=Recovery(answers[-1], self.finder.machine.recovery),
                          others=self.finder.others(self.finder.lines, none, readings)[0])
            cuts[id(asked)].append(cut)
            observe(cut, list(map(reading_of, readings)))
        return [Tried(asked, tuple(cuts[id(asked)])) for asked in chosen]


def count_text(count: int) -> str:
    """A number; one with more than twelve digits with its first two, as 4.6e39."""
    if count < MOST_SHOWN:
        return str(count)
    power = int((count.bit_length() - 1) * LOG10_OF_2)
    digits = count // 10 ** (power - 1)
    if digits >= 100:
        power, digits = power + 1, digits // 10
    return f"{digits // 10}.{digits % 10}e{power}"


def orders_text(tried: Sequence[Tried], orders: Orders, outcome_of: Callable[[Cut], Tuple[int, str]]) -> str:
    """The orders for people. `outcome_of` has the number of a cut's outcome and its verdict."""
    rows = []
    for each in tried:
        found = [outcome_of(cut) for cut in each.cuts]
        rows.append([*each.asked.place, str(each.asked.writes), str(len(each.cuts)), count_text(each.asked.states.total),
                     str(len({number for number, _ in found})), str(sum(verdict == "fails" for _, verdict in found))])
    total = sum(asked.states.total for asked in orders.moments)
    notes = orders.kind.notes(sum(len(each.cuts) for each in tried), total)
    if orders.changed:
        notes.append(f"{orders.changed} fences are not tried: the attacker comes in between")
    left = (1,) if isinstance(orders.kind, StoreOrders) else ()
    return table_text(orders.kind.heads, rows, left=left) + "\n" + "".join(f"{note}\n" for note in notes)
