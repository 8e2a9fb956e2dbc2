"""Random traces under persistence policies, with durable queues and with combining: the same traces for the same seeds, with every version of
Python. tools/agree runs them on two programs; tools/tests/agreed.txt has what a reference program answers to some."""
import random
from typing import Callable, Dict, Iterator, List, NamedTuple, Sequence, Tuple, TypeVar

LINES_OF_PAGE = 64
BYTES = 64
BITS = 512
ENTRIES = 16
LEVELS = (1, 2)
MAJORS = (0, 0, 1, (1 << 64) - 2)

T = TypeVar("T")


class Policy(NamedTuple):
    """What a memory persists: `persist` answers the levels persisted for a tree of some levels. `queues` are the options of the write queues."""

    persist: Callable[[int], int]
    shadow: str
    queues: Tuple[str, ...] = ()


POLICIES: Dict[str, Policy] = {
    "anubis": Policy(lambda levels: 0, "on"), "osiris": Policy(lambda levels: 0, "off"), "counters": Policy(lambda levels: 1, "on"),
    "triad-0": Policy(lambda levels: 1, "off"), "triad-1": Policy(lambda levels: 2, "off"), "triad-1 with tables": Policy(lambda levels: 2, "on"),
    "strict": Policy(lambda levels: levels + 1, "off"), "strict with tables": Policy(lambda levels: levels + 1, "on"),
    "anubis+adr": Policy(lambda levels: 0, "on", ("--queue", "durable")),
    "osiris, combining": Policy(lambda levels: 0, "off", ("--combine", "on")),
    "anubis+adr, combining": Policy(lambda levels: 0, "on", ("--queue", "durable", "--combine", "on")),
    "strict+adr, combining": Policy(lambda levels: levels + 1, "off", ("--queue", "durable", "--combine", "on")),
}


class Random:
    """Numbers that don't depend on the version of Python: those of `random.Random.getrandbits`."""

    def __init__(self, seed: str) -> None:
        self.bits = random.Random(seed).getrandbits

    def below(self, count: int) -> int:
        """A number below another one."""
        return self.bits(64) % count

    def one_of(self, values: Sequence[T]) -> T:
        """One of these values."""
        return values[self.below(len(values))]

    def happens(self, percent: int) -> bool:
        """Whether something happens that does in that many of a hundred cases."""
        return self.below(100) < percent


class Trace(NamedTuple):
    """The arguments of the program and the commands."""

    words: Tuple[str, ...]
    commands: Tuple[str, ...]

    @property
    def text(self) -> str:
        """The trace as the program reads it."""
        return "".join(f"{command}\n" for command in self.commands)


class Maker:
    """Makes a trace of a machine. Lines are chosen from a few; `tampering` and `cuts` are how many commands in a hundred are such."""

    def __init__(self, name: str, machine: str, number: int) -> None:
        self.random = Random(f"{name} {machine} {number}")
        policy, choose = POLICIES[name], self.random.one_of
        self.machine = machine
        self.levels = choose(LEVELS)
        self.sets, self.ways = choose((1, 1, 2)), choose((1, 1, 2))
        self.words = (machine, "--levels", str(self.levels), "--sets", str(self.sets), "--ways", str(self.ways),
                      "--loss", choose(("1", "2", "4", "8", "16")), "--major", str(choose(MAJORS)),
                      "--suite", choose(("weak", "weak", "weak", "aes")),
                      "--persist", str(min(policy.persist(self.levels), self.levels + 1)), "--shadow", policy.shadow,
                      *(policy.queues if machine == "run" else ()), *(("--every", choose(("1", "2", "5"))) if machine == "wear" else ()))
        pages = 1 << 2 * self.levels
        self.data_lines = LINES_OF_PAGE * pages
        self.metadata = (4 * pages - 1) // 3
        slots = self.sets * self.ways if policy.shadow == "on" else 0
        self.shadows = -(-slots // ENTRIES) - (-self.levels * slots // ENTRIES)
        self.size = 80 * pages + self.metadata + self.shadows
        self.hot = [self.random.below(self.data_lines) for _ in range(2)] + [0, 1, LINES_OF_PAGE]
        self.tampering, self.cuts = choose((0, 5, 20)), choose((5, 10, 25))

    def line(self) -> int:
        """A line of memory."""
        return self.random.one_of(self.hot) if self.random.happens(95) else self.random.below(self.data_lines + 2)

    def value(self) -> str:
        """The bytes of a line."""
        return f"{self.random.below(256):02x}" * BYTES

    def device_line(self) -> int:
        """A line of the device: of any part, those of the metadata and of the tables more often than their number is."""
        part, first_meta = self.random.below(4), self.size - self.metadata - self.shadows
        if part == 0:
            return self.line()
        if part == 1:
            return self.data_lines + self.random.one_of(self.hot) // 4
        if part == 2 or not self.shadows:
            return first_meta + self.random.below(self.metadata)
        return first_meta + self.metadata + self.random.below(self.shadows + 1)

    def attack(self) -> str:
        """A command of the attacker."""
        kind, line = self.random.below(6), self.device_line()
        if kind == 0:
            return f"poke {line} {self.value()}"
        if kind == 1:
            return f"move {self.device_line()} {line}"
        if kind == 2:
            return "snap"
        return f"back {line}" if kind == 3 else f"flip {line} {self.random.below(BITS + 1)}"

    def power(self) -> str:
        """A command of power."""
        kind = self.random.below(10)
        return "off" if kind == 0 else "on" if kind < 5 else f"cut {self.random.below(16)}"

    def of_run(self) -> str:
        """A command of `run`."""
        random_, port = self.random, self.random.below(2)
        if random_.happens(self.tampering):
            return self.attack()
        kind = random_.below(20)
        if kind < 5:
            return f"post {port} {self.line()} {self.value()}"
        if kind < 7:
            count = random_.one_of((1, 8, BYTES))
            return f"part {port} {self.line()} {random_.below(BYTES - count + 1)} {f'{random_.below(256):02x}' * count}"
        if kind < 13:
            return f"{'drain' if kind < 11 else 'fence'} {port}"
        if kind < 16:
            return f"read {port} {self.line()}"
        if kind == 16:
            return f"loss {random_.one_of((1, 2, 4, 8, 16, 3))}"
        if kind == 17:
            return f"peek {self.device_line()}"
        return random_.one_of(("turn", "flush", "stat"))

    def of_wear(self) -> str:
        """A command of `wear`."""
        kind = self.random.below(4)
        return f"write {self.line()} {self.value()}" if kind < 2 else f"{'read' if kind == 2 else 'place'} {self.line()}"

    def of_txn(self) -> str:
        """A command of `txn`."""
        kind = self.random.below(8)
        if kind < 3:
            return f"put {self.line()} {self.value()}"
        return f"read {self.line()}" if kind == 3 else ("begin", "begin", "commit", "abort")[kind - 4] if kind < 7 else "commit"

    def made(self) -> Trace:
        """The trace. A page of one in four is about to be re-encrypted."""
        command = {"run": self.of_run, "wear": self.of_wear, "txn": self.of_txn}[self.machine]
        commands: List[str] = []
        if self.machine == "run" and self.random.happens(25):
            line = self.random.one_of(self.hot)
            commands += [text for _ in range(126) for text in (f"post 0 {line} {self.value()}", "drain 0")]
        for _ in range(30 + self.random.below(30)):
            commands.append(self.power() if self.random.happens(self.cuts) else command())
        return Trace(self.words, tuple(commands))


def traces(name: str, count: int, first: int = 0) -> Iterator[Trace]:
    """That many traces under a policy: of ten eight of `run`, one of `wear` and one of `txn`."""
    for number in range(first, first + count):
        yield Maker(name, {8: "wear", 9: "txn"}.get(number % 10, "run"), number).made()
