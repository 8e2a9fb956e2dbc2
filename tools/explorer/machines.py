"""The four machines that the program has, as far as their traces and replies go. docs/FORMATS.md, WEAR.md, TXN.md and
TREE_MACHINE.md have their commands."""
from dataclasses import dataclass
from typing import Dict, FrozenSet, List, Tuple

from .package import LINES_OF_PAGE, TAKEN


@dataclass(frozen=True)
class Machine:
    """A machine: the word that chooses it, and what its commands and replies say.

    `stepping`: the commands that may take persist steps. `writes`: those that put lines into memory, when they are done.
    `names`: which word of a command names a line of memory. `tampers`: which word names the device line that is changed.
    `recovery`: what `on` prints after a successful recovery.
    """

    name: str
    stepping: FrozenSet[str]
    writes: FrozenSet[str]
    names: Dict[str, int]
    tampers: Dict[str, int]
    recovery: Tuple[str, ...]

    @property
    def options(self) -> Tuple[str, ...]:
        """The options that it takes, as fields of `Settings`."""
        return OPTIONS_OF[self.name]

    @property
    def has_counts(self) -> bool:
        """Whether it shows its counts and device lines (`stat` and `peek`)."""
        return self.name == "run"

    @property
    def has_ports(self) -> bool:
        """Whether writes wait at ports until they are drained."""
        return self.name == "run"

    def data_lines(self, levels: int) -> int:
        """How many lines of memory it has."""
        pages = 1 << 2 * levels
        return {"run": LINES_OF_PAGE * pages, "wear": LINES_OF_PAGE * pages - 2, "txn": LINES_OF_PAGE * pages - 16,
                "tree": 4 * pages}[self.name]

    def read(self, line: int, port: int = 0) -> bytes:
        """The command that reads a line of memory."""
        return b"read %d %d" % (port, line) if self.has_ports else b"read %d" % line


OPTIONS_OF: Dict[str, Tuple[str, ...]] = {name: tuple(option.replace("-", "_") for option in options) for name, options in TAKEN.items()}

RUN = Machine("run", frozenset(("drain", "fence", "read", "turn", "flush", "on", "loss")), frozenset(("drain", "fence")),
              {"post": 2, "part": 2, "read": 2}, {"poke": 1, "flip": 1, "move": 2, "back": 1},
              ("trials", "digests", "steps"))
WEAR = Machine("wear", frozenset(("write", "read", "on")), frozenset(("write",)), {"write": 1, "read": 1}, {},
               ("start", "gap", "steps"))
TXN = Machine("txn", frozenset(("commit", "read", "on")), frozenset(("commit",)), {"put": 1, "read": 1}, {},
              ("redone", "steps"))
TREE = Machine("tree", frozenset(("write", "read", "on")), frozenset(("write",)), {"write": 1, "read": 1},
               {"poke": 1, "back": 1}, ("digests", "steps"))

MACHINES: Dict[str, Machine] = {machine.name: machine for machine in (RUN, WEAR, TXN, TREE)}
MACHINE_NAMES: List[str] = list(MACHINES)
