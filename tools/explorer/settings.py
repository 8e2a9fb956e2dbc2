"""The machine and its options, as they are passed on to the program."""
from dataclasses import dataclass, fields, replace
from typing import Any, Dict, List, Tuple

from .errors import WRONG_WORDS, ExploreError
from .machines import MACHINES, Machine
from .package import OPTIONS, POLICY, QUEUES, default_number, default_text, most_persisted


def numbers_of(name: str) -> range:
    """The numbers that an option takes."""
    numbers = OPTIONS[name].numbers
    assert numbers is not None
    return numbers


def words_of(name: str) -> Tuple[str, ...]:
    """The words that an option takes."""
    return tuple(map(str, OPTIONS[name].choices))


LEVELS, SETS, WAYS, EVERY, PERSISTED = map(numbers_of, ("levels", "sets", "ways", "every", "persist"))
SUITES, SHADOWS, QUEUE_KINDS, COMBINING = map(words_of, ("suite", "shadow", "queue", "combine"))
LOSSES = tuple(map(int, words_of("loss")))
# The options that are passed on only if they aren't the defaults.
LATER = (*POLICY, *QUEUES)


@dataclass(frozen=True)
class Settings:
    """What a run is set up with. The defaults are the program's. `design` is the name that a comparison gives these settings, if it isn't
    the machine's."""

    levels: int = default_number("levels")
    sets: int = default_number("sets")
    ways: int = default_number("ways")
    loss: int = default_number("loss")
    major: int = default_number("major")
    suite: str = default_text("suite")
    key: str = default_text("key")
    tag_key: str = default_text("tag-key")
    every: int = default_number("every")
    machine_name: str = "run"
    persist: int = default_number("persist")
    shadow: str = default_text("shadow")
    queue: str = default_text("queue")
    combine: str = default_text("combine")
    design: str = ""

    @property
    def machine(self) -> Machine:
        """The machine that runs."""
        return MACHINES[self.machine_name]

    @property
    def name(self) -> str:
        """The design's name."""
        return self.design or self.machine_name

    def words(self) -> List[str]:
        """The words that say so on the program's command line."""
        words = [self.machine_name]
        for name in self.machine.options:
            value = getattr(self, name)
            if value != "" and (name not in LATER or value != DEFAULTS[name]):
                words.append(f"--{name.replace('_', '-')}={value}")
        return words

    def check(self) -> None:
        """Checks that no option is chosen that the machine lacks, and no more levels are persisted than there are. Errors: ExploreError."""
        for field in fields(self):
            if field.name not in (*self.machine.options, "machine_name", "design") and getattr(self, field.name) != field.default:
                raise ExploreError(f"pmem {self.machine_name} has no option --{field.name.replace('_', '-')}",
                                   WRONG_WORDS)
        most = most_persisted(self.levels)
        if self.persist > most:
            raise ExploreError(f"--persist {self.persist} is more than the {most} lines of a path with {self.levels} levels: "
                               "its counter block and a node for each level", WRONG_WORDS)

    @property
    def has_tables(self) -> bool:
        """Whether the device of `run`, `wear` or `txn` has shadow tables."""
        return self.shadow == "on"

    @property
    def is_durable(self) -> bool:
        """Whether what waits in a queue outlives power."""
        return self.queue == "durable"

    @property
    def lazy_levels(self) -> int:
        """How many levels of a path are persisted later than the write that changes them: the highest ones."""
        return most_persisted(self.levels) - self.persist

    def policy(self) -> Dict[str, Any]:
        """The options of the persistence policy and of the queues that aren't the defaults."""
        return {name: getattr(self, name) for name in LATER if getattr(self, name) != DEFAULTS[name]}

    @property
    def data_lines(self) -> int:
        """How many lines of memory there are."""
        return self.machine.data_lines(self.levels)

    def changed(self, **values: Any) -> "Settings":
        """The same settings except for these fields."""
        return replace(self, **values)

    def geometry(self) -> Dict[str, int]:
        """The numbers that a sweep varies."""
        return {name: getattr(self, name) for name in ("levels", "sets", "ways", "loss")
                if name in self.machine.options}

    def text(self) -> str:
        """The geometry in words, for titles."""
        named = {"loss": "stop-loss"}
        texts = [f"{named.get(name, name)} {value}" for name, value in self.geometry().items()]
        if "every" in self.machine.options:
            texts.append(f"a move every {self.every} writes")
        texts += [f"{name} {value}" for name, value in self.policy().items()]
        return ", ".join([*texts, f"suite {self.suite}"])


DEFAULTS: Dict[str, Any] = {field.name: field.default for field in fields(Settings)}
