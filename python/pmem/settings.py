"""The options of the program's command line: their defaults and values, and which machine takes which.

The explorer and the page in the browser have them from here too. The program itself has the last word: tools/tests/test_settings.py asks it.
"""
from dataclasses import dataclass
from typing import Dict, Optional, Tuple, Union

MOST_NUMBER = 2**64 - 1


@dataclass(frozen=True)
class Option:
    """An option: its name without the dashes, its default, and its values. These are a range of `numbers`, a few `choices`, or the hex digits
    of as many bytes as `sizes` has."""

    name: str
    default: Union[int, str]
    numbers: Optional[range] = None
    choices: Tuple[Union[int, str], ...] = ()
    sizes: Optional[range] = None

    @property
    def text(self) -> str:
        """The values in words, for example `1 to 6` or `1, 2, 4, 8 or 16`."""
        if self.choices:
            return ", ".join(map(str, self.choices[:-1])) + f" or {self.choices[-1]}"
        values = self.numbers or self.sizes
        assert values is not None
        least, most = values[0], values.stop - 1
        return str(least) if least == most else f"{least} to {most}"


_LEVELS = range(1, 7)


def most_persisted(levels: int) -> int:
    """The greatest number for `persist` with this many levels: the lines of a path, which are its counter block and a node for each level."""
    return levels + 1


OPTIONS: Dict[str, Option] = {option.name: option for option in (
    Option("levels", 2, numbers=_LEVELS),
    Option("sets", 4, numbers=range(1, 65)),
    Option("ways", 2, numbers=range(1, 9)),
    Option("loss", 4, choices=(1, 2, 4, 8, 16)),
    Option("major", 0, numbers=range(MOST_NUMBER + 1)),
    Option("suite", "aes", choices=("aes", "weak", "blur")),
    Option("key", "", sizes=range(16, 17)),
    Option("tag-key", "", sizes=range(1, 65)),
    Option("every", 100, numbers=range(1, 1_000_001)),
    Option("persist", 0, numbers=range(most_persisted(_LEVELS[-1]) + 1)),
    Option("shadow", "on", choices=("on", "off")),
    Option("queue", "volatile", choices=("volatile", "durable")),
    Option("combine", "off", choices=("off", "on")),
)}

# The options of a suite, of a persistence policy, and of the write queues.
SUITE: Tuple[str, ...] = ("suite", "key", "tag-key")
POLICY: Tuple[str, ...] = ("persist", "shadow")
QUEUES: Tuple[str, ...] = ("queue", "combine")
_HASH_TREE = ("levels", "sets", "ways", "loss", "major", *SUITE)

# The options of each machine, and of `check`.
TAKEN: Dict[str, Tuple[str, ...]] = {
    "run": (*_HASH_TREE, *POLICY, *QUEUES),
    "wear": (*_HASH_TREE, "every", *POLICY),
    "txn": (*_HASH_TREE, *POLICY),
    "tree": ("levels", "sets", *SUITE),
    "check": SUITE,
}


def default_number(name: str) -> int:
    """The default of an option whose values are numbers."""
    value = OPTIONS[name].default
    assert isinstance(value, int)
    return value


def default_text(name: str) -> str:
    """The default of an option whose values are words or hex digits."""
    value = OPTIONS[name].default
    assert isinstance(value, str)
    return value
