"""What some cuts leave alike, and whether that is all right."""
from dataclasses import dataclass, field
from typing import Dict, List, Optional

from .cuts import Cut, Readings

RIGHT, WRONG, ERROR = "ok", "fails", "error"


@dataclass(frozen=True)
class Verdict:
    """Whether an outcome is all right, and the last line of why it isn't. `is_error`: the check itself failed, so nobody knows."""

    is_right: bool
    reason: str = ""
    is_error: bool = False

    @property
    def text(self) -> str:
        """It in a word."""
        return ERROR if self.is_error else RIGHT if self.is_right else WRONG


@dataclass
class Outcome:
    """What some cuts leave alike: the recovered memory, or why recovery failed. Its lines in `changed`
    aren't as in `base`, which many outcomes share."""

    number: int
    base: Readings
    changed: Dict[int, bytes]
    cuts: List[Cut] = field(default_factory=list)
    verdict: Optional[Verdict] = None

    @property
    def readings(self) -> Readings:
        """What its lines read as."""
        readings = list(self.base)
        for place, reading in self.changed.items():
            readings[place] = reading
        return readings

    @property
    def first(self) -> Cut:
        """The first cut that leads to it."""
        return self.cuts[0]

    @property
    def is_recovered(self) -> bool:
        """Whether there is a memory to be asked about."""
        return all(reading.startswith(b"line ") for reading in self.readings)
