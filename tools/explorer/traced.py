"""What is known of a command of a trace: its reply, its persist steps, and what else it took."""
from dataclasses import dataclass
from typing import Optional, Tuple

from .layout import CHIP, Place
from .output import plural
from .program import Reply
from .trace import Command

LATCH = "latch"
WRITE = "write"

# What a latch does.
ARMS, EMPTIES, SETS = "arms", "empties", "sets"


@dataclass(frozen=True)
class Step:
    """One persist step: a latch, or a write of a device line. `again`: with the bytes that it had, None if that can't
    be asked. For a latch, `does` is what it does, and `group` how many lines it arms."""

    number: int
    kind: str
    place: Optional[Place] = None
    again: Optional[bool] = False
    does: str = ""
    group: int = 0

    @property
    def part(self) -> str:
        """The part that the step is on."""
        return CHIP if self.place is None else self.place.part

    @property
    def text(self) -> str:
        """The step in words."""
        if self.place is None:
            return LATCH + {ARMS: f": arms a group of {self.group} line{'' if self.group == 1 else 's'}",
                            EMPTIES: ": empties the group", SETS: ": sets the stop-loss number"}[self.does]
        return f"{self.place.text}{', with the bytes that it had' if self.again else ''}"


@dataclass(frozen=True)
class Work:
    """What a command took besides its steps: each device line that it read, with the number of the trace's steps before that,
    and how many tags and digests it made."""

    reads: Tuple[Tuple[int, Place], ...]
    tags: int
    digests: int

    @property
    def text(self) -> str:
        """It in words."""
        return ", ".join((plural(len(self.reads), "read"), plural(self.tags, "tag"), plural(self.digests, "digest")))


@dataclass(frozen=True)
class Traced:
    """A command, its reply, and its persist steps. `work` is there if it was asked for."""

    command: Command
    reply: Reply
    steps: Tuple[Step, ...]
    work: Optional[Work] = None
