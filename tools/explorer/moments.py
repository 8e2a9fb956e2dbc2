"""The moments of a trace at which power is cut."""
from dataclasses import dataclass
from typing import Optional


@dataclass(frozen=True)
class Moment:
    """A moment to be asked about: before a command (`kind` is `before`), a cut in it, or power off after the trace.
    `steps` counts those of the whole trace. `since`: the command before which the last such moment was, if no command that
    isn't asked about took steps in between."""

    kind: str
    index: int
    number: int = 0
    steps: int = 0
    recovery_steps: Optional[int] = None
    since: Optional[int] = None
